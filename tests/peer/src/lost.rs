//! What is already lost after a list of translated actions: the translation is made,
//! and the list is run on it.

use crate::decode::decode;
use crate::meaning::{after, condition_true, met, opening, State};
use crate::random::MAX_FILE;
use crate::task::*;
use crate::translate::{translate, translated};
use crate::walk::admit;
use crate::Refusal;
use std::cmp::Reverse;
use std::collections::{BinaryHeap, HashMap};

#[derive(Clone, Copy, PartialEq, Eq, Debug)]
pub enum Lost {
    /// Each step applies: the cost so far, and the lost weights.
    Run { cost: u64, lost: u64 },
    /// The first step that doesn't apply.
    Stopped(usize),
}

/// What is lost, or the refusal (1 to 8 as of translating, 10, 11 over the translated
/// actions).
pub fn lost(file: &[u8], steps: &[u8]) -> Result<Lost, Refusal> {
    let source = decode(file)?;
    let classical = decode(&translate(file, MAX_FILE)?)?;
    admit(&classical, steps)?;
    Ok(lost_after(&source, &classical, steps))
}

/// The same of two tasks and a list of the second's actions.
pub fn lost_after(source: &Task, classical: &Task, steps: &[u8]) -> Lost {
    match run_on(classical, steps) {
        Ok((cost, state)) => Lost::Run {
            cost,
            lost: weights(source, &lost_rules(source, &state)),
        },
        Err(step) => Lost::Stopped(step),
    }
}

/// The cost of a list and the state after it, or the first step that doesn't apply.
pub fn run_on(classical: &Task, steps: &[u8]) -> Result<(u64, State), usize> {
    let (mut cost, mut state) = (0, opening(classical));
    for (i, &step) in steps.iter().enumerate() {
        let action = &classical.actions[usize::from(step)];
        if !condition_true(&action.precondition, &state) {
            return Err(i);
        }
        cost += u64::from(action.cost);
        state = after(action, &state);
    }
    Ok((cost, state))
}

/// The soft rules that are not closed and whose trackers show them broken, in a state
/// of the translation: S, B and C of rule k stand at F + 3k, F + 3k + 1 and F + 3k + 2.
pub fn lost_rules(source: &Task, state: &State) -> Vec<usize> {
    let is_lost = |&k: &usize| {
        let [s, b, closed] = [0, 1, 2].map(|n| state[source.facts + 3 * k + n]);
        let broken = match source.preferences[k].kind {
            Kind::Always | Kind::SometimeBefore => b,
            Kind::AtMostOnce => b && !s,
            _ => false,
        };
        broken && !closed && !source.preferences[k].hard
    };
    (0..source.preferences.len()).filter(is_lost).collect()
}

pub fn weights(source: &Task, rules: &[usize]) -> u64 {
    let weight = |&k: &usize| u64::from(source.preferences[k].weight);
    rules.iter().map(weight).sum()
}

/// The lost weights without a tracker: the soft rules of the three kinds that the states
/// left so far by source steps and *end* miss, but for those that the list has closed.
/// Each step must apply.
pub fn lost_by_meaning(source: &Task, steps: &[u8]) -> u64 {
    let actions = source.actions.len();
    let mut state = opening(source);
    let (mut left, mut closed) = (Vec::new(), Vec::new());
    for step in steps.iter().map(|&step| usize::from(step)) {
        if step <= actions {
            left.push(state);
        }
        if step < actions {
            state = after(&source.actions[step], &state);
        }
        if step > actions {
            closed.push((step - actions - 1) / 2);
        }
    }
    let is_lost = |&k: &usize| {
        let rule = &source.preferences[k];
        let kinds = [Kind::Always, Kind::AtMostOnce, Kind::SometimeBefore];
        kinds.contains(&rule.kind)
            && !rule.hard
            && !closed.contains(&k)
            && !left.is_empty()
            && !met(rule, &left)
    };
    let rules: Vec<usize> = (0..source.preferences.len()).filter(is_lost).collect();
    weights(source, &rules)
}

/// The least cost from a state to the goal over all lists of any length that leave out
/// an action; none where no list comes there.
pub fn least_from(task: &Task, state: &State, without: Option<usize>) -> Option<u128> {
    let mut best: HashMap<State, u128> = HashMap::from([(*state, 0)]);
    let mut open = BinaryHeap::from([Reverse((0u128, *state))]);
    while let Some(Reverse((cost, state))) = open.pop() {
        if cost > best[&state] {
            continue;
        }
        if condition_true(&task.goal, &state) {
            return Some(cost);
        }
        for (number, action) in task.actions.iter().enumerate() {
            if Some(number) == without || !condition_true(&action.precondition, &state) {
                continue;
            }
            let (next, total) = (after(action, &state), cost + u128::from(action.cost));
            if best.get(&next).is_none_or(|&known| total < known) {
                best.insert(next, total);
                open.push(Reverse((total, next)));
            }
        }
    }
    None
}

/// How a bound stands to what continuations cost.
#[derive(Clone, Copy, PartialEq, Eq, Debug)]
pub enum Bound {
    /// No continuation solves.
    Hopeless,
    /// The cheapest one costs just the lost weights more.
    Exact,
    /// It costs more.
    Less,
}

/// Holds an answer to all continuations of a list that runs, of any length: none that
/// solves costs less than the lost weights more, and none leaves out the forgo of a lost
/// rule. The list must run.
pub fn bound(source: &Task, steps: &[u8], lost: u64) -> Result<Bound, String> {
    let classical = translated(source, MAX_ROWS).ok_or("too many rows")?;
    let (_, state) = run_on(&classical, steps).map_err(|step| format!("stopped {step}"))?;
    for k in lost_rules(source, &state) {
        let forgo = source.actions.len() + 2 + 2 * k;
        if least_from(&classical, &state, Some(forgo)).is_some() {
            return Err(format!("rule {k} is lost, and a solution meets it"));
        }
    }
    match least_from(&classical, &state, None) {
        None => Ok(Bound::Hopeless),
        Some(least) if least == u128::from(lost) => Ok(Bound::Exact),
        Some(least) if least > u128::from(lost) => Ok(Bound::Less),
        Some(least) => Err(format!("{lost} are lost, and a solution pays {least}")),
    }
}

/// A line about what is lost.
pub fn lost_text(file: &[u8], steps: &[u8]) -> String {
    match lost(file, steps) {
        Ok(Lost::Run { cost, lost }) => format!("run cost {cost} lost {lost}\n"),
        Ok(Lost::Stopped(step)) => format!("stopped {step}\n"),
        Err(refusal) => crate::report::refused_text(refusal),
    }
}
