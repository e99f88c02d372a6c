//! What a task means: states, actions, preferences, and plans that solve.

use crate::task::*;

/// Which facts are held: entry f says it of fact f.
pub type State = [bool; MAX_FACTS];

pub fn opening(task: &Task) -> State {
    let mut state = [false; MAX_FACTS];
    for &fact in &task.start {
        state[fact] = true;
    }
    state
}

pub fn literal_true(literal: Literal, state: &State) -> bool {
    state[literal.fact] == literal.holds
}

/// A clause is true if some literal is.
pub fn clause_true(clause: &Clause, state: &State) -> bool {
    clause.iter().any(|&literal| literal_true(literal, state))
}

/// A condition is true if every clause is.
pub fn condition_true(condition: &Condition, state: &State) -> bool {
    condition.iter().all(|clause| clause_true(clause, state))
}

/// The state an action reaches from a state where it applies. All effect
/// conditions are read in the state before.
pub fn after(action: &Action, state: &State) -> State {
    let fires = |effect: &&Effect| condition_true(&effect.condition, state);
    let firing: Vec<&Effect> = action.effects.iter().filter(fires).collect();
    changed(state, &firing)
}

/// A state changed by the effects that fire: deletes go out, then adds come in.
pub fn changed(state: &State, firing: &[&Effect]) -> State {
    let mut next = *state;
    for effect in firing {
        for &fact in &effect.deletes {
            next[fact] = false;
        }
    }
    for effect in firing {
        for &fact in &effect.adds {
            next[fact] = true;
        }
    }
    next
}

/// States 0 to n of a plan of n steps, or the first step that doesn't apply.
/// Every step must be the number of an action.
pub fn states(task: &Task, plan: &[u8]) -> Result<Vec<State>, usize> {
    let mut list = vec![opening(task)];
    for (i, &step) in plan.iter().enumerate() {
        let action = &task.actions[usize::from(step)];
        if !condition_true(&action.precondition, &list[i]) {
            return Err(i);
        }
        list.push(after(action, &list[i]));
    }
    Ok(list)
}

/// Whether a preference is met over states 0 to n (at least state 0).
pub fn met(preference: &Preference, states: &[State]) -> bool {
    let truth = |condition: &Condition| -> Vec<bool> {
        states
            .iter()
            .map(|state| condition_true(condition, state))
            .collect()
    };
    met_by(
        preference.kind,
        &truth(&preference.phi),
        &truth(&preference.psi),
    )
}

/// Whether a preference of a kind is met where φ and ψ are so in the states 0 to n.
pub fn met_by(kind: Kind, phi: &[bool], psi: &[bool]) -> bool {
    let n = phi.len() - 1;
    match kind {
        // φ in every state.
        Kind::Always => (0..=n).all(|i| phi[i]),
        // φ in some state.
        Kind::Sometime => (0..=n).any(|i| phi[i]),
        // φ in state n.
        Kind::AtEnd => phi[n],
        // The states with φ form at most one unbroken run: a run begins where φ
        // is true and there is no state before, or φ is false in it.
        Kind::AtMostOnce => {
            let begins = |i: &usize| phi[*i] && (*i == 0 || !phi[*i - 1]);
            (0..=n).filter(begins).count() <= 1
        }
        // For each state i with φ there is j < i with ψ.
        Kind::SometimeBefore => (0..=n).all(|i| !phi[i] || (0..i).any(|j| psi[j])),
        // For each state i with φ there is j >= i with ψ.
        Kind::SometimeAfter => (0..=n).all(|i| !phi[i] || (i..=n).any(|j| psi[j])),
        // φ in some state i <= t.
        Kind::Within(t) => (0..=n).any(|i| i <= t && phi[i]),
        // For each state i with φ there is j from i to i + t with ψ.
        Kind::AlwaysWithin(t) => (0..=n).all(|i| !phi[i] || (i..=n).any(|j| j <= i + t && psi[j])),
    }
}

/// The cost of a list of action numbers that solves a task, whatever its length;
/// none if it doesn't solve. Preferences play no part.
pub fn run(task: &Task, list: &[usize]) -> Option<u128> {
    let mut state = opening(task);
    let mut cost: u128 = 0;
    for &step in list {
        let action = task.actions.get(step)?;
        if !condition_true(&action.precondition, &state) {
            return None;
        }
        cost += u128::from(action.cost);
        state = after(action, &state);
    }
    if condition_true(&task.goal, &state) {
        Some(cost)
    } else {
        None
    }
}
