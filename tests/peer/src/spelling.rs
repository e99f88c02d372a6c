//! One spelling of each task: in a clause the literals rise by fact, HOLDS before
//! LACKS, without repeats; and so do the facts that an effect adds, and those that
//! it deletes. Clauses and everything else keep their order.

use crate::decode::decode;
use crate::encode::encode;
use crate::task::*;
use crate::{refuse, Refusal};

/// The bytes of the spelling of the task in a file, or the refusal (1 to 6, 9).
pub fn spell(file: &[u8], room: usize) -> Result<Vec<u8>, Refusal> {
    let mut task = decode(file)?;
    for list in lists(&mut task) {
        list.sort();
    }
    let bytes = encode(&task);
    if room < bytes.len() {
        return refuse(9, 0);
    }
    Ok(bytes)
}

/// A list of a task whose order and repeats mean nothing.
pub enum List<'a> {
    Literals(&'a mut Clause),
    Facts(&'a mut Vec<usize>),
}

impl List<'_> {
    fn sort(self) {
        match self {
            List::Literals(clause) => {
                clause.sort_by_key(|literal| (literal.fact, !literal.holds));
                clause.dedup();
            }
            List::Facts(facts) => {
                facts.sort();
                facts.dedup();
            }
        }
    }
}

/// All such lists of a task, in the order of its rows.
pub fn lists(task: &mut Task) -> Vec<List<'_>> {
    let mut lists = clauses(&mut task.goal);
    for action in &mut task.actions {
        lists.extend(clauses(&mut action.precondition));
        for effect in &mut action.effects {
            lists.extend(clauses(&mut effect.condition));
            lists.push(List::Facts(&mut effect.adds));
            lists.push(List::Facts(&mut effect.deletes));
        }
    }
    for preference in &mut task.preferences {
        lists.extend(clauses(&mut preference.phi));
        lists.extend(clauses(&mut preference.psi));
    }
    lists
}

fn clauses(condition: &mut Condition) -> Vec<List<'_>> {
    condition.iter_mut().map(List::Literals).collect()
}

/// Whether two tasks differ only in that order and those repeats: part by part, and
/// in those lists by their members alone.
pub fn alike(a: &Task, b: &Task) -> bool {
    (a.facts, &a.start) == (b.facts, &b.start)
        && conditions_alike(&a.goal, &b.goal)
        && each(&a.actions, &b.actions, actions_alike)
        && each(&a.preferences, &b.preferences, preferences_alike)
}

fn actions_alike(a: &Action, b: &Action) -> bool {
    a.cost == b.cost
        && conditions_alike(&a.precondition, &b.precondition)
        && each(&a.effects, &b.effects, effects_alike)
}

fn effects_alike(a: &Effect, b: &Effect) -> bool {
    conditions_alike(&a.condition, &b.condition)
        && same_members(&a.adds, &b.adds)
        && same_members(&a.deletes, &b.deletes)
}

fn preferences_alike(a: &Preference, b: &Preference) -> bool {
    (a.kind, a.hard, a.weight) == (b.kind, b.hard, b.weight)
        && conditions_alike(&a.phi, &b.phi)
        && conditions_alike(&a.psi, &b.psi)
}

fn conditions_alike(a: &Condition, b: &Condition) -> bool {
    each(a, b, |a, b| same_members(a, b))
}

/// As many on both sides, each like the one in its place.
fn each<T>(a: &[T], b: &[T], alike: impl Fn(&T, &T) -> bool) -> bool {
    a.len() == b.len() && a.iter().zip(b).all(|(a, b)| alike(a, b))
}

fn same_members<T: PartialEq>(a: &[T], b: &[T]) -> bool {
    a.iter().all(|one| b.contains(one)) && b.iter().all(|one| a.contains(one))
}
