//! A task with single literals in its effects: each effect becomes several, one for
//! each choice of a literal from every clause of its condition. The first clause
//! varies slowest. Everything else stays.

use crate::decode::decode;
use crate::encode::encode;
use crate::task::*;
use crate::{refuse, Refusal};

/// The most choices of one effect.
pub const MAX_CHOICES: usize = 64;

/// The bytes of the task in a file with single literals in its effects, or the
/// refusal (1 to 6, 17, 8, 9).
pub fn single(file: &[u8], room: usize) -> Result<Vec<u8>, Refusal> {
    let task = decode(file)?;
    if let Some(row) = too_many_choices(&task) {
        return refuse(17, row);
    }
    // A source has under 12,000 rows, so with 64 choices each these can be made.
    let task = singled(&task);
    if task.rows() > MAX_ROWS {
        return refuse(8, 0);
    }
    let bytes = encode(&task);
    if room < bytes.len() {
        return refuse(9, 0);
    }
    Ok(bytes)
}

/// The row of the first effect with too many choices.
fn too_many_choices(task: &Task) -> Option<usize> {
    let mut row = task.start.len() + 1 + condition_rows(&task.goal);
    for action in &task.actions {
        row += 1 + condition_rows(&action.precondition);
        for effect in &action.effects {
            if !few_choices(&effect.condition) {
                return Some(row);
            }
            row += effect.rows();
        }
    }
    None
}

/// Whether the lengths of the clauses, multiplied, stay within the limit. No clause is
/// empty, so a product that is over it stays over it.
fn few_choices(condition: &Condition) -> bool {
    let mut product = 1;
    condition.iter().all(|clause| {
        product *= clause.len();
        product <= MAX_CHOICES
    })
}

/// Whether no effect has too many choices.
pub fn allowed(task: &Task) -> bool {
    too_many_choices(task).is_none()
}

/// The task, whose effects are allowed, with its effects replaced.
pub fn singled(task: &Task) -> Task {
    let mut task = task.clone();
    for action in &mut task.actions {
        action.effects = action.effects.iter().flat_map(choices).collect();
    }
    task
}

/// An effect for each choice: the choices of the first clauses, each followed by every
/// literal of the next one.
fn choices(effect: &Effect) -> Vec<Effect> {
    let mut chosen: Vec<Condition> = vec![vec![]];
    for clause in &effect.condition {
        let with_each = |before: Condition| {
            clause.iter().map(move |&literal| {
                let mut longer = before.clone();
                longer.push(vec![literal]);
                longer
            })
        };
        chosen = chosen.into_iter().flat_map(with_each).collect();
    }
    let of_choice = |condition| Effect {
        condition,
        adds: effect.adds.clone(),
        deletes: effect.deletes.clone(),
    };
    chosen.into_iter().map(of_choice).collect()
}
