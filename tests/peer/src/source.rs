//! The way back from a planner: the source part of what it prints for a translation.

use crate::decode::check;
use crate::meaning::states;
use crate::random::Random;
use crate::text;
use crate::translate::translate;
use crate::{complete, decode, refuse, Refusal};

/// The source steps of the list in a text over the translation of the task in a file, for an area of `room` bytes, or the refusal
/// (1 to 8, 12, 10, 11 over the translated actions, 9).
pub fn source(file: &[u8], printed: &[u8], room: usize) -> Result<Vec<u8>, Refusal> {
    let sizes = check(file)?;
    translate(file, usize::MAX)?;
    let list = text::read(printed, usize::MAX)?;
    let below = |bound: u16| move |&step: &u8| u16::from(step) < bound;
    if let Some(place) = list
        .iter()
        .position(|step| !below(sizes.actions + 2 * sizes.preferences + 1)(step))
    {
        return refuse(11, place);
    }
    let part: Vec<u8> = list.into_iter().filter(below(sizes.actions)).collect();
    if room < part.len() {
        return refuse(9, 0);
    }
    Ok(part)
}

/// A text over the translation of the task in a file, by seed: what a planner prints for the plan, or a list of any actions, now and
/// then with a number at the edge of what is known, or a damaged text.
pub fn printed(seed: u64, file: &[u8], plan: &[u8]) -> Vec<u8> {
    let r = &mut Random::new(seed ^ 0x50AC);
    let Ok(task) = decode(file) else {
        return text::text(seed);
    };
    let all = task.actions.len() + 2 * task.preferences.len() + 1;
    let known = plan
        .iter()
        .all(|&step| usize::from(step) < task.actions.len());
    let list: Vec<usize> = match r.below(10) {
        0..=5 if known && states(&task, plan).is_ok() => complete(&task, plan),
        0..=5 => plan.iter().map(|&step| usize::from(step)).collect(),
        6..=7 => (0..r.below(12)).map(|_| r.below(all)).collect(),
        8 => (0..r.between(1, 8))
            .map(|_| r.between(all.max(2) - 2, all + 1))
            .collect(),
        _ => return text::text(seed),
    };
    let lines = list.iter().map(|step| format!("(a{step})\n"));
    (lines.collect::<String>() + "; cost = 1\n").into_bytes()
}
