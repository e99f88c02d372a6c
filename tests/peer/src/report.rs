//! The text that program judge writes: a plan walked, and where it solves settled.

use crate::decode::decode;
use crate::settle::{is_met, worth};
use crate::task::Task;
use crate::walk::{admit, verdict, Verdict};
use crate::{refuse, Refusal};
use std::fmt::Write;

/// What program judge writes when both files can be read.
pub fn report(file: &[u8], plan: &[u8]) -> String {
    lines(file, plan).unwrap_or_else(refused_text)
}

/// The lines about a plan, or the refusal (1 to 6, 10, 11).
pub fn lines(file: &[u8], plan: &[u8]) -> Result<String, Refusal> {
    let task = decode(file)?;
    admit(&task, plan)?;
    Ok(match verdict(&task, plan) {
        Verdict::Solved { cost, met } => solved_text(&task, plan.len(), cost, met),
        Verdict::Stopped(step) => format!("stopped {step}\n"),
        Verdict::GoalMissed => "goal missed\n".to_string(),
        Verdict::RuleMissed(k) => format!("rule missed {k}\n"),
    })
}

/// The same for an area of so many bytes, or then 9.
pub fn write(file: &[u8], plan: &[u8], room: usize) -> Result<Vec<u8>, Refusal> {
    let text = lines(file, plan)?;
    match text.len() <= room {
        true => Ok(text.into_bytes()),
        false => refuse(9, 0),
    }
}

/// The lines of a plan that solves.
fn solved_text(task: &Task, steps: usize, cost: u64, met: u64) -> String {
    let mut text = format!("solved steps {steps} cost {cost}\n");
    for (k, preference) in task.preferences.iter().enumerate() {
        let outcome = if is_met(met, k) { "met" } else { "missed" };
        let (kind, weight) = (preference.name(), preference.weight);
        writeln!(text, "{k} {kind} {weight} {outcome}").expect("text grows");
    }
    let worth = worth(task, cost, met);
    writeln!(text, "metric {} utility {}", worth.metric, worth.utility).expect("text grows");
    text
}

/// The line of a refusal.
pub fn refused_text(refusal: Refusal) -> String {
    format!("refused {} {}\n", refusal.number, refusal.place)
}
