//! A week of plans in figures: up to 64 plans for one task, in a file of their own.

use crate::decode::decode;
use crate::report::refused_text;
use crate::settle::{is_met, worth};
use crate::task::Task;
use crate::walk::{admit, verdict, Verdict};
use crate::{refuse, Refusal};
use std::fmt::Write;

pub const MAX_PLANS: usize = 64;

/// Over the plans that solve, one or more.
#[derive(Clone, PartialEq, Eq, Debug)]
pub struct Figures {
    pub solving: u64,
    pub least: u64,
    pub greatest: u64,
    pub sum: u64,
    /// The mean of the metrics, as quotient and remainder.
    pub mean: u64,
    pub remainder: u64,
    /// For each preference how many meet it.
    pub meeting: Vec<u64>,
}

/// The figures, none where no plan solves, or the refusal (1 to 6, 18, 10, 11).
pub fn week(file: &[u8], plans: &[u8]) -> Result<Option<Figures>, Refusal> {
    let task = decode(file)?;
    let Some(plans) = split(plans) else {
        return refuse(18, 0);
    };
    for (number, plan) in plans.iter().enumerate() {
        if let Err(refusal) = admit(&task, plan) {
            return refuse(refusal.number, number);
        }
    }
    let solutions: Vec<(u64, u64)> = plans
        .iter()
        .filter_map(|plan| solution(&task, plan))
        .collect();
    Ok(figures(task.preferences.len(), &solutions))
}

/// The plans of a file: a count, so many starts, so many lengths, and the steps; none
/// where it has no plans, too many, or not all of their bytes.
pub fn split(file: &[u8]) -> Option<Vec<&[u8]>> {
    let (count, rest) = take_word(file)?;
    if count == 0 || count > MAX_PLANS {
        return None;
    }
    let (starts, rest) = take_words(rest, count)?;
    let (lengths, steps) = take_words(rest, count)?;
    let plans = starts.iter().zip(lengths);
    plans
        .map(|(&start, length)| steps.get(start..start + length))
        .collect()
}

fn take_word(bytes: &[u8]) -> Option<(usize, &[u8])> {
    match bytes {
        [low, high, rest @ ..] => Some((usize::from(u16::from_le_bytes([*low, *high])), rest)),
        _ => None,
    }
}

fn take_words(bytes: &[u8], count: usize) -> Option<(Vec<usize>, &[u8])> {
    let mut rest = bytes;
    let mut words = Vec::new();
    for _ in 0..count {
        let (word, after) = take_word(rest)?;
        words.push(word);
        rest = after;
    }
    Some((words, rest))
}

/// The metric and the met preferences of a plan that solves.
fn solution(task: &Task, plan: &[u8]) -> Option<(u64, u64)> {
    match verdict(task, plan) {
        Verdict::Solved { cost, met } => Some((worth(task, cost, met).metric, met)),
        _ => None,
    }
}

/// The figures of so many preferences over metrics and met preferences.
pub fn figures(preferences: usize, solutions: &[(u64, u64)]) -> Option<Figures> {
    let metrics = || solutions.iter().map(|&(metric, _)| metric);
    let solving = solutions.len() as u64;
    let sum: u64 = metrics().sum();
    let meeting = |k| solutions.iter().filter(|(_, met)| is_met(*met, k)).count() as u64;
    Some(Figures {
        least: metrics().min()?,
        greatest: metrics().max()?,
        solving,
        sum,
        mean: sum / solving,
        remainder: sum % solving,
        meeting: (0..preferences).map(meeting).collect(),
    })
}

/// The file of plans that stand at these starts, with these lengths, among the steps.
pub fn joined(entries: &[(usize, usize)], steps: &[u8]) -> Vec<u8> {
    let word = |number: usize| (number as u16).to_le_bytes();
    let mut file = word(entries.len()).to_vec();
    file.extend(entries.iter().flat_map(|&(start, _)| word(start)));
    file.extend(entries.iter().flat_map(|&(_, length)| word(length)));
    file.extend(steps);
    file
}

/// What program week writes when both files can be read.
pub fn week_text(file: &[u8], plans: &[u8]) -> String {
    let figures = match week(file, plans) {
        Ok(figures) => figures,
        Err(refusal) => return refused_text(refusal),
    };
    let count = split(plans).map_or(0, |plans| plans.len());
    let solving = figures.as_ref().map_or(0, |figures| figures.solving);
    let mut text = format!("plans {count}\nsolving {solving}\n");
    if let Some(f) = figures {
        writeln!(
            text,
            "metric least {} greatest {} sum {} mean {} remainder {}",
            f.least, f.greatest, f.sum, f.mean, f.remainder
        )
        .expect("text grows");
        for (k, met) in f.meeting.iter().enumerate() {
            writeln!(text, "preference {k} met {met}").expect("text grows");
        }
    }
    text
}
