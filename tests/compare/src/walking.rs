//! Checked files and walked plans: the library's numbers and text beside the independent implementation's.

use crate::library::{self, refusal, Refusal, Sizes, Verdict, Walked};
use crate::tally::Tally;

/// Every answer of a report: a refusal, or the beginning of the text.
const ANSWERS: [&str; 13] = [
    "refused 1 ",
    "refused 2 ",
    "refused 3 ",
    "refused 4 ",
    "refused 5 ",
    "refused 6 ",
    "refused 9 ",
    "refused 10 ",
    "refused 11 ",
    "solved ",
    "stopped ",
    "goal missed",
    "rule missed ",
];

fn sizes(sizes: peer::Sizes) -> Sizes {
    Sizes {
        facts: u64::from(sizes.facts),
        actions: u64::from(sizes.actions),
        preferences: u64::from(sizes.preferences),
        rows: u64::from(sizes.rows),
    }
}

pub fn walked(walked: peer::Walked) -> Walked {
    let verdict = match walked.verdict {
        peer::Verdict::Solved { cost, met } => Verdict::Solved { cost, met },
        peer::Verdict::Stopped(step) => Verdict::Stopped(step as u64),
        peer::Verdict::GoalMissed => Verdict::GoalMissed,
        peer::Verdict::RuleMissed(k) => Verdict::RuleMissed(k as u64),
    };
    Walked {
        verdict,
        literals: walked.literals,
    }
}

pub fn same<T: PartialEq + std::fmt::Debug>(
    operation: &str,
    library: Result<T, Refusal>,
    peer: Result<T, peer::Refusal>,
) -> Result<(), String> {
    let peer = peer.map_err(refusal);
    if library == peer {
        return Ok(());
    }
    Err(format!(
        "{operation} of the library is {library:?}, of the independent implementation {peer:?}"
    ))
}

/// The numbers of check and walk, the literals looked at among them.
fn numbers(file: &[u8], plan: &[u8]) -> Result<(), String> {
    same("check", library::check(file), peer::check(file).map(sizes))?;
    let expected = peer::walk(file, plan).map(walked);
    same("walk", library::walk(file, plan), expected)
}

/// The area for a report: mostly of the length that is always enough, now and then just enough, a byte less or a small one.
fn room_for(case: &peer::random::Case, seed: u64) -> usize {
    let length = peer::report::lines(&case.file, &case.plan).map_or(0, |text| text.len());
    match seed % 8 {
        0 => case.room % 64,
        1 => length,
        2 => length.saturating_sub(1),
        _ => library::MAX_REPORT,
    }
}

/// The report's answer, held to the independent implementation's, as what it begins with.
fn reported(file: &[u8], plan: &[u8], room: usize) -> Result<String, String> {
    let text = peer::report::write(file, plan, room);
    let shown = match &text {
        Ok(bytes) => String::from_utf8_lossy(bytes).into_owned(),
        Err(refusal) => peer::refused_text(*refusal),
    };
    let (out, answer) = library::report(file, plan, room);
    let wrong = format!("report: the library answers {answer:?}, the independent implementation {shown:?}, or the areas differ");
    match (out, answer) == library::expected(room, text) {
        true => Ok(shown),
        false => Err(wrong),
    }
}

pub fn compare(first: u64, count: u64) -> Result<(), String> {
    let mut tally = Tally::new(&ANSWERS);
    for seed in first..first + count {
        let case = peer::random::case(seed);
        let at = |why| format!("seed {seed}: {why}");
        numbers(&case.file, &case.plan).map_err(at)?;
        let shown = reported(&case.file, &case.plan, room_for(&case, seed)).map_err(at)?;
        let answer = ANSWERS.iter().find(|answer| shown.starts_with(**answer));
        tally.count(answer.expect("an answer"));
    }
    tally.finish()
}
