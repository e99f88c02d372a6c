//! The random cases: they can be had again, and every answer comes up.

use peer::encode::rows;
use peer::random::{arguments, case, Case};
use peer::settle::is_met;
use peer::*;
use std::collections::BTreeSet;

#[test]
fn same_seed_same_case() {
    for seed in (0..200).chain([u64::MAX, 1 << 63]) {
        assert_eq!(case(seed), case(seed));
        assert_eq!(arguments(seed, b""), arguments(seed, b""));
    }
    assert_ne!(case(1), case(2));
}

#[test]
fn files_and_trees_match() {
    for seed in 0..6_000 {
        let case = case(seed);
        let Ok(task) = decode(&case.file) else {
            continue;
        };
        assert_eq!(encode(&task), case.file, "seed {seed}");
        assert_eq!(task.rows(), rows(&task).len());
        let sizes = check(&case.file).unwrap();
        assert_eq!(usize::from(sizes.rows), task.rows());
        assert_eq!(usize::from(sizes.facts), task.facts);
        assert_eq!(usize::from(sizes.actions), task.actions.len());
        assert_eq!(usize::from(sizes.preferences), task.preferences.len());
        if let Ok(bytes) = translate(&case.file, case.room) {
            let translation = translated(&task, 12_000).unwrap();
            assert_eq!(decode(&bytes), Ok(translation), "seed {seed}");
            assert!(bytes.len() <= case.room);
        }
    }
}

fn refusal(refusal: Refusal) -> String {
    format!("refused {}", refusal.number)
}

fn of_check(case: &Case) -> String {
    let rows = case.file.get(6..8);
    let rows = rows.map(|two| u16::from_le_bytes([two[0], two[1]]));
    match check(&case.file) {
        Ok(sizes) if sizes.rows == 12_000 => "most rows".to_string(),
        Ok(_) => "accepted".to_string(),
        Err(Refusal { number: 4, place }) if Some(place) == rows => "rows end inside".to_string(),
        Err(why) => refusal(why),
    }
}

fn of_walk(case: &Case) -> String {
    match walk(&case.file, &case.plan).map(|walked| walked.verdict) {
        Ok(Verdict::Solved { .. }) if case.plan.len() == 2_048 => {
            "solved with most steps".to_string()
        }
        Ok(Verdict::Solved { .. }) => "solved".to_string(),
        Ok(Verdict::Stopped(_)) => "stopped".to_string(),
        Ok(Verdict::GoalMissed) => "goal missed".to_string(),
        Ok(Verdict::RuleMissed(_)) => "rule missed".to_string(),
        Err(why) => refusal(why),
    }
}

fn of_settle(seed: u64, case: &Case) -> String {
    let (cost, met) = arguments(seed, &case.file);
    match settle(&case.file, cost, met) {
        Ok(_) => "settled".to_string(),
        Err(why) => refusal(why),
    }
}

fn of_translate(case: &Case) -> String {
    match translate(&case.file, case.room) {
        Ok(bytes) if bytes.len() == 60_008 => "longest".to_string(),
        Ok(bytes) if bytes.len() == case.room => "just fits".to_string(),
        Ok(_) => "translated".to_string(),
        Err(why) => refusal(why),
    }
}

#[test]
fn every_answer_comes_up() {
    let mut answers: BTreeSet<String> = BTreeSet::new();
    for seed in 0..6_000 {
        let case = case(seed);
        answers.insert(of_check(&case));
        answers.insert(of_walk(&case));
        answers.insert(of_settle(seed, &case));
        answers.insert(of_translate(&case));
    }
    let numbers = (1..=11).chain([15]);
    let mut wanted: Vec<String> = numbers.map(|number| format!("refused {number}")).collect();
    for name in [
        "accepted",
        "most rows",
        "rows end inside",
        "solved",
        "solved with most steps",
        "stopped",
        "goal missed",
        "rule missed",
        "settled",
        "translated",
        "longest",
        "just fits",
    ] {
        wanted.push(name.to_string());
    }
    for answer in wanted {
        assert!(answers.contains(&answer), "{answer}");
    }
}

/// Of a hard rule, where a plan solves and where it is the lowest one missed.
#[test]
fn every_kind_is_met_and_missed() {
    let mut outcomes: BTreeSet<(String, Option<usize>, bool)> = BTreeSet::new();
    for seed in 0..20_000 {
        let case = case(seed);
        let Ok(walked) = walk(&case.file, &case.plan) else {
            continue;
        };
        let task = decode(&case.file).unwrap();
        let mut saw = |k: usize, met: bool| {
            let preference = &task.preferences[k];
            outcomes.insert((preference.name(), preference.kind.deadline(), met));
        };
        match walked.verdict {
            Verdict::Solved { met, .. } => {
                (0..task.preferences.len()).for_each(|k| saw(k, is_met(met, k)))
            }
            Verdict::RuleMissed(k) => saw(k, false),
            _ => {}
        }
    }
    for deadline in 0..=15 {
        for kind in Kind::all(deadline) {
            for hard in ["", "hard-"] {
                // The deadlines between are rarer than these.
                if hard.is_empty() || deadline < 5 || deadline == 15 {
                    for met in [true, false] {
                        let name = format!("{hard}{}", kind.name());
                        let outcome = (name, kind.deadline(), met);
                        assert!(outcomes.contains(&outcome), "{outcome:?}");
                    }
                }
            }
        }
    }
}
