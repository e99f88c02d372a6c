//! Settled costs and met preferences: the library's worth beside the independent implementation's.

use crate::library::{self, Verdict, Worth};
use crate::tally::Tally;
use crate::translating;
use crate::walking::same;
use peer::task::{MAX_AMOUNT, MAX_COST};
use peer::{Action, Kind, Literal, Preference, Task};

// The cost that callers are told settle takes.
const _: () = assert!(MAX_COST == library::MAX_COST);

const ANSWERS: [&str; 8] = [
    "refused 1",
    "refused 2",
    "refused 3",
    "refused 4",
    "refused 5",
    "refused 6",
    "refused 15",
    "settled",
];

fn worth(worth: peer::Worth) -> Worth {
    Worth {
        metric: worth.metric,
        utility: worth.utility,
    }
}

/// The library's answer, held to the independent implementation's.
fn settled(file: &[u8], cost: u64, met: u64) -> Result<&'static str, String> {
    let answer = library::settle(file, cost, met);
    let what = format!("settle of cost {cost} and met {met:#x}");
    same(&what, answer, peer::settle(file, cost, met).map(worth))?;
    Ok(match answer {
        Ok(_) => "settled",
        Err(refusal) => match refusal.number {
            15 => "refused 15",
            number => ANSWERS[number as usize - 1],
        },
    })
}

/// What the library walks it settles, and its report ends with what that is worth. Whether the plan solves.
fn walked(file: &[u8], plan: &[u8]) -> Result<bool, String> {
    let Ok(Verdict::Solved { cost, met }) = library::walk(file, plan).map(|walked| walked.verdict)
    else {
        return Ok(false);
    };
    settled(file, cost, met)?;
    let worth =
        library::settle(file, cost, met).map_err(|refusal| format!("a walk's own: {refusal:?}"))?;
    let line = format!("\nmetric {} utility {}\n", worth.metric, worth.utility);
    let (out, answer) = library::report(file, plan, library::MAX_REPORT);
    let length = answer.map_err(|refusal| format!("a report refused: {refusal:?}"))?;
    if !out[..length].ends_with(line.as_bytes()) {
        return Err(format!("the report doesn't end with {line:?}"));
    }
    Ok(true)
}

pub fn compare(first: u64, count: u64) -> Result<(), String> {
    let mut tally = Tally::new(&ANSWERS);
    let mut solved = 0;
    for seed in first..first + count {
        let case = peer::random::case(seed);
        let (cost, met) = peer::random::arguments(seed, &case.file);
        let at = |why| format!("seed {seed}: {why}");
        tally.count(settled(&case.file, cost, met).map_err(at)?);
        solved += u64::from(walked(&case.file, &case.plan).map_err(at)?);
    }
    println!("walked and settled: {solved}");
    tally.finish()
}

// ---- the edges

/// A task with so many preferences. By turns one is hard where `hard` is 2, all are where it is 1. The soft ones are all of one
/// weight or, where that is none, each of another.
fn task(preferences: usize, weight: Option<u32>, hard: usize) -> Task {
    let is_hard = |k: usize| hard > 0 && k % hard == 0;
    let preference = |k| Preference {
        kind: Kind::all(k)[k % 8],
        hard: is_hard(k),
        weight: if is_hard(k) {
            0
        } else {
            weight.unwrap_or(1u32 << k)
        },
        phi: vec![],
        psi: vec![],
    };
    Task {
        facts: 1,
        start: vec![],
        goal: vec![],
        actions: vec![],
        preferences: (0..preferences).map(preference).collect(),
    }
}

/// Costs on both sides of the limit, with each bit alone and beside all preferences.
fn edge(file: &[u8], preferences: u32) -> Result<(), String> {
    let all = (1 << preferences) - 1;
    for cost in [
        0,
        1,
        MAX_COST - 1,
        MAX_COST,
        MAX_COST + 1,
        MAX_COST + (1 << 32),
        1 << 31,
        1 << 32,
        1 << 43,
        1 << 63,
        u64::MAX,
    ] {
        for met in (0..64)
            .flat_map(|bit| [1 << bit, all | 1 << bit])
            .chain([0, all])
        {
            let wanted = match cost <= MAX_COST && met <= all {
                true => "settled",
                false => "refused 15",
            };
            let answer = settled(file, cost, met)?;
            if answer != wanted {
                return Err(format!(
                    "cost {cost}, met {met:#x}: {answer}, and not {wanted}"
                ));
            }
        }
    }
    Ok(())
}

pub fn edges() -> Result<(), String> {
    for preferences in 0..=16 {
        for weight in [Some(0), Some(1_000_001), Some(MAX_AMOUNT), None] {
            for hard in 0..=2 {
                let file = peer::encode(&task(preferences, weight, hard));
                edge(&file, preferences as u32).map_err(|why| format!("P {preferences}: {why}"))?;
            }
        }
    }
    for (holds, met, metric, utility) in [
        (true, 0, 8_864_812_496_880, -8_796_093_020_160),
        (false, 0xFFFF, 8_796_093_020_160, -8_727_373_543_440),
    ] {
        largest(holds, met, Worth { metric, utility })?;
    }
    println!("edges of settle: as they should be");
    Ok(())
}

/// 2,048 steps of the largest cost on a task with 16 of the largest weights, all met or all missed: walked as bytes and as text,
/// settled, reported and translated.
fn largest(holds: bool, met: u64, worth: Worth) -> Result<(), String> {
    let mut task = task(16, Some(MAX_AMOUNT), 0);
    task.actions.push(Action {
        cost: MAX_AMOUNT,
        precondition: vec![],
        effects: vec![],
    });
    for preference in &mut task.preferences {
        preference.kind = Kind::Always;
        preference.phi = vec![vec![Literal { holds, fact: 0 }]];
    }
    let (file, plan) = (peer::encode(&task), [0; 2_048]);
    let solved = Ok(Verdict::Solved {
        cost: MAX_COST,
        met,
    });
    let text = "(a0)\n".repeat(2_048);
    for (what, walked) in [
        ("walk", library::walk(&file, &plan)),
        ("walk_text", library::walk_text(&file, text.as_bytes())),
    ] {
        let verdict = walked.map(|walked| walked.verdict);
        equal(what, verdict, solved)?;
    }
    equal("settle", library::settle(&file, MAX_COST, met), Ok(worth))?;
    walked(&file, &plan)?;
    let (out, answer) = library::report(&file, &plan, library::MAX_REPORT);
    let shown = peer::report(&file, &plan);
    equal("report", answer, Ok(shown.len()))?;
    equal("report", &out[..shown.len()], shown.as_bytes())?;
    translating::completed(&file, &plan, true)
}

/// Held to an answer that is written down here.
fn equal<T: PartialEq + std::fmt::Debug>(what: &str, got: T, wanted: T) -> Result<(), String> {
    match got == wanted {
        true => Ok(()),
        false => Err(format!(
            "the largest amounts: {what} is {got:?}, and not {wanted:?}"
        )),
    }
}
