//! A week of plans in figures: the library's beside the independent implementation's, beside its own walks and settlings, and at
//! the edges of the file of plans.

use crate::library::{self, Figures, Refusal, Verdict};
use crate::stored;
use crate::tally::Tally;
use crate::walking::same;
use peer::random::{case, plans, Random};
use peer::task::MAX_AMOUNT;
use peer::week::{joined, split};
use peer::{encode, Action, Kind, Literal, Preference, Task};

const ANSWERS: [&str; 11] = [
    "refused 1",
    "refused 2",
    "refused 3",
    "refused 4",
    "refused 5",
    "refused 6",
    "refused 10",
    "refused 11",
    "refused 18",
    "figures",
    "none solves",
];

type Answer = Result<Option<Figures>, Refusal>;

fn figures(figures: peer::Figures) -> Figures {
    let mut meeting = [0; 16];
    meeting[..figures.meeting.len()].copy_from_slice(&figures.meeting);
    Figures {
        solving: figures.solving,
        least: figures.least,
        greatest: figures.greatest,
        sum: figures.sum,
        mean: figures.mean,
        remainder: figures.remainder,
        meeting,
    }
}

/// The library's answer, held to the independent implementation's.
fn answer(file: &[u8], plans: &[u8]) -> Result<Answer, String> {
    let answer = library::week(file, plans);
    let wanted = peer::week(file, plans).map(|week| week.map(figures));
    same("week", answer, wanted)?;
    Ok(answer)
}

fn name(answer: Answer) -> &'static str {
    match answer {
        Ok(Some(_)) => "figures",
        Ok(None) => "none solves",
        Err(refusal) => {
            let name = format!("refused {}", refusal.number);
            let known = ANSWERS.iter().find(|answer| **answer == name);
            known.expect("a refusal of week")
        }
    }
}

/// What the library's own walks and settlings of the plans come to: sums and counts, plan by plan.
fn by_walks(file: &[u8], plans: &[&[u8]]) -> Result<Option<Figures>, Refusal> {
    let mut metrics = Vec::new();
    let mut meeting = [0; 16];
    for plan in plans {
        if let Verdict::Solved { cost, met } = library::walk(file, plan)?.verdict {
            metrics.push(library::settle(file, cost, met)?.metric);
            (0..16).for_each(|k| meeting[k] += met >> k & 1);
        }
    }
    metrics.sort();
    let [Some(&least), Some(&greatest)] = [metrics.first(), metrics.last()] else {
        return Ok(None);
    };
    let (solving, sum) = (metrics.len() as u64, metrics.iter().sum::<u64>());
    Ok(Some(Figures {
        solving,
        least,
        greatest,
        sum,
        mean: sum / solving,
        remainder: sum - sum / solving * solving,
        meeting,
    }))
}

/// The file of the same plans in another order, one after the other.
fn reordered(r: &mut Random, plans: &[&[u8]]) -> Vec<u8> {
    let mut plans = plans.to_vec();
    for place in (1..plans.len()).rev() {
        plans.swap(place, r.below(place + 1));
    }
    let mut at = 0;
    let mut entry = |plan: &&[u8]| {
        at += plan.len();
        (at - plan.len(), plan.len())
    };
    let entries: Vec<(usize, usize)> = plans.iter().map(&mut entry).collect();
    joined(&entries, &plans.concat())
}

fn hold(what: &str, got: Answer, wanted: Answer) -> Result<(), String> {
    match got == wanted {
        true => Ok(()),
        false => Err(format!("{what}: {got:?}, and not {wanted:?}")),
    }
}

/// A week that is not refused: its walks and settlings come to the same, and so do the plans in another order where their steps
/// fit the starts.
fn properties(seed: u64, file: &[u8], plans: &[u8], answer: Answer) -> Result<(), String> {
    let plans = split(plans).ok_or("no plans")?;
    hold("by walks and settlings", by_walks(file, &plans), answer)?;
    if plans.iter().map(|plan| plan.len()).sum::<usize>() > 65_535 {
        return Ok(());
    }
    let other = reordered(&mut Random::new(seed), &plans);
    hold("in another order", library::week(file, &other), answer)
}

pub fn compare(first: u64, count: u64) -> Result<(), String> {
    let mut tally = Tally::new(&ANSWERS);
    for seed in first..first + count {
        let case = case(seed);
        let plans = plans(seed, &case);
        let at = |why| format!("week of seed {seed}: {why}");
        let answer = answer(&case.file, &plans).map_err(at)?;
        tally.count(name(answer));
        if answer.is_ok() && seed % 4 == 0 {
            properties(seed, &case.file, &plans, answer).map_err(at)?;
        }
    }
    tally.finish()
}

// ---- the edges

/// An action of the greatest cost that always applies, one that never does, and 16 preferences of the greatest weight, the even ones
/// of which are met.
fn greatest() -> Task {
    let literal = |holds| vec![vec![Literal { holds, fact: 0 }]];
    let action = |cost, precondition| Action {
        cost,
        precondition,
        effects: vec![],
    };
    let preference = |k| Preference {
        kind: Kind::Always,
        hard: false,
        weight: MAX_AMOUNT,
        phi: literal(k % 2 == 1),
        psi: vec![],
    };
    Task {
        facts: 1,
        start: vec![],
        goal: vec![],
        actions: vec![action(MAX_AMOUNT, vec![]), action(0, literal(true))],
        preferences: (0..16).map(preference).collect(),
    }
}

/// 64 plans of 2,048 steps: of the same bytes, each a byte on from the one before, and all stopped by their last step.
fn longest(file: &[u8]) -> Result<(), String> {
    let metric = 2_048 * u64::from(MAX_AMOUNT) + 8 * u64::from(MAX_AMOUNT);
    let meeting = std::array::from_fn(|k| if k % 2 == 0 { 64 } else { 0 });
    let wanted = Figures {
        solving: 64,
        least: metric,
        greatest: metric,
        sum: 64 * metric,
        mean: metric,
        remainder: 0,
        meeting,
    };
    let one = joined(&[(0, 2_048); 64], &[0; 2_048]);
    hold("64 plans", answer(file, &one)?, Ok(Some(wanted)))?;
    let apart: Vec<(usize, usize)> = (0..64).map(|i| (i, 2_048)).collect();
    let steps = [0; 63 + 2_048];
    let apart = joined(&apart, &steps);
    hold(
        "64 plans that overlap",
        answer(file, &apart)?,
        Ok(Some(wanted)),
    )?;
    let mut stops = joined(&[(0, 2_048); 64], &[0; 2_048]);
    *stops.last_mut().expect("a step") = 1;
    hold("64 plans that stop", answer(file, &stops)?, Ok(None))
}

/// Each start and length near the ends of so many step bytes, beside a plan without steps: 18 exactly where they are more together.
fn starts_and_lengths(file: &[u8], room: usize) -> Result<(), String> {
    let steps = vec![0; room];
    let near = |n: usize| {
        [
            0,
            1,
            n.saturating_sub(1),
            n,
            n + 1,
            255,
            256,
            2_047,
            2_048,
            65_535,
        ]
    };
    for start in near(room) {
        for length in near(room.saturating_sub(start)) {
            let entry = (start.min(65_535), length.min(65_535));
            for entries in [
                vec![entry],
                vec![(0, 0), entry],
                vec![entry, (room.min(65_535), 0)],
            ] {
                let at = |why| format!("{entry:?} of {room} steps: {why}");
                let number = match answer(file, &joined(&entries, &steps)).map_err(at)? {
                    Ok(_) => 0,
                    Err(refusal) => refusal.number,
                };
                let wanted = match (entry.0 + entry.1 > room, entry.1 > 2_048) {
                    (true, _) => 18,
                    (false, true) => 10,
                    (false, false) => 0,
                };
                if number != wanted {
                    return Err(at(format!("{number}, and not {wanted}")));
                }
            }
        }
    }
    Ok(())
}

/// Counts on both sides of their limits, and files cut after every byte of the arrays.
fn counts(file: &[u8]) -> Result<(), String> {
    for count in [0, 1, 2, 63, 64, 65, 255, 256, 257, 320, 65_535] {
        let whole = joined(&vec![(0, 1); count], &[0]);
        let wanted = (1..=64).contains(&count);
        if answer(file, &whole)?.is_ok() != wanted {
            return Err(format!("{count} plans"));
        }
        for length in (0..whole.len()).filter(|n| *n < 300 || n % 997 == 0) {
            if answer(file, &whole[..length])?.is_ok() {
                return Err(format!("{count} plans in {length} bytes are taken"));
            }
        }
    }
    Ok(())
}

/// The first plan that is too long or has an unknown step decides, 10 before 11 on one plan, 18 before both and 1 to 6 before that.
fn order(file: &[u8]) -> Result<(), String> {
    let mut steps = vec![0; 2_049];
    steps[2_048] = 2;
    let (good, long, unknown) = ((0, 3), (0, 2_049), (2_048, 1));
    for (entries, number, place) in [
        (vec![good, long, unknown], 10, 1),
        (vec![good, unknown, long], 11, 1),
        (vec![long], 10, 0),
        (vec![unknown], 11, 0),
        (vec![good, good, good, unknown, long], 11, 3),
        (vec![long, (2_049, 1)], 18, 0),
        (vec![unknown, (2_050, 0)], 18, 0),
    ] {
        let refusal = Refusal { number, place };
        let plans = joined(&entries, &steps);
        hold(&format!("{entries:?}"), answer(file, &plans)?, Err(refusal))?;
        let refusal = Refusal {
            number: 3,
            place: 0,
        };
        let cut = answer(&file[..file.len() - 1], &plans)?;
        hold("a file that was cut", cut, Err(refusal))?;
    }
    Ok(())
}

pub fn edges() -> Result<(), String> {
    let file = encode(&greatest());
    longest(&file)?;
    for room in [
        0, 1, 2, 2_047, 2_048, 2_049, 65_534, 65_535, 65_536, 131_070,
    ] {
        starts_and_lengths(&file, room)?;
    }
    counts(&file)?;
    order(&file)?;
    println!("edges of week: as they should be");
    Ok(())
}

/// The stored vectors: their answers as program week writes them.
pub fn vectors() -> Result<(), String> {
    stored::hold("week", 2, |records| {
        let (file, plans) = (&records[0], &records[1]);
        let line = |answer: Answer| match answer {
            Err(refusal) => format!("refused {} {}\n", refusal.number, refusal.place),
            Ok(figures) => lines(file, plans, figures),
        };
        answer(file, plans).map(line)
    })
}

fn lines(file: &[u8], plans: &[u8], figures: Option<Figures>) -> String {
    let solving = figures.map_or(0, |f| f.solving);
    let mut text = format!("plans {}\nsolving {solving}\n", plans[0]);
    if let Some(f) = figures {
        let [least, greatest, sum] = [f.least, f.greatest, f.sum];
        let (mean, remainder) = (f.mean, f.remainder);
        text += &format!(
            "metric least {least} greatest {greatest} sum {sum} mean {mean} remainder {remainder}\n"
        );
        let preferences = usize::from(file[4]);
        for (k, met) in f.meeting.iter().enumerate().take(preferences) {
            text += &format!("preference {k} met {met}\n");
        }
    }
    text
}
