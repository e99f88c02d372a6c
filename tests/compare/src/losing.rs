//! What is already lost: the library's answer on lists of translated actions beside the independent implementation's, beside the
//! states that were left, and beside all continuations.

use crate::library::{self, Lost, Refusal};
use crate::stored;
use crate::tally::Tally;
use crate::walking::same;
use peer::lost::{bound, lost_by_meaning, Bound};
use peer::random::{beginning, case};
use peer::task::MAX_AMOUNT;
use peer::{complete, decode, encode, translated, Action, Kind, Literal, Preference, Task};

const ANSWERS: [&str; 13] = [
    "refused 1",
    "refused 2",
    "refused 3",
    "refused 4",
    "refused 5",
    "refused 6",
    "refused 7",
    "refused 8",
    "refused 10",
    "refused 11",
    "stopped",
    "nothing lost",
    "lost",
];

type Answer = Result<Lost, Refusal>;

/// The library's answer, held to the independent implementation's.
fn answer(file: &[u8], steps: &[u8]) -> Result<Answer, String> {
    let answer = library::lost(file, steps);
    let wanted = peer::lost(file, steps).map(|lost| match lost {
        peer::Lost::Run { cost, lost } => Lost::Run { cost, lost },
        peer::Lost::Stopped(step) => Lost::Stopped(step as u64),
    });
    same("lost", answer, wanted)?;
    Ok(answer)
}

fn name(answer: Answer) -> &'static str {
    match answer {
        Ok(Lost::Run { lost: 0, .. }) => "nothing lost",
        Ok(Lost::Run { .. }) => "lost",
        Ok(Lost::Stopped(_)) => "stopped",
        Err(refusal) => {
            let name = format!("refused {}", refusal.number);
            let known = ANSWERS.iter().find(|answer| **answer == name);
            known.expect("a refusal of lost")
        }
    }
}

/// A list that runs: the lost weights are those of the rules that the states left so far miss. A list that stops at a step runs up to
/// there.
fn by_states(file: &[u8], steps: &[u8], answer: Answer) -> Result<(), String> {
    match answer {
        Ok(Lost::Run { lost, .. }) => {
            let task = decode(file).map_err(|_| "refused")?;
            let wanted = lost_by_meaning(&task, steps);
            match lost == wanted {
                true => Ok(()),
                false => Err(format!(
                    "{lost} are lost, and the states left lose {wanted}"
                )),
            }
        }
        Ok(Lost::Stopped(step)) => {
            let before = library::lost(file, &steps[..step as usize]);
            match before {
                Ok(Lost::Run { .. }) => Ok(()),
                _ => Err(format!("stopped at {step}, but before it {before:?}")),
            }
        }
        Err(_) => Ok(()),
    }
}

/// What is lost only grows while no rule is closed, and cost and lost weights together never fall: the bound of a beginning is one
/// for all that follows.
fn rising(file: &[u8], steps: &[u8]) -> Result<(), String> {
    let mut last = 0;
    for length in 0..=steps.len() {
        let Ok(Lost::Run { cost, lost }) = library::lost(file, &steps[..length]) else {
            return Ok(());
        };
        if cost + lost < last {
            return Err(format!(
                "after {length} steps {cost} and {lost}, before {last}"
            ));
        }
        last = cost + lost;
    }
    Ok(())
}

pub fn compare(first: u64, count: u64) -> Result<(), String> {
    let mut tally = Tally::new(&ANSWERS);
    for seed in first..first + count {
        let case = case(seed);
        let steps = beginning(seed, &case);
        let at = |why| format!("lost of seed {seed}: {why}");
        let answer = answer(&case.file, &steps).map_err(at)?;
        by_states(&case.file, &steps, answer).map_err(at)?;
        if steps.len() < 40 && case.file.len() < 5_000 {
            rising(&case.file, &steps).map_err(at)?;
        }
        tally.count(name(answer));
    }
    tally.finish()
}

/// Small tasks, and all continuations of any length: none that solves costs less, and a lost rule is met by none.
pub fn continuations(first: u64, count: u64) -> Result<(), String> {
    let mut tally = Tally::new(&[
        "no continuation solves",
        "the cheapest pays what is lost",
        "it pays more",
    ]);
    for seed in first..first + count {
        let case = case(seed);
        let Ok(task) = decode(&case.file) else {
            continue;
        };
        if task.facts > 6 || task.preferences.len() > 3 || task.rows() > 300 {
            continue;
        }
        let steps = beginning(seed, &case);
        let Ok(Lost::Run { lost, .. }) = library::lost(&case.file, &steps) else {
            continue;
        };
        let at = |why| format!("lost of seed {seed}, all continuations: {why}");
        tally.count(match bound(&task, &steps, lost).map_err(at)? {
            Bound::Hopeless => "no continuation solves",
            Bound::Exact => "the cheapest pays what is lost",
            Bound::Less => "it pays more",
        });
    }
    tally.finish()
}

// ---- the edges

fn hold(what: &str, got: Answer, wanted: Answer) -> Result<(), String> {
    match got == wanted {
        true => Ok(()),
        false => Err(format!("{what}: {got:?}, and not {wanted:?}")),
    }
}

/// An action of the greatest cost, and 16 always rules of the greatest weight, which every state misses.
fn greatest() -> Task {
    let literal = vec![vec![Literal {
        holds: true,
        fact: 0,
    }]];
    let rule = Preference {
        kind: Kind::Always,
        hard: false,
        weight: MAX_AMOUNT,
        phi: literal,
        psi: vec![],
    };
    Task {
        facts: 1,
        start: vec![],
        goal: vec![],
        actions: vec![Action {
            cost: MAX_AMOUNT,
            precondition: vec![],
            effects: vec![],
        }],
        preferences: vec![rule; 16],
    }
}

/// The longest list, with all sixteen rules lost and then one closed after the other.
fn longest() -> Result<(), String> {
    let file = encode(&greatest());
    let amount = u64::from(MAX_AMOUNT);
    let mut list = vec![0; 2_031];
    list.push(1);
    list.extend((0..16).map(|k| 3 + 2 * k as u8));
    for (length, cost, lost) in [
        (0, 0, 0),
        (1, 1, 16),
        (2_031, 2_031, 16),
        (2_032, 2_031, 16),
        (2_033, 2_032, 15),
        (2_048, 2_047, 0),
    ] {
        let (cost, lost) = (cost * amount, lost * amount);
        let got = answer(&file, &list[..length])?;
        hold(
            &format!("{length} steps"),
            got,
            Ok(Lost::Run { cost, lost }),
        )?;
    }
    let refused = |number, place| Err(Refusal { number, place });
    hold("2,049 steps", answer(&file, &[0; 2_049])?, refused(10, 0))?;
    hold(
        "10 before 11",
        answer(&file, &[255; 2_049])?,
        refused(10, 0),
    )?;
    hold(
        "the last number",
        answer(&file, &[0, 33])?,
        Ok(Lost::Stopped(1)),
    )?;
    hold("one more", answer(&file, &[33, 34, 35])?, refused(11, 1))?;
    hold("2,048 steps", answer(&file, &[35; 2_048])?, refused(11, 0))
}

/// Facts, actions and rows of the translation on both sides of their limits, whatever the list is: 7 and 8 come before 10 and 11.
fn limits() -> Result<(), String> {
    let bare = |facts, actions, goal: usize| {
        let action = Action {
            cost: 1,
            precondition: vec![],
            effects: vec![],
        };
        let literal = |holds| Literal { holds, fact: 0 };
        encode(&Task {
            facts,
            start: vec![],
            goal: vec![(0..goal).map(|n| literal(n % 2 == 0)).collect()],
            actions: vec![action; actions],
            preferences: vec![],
        })
    };
    // GOAL, CLAUSE and its literals; START, ended in the goal, an ACTION with normal; end has six rows.
    let rows = |goal: usize| 2 + goal + 1 + 2 + 3 + 6;
    for (file, number) in [
        (bare(126, 1, 2), 0),
        (bare(127, 1, 2), 7),
        (bare(4, 127, 2), 0),
        (bare(4, 128, 2), 7),
        (bare(4, 1, 12_000 - rows(0)), 0),
        (bare(4, 1, 12_001 - rows(0)), 8),
        (bare(127, 128, 11_000), 7),
    ] {
        for steps in [&[][..], &[255], &[255; 2_049]] {
            let wanted = match (number, steps.len()) {
                (0, 0) => 0,
                (0, 1) => 11,
                (0, _) => 10,
                (number, _) => number,
            };
            let got = answer(&file, steps)?.map_or_else(|refusal| refusal.number, |_| 0);
            if got != wanted {
                return Err(format!("{} steps: {got}, and not {wanted}", steps.len()));
            }
        }
    }
    Ok(())
}

/// Every list of up to four numbers on small tasks, end, collect and forgo in any place.
fn every_list(first: u64) -> Result<(), String> {
    let (mut tasks, mut lists) = (0, 0);
    for seed in first.. {
        let case = case(seed);
        let Ok(task) = decode(&case.file) else {
            continue;
        };
        let numbers = task.actions.len() + 2 * task.preferences.len() + 1;
        if task.preferences.is_empty() || numbers > 8 || task.rows() > 80 {
            continue;
        }
        for list in up_to_four(numbers as u8) {
            let at = |why| format!("list {list:?} of seed {seed}: {why}");
            let answer = answer(&case.file, &list).map_err(at)?;
            by_states(&case.file, &list, answer).map_err(at)?;
            lists += 1;
        }
        tasks += 1;
        if tasks == 6 {
            break;
        }
    }
    println!("every list of up to four steps on {tasks} tasks: {lists}");
    Ok(())
}

fn up_to_four(numbers: u8) -> Vec<Vec<u8>> {
    let mut lists: Vec<Vec<u8>> = vec![vec![]];
    let mut last = lists.clone();
    for _ in 0..4 {
        let longer = |list: &Vec<u8>, n: u8| [list.clone(), vec![n]].concat();
        last = last
            .iter()
            .flat_map(|list| (0..numbers).map(move |n| longer(list, n)))
            .collect();
        lists.extend(last.clone());
    }
    lists
}

/// A whole solution: nothing is lost after it, and its cost is the metric.
fn solutions(first: u64, count: u64) -> Result<(), String> {
    let mut solved = 0;
    for seed in first..first + count {
        let case = case(seed);
        let Ok(library::Verdict::Solved { cost, met }) =
            library::walk(&case.file, &case.plan).map(|walked| walked.verdict)
        else {
            continue;
        };
        let task = decode(&case.file).map_err(|_| "refused")?;
        if case.plan.len() > 1_000 || translated(&task, 12_000).is_none() {
            continue;
        }
        let list: Vec<u8> = complete(&task, &case.plan)
            .iter()
            .map(|&n| n as u8)
            .collect();
        let metric = library::settle(&case.file, cost, met).map_err(|_| "not settled")?;
        let wanted = Ok(Lost::Run {
            cost: metric.metric,
            lost: 0,
        });
        match library::lost(&case.file, &list) {
            Err(refusal) if refusal.number == 7 => continue,
            got => hold(&format!("the solution of seed {seed}"), got, wanted)?,
        }
        solved += 1;
    }
    match solved {
        0 => Err("no solutions".to_string()),
        _ => {
            println!("solutions, after which nothing is lost: {solved}");
            Ok(())
        }
    }
}

pub fn edges() -> Result<(), String> {
    longest()?;
    limits()?;
    every_list(1)?;
    solutions(1, 4_000)?;
    println!("edges of lost: as they should be");
    Ok(())
}

/// The stored vectors.
pub fn vectors() -> Result<(), String> {
    stored::hold("lost", 2, |records| {
        let line = |answer: Answer| match answer {
            Ok(Lost::Run { cost, lost }) => format!("run cost {cost} lost {lost}\n"),
            Ok(Lost::Stopped(step)) => format!("stopped {step}\n"),
            Err(refusal) => format!("refused {} {}\n", refusal.number, refusal.place),
        };
        answer(&records[0], &records[1]).map(line)
    })
}
