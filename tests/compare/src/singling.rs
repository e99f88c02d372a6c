//! Single literals in effects: the library's task beside the independent implementation's, and what it leaves as it was.

use crate::library::{self, Verdict, Worth};
use crate::stored::{filled, hold, number};
use crate::tally::Tally;
use crate::translating;
use peer::random::{widened, Random, MAX_FILE};
use peer::{decode, encode, meaning, Action, Clause, Condition, Effect, Kind, Literal, Task};

const ANSWERS: [&str; 10] = [
    "refused 1",
    "refused 2",
    "refused 3",
    "refused 4",
    "refused 5",
    "refused 6",
    "refused 8",
    "refused 9",
    "refused 17",
    "singled",
];

// The most choices, as callers are told.
const _: () = assert!(peer::single::MAX_CHOICES == library::MAX_CHOICES);

/// The library's answer on a file and an area of `room` bytes, held to the independent implementation's: the same number and
/// place and nothing written, or the same bytes and nothing written after them.
fn same(file: &[u8], room: usize) -> Result<&'static str, String> {
    let (out, answer) = library::single(file, room);
    let (expected, wanted) = library::expected(room, peer::single(file, room));
    if answer != wanted || out != expected {
        return Err(format!(
            "an area of {room}: the library answers {answer:?}, and not {wanted:?}, or writes other bytes"
        ));
    }
    Ok(match answer {
        Ok(_) => "singled",
        Err(refusal) => {
            let name = format!("refused {}", refusal.number);
            let known = ANSWERS.iter().find(|answer| **answer == name);
            known.ok_or(format!("an unknown refusal {refusal:?}"))?
        }
    })
}

/// An area that just fits, one with a byte to spare, one that is a byte short, and none.
fn fitting(file: &[u8], length: usize) -> Result<(), String> {
    for (room, wanted) in [
        (length, "singled"),
        (length + 1, "singled"),
        (length - 1, "refused 9"),
        (0, "refused 9"),
    ] {
        if same(file, room)? != wanted {
            return Err(format!("an area of {room} is not {wanted}"));
        }
    }
    Ok(())
}

/// Random files, and the tasks in them with wide effects.
pub fn compare(first: u64, count: u64) -> Result<(), String> {
    let mut tally = Tally::new(&ANSWERS);
    let mut one = |file: &[u8]| -> Result<(), String> {
        tally.count(same(file, MAX_FILE)?);
        if let Ok(bytes) = peer::single(file, MAX_FILE) {
            fitting(file, bytes.len())?;
            tally.count(same(file, bytes.len() - 1)?);
        }
        Ok(())
    };
    for seed in first..first + count {
        let file = peer::random::case(seed).file;
        let at = |why| format!("single of seed {seed}: {why}");
        one(&file).map_err(at)?;
        if let Ok(task) = decode(&file) {
            let wide = widened(&mut Random::new(!seed), &task);
            one(&encode(&wide)).map_err(at)?;
        }
    }
    tally.finish()
}

/// The library gives the answers that the account in Python gave.
pub fn vectors() -> Result<(), String> {
    hold("single", 2, |records| {
        let (file, room) = (&records[0], number(&records[1], 0) as usize);
        filled(library::single(file, room))
    })
}

// ---- what it leaves

fn wanted(what: &str, holds: bool) -> Result<(), String> {
    match holds {
        true => Ok(()),
        false => Err(format!("not {what}")),
    }
}

/// A plan's verdict, and what it is worth where it solves.
fn judged(file: &[u8], plan: &[u8]) -> Result<(Verdict, Option<Worth>), library::Refusal> {
    let verdict = library::walk(file, plan)?.verdict;
    let worth = match verdict {
        Verdict::Solved { cost, met } => Some(library::settle(file, cost, met)?),
        _ => None,
    };
    Ok((verdict, worth))
}

/// What the library writes for a file, if it writes something.
fn singled(file: &[u8]) -> Option<Vec<u8>> {
    let (mut out, answer) = library::single(file, MAX_FILE);
    out.truncate(answer.ok()?);
    Some(out)
}

/// It is accepted, with the sizes of its source but for the rows; every effect has clauses of one literal; nothing else has changed;
/// and it is its own.
fn one_file(task: &Task, bytes: &[u8]) -> Result<Task, String> {
    let other = decode(bytes).map_err(|refusal| format!("refused: {refusal:?}"))?;
    let without = |task: &Task| {
        let mut task = task.clone();
        task.actions
            .iter_mut()
            .for_each(|action| action.effects.clear());
        task
    };
    wanted("the same beside effects", without(task) == without(&other))?;
    let mut clauses = other
        .actions
        .iter()
        .flat_map(|action| &action.effects)
        .flat_map(|effect| &effect.condition);
    wanted(
        "of single literals",
        clauses.all(|clause| clause.len() == 1),
    )?;
    wanted("its own", singled(bytes).as_deref() == Some(bytes))?;
    Ok(other)
}

/// Actions lead where they led, from random states.
fn same_states(r: &mut Random, task: &Task, other: &Task) -> Result<(), String> {
    for (a, b) in task.actions.iter().zip(&other.actions) {
        for _ in 0..3 {
            let state = std::array::from_fn(|_| r.chance(50));
            let leads = meaning::after(a, &state) == meaning::after(b, &state);
            wanted("where it led", leads)?;
        }
    }
    Ok(())
}

/// The plan is judged alike; where it solves, so does the completed list on the translation with single literals, at the metric.
fn same_verdicts(file: &[u8], plan: &[u8], bytes: &[u8]) -> Result<(bool, bool), String> {
    let answer = judged(file, plan);
    wanted("judged alike", answer == judged(bytes, plan))?;
    let Ok((Verdict::Solved { .. }, Some(worth))) = answer else {
        return Ok((false, false));
    };
    translating::completed(bytes, plan, true)?;
    let (out, translated) = library::translate(file, MAX_FILE);
    let Some(compiled) = translated.ok().and_then(|n| singled(&out[..n])) else {
        return Ok((true, false));
    };
    let source = decode(file).expect("an accepted task");
    let compiled = decode(&compiled).map_err(|refusal| format!("refused: {refusal:?}"))?;
    let cost = peer::run(&compiled, &peer::complete(&source, plan));
    wanted("of the metric", cost == Some(u128::from(worth.metric)))?;
    Ok((true, true))
}

pub fn properties(first: u64, count: u64) -> Result<(), String> {
    let (mut tasks, mut solved, mut translated) = (0, 0, 0);
    for seed in first..first + count {
        let case = peer::random::case(seed);
        let Ok(task) = decode(&case.file) else {
            continue;
        };
        let r = &mut Random::new(!seed);
        let task = match r.chance(50) {
            true => widened(r, &task),
            false => task,
        };
        let file = encode(&task);
        let at = |why| format!("single of seed {seed}: {why}");
        let Some(bytes) = singled(&file) else {
            continue;
        };
        let other = one_file(&task, &bytes).map_err(at)?;
        same_states(r, &task, &other).map_err(at)?;
        let (solves, follows) = same_verdicts(&file, &case.plan, &bytes).map_err(at)?;
        tasks += 1;
        solved += u64::from(solves);
        translated += u64::from(follows);
    }
    println!("tasks with single literals: {tasks}, {solved} with a plan that solves, {translated} after translate");
    match tasks > 0 && solved > 0 && translated > 0 {
        true => Ok(()),
        false => Err("never came up".to_string()),
    }
}

// ---- the edges

fn literal(n: usize) -> Literal {
    Literal {
        holds: n % 2 == 0,
        fact: n / 2 % 128,
    }
}

fn clause(literals: usize) -> Clause {
    (0..literals).map(literal).collect()
}

/// An effect whose clauses have these many literals.
fn wide(lengths: &[usize]) -> Effect {
    Effect {
        condition: lengths.iter().map(|&length| clause(length)).collect(),
        adds: vec![1, 127, 1],
        deletes: vec![64],
    }
}

/// A task of 128 facts and one action, with this goal and these effects.
fn of_effects(goal: Condition, effects: Vec<Effect>) -> Task {
    Task {
        facts: 128,
        start: vec![0, 127],
        goal,
        actions: vec![Action {
            cost: 3,
            precondition: vec![clause(70)],
            effects,
        }],
        preferences: vec![peer::Preference {
            kind: Kind::Always,
            hard: true,
            weight: 0,
            phi: vec![clause(70)],
            psi: vec![],
        }],
    }
}

/// The library refuses by this number at this place, or writes so many rows.
fn edge(what: &str, task: &Task, answer: Result<usize, (u32, u64)>) -> Result<(), String> {
    let file = encode(task);
    let at = |why| format!("{what}: {why}");
    same(&file, MAX_FILE).map_err(at)?;
    let (_, got) = library::single(&file, MAX_FILE);
    let refused = |(number, place)| library::Refusal { number, place };
    let answer = answer.map(|rows| 8 + 5 * rows).map_err(refused);
    if got != answer {
        return Err(format!("{what}: {got:?}, and not {answer:?}"));
    }
    match got {
        Ok(length) => fitting(&file, length).map_err(at),
        // A refusal is the same in an area that is too short.
        Err(_) => same(&file, 0).map(|_| ()).map_err(at),
    }
}

/// A task of these effects whose rows come to so many once they have single literals: its goal is as long as that takes.
fn of_rows(effects: Vec<Effect>, rows: usize) -> Task {
    let task = |literals| of_effects(vec![clause(literals)], effects.clone());
    let least = peer::singled(&task(1)).rows();
    task(1 + rows - least)
}

pub fn edges() -> Result<(), String> {
    // START twice, GOAL, ACTION and a clause of 71 rows stand before the effects, and a rule of 72 rows after them.
    let of = |lengths: &[usize]| of_effects(vec![], vec![wide(lengths)]);
    edge("64 literals", &of(&[64]), Ok(147 + 64 * 7))?;
    edge("65 literals", &of(&[65]), Err((17, 75)))?;
    edge("8 times 8", &of(&[8, 8]), Ok(147 + 64 * 9))?;
    edge("5 times 13", &of(&[5, 13]), Err((17, 75)))?;
    edge("two, six times", &of(&[2; 6]), Ok(147 + 64 * 17))?;
    edge("two, seven times", &of(&[2; 7]), Err((17, 75)))?;
    edge("no clause", &of(&[]), Ok(147 + 5))?;
    edge("5,000 clauses of one", &of(&[1; 5_000]), Ok(147 + 10_005))?;
    edge("3,900 clauses of two", &of(&[2; 3_900]), Err((17, 75)))?;
    edge("2 to the 64", &of(&[2; 64]), Err((17, 75)))?;
    edge("2 to the 32", &of(&[2; 32]), Err((17, 75)))?;
    edge(
        "64 and clauses of one",
        &of(&[1, 64, 1, 1]),
        Ok(147 + 64 * 13),
    )?;
    let two = |a: &[usize], b: &[usize]| of_effects(vec![], vec![wide(a), wide(b)]);
    edge("the second effect", &two(&[64], &[65]), Err((17, 145)))?;
    edge("both effects", &two(&[65], &[65]), Err((17, 75)))?;
    for lengths in [&[64][..], &[2; 6], &[1, 1], &[3, 5, 4]] {
        let effects = vec![wide(lengths), wide(&[]), wide(&[2, 1])];
        edge("12,000 rows", &of_rows(effects.clone(), 12_000), Ok(12_000))?;
        edge(
            "12,001 rows",
            &of_rows(effects.clone(), 12_001),
            Err((8, 0)),
        )?;
        let over = [effects, vec![wide(&[65])]].concat();
        let place = of_effects(vec![], over.clone()).rows() - 72 - wide(&[65]).rows();
        edge(
            "17 before 8",
            &of_effects(vec![], over),
            Err((17, place as u64)),
        )?;
    }
    // As many rows as there can be: each of 623 effects has 19 rows, and 64 times 13 of them after.
    let most = vec![
        Effect {
            condition: vec![clause(2); 6],
            adds: vec![],
            deletes: vec![]
        };
        623
    ];
    edge(
        "half a million rows",
        &of_effects(vec![], most),
        Err((8, 0)),
    )?;
    println!("edges of single: as they should be");
    Ok(())
}
