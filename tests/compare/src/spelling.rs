//! The one spelling of a task: the library's beside the independent implementation's, and what it leaves as it was.

use crate::library::{self, Verdict, Worth};
use crate::tally::Tally;
use crate::translating;
use peer::random::{altered, respelled, Random, MAX_FILE};
use peer::{alike, decode, encode, Literal, Task};

const ANSWERS: [&str; 8] = [
    "refused 1",
    "refused 2",
    "refused 3",
    "refused 4",
    "refused 5",
    "refused 6",
    "refused 9",
    "spelled",
];

/// The library's answer on a file and an area of `room` bytes, held to the independent implementation's: the same number and
/// place and nothing written, or the same bytes and nothing written after them.
fn same(file: &[u8], room: usize) -> Result<&'static str, String> {
    let (out, answer) = library::spell(file, room);
    let (expected, wanted) = library::expected(room, peer::spell(file, room));
    if answer != wanted || out != expected {
        return Err(format!(
            "an area of {room}: the library answers {answer:?}, and not {wanted:?}, or writes other bytes"
        ));
    }
    Ok(match answer {
        Ok(_) => "spelled",
        Err(refusal) if refusal.number == 9 => "refused 9",
        Err(refusal) => ANSWERS[refusal.number as usize - 1],
    })
}

/// An area that just fits, one that is a byte short, and none.
fn fitting(file: &[u8], length: usize) -> Result<(), String> {
    for (room, wanted) in [
        (length, "spelled"),
        (length + 1, "spelled"),
        (length - 1, "refused 9"),
        (0, "refused 9"),
    ] {
        if same(file, room)? != wanted {
            return Err(format!("an area of {room} is not {wanted}"));
        }
    }
    Ok(())
}

pub fn compare(first: u64, count: u64) -> Result<(), String> {
    let mut tally = Tally::new(&ANSWERS);
    for seed in first..first + count {
        let file = peer::random::case(seed).file;
        let at = |why| format!("spelling of seed {seed}: {why}");
        tally.count(same(&file, MAX_FILE).map_err(at)?);
        // As long as the file is always enough; shorter ones may be.
        tally.count(same(&file, file.len() - file.len() / 8).map_err(at)?);
        if let Ok(bytes) = peer::spell(&file, MAX_FILE) {
            fitting(&file, bytes.len()).map_err(at)?;
        }
    }
    tally.finish()
}

// ---- what it makes one, and what it leaves

/// The spelling that the library writes for an accepted file, in an area as long as the file.
fn spelled(file: &[u8]) -> Result<Vec<u8>, String> {
    let (mut out, answer) = library::spell(file, file.len());
    let length = answer.map_err(|refusal| format!("refused: {refusal:?}"))?;
    out.truncate(length);
    Ok(out)
}

fn wanted(what: &str, holds: bool) -> Result<(), String> {
    match holds {
        true => Ok(()),
        false => Err(format!("not {what}")),
    }
}

/// A spelling is accepted, with the sizes of its source but for the rows, and its own spelling; other orders and repeats of the
/// source have the same one.
fn one_file(r: &mut Random, file: &[u8], task: &Task, bytes: &[u8]) -> Result<(), String> {
    let sizes = |file| library::check(file).map(|s| (s.facts, s.actions, s.preferences));
    wanted("accepted, of the same sizes", sizes(bytes) == sizes(file))?;
    wanted("its own spelling", spelled(bytes)? == bytes)?;
    let other = encode(&respelled(r, task));
    wanted("one file for both orders", spelled(&other)? == bytes)
}

/// A task with one row changed has the same spelling just where the two are alike.
fn exactly(r: &mut Random, task: &Task, bytes: &[u8]) -> Result<Option<bool>, String> {
    let file = altered(r, task);
    let Ok(other) = decode(&file) else {
        return Ok(None);
    };
    let equal = spelled(&file)? == bytes;
    let what = "equal exactly where the tasks are alike";
    wanted(what, equal == alike(task, &other))?;
    Ok(Some(equal))
}

/// A plan's verdict, and what it is worth where it solves.
fn judged(file: &[u8], plan: &[u8]) -> Result<(Verdict, Option<Worth>), library::Refusal> {
    let verdict = library::walk(file, plan)?.verdict;
    let worth = match verdict {
        Verdict::Solved { cost, met } => Some(library::settle(file, cost, met)?),
        _ => None,
    };
    Ok((verdict, worth))
}

/// The plan is judged alike. So is it by the two translations, which have the same facts and actions.
fn same_verdicts(file: &[u8], plan: &[u8], bytes: &[u8]) -> Result<bool, String> {
    let answer = judged(file, plan);
    wanted("judged alike", answer == judged(bytes, plan))?;
    let sizes = |file| {
        let (out, answer) = library::translate(file, MAX_FILE);
        answer.map(|_| out[..6].to_vec())
    };
    // A spelling may have so few rows that it is translated where its source is not.
    let of_source = sizes(file);
    let too_long = of_source.as_ref().is_err_and(|r| r.number == 8);
    wanted("translated alike", too_long || of_source == sizes(bytes))?;
    let solves = matches!(answer, Ok((Verdict::Solved { .. }, _)));
    if solves {
        translating::completed(file, plan, true)?;
        translating::completed(bytes, plan, true)?;
    }
    Ok(solves)
}

pub fn properties(first: u64, count: u64) -> Result<(), String> {
    let mut tally = Tally::new(&["one row changed, alike", "one row changed, not alike"]);
    let (mut tasks, mut solved) = (0, 0);
    for seed in first..first + count {
        let case = peer::random::case(seed);
        let Ok(task) = decode(&case.file) else {
            continue;
        };
        let at = |why| format!("spelling of seed {seed}: {why}");
        let r = &mut Random::new(!seed);
        let bytes = spelled(&case.file).map_err(at)?;
        one_file(r, &case.file, &task, &bytes).map_err(at)?;
        match exactly(r, &task, &bytes).map_err(at)? {
            Some(true) => tally.count("one row changed, alike"),
            Some(false) => tally.count("one row changed, not alike"),
            None => {}
        }
        solved += u64::from(same_verdicts(&case.file, &case.plan, &bytes).map_err(at)?);
        tasks += 1;
    }
    println!("tasks in other spellings: {tasks}, {solved} of them with a plan that solves");
    tally.finish()
}

// ---- the edges

/// A task of 128 facts whose goal has these clauses.
fn of_goal(goal: Vec<Vec<Literal>>) -> Task {
    Task {
        facts: 128,
        start: vec![],
        goal,
        actions: vec![],
        preferences: vec![],
    }
}

/// Every literal there is, falling, as often as the rows allow, and clauses of two that fall: as few rows as there can be, and as
/// many.
pub fn edges() -> Result<(), String> {
    let literal = |n: usize| Literal {
        holds: n % 2 == 0,
        fact: 127 - n / 2 % 128,
    };
    let one = of_goal(vec![(0..11_998).map(literal).collect()]);
    let many = of_goal(
        (0..3_999)
            .map(|n| vec![literal(n), literal(n + 2)])
            .collect(),
    );
    let bare = of_goal(vec![]);
    for (what, task, rows) in [
        ("one clause", one, 258),
        ("clauses of two", many, 11_998),
        ("the goal alone", bare, 1),
    ] {
        let file = encode(&task);
        let length = spelled(&file)
            .map_err(|why| format!("{what}: {why}"))?
            .len();
        if length != 8 + 5 * rows {
            return Err(format!(
                "{what}: {length} bytes, and not those of {rows} rows"
            ));
        }
        fitting(&file, length).map_err(|why| format!("{what}: {why}"))?;
    }
    println!("edges of spell: as they should be");
    Ok(())
}
