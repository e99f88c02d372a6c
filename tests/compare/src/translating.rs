//! Translations: the library's bytes beside the independent implementation's.

use crate::library::{self, refused, Verdict};
use crate::stored::{filled, hold, number};
use crate::tally::Tally;
use peer::{Action, Condition, Effect, Kind, Literal, Preference, Task};

const ANSWERS: [&str; 10] = [
    "refused 1",
    "refused 2",
    "refused 3",
    "refused 4",
    "refused 5",
    "refused 6",
    "refused 7",
    "refused 8",
    "refused 9",
    "written",
];

/// The library's answer on a file and an area of `room` bytes, held to the independent implementation's: the same number and
/// place and nothing written, or the same bytes and nothing written behind them.
fn same(file: &[u8], room: usize) -> Result<&'static str, String> {
    let (out, answer) = library::translate(file, room);
    let (expected, wanted) = library::expected(room, peer::translate(file, room));
    if answer != wanted || out != expected {
        return Err(format!(
            "the library answers {answer:?}, and not {wanted:?}, or writes other bytes"
        ));
    }
    Ok(match answer {
        Ok(_) => "written",
        Err(refusal) => ANSWERS[refusal.number as usize - 1],
    })
}

/// The metric of a plan that solves: the library walks it, and settles what that gives.
fn metric(file: &[u8], plan: &[u8]) -> Option<u128> {
    let Ok(Verdict::Solved { cost, met }) = library::walk(file, plan).map(|walked| walked.verdict)
    else {
        return None;
    };
    let worth = library::settle(file, cost, met).ok()?;
    Some(u128::from(worth.metric))
}

/// A plan that solves, completed by end and one closing action for each preference, solves the task in the bytes that the
/// library wrote, and its cost there is the metric. One that misses a hard rule doesn't, and has no metric.
pub fn completed(file: &[u8], plan: &[u8], solves: bool) -> Result<(), String> {
    let source = peer::decode(file).expect("an accepted task");
    let (out, answer) = library::translate(file, peer::random::MAX_FILE);
    let Ok(n) = answer else { return Ok(()) };
    let compiled =
        peer::decode(&out[..n]).map_err(|refusal| format!("compiled is refused: {refusal:?}"))?;
    let cost = peer::run(&compiled, &peer::complete(&source, plan));
    let metric = metric(file, plan);
    if cost.is_some() == solves && cost == metric {
        Ok(())
    } else {
        Err(format!(
            "the completed list costs {cost:?}, the metric is {metric:?}"
        ))
    }
}

pub fn compare(first: u64, count: u64) -> Result<(), String> {
    let mut tally = Tally::new(&ANSWERS);
    let (mut solved, mut missed) = (0, 0);
    for seed in first..first + count {
        let case = peer::random::case(seed);
        let at = |why| format!("seed {seed}: {why}");
        tally.count(same(&case.file, case.room).map_err(at)?);
        let walked = peer::walk(&case.file, &case.plan).map(|walked| walked.verdict);
        if let Ok(peer::Verdict::Solved { .. }) = walked {
            completed(&case.file, &case.plan, true).map_err(at)?;
            solved += 1;
        }
        if let Ok(peer::Verdict::RuleMissed(_)) = walked {
            completed(&case.file, &case.plan, false).map_err(at)?;
            missed += 1;
        }
    }
    println!("completed lists: {solved}, and {missed} that miss a hard rule");
    tally.finish()
}

/// The library gives the answers that the account in Python gave.
pub fn vectors() -> Result<(), String> {
    hold("translate", 2, |records| {
        let (file, room) = (&records[0], number(&records[1], 0) as usize);
        filled(library::translate(file, room))
    })
}

// ---- the edges

fn literal(fact: usize) -> Literal {
    Literal {
        holds: fact % 2 == 0,
        fact,
    }
}

/// So many clauses, of one to three literals.
fn condition(clauses: usize) -> Condition {
    (0..clauses)
        .map(|c| (0..=c % 3).map(literal).collect())
        .collect()
}

fn preference(kind: Kind, clauses: usize) -> Preference {
    let psi = if kind.has_second() {
        condition(clauses)
    } else {
        Vec::new()
    };
    Preference {
        kind,
        hard: false,
        weight: 7,
        phi: condition(clauses),
        psi,
    }
}

fn task(facts: usize, actions: usize, preferences: usize) -> Task {
    let effect = Effect {
        condition: condition(1),
        adds: vec![0],
        deletes: vec![1],
    };
    let action = Action {
        cost: 3,
        precondition: condition(1),
        effects: vec![effect],
    };
    Task {
        facts,
        start: vec![0],
        goal: condition(2),
        actions: vec![action; actions],
        preferences: vec![preference(Kind::Always, 1); preferences],
    }
}

/// A task of 4 facts, with these preferences.
fn ruled(actions: usize, preferences: Vec<Preference>) -> Task {
    Task {
        preferences,
        ..task(4, actions, 0)
    }
}

/// A task of `rows` rows without actions and preferences: its translation has 9 more.
fn long(rows: usize) -> Task {
    Task {
        goal: vec![vec![literal(0); rows - 3]],
        ..task(2, 0, 0)
    }
}

/// A task of so many facts, with a preference of each of these kinds.
fn of_kinds(facts: usize, kinds: &[Kind]) -> Task {
    Task {
        preferences: kinds.iter().map(|&kind| preference(kind, 2)).collect(),
        ..task(facts, 2, 0)
    }
}

/// The same preference made hard.
fn hard(preference: Preference) -> Preference {
    Preference {
        hard: true,
        weight: 0,
        ..preference
    }
}

/// A task with these preferences, whose translation has `rows` rows: the goal is one clause, as long as that takes.
fn of_rows(preferences: &[Preference], rows: usize) -> Task {
    let task = |literals| Task {
        goal: vec![vec![literal(0); literals]],
        ..ruled(2, preferences.to_vec())
    };
    let least = peer::translate(&peer::encode(&task(1)), peer::random::MAX_FILE)
        .expect("a translation")
        .len();
    task(1 + rows - (least - 8) / 5)
}

/// The library refuses by `number`, or writes the translation where that is 0, in an area that just fits and in one with room
/// to spare; in one that is a byte short it refuses by 9.
fn edge(what: &str, task: &Task, number: u32) -> Result<(), String> {
    let file = peer::encode(task);
    let name = if number == 0 {
        "written"
    } else {
        ANSWERS[number as usize - 1]
    };
    let room = peer::random::MAX_FILE;
    let answer = same(&file, room).map_err(|why| format!("{what}: {why}"))?;
    if answer != name {
        return Err(format!("{what}: {answer}, and not {name}"));
    }
    if let (_, Ok(n)) = library::translate(&file, room) {
        for (room, name) in [(n, "written"), (n - 1, "refused 9"), (0, "refused 9")] {
            let answer = same(&file, room).map_err(|why| format!("{what}, {room} bytes: {why}"))?;
            if answer != name {
                return Err(format!("{what}, {room} bytes: {answer}, and not {name}"));
            }
        }
    }
    Ok(())
}

pub fn edges() -> Result<(), String> {
    edge("P 16 with F 78", &task(78, 2, 16), 0)?;
    edge("P 16 with F 79", &task(79, 2, 16), refused::TOO_MANY)?;
    edge("A 95 with P 16", &task(4, 95, 16), 0)?;
    edge("A 96 with P 16", &task(4, 96, 16), refused::TOO_MANY)?;
    edge("F 126 with P 0", &task(126, 2, 0), 0)?;
    edge("F 127 with P 0", &task(127, 2, 0), refused::TOO_MANY)?;
    edge("12,000 rows", &long(11_991), 0)?;
    edge("12,001 rows", &long(11_992), refused::TRANSLATION_ROWS)?;
    for kind in [
        Kind::SometimeAfter,
        Kind::Within(15),
        Kind::AlwaysWithin(15),
    ] {
        most_rows(kind.name(), &[preference(kind, 12)])?;
    }
    hard_rules()?;
    edge("A 0", &task(3, 0, 2), 0)?;
    edge("P 0", &task(3, 2, 0), 0)?;
    edge("A 0 and P 0", &task(3, 0, 0), 0)?;
    deadlines()?;
    for kind in kinds_and_deadlines() {
        // These two have several effects for each clause of ψ.
        let many = match kind {
            Kind::SometimeAfter => 16,
            Kind::AlwaysWithin(_) => 8,
            _ => 40,
        };
        for clauses in [0, 1, 2, 5, many] {
            edge("a kind", &ruled(2, vec![preference(kind, clauses); 2]), 0)?;
        }
    }
    for kind in Kind::all(3) {
        // Each of 95 actions has the trackers of 16 preferences of 220 clauses, about a million rows in all; at-end's stand in
        // end alone.
        if kind != Kind::AtEnd {
            let clauses = if kind.has_second() { 110 } else { 220 };
            let huge = ruled(95, vec![preference(kind, clauses); 16]);
            edge("a huge translation", &huge, refused::TRANSLATION_ROWS)?;
        }
    }
    println!("edges: as they should be");
    Ok(())
}

/// Translations of 12,000 rows, and of one more.
fn most_rows(name: &str, preferences: &[Preference]) -> Result<(), String> {
    let fits = of_rows(preferences, 12_000);
    edge(&format!("12,000 rows with {name}"), &fits, 0)?;
    let over = of_rows(preferences, 12_001);
    let refusal = refused::TRANSLATION_ROWS;
    edge(&format!("12,001 rows with {name}"), &over, refusal)
}

/// Each kind made hard, by itself, beside the same soft one, and 16 times.
fn hard_rules() -> Result<(), String> {
    for kind in kinds_and_deadlines() {
        for clauses in [0, 1, 2, 5] {
            let (soft, hard) = (preference(kind, clauses), hard(preference(kind, clauses)));
            for rules in [
                vec![hard.clone()],
                vec![hard.clone(), soft.clone()],
                vec![soft, hard.clone(), hard.clone()],
            ] {
                edge("a hard kind", &ruled(2, rules), 0)?;
            }
        }
        let name = format!("hard-{}", kind.name());
        most_rows(&name, &[hard(preference(kind, 6))])?;
        most_rows(
            &format!("two of {name}"),
            &[hard(preference(kind, 1)), hard(preference(kind, 2))],
        )?;
    }
    let sixteen = |facts, kind: Kind| Task {
        preferences: vec![hard(preference(kind, 1)); 16],
        ..task(facts, 2, 0)
    };
    edge("F 78 with 16 hard rules", &sixteen(78, Kind::AtEnd), 0)?;
    edge(
        "F 79 with 16 hard rules",
        &sixteen(79, Kind::AtEnd),
        refused::TOO_MANY,
    )?;
    edge(
        "F 14 with 16 hard deadlines",
        &sixteen(14, Kind::Within(3)),
        0,
    )?;
    edge(
        "F 15 with 16 hard deadlines",
        &sixteen(15, Kind::Within(3)),
        refused::TOO_MANY,
    )?;
    edge(
        "F 14 with 16 hard deadlines",
        &sixteen(14, Kind::AlwaysWithin(4)),
        0,
    )?;
    edge(
        "F 15 with 16 hard deadlines",
        &sixteen(15, Kind::AlwaysWithin(4)),
        refused::TOO_MANY,
    )
}

/// The most facts beside deadlines, and one more.
fn deadlines() -> Result<(), String> {
    for (facts, kinds) in [
        (122, vec![Kind::Within(0)]),
        (123, vec![Kind::AlwaysWithin(0)]),
        (107, vec![Kind::Within(15)]),
        (108, vec![Kind::AlwaysWithin(15)]),
        (
            91,
            vec![Kind::Within(10), Kind::Always, Kind::AlwaysWithin(15)],
        ),
        (14, vec![Kind::Within(3); 16]),
        (14, vec![Kind::AlwaysWithin(4); 16]),
    ] {
        let what = |facts| format!("F {facts} with {kinds:?}");
        edge(&what(facts), &of_kinds(facts, &kinds), 0)?;
        let over = of_kinds(facts + 1, &kinds);
        edge(&what(facts + 1), &over, refused::TOO_MANY)?;
    }
    let most = of_kinds(128, &[Kind::Within(15); 16]);
    edge("16 of the latest deadlines", &most, refused::TOO_MANY)
}

/// Each kind, those with a deadline having several.
fn kinds_and_deadlines() -> Vec<Kind> {
    let mut kinds = Kind::all(0).to_vec();
    for t in [1, 2, 15] {
        kinds.extend([Kind::Within(t), Kind::AlwaysWithin(t)]);
    }
    kinds
}
