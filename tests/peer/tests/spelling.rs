//! One spelling of each task: what it is, and which tasks it makes one.

mod common;

use common::*;
use peer::random::{altered, case, respelled, Random, MAX_FILE};
use peer::*;

const ROOM: usize = MAX_FILE;

/// A file of 128 facts with the sizes that its rows have.
fn words(words: &str) -> Vec<u8> {
    let rows = rows(words);
    let opens = |mark: u8| (10..35).contains(&mark) && mark != 16 && mark != 19;
    let actions = rows.iter().filter(|row| row.mark == 1).count() as u16;
    let preferences = rows.iter().filter(|row| opens(row.mark)).count() as u16;
    file(128, actions, preferences, words)
}

fn spells(from: &str, to: &str) {
    assert_eq!(spell(&words(from), ROOM), Ok(words(to)), "{from}");
    assert_eq!(spell(&words(to), ROOM), Ok(words(to)), "{to}");
    let (from, to) = (decode(&words(from)).unwrap(), decode(&words(to)).unwrap());
    assert!(alike(&from, &to) && alike(&to, &from));
}

#[test]
fn literals_of_a_clause() {
    for (from, to) in [
        ("HOLDS 1", "HOLDS 1"),
        ("HOLDS 2 HOLDS 1", "HOLDS 1 HOLDS 2"),
        ("LACKS 2 HOLDS 1", "HOLDS 1 LACKS 2"),
        ("HOLDS 2 LACKS 1", "LACKS 1 HOLDS 2"),
        ("LACKS 1 HOLDS 1", "HOLDS 1 LACKS 1"),
        ("HOLDS 1 HOLDS 1", "HOLDS 1"),
        ("LACKS 1 LACKS 1 LACKS 1", "LACKS 1"),
        ("LACKS 1 HOLDS 1 LACKS 1 HOLDS 1", "HOLDS 1 LACKS 1"),
        (
            "HOLDS 127 LACKS 64 HOLDS 63 HOLDS 0 LACKS 63 HOLDS 127",
            "HOLDS 0 HOLDS 63 LACKS 63 LACKS 64 HOLDS 127",
        ),
    ] {
        for before in [
            "GOAL CLAUSE",
            "GOAL ACTION 7 CLAUSE",
            "GOAL ACTION EFFECT CLAUSE",
            "GOAL always 7 CLAUSE",
            "GOAL hard-sometime-before SECOND CLAUSE",
            "GOAL always-within 7 STEPS 3 SECOND CLAUSE",
        ] {
            spells(&format!("{before} {from}"), &format!("{before} {to}"));
        }
    }
}

#[test]
fn facts_of_an_effect() {
    for (from, to) in [
        ("", ""),
        ("ADD 2 ADD 1", "ADD 1 ADD 2"),
        ("DELETE 2 DELETE 1", "DELETE 1 DELETE 2"),
        ("ADD 1 ADD 1 DELETE 1 DELETE 1", "ADD 1 DELETE 1"),
        (
            "ADD 3 DELETE 2 DELETE 3 DELETE 0",
            "ADD 3 DELETE 0 DELETE 2 DELETE 3",
        ),
        ("ADD 127 ADD 64 ADD 63 ADD 127", "ADD 63 ADD 64 ADD 127"),
    ] {
        let effect = |facts| format!("GOAL ACTION 1 EFFECT CLAUSE HOLDS 5 {facts} EFFECT ADD 2");
        spells(&effect(from), &effect(to));
    }
}

/// Clauses, effects, actions, preferences and START rows stay, repeated ones too.
#[test]
fn what_keeps_its_order() {
    for same in [
        "START 1 START 3 GOAL",
        "GOAL CLAUSE HOLDS 2 CLAUSE HOLDS 1 CLAUSE HOLDS 2",
        "GOAL CLAUSE LACKS 1 CLAUSE HOLDS 1",
        "GOAL ACTION EFFECT ADD 2 EFFECT ADD 1 EFFECT ADD 2 EFFECT DELETE 1",
        "GOAL ACTION 2 ACTION 1 ACTION 2",
        "GOAL sometime 2 always 1 sometime 2 hard-always",
        "GOAL sometime-before 1 CLAUSE HOLDS 2 SECOND CLAUSE HOLDS 1",
    ] {
        spells(same, same);
    }
}

#[test]
fn tasks_that_are_not_alike() {
    let all = [
        "GOAL",
        "START 1 GOAL",
        "GOAL CLAUSE HOLDS 1",
        "GOAL CLAUSE LACKS 1",
        "GOAL CLAUSE HOLDS 1 LACKS 1",
        "GOAL CLAUSE HOLDS 1 CLAUSE LACKS 1",
        "GOAL CLAUSE LACKS 1 CLAUSE HOLDS 1",
        "GOAL CLAUSE HOLDS 1 CLAUSE HOLDS 1",
        "GOAL CLAUSE HOLDS 2",
        "GOAL ACTION",
        "GOAL ACTION 1",
        "GOAL ACTION EFFECT",
        "GOAL ACTION EFFECT EFFECT",
        "GOAL ACTION EFFECT ADD 1",
        "GOAL ACTION EFFECT DELETE 1",
        "GOAL ACTION EFFECT ADD 1 DELETE 1",
        "GOAL ACTION EFFECT ADD 1 EFFECT DELETE 1",
        "GOAL always CLAUSE HOLDS 1",
        "GOAL hard-always CLAUSE HOLDS 1",
        "GOAL sometime-before CLAUSE HOLDS 1 SECOND",
        "GOAL sometime-before SECOND CLAUSE HOLDS 1",
        "GOAL within STEPS 1",
        "GOAL within STEPS 2",
    ];
    for a in all {
        for b in all {
            let (one, other) = (decode(&words(a)).unwrap(), decode(&words(b)).unwrap());
            assert_eq!(alike(&one, &other), a == b, "{a} and {b}");
            let equal = spell(&words(a), ROOM) == spell(&words(b), ROOM);
            assert_eq!(equal, a == b, "{a} and {b}");
        }
    }
    let facts = |count| file(count, 0, 0, "GOAL");
    assert!(spell(&facts(3), ROOM) != spell(&facts(4), ROOM));
}

#[test]
fn refusals() {
    for (task, number, place) in [
        (vec![], 1, 0),
        (file(0, 0, 0, "GOAL"), 2, 0),
        ([belt(), vec![0]].concat(), 3, 0),
        (file(4, 0, 0, "GOAL CLAUSE"), 4, 2),
        (file(4, 0, 0, "GOAL CLAUSE HOLDS 4"), 5, 2),
        (file(4, 1, 0, "GOAL"), 6, 1),
    ] {
        assert_eq!(spell(&task, ROOM), refused(number, place));
        assert_eq!(spell(&task, 0), refused(number, place));
    }
    // 9 is over the new length: 18 rows of the old ones, 3 of the new.
    let repeated = words(&format!("GOAL CLAUSE {}", "HOLDS 1 ".repeat(16)));
    assert_eq!(spell(&repeated, 22), refused(9, 0));
    assert_eq!(spell(&repeated, 23), Ok(words("GOAL CLAUSE HOLDS 1")));
    assert_eq!(spell(&belt(), 97), refused(9, 0));
    assert_eq!(spell(&belt(), 98), Ok(belt()));
}

/// Spelled twice is spelled once; other orders and repeats give the same bytes; one
/// row changed gives the same bytes just where the tasks are alike; plans are judged
/// alike.
#[test]
fn random_cases() {
    let (mut one, mut another, mut solved) = (0, 0, 0);
    for seed in 0..6_000 {
        let case = case(seed);
        let Ok(task) = decode(&case.file) else {
            continue;
        };
        let r = &mut Random::new(seed);
        let bytes = spell(&case.file, ROOM).unwrap();
        assert_eq!(spell(&bytes, ROOM), Ok(bytes.clone()), "seed {seed}");
        assert!(alike(&task, &decode(&bytes).unwrap()), "seed {seed}");
        let other = encode(&respelled(r, &task));
        assert_eq!(spell(&other, ROOM), Ok(bytes.clone()), "seed {seed}");
        let changed = altered(r, &task);
        if let Ok(tree) = decode(&changed) {
            let equal = spell(&changed, ROOM) == Ok(bytes.clone());
            assert_eq!(equal, alike(&task, &tree), "seed {seed}");
            *(if equal { &mut one } else { &mut another }) += 1;
        }
        let judged = |file| walk(file, &case.plan).map(|walked| walked.verdict);
        assert_eq!(judged(&case.file), judged(&bytes), "seed {seed}");
        solved += u32::from(matches!(judged(&bytes), Ok(Verdict::Solved { .. })));
    }
    let came = (one, another, solved);
    assert!(one > 300 && another > 300 && solved > 1_000, "{came:?}");
}
