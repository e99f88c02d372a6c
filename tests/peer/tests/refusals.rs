//! Refusals 1 to 6, their places and their order.

mod common;

use common::*;
use peer::*;

fn answer(facts: u16, actions: u16, preferences: u16, words: &str) -> Result<(), Refusal> {
    check(&file(facts, actions, preferences, words)).map(|_| ())
}

/// Each of these rows, with its facts, actions and preferences, is refused with this number at this place.
fn all_refused(number: u8, cases: &[([u16; 3], &str, u16)]) {
    for &([facts, actions, preferences], words, place) in cases {
        assert_eq!(
            answer(facts, actions, preferences, words),
            refused(number, place),
            "{words}"
        );
    }
}

#[test]
fn one_to_three() {
    let belt = belt();
    for length in 0..8 {
        assert_eq!(check(&belt[..length]), refused(1, 0));
    }
    // 1 before 2: too short, whatever the sizes.
    assert_eq!(check(&[0; 7]), refused(1, 0));
    for length in 8..98 {
        assert_eq!(check(&belt[..length]), refused(3, 0));
    }
    assert_eq!(check(&[belt.clone(), vec![0]].concat()), refused(3, 0));
    // 2 before 3, each size by itself.
    for (at, size) in [
        (0, 0u16),
        (0, 129),
        (0, 256),
        (2, 129),
        (4, 17),
        (6, 12_001),
        (6, 65_535),
    ] {
        let mut file = belt.clone();
        file[at..at + 2].copy_from_slice(&size.to_le_bytes());
        assert_eq!(check(&file), refused(2, 0));
        assert_eq!(check(&file[..20]), refused(2, 0));
    }
    let mut file = belt.clone();
    file[6] = 17;
    assert_eq!(check(&file), refused(3, 0));
}

#[test]
fn accepted_without() {
    assert_eq!(answer(1, 0, 0, "GOAL"), Ok(()));
    assert_eq!(
        answer(128, 1, 0, "START 0 START 127 GOAL ACTION 4294967295"),
        Ok(())
    );
    assert_eq!(
        answer(
            1,
            1,
            0,
            "GOAL ACTION EFFECT EFFECT DELETE 0 EFFECT ADD 0 ADD 0"
        ),
        Ok(())
    );
    assert_eq!(
        answer(1, 0, 2, "GOAL sometime-after SECOND always 4294967295"),
        Ok(())
    );
    assert_eq!(answer(1, 0, 1, "GOAL within 4294967295 STEPS 15"), Ok(()));
    assert_eq!(
        answer(1, 0, 2, "GOAL always-within STEPS SECOND within STEPS 0"),
        Ok(())
    );
    assert_eq!(
        answer(
            1,
            0,
            0,
            "GOAL CLAUSE HOLDS 0 HOLDS 0 LACKS 0 CLAUSE HOLDS 0"
        ),
        Ok(())
    );
}

#[test]
fn rows_end_inside_a_task() {
    all_refused(
        4,
        &[
            ([1, 0, 0], "", 0),
            ([1, 0, 0], "START 0", 1),
            ([1, 0, 0], "GOAL CLAUSE", 2),
            ([1, 1, 0], "GOAL ACTION CLAUSE", 3),
            ([1, 1, 0], "GOAL ACTION EFFECT CLAUSE", 4),
            ([1, 0, 1], "GOAL always CLAUSE", 3),
            ([1, 0, 1], "GOAL sometime-before", 2),
            ([1, 0, 1], "GOAL sometime-after CLAUSE LACKS 0", 4),
            ([1, 0, 1], "GOAL sometime-after SECOND CLAUSE", 4),
            ([1, 0, 1], "GOAL within", 2),
            ([1, 0, 1], "GOAL within STEPS CLAUSE", 4),
            ([1, 0, 1], "GOAL always-within", 2),
            ([1, 0, 1], "GOAL always-within STEPS 15", 3),
            ([1, 0, 1], "GOAL always-within STEPS CLAUSE HOLDS 0", 5),
            ([1, 0, 1], "GOAL always-within STEPS SECOND CLAUSE", 5),
        ],
    );
}

/// The kinds, and the rows that each has besides.
const KINDS: [(&str, &str); 8] = [
    ("always", ""),
    ("sometime", ""),
    ("at-end", ""),
    ("at-most-once", ""),
    ("sometime-before", "SECOND"),
    ("sometime-after", "SECOND"),
    ("within", "STEPS 15"),
    ("always-within", "STEPS 15 SECOND"),
];

/// All nineteen marks, none, and two that don't exist, behind every kind of beginning.
#[test]
fn marks_that_may_come() {
    let marks = [
        "M0",
        "ACTION",
        "EFFECT",
        "CLAUSE",
        "HOLDS",
        "LACKS",
        "ADD",
        "DELETE",
        "GOAL",
        "START",
        "always",
        "sometime",
        "at-end",
        "at-most-once",
        "sometime-before",
        "sometime-after",
        "SECOND",
        "within",
        "always-within",
        "STEPS",
        "M20",
        "M255",
    ];
    let kinds = KINDS.map(|(kind, _)| kind);
    let table = [
        ("", "START GOAL"),
        ("START 0", "START GOAL"),
        ("GOAL", "CLAUSE ACTION kinds"),
        ("GOAL CLAUSE", "HOLDS LACKS"),
        ("GOAL CLAUSE HOLDS 0", "HOLDS LACKS CLAUSE ACTION kinds"),
        ("GOAL ACTION", "CLAUSE EFFECT ACTION kinds"),
        ("GOAL ACTION CLAUSE", "HOLDS LACKS"),
        (
            "GOAL ACTION CLAUSE LACKS",
            "HOLDS LACKS CLAUSE EFFECT ACTION kinds",
        ),
        (
            "GOAL ACTION EFFECT",
            "CLAUSE ADD DELETE EFFECT ACTION kinds",
        ),
        ("GOAL ACTION EFFECT CLAUSE", "HOLDS LACKS"),
        (
            "GOAL ACTION EFFECT CLAUSE HOLDS",
            "HOLDS LACKS CLAUSE ADD DELETE EFFECT ACTION kinds",
        ),
        ("GOAL ACTION EFFECT ADD", "ADD DELETE EFFECT ACTION kinds"),
        ("GOAL ACTION EFFECT DELETE", "DELETE EFFECT ACTION kinds"),
        (
            "GOAL ACTION EFFECT ADD DELETE",
            "DELETE EFFECT ACTION kinds",
        ),
        ("GOAL always", "CLAUSE kinds"),
        ("GOAL sometime CLAUSE", "HOLDS LACKS"),
        ("GOAL at-end CLAUSE LACKS", "HOLDS LACKS CLAUSE kinds"),
        ("GOAL at-most-once", "CLAUSE kinds"),
        ("GOAL sometime-before", "CLAUSE SECOND"),
        ("GOAL sometime-after CLAUSE", "HOLDS LACKS"),
        (
            "GOAL sometime-before CLAUSE HOLDS",
            "HOLDS LACKS CLAUSE SECOND",
        ),
        ("GOAL sometime-after SECOND", "CLAUSE kinds"),
        ("GOAL sometime-after SECOND CLAUSE", "HOLDS LACKS"),
        (
            "GOAL sometime-before SECOND CLAUSE HOLDS",
            "HOLDS LACKS CLAUSE kinds",
        ),
        ("GOAL within", "STEPS"),
        ("GOAL always-within", "STEPS"),
        ("GOAL within STEPS", "CLAUSE kinds"),
        ("GOAL within STEPS CLAUSE", "HOLDS LACKS"),
        (
            "GOAL within STEPS 15 CLAUSE HOLDS",
            "HOLDS LACKS CLAUSE kinds",
        ),
        ("GOAL always-within STEPS", "CLAUSE SECOND"),
        ("GOAL always-within STEPS 15 CLAUSE", "HOLDS LACKS"),
        (
            "GOAL always-within STEPS CLAUSE LACKS",
            "HOLDS LACKS CLAUSE SECOND",
        ),
        ("GOAL always-within STEPS SECOND", "CLAUSE kinds"),
        ("GOAL always-within STEPS SECOND CLAUSE", "HOLDS LACKS"),
        (
            "GOAL always-within STEPS SECOND CLAUSE HOLDS",
            "HOLDS LACKS CLAUSE kinds",
        ),
    ];
    for (beginning, may) in table {
        let may = may.replace("kinds", &kinds.join(" "));
        let row = rows(beginning).len() as u16;
        for mark in marks {
            let words = format!("{beginning} {mark} 4294967295");
            let got = answer(1, 0, 0, &words);
            let may_come = may.split(' ').any(|word| word == mark);
            let is_amount = mark == "ACTION" || kinds.contains(&mark);
            match (may_come, is_amount) {
                (false, _) => assert_eq!(got, refused(4, row), "{words}"),
                // The value is wrong: 5 on this row says the mark may come.
                (true, false) => assert_eq!(got, refused(5, row), "{words}"),
                // No cost or weight is wrong: what is refused comes after this row, an end or a count.
                (true, true) => {
                    let place = got.map_err(|refusal| refusal.place);
                    assert_eq!(place, Err(row + 1), "{words}");
                }
            }
        }
    }
}

#[test]
fn values() {
    all_refused(
        5,
        &[
            ([3, 0, 0], "START 3 GOAL", 0),
            ([3, 0, 0], "START 1 START 1 GOAL", 1),
            ([3, 0, 0], "START 2 START 1 GOAL", 1),
            ([3, 0, 0], "GOAL 1", 0),
            ([3, 0, 0], "GOAL CLAUSE 1 HOLDS 0", 1),
            ([3, 0, 0], "GOAL CLAUSE HOLDS 2 LACKS 3", 3),
            ([3, 1, 0], "GOAL ACTION EFFECT 1", 2),
            ([3, 1, 0], "GOAL ACTION EFFECT ADD 3", 3),
            ([3, 1, 0], "GOAL ACTION EFFECT ADD 2 DELETE 4294967295", 4),
            ([3, 0, 1], "GOAL hard-always 1", 1),
            ([3, 0, 1], "GOAL sometime-after SECOND 1", 2),
            ([3, 0, 1], "GOAL hard-within 1000001", 1),
            ([3, 0, 1], "GOAL hard-always-within 4294967295", 1),
            ([3, 0, 1], "GOAL within STEPS 16", 2),
            ([3, 0, 1], "GOAL always-within STEPS 16", 2),
            ([3, 0, 1], "GOAL within STEPS 4294967295", 2),
            ([3, 0, 1], "GOAL always-within STEPS 256 SECOND", 2),
            ([3, 0, 1], "GOAL always-within STEPS SECOND 1", 3),
            ([3, 0, 1], "GOAL within STEPS CLAUSE HOLDS 3", 4),
            ([3, 0, 0], "START 256 GOAL", 0),
            ([3, 0, 0], "START 16777216 GOAL", 0),
        ],
    );
}

/// A cost and the weight of a soft rule may be any number of 32 bits; a hard rule's weight is 0.
#[test]
fn amounts() {
    for amount in [
        0,
        1,
        1_000_000,
        1_000_001,
        1 << 24,
        1 << 31,
        u32::MAX - 1,
        u32::MAX,
    ] {
        assert_eq!(answer(1, 1, 0, &format!("GOAL ACTION {amount}")), Ok(()));
        for (kind, rest) in KINDS {
            let words = format!("{kind} {amount} {rest}");
            assert_eq!(answer(1, 0, 1, &format!("GOAL {words}")), Ok(()), "{words}");
            let hard = answer(1, 0, 1, &format!("GOAL hard-{words}"));
            let expected = if amount == 0 { Ok(()) } else { refused(5, 1) };
            assert_eq!(hard, expected, "hard-{words}");
        }
    }
}

#[test]
fn counts() {
    assert_eq!(answer(1, 1, 0, "GOAL"), refused(6, 1));
    assert_eq!(answer(1, 0, 0, "GOAL ACTION"), refused(6, 2));
    assert_eq!(answer(1, 0, 1, "GOAL"), refused(6, 1));
    assert_eq!(answer(1, 0, 0, "GOAL always"), refused(6, 2));
    assert_eq!(answer(1, 0, 0, "GOAL within STEPS"), refused(6, 3));
    assert_eq!(
        answer(1, 0, 2, "GOAL always-within STEPS SECOND"),
        refused(6, 4)
    );
    let many = "ACTION ".repeat(200);
    assert_eq!(answer(1, 128, 0, &format!("GOAL {many}")), refused(6, 201));
}

#[test]
fn first_faulty_row_decides() {
    // 5 on an earlier row, then 4; and the other way round.
    assert_eq!(answer(1, 0, 0, "GOAL 1 M0"), refused(5, 0));
    assert_eq!(answer(1, 0, 0, "GOAL HOLDS 9 GOAL 1"), refused(4, 1));
    // 4 before 5 on one row.
    assert_eq!(answer(1, 0, 0, "GOAL GOAL 1"), refused(4, 1));
    // Counts come after all rows and after their end.
    assert_eq!(answer(1, 0, 0, "GOAL ACTION ACTION M20"), refused(4, 3));
    assert_eq!(answer(1, 0, 0, "GOAL ACTION CLAUSE HOLDS 1"), refused(5, 3));
    assert_eq!(answer(1, 0, 0, "GOAL ACTION CLAUSE"), refused(4, 3));
}

/// Walk, settle and translate give a task's own refusal first.
#[test]
fn task_before_plan_and_translation() {
    let broken = file(127, 0, 0, "GOAL ACTION");
    assert_eq!(walk(&broken, &[9; 3_000]), refused(6, 2));
    assert_eq!(settle(&broken, u64::MAX, u64::MAX), refused(6, 2));
    assert_eq!(translate(&broken, 0), refused(6, 2));
    let wide = file(127, 0, 0, "GOAL");
    assert_eq!(translate(&wide, 0), refused(7, 0));
    // An unknown step wins over one that doesn't apply before it.
    let stops = file(1, 1, 0, "GOAL ACTION CLAUSE HOLDS 0");
    assert_eq!(walk(&stops, &[0, 0, 1]), refused(11, 2));
    assert_eq!(walk(&stops, &[0, 0, 0]), reading(1, Verdict::Stopped(0)));
}
