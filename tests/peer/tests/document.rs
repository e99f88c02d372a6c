//! The examples and edges of the specification.

mod common;

use common::*;
use peer::encode::to_bytes;
use peer::*;

const ROOM: usize = 60_008;

#[test]
fn belt_is_accepted_walked_and_settled() {
    let task = belt();
    assert_eq!(task.len(), 98);
    assert_eq!(
        check(&task),
        Ok(Sizes {
            facts: 2,
            actions: 2,
            preferences: 2,
            rows: 18
        })
    );
    assert_eq!(
        walk(&task, &[0]),
        reading(5, Verdict::Solved { cost: 3, met: 0b10 })
    );
    assert_eq!(
        settle(&task, 3, 0b10),
        Ok(Worth {
            metric: 8,
            utility: 4
        })
    );
    assert_eq!(
        report(&task, &[0]),
        "solved steps 1 cost 3\n0 always 5 missed\n1 sometime 7 met\nmetric 8 utility 4\n"
    );
}

#[test]
fn belt_in_bytes() {
    let marks = [9, 8, 3, 5, 1, 2, 6, 7, 1, 2, 6, 7, 10, 3, 5, 11, 3, 4];
    let values = [1, 0, 0, 1, 3, 0, 0, 1, 1, 0, 1, 0, 5, 0, 1, 7, 0, 0];
    let mut bytes = vec![2, 0, 2, 0, 2, 0, 18, 0];
    bytes.extend(marks);
    for value in values {
        bytes.extend([value, 0, 0, 0]);
    }
    assert_eq!(belt(), bytes);
}

#[test]
fn other_lines() {
    let task = belt();
    assert_eq!(report(&task, &[]), "goal missed\n");
    assert_eq!(report(&task, &[0, 1]), "goal missed\n");
    assert_eq!(report(&task, &[0, 2, 3]), "refused 11 1\n");
    assert_eq!(report(&task, &[0; 2_049]), "refused 10 0\n");
    assert_eq!(report(&task[..7], &[0]), "refused 1 0\n");
    let needs = file(1, 1, 0, "GOAL ACTION 2 CLAUSE LACKS 0 EFFECT ADD 0");
    assert_eq!(report(&needs, &[0, 0]), "stopped 1\n");
    assert_eq!(
        report(&needs, &[0]),
        "solved steps 1 cost 2\nmetric 2 utility -2\n"
    );
    assert_eq!(
        report(&needs, &[]),
        "solved steps 0 cost 0\nmetric 0 utility 0\n"
    );
}

/// All kinds in one report.
#[test]
fn names_of_kinds() {
    let task = file(
        1,
        0,
        8,
        "GOAL always 0 sometime 1 at-end 2 at-most-once 3 sometime-before 4 SECOND \
         sometime-after 4294967295 SECOND within 7 STEPS 3 always-within 8 STEPS 15 SECOND",
    );
    assert_eq!(
        report(&task, &[]),
        "solved steps 0 cost 0\n0 always 0 met\n1 sometime 1 met\n2 at-end 2 met\n\
         3 at-most-once 3 met\n4 sometime-before 4 missed\n5 sometime-after 4294967295 met\n\
         6 within 7 met\n7 always-within 8 met\nmetric 4 utility 4294967316\n"
    );
}

#[test]
fn belt_translated() {
    let bytes = translate(&belt(), ROOM).unwrap();
    assert_eq!(bytes.len(), 473);
    assert_eq!(
        check(&bytes),
        Ok(Sizes {
            facts: 10,
            actions: 7,
            preferences: 0,
            rows: 93
        })
    );
    // Facts: S 2, B 3, C 4; S 5, B 6, C 7; normal 8, ended 9.
    let words = "START 1 START 8 \
        GOAL CLAUSE LACKS 1 CLAUSE HOLDS 9 CLAUSE HOLDS 4 CLAUSE HOLDS 7 \
        ACTION 3 CLAUSE HOLDS 8 EFFECT ADD 0 DELETE 1 \
        EFFECT CLAUSE HOLDS 1 ADD 3 EFFECT CLAUSE HOLDS 0 ADD 5 \
        ACTION 1 CLAUSE HOLDS 8 EFFECT ADD 1 DELETE 0 \
        EFFECT CLAUSE HOLDS 1 ADD 3 EFFECT CLAUSE HOLDS 0 ADD 5 \
        ACTION 0 CLAUSE HOLDS 8 EFFECT ADD 9 DELETE 8 \
        EFFECT CLAUSE HOLDS 1 ADD 3 EFFECT CLAUSE HOLDS 0 ADD 5 \
        ACTION 0 CLAUSE HOLDS 9 CLAUSE LACKS 4 CLAUSE LACKS 3 EFFECT ADD 4 \
        ACTION 5 CLAUSE HOLDS 9 CLAUSE LACKS 4 CLAUSE HOLDS 3 EFFECT ADD 4 \
        ACTION 0 CLAUSE HOLDS 9 CLAUSE HOLDS 4 CLAUSE LACKS 7 CLAUSE HOLDS 5 EFFECT ADD 7 \
        ACTION 7 CLAUSE HOLDS 9 CLAUSE HOLDS 4 CLAUSE LACKS 7 CLAUSE LACKS 5 EFFECT ADD 7";
    assert_eq!(bytes, to_bytes([10, 7, 0], &rows(words)));
    let source = decode(&belt()).unwrap();
    assert_eq!(complete(&source, &[0]), [0, 2, 4, 5]);
    assert_eq!(run(&decode(&bytes).unwrap(), &[0, 2, 4, 5]), Some(8));
}

/// The trackers of *end* and the closing actions, one preference of each kind without
/// a deadline.
#[test]
fn trackers_by_kind() {
    let phi = "CLAUSE HOLDS 0 LACKS 1 CLAUSE HOLDS 2";
    let psi = "CLAUSE LACKS 2 HOLDS 1";
    let not_0 = "CLAUSE LACKS 0 CLAUSE HOLDS 1";
    let not_1 = "CLAUSE LACKS 2";
    let not_psi = "CLAUSE HOLDS 2 CLAUSE LACKS 1";
    // Facts: S 3, B 4, C 5, normal 6, ended 7.
    let table = [
        (
            format!("always 9 {phi}"),
            format!("EFFECT {not_0} ADD 4 EFFECT {not_1} ADD 4"),
            "CLAUSE LACKS 4",
            "CLAUSE HOLDS 4",
        ),
        (
            format!("sometime 9 {phi}"),
            format!("EFFECT {phi} ADD 3"),
            "CLAUSE HOLDS 3",
            "CLAUSE LACKS 3",
        ),
        (
            format!("at-end 9 {phi}"),
            format!("EFFECT {phi} ADD 3"),
            "CLAUSE HOLDS 3",
            "CLAUSE LACKS 3",
        ),
        (
            format!("at-most-once 9 {phi}"),
            format!(
                "EFFECT CLAUSE LACKS 3 CLAUSE LACKS 4 {phi} ADD 3 \
                 EFFECT CLAUSE HOLDS 3 {not_0} ADD 4 EFFECT CLAUSE HOLDS 3 {not_1} ADD 4 \
                 EFFECT CLAUSE HOLDS 3 CLAUSE HOLDS 4 {phi} DELETE 3"
            ),
            "CLAUSE HOLDS 3 LACKS 4",
            "CLAUSE LACKS 3 CLAUSE HOLDS 4",
        ),
        (
            format!("sometime-before 9 {phi} SECOND {psi}"),
            format!("EFFECT {psi} ADD 3 EFFECT CLAUSE LACKS 3 {phi} ADD 4"),
            "CLAUSE LACKS 4",
            "CLAUSE HOLDS 4",
        ),
        (
            format!("sometime-after 9 {phi} SECOND {psi} CLAUSE HOLDS 0"),
            format!(
                "EFFECT {phi} {not_psi} ADD 4 EFFECT {phi} CLAUSE LACKS 0 ADD 4 \
                 EFFECT {psi} CLAUSE HOLDS 0 DELETE 4"
            ),
            "CLAUSE LACKS 4",
            "CLAUSE HOLDS 4",
        ),
    ];
    for (preference, trackers, met, missed) in table {
        let source = file(
            3,
            1,
            1,
            &format!("GOAL ACTION 4 CLAUSE HOLDS 0 {preference}"),
        );
        let in_source = if preference.starts_with("at-end") {
            ""
        } else {
            &trackers
        };
        let words = format!(
            "START 6 GOAL CLAUSE HOLDS 7 CLAUSE HOLDS 5 \
             ACTION 4 CLAUSE HOLDS 0 CLAUSE HOLDS 6 {in_source} \
             ACTION 0 CLAUSE HOLDS 6 EFFECT ADD 7 DELETE 6 {trackers} \
             ACTION 0 CLAUSE HOLDS 7 CLAUSE LACKS 5 {met} EFFECT ADD 5 \
             ACTION 9 CLAUSE HOLDS 7 CLAUSE LACKS 5 {missed} EFFECT ADD 5"
        );
        assert_eq!(
            translate(&source, ROOM),
            Ok(to_bytes([8, 4, 0], &rows(&words))),
            "{preference}"
        );
    }
}

/// Whether the one preference of a course is met, T and F by state.
fn outcome(kind: Kind, phi: &str, psi: &str) -> bool {
    let truth = |text: &str| -> Vec<bool> { text.chars().map(|c| c == 'T').collect() };
    let (task, plan) = course(kind, &truth(phi), &truth(psi));
    match walk(&encode(&task), &plan).map(|walked| walked.verdict) {
        Ok(Verdict::Solved { met, .. }) => met == 1,
        other => panic!("{other:?}"),
    }
}

#[test]
fn lettered_examples() {
    assert!(!outcome(Kind::Always, "F", "F"), "a");
    assert!(outcome(Kind::Sometime, "T", "F"), "b");
    assert!(!outcome(Kind::AtEnd, "TF", "FF"), "c");
    assert!(outcome(Kind::AtMostOnce, "TTF", "FFF"), "d");
    assert!(!outcome(Kind::AtMostOnce, "TFT", "FFF"), "e");
    assert!(outcome(Kind::AtMostOnce, "FF", "FF"), "f");
    assert!(!outcome(Kind::SometimeBefore, "TFF", "TFF"), "g");
    assert!(outcome(Kind::SometimeBefore, "FTF", "TFF"), "h");
    assert!(outcome(Kind::SometimeAfter, "FFT", "FFT"), "i");
    assert!(outcome(Kind::SometimeAfter, "TFF", "FTF"), "j");
    let both = file(
        1,
        1,
        0,
        "GOAL CLAUSE HOLDS 0 ACTION 0 EFFECT ADD 0 DELETE 0",
    );
    let solved = Verdict::Solved { cost: 0, met: 0 };
    assert_eq!(walk(&both, &[0]), reading(1, solved), "l");
}

/// Deletes of all effects go out before the adds of any come in.
#[test]
fn adds_win_across_effects() {
    let solved = Verdict::Solved { cost: 0, met: 0 };
    for effects in [
        "EFFECT ADD 0 EFFECT DELETE 0",
        "EFFECT DELETE 0 EFFECT ADD 0",
    ] {
        let task = file(1, 1, 0, &format!("GOAL CLAUSE HOLDS 0 ACTION 0 {effects}"));
        assert_eq!(walk(&task, &[0]), reading(1, solved));
    }
    // The second effect reads the state before, so it doesn't fire.
    let chain = file(
        2,
        1,
        0,
        "GOAL CLAUSE LACKS 1 ACTION EFFECT ADD 0 EFFECT CLAUSE HOLDS 0 ADD 1",
    );
    assert_eq!(walk(&chain, &[0]), reading(2, solved));
}

/// At most one run of φ: no state without φ between two with it.
#[test]
fn at_most_once_over_all_courses() {
    for length in 1..=9usize {
        for bits in 0..1u32 << length {
            let phi: Vec<bool> = (0..length).map(|i| bits >> i & 1 == 1).collect();
            let broken = (0..length).any(|i| {
                (i + 1..length).any(|j| (j + 1..length).any(|l| phi[i] && !phi[j] && phi[l]))
            });
            let (task, plan) = course(Kind::AtMostOnce, &phi, &vec![false; length]);
            let Verdict::Solved { met, .. } = verdict(&task, &plan) else {
                panic!()
            };
            assert_eq!(met == 1, !broken, "{phi:?}");
        }
    }
}

#[test]
fn edges_of_plans() {
    let task = encode(&bare_task(1, 1, 0));
    let solved = Verdict::Solved {
        cost: 2_048,
        met: 0,
    };
    assert_eq!(walk(&task, &[0; 2_048]), reading(0, solved));
    assert_eq!(walk(&task, &[0; 2_049]), refused(10, 0));
    assert_eq!(walk(&task, &[1; 2_049]), refused(10, 0));
    let mut plan = [0; 2_048];
    plan[2_047] = 1;
    assert_eq!(walk(&task, &plan), refused(11, 2_047));
}

#[test]
fn edges_of_translations() {
    let with = |facts, actions, preferences| encode(&bare_task(facts, actions, preferences));
    let sizes = |file: &[u8]| {
        translate(file, ROOM).map(|bytes| {
            let sizes = check(&bytes).unwrap();
            (sizes.facts, sizes.actions)
        })
    };
    assert_eq!(sizes(&with(78, 0, 16)), Ok((128, 33)));
    assert_eq!(sizes(&with(79, 0, 16)), refused(7, 0));
    assert_eq!(sizes(&with(1, 95, 16)), Ok((51, 128)));
    assert_eq!(sizes(&with(1, 96, 16)), refused(7, 0));
    assert_eq!(sizes(&with(126, 127, 0)), Ok((128, 128)));
    assert_eq!(sizes(&with(127, 0, 0)), refused(7, 0));
    assert_eq!(sizes(&with(1, 128, 0)), refused(7, 0));
}

#[test]
fn edges_of_rows() {
    assert_eq!(check(&[1, 0, 0, 0, 0, 0, 0, 0]), refused(4, 0));
    // GOAL and a clause of n literals are n + 2 rows. The translation has 9 more:
    // START, the goal's clause for ended, and the 6 rows of end.
    let long = |literals: usize| {
        let mut task = bare_task(1, 0, 0);
        task.goal = vec![vec![
            Literal {
                holds: true,
                fact: 0
            };
            literals
        ]];
        encode(&task)
    };
    assert_eq!(check(&long(11_998)).map(|sizes| sizes.rows), Ok(12_000));
    assert_eq!(check(&long(11_999)), refused(2, 0));
    let most = translate(&long(11_989), ROOM).unwrap();
    assert_eq!(most.len(), 60_008);
    assert_eq!(translate(&long(11_989), 60_007), refused(9, 0));
    assert_eq!(translate(&long(11_990), ROOM), refused(8, 0));
    assert_eq!(translate(&long(11_990), 0), refused(8, 0));
}

/// A translation of millions of rows is refused without being built.
#[test]
fn far_too_long() {
    let mut task = bare_task(1, 100, 1);
    task.preferences[0].kind = Kind::AtMostOnce;
    task.preferences[0].phi = vec![
        vec![Literal {
            holds: true,
            fact: 0
        }];
        5_900
    ];
    assert_eq!(translate(&encode(&task), ROOM), refused(8, 0));
}

#[test]
fn room_is_needed_to_the_byte() {
    assert_eq!(translate(&belt(), 472), refused(9, 0));
    assert_eq!(translate(&belt(), 473).map(|bytes| bytes.len()), Ok(473));
}
