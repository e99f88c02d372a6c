//! Deadlines in steps: the rows of within and always-within, what they mean, and
//! their trackers row by row.

mod common;

use common::*;
use peer::encode::to_bytes;
use peer::*;

const ROOM: usize = 60_008;

/// Whether the one preference of a course is met; T and F by state.
fn outcome(kind: Kind, phi: &str, psi: &str) -> bool {
    let truth = |text: &str| -> Vec<bool> { text.chars().map(|c| c == 'T').collect() };
    let (task, plan) = course(kind, &truth(phi), &truth(psi));
    match walk(&encode(&task), &plan).map(|walked| walked.verdict) {
        Ok(Verdict::Solved { met, .. }) => met == 1,
        other => panic!("{other:?}"),
    }
}

/// A course of so many states, true in these.
fn only(states: usize, when: &[usize]) -> String {
    let letter = |i| if when.contains(&i) { 'T' } else { 'F' };
    (0..states).map(letter).collect()
}

#[test]
fn in_bytes() {
    let marks = [8, 17, 19, 3, 4, 18, 19, 16, 3, 5];
    let values = [0, 7, 15, 0, 1, 9, 2, 0, 0, 0];
    let mut bytes = vec![2, 0, 0, 0, 2, 0, 10, 0];
    bytes.extend(marks);
    for value in values {
        bytes.extend([value, 0, 0, 0]);
    }
    let words = "GOAL within 7 STEPS 15 CLAUSE HOLDS 1 \
                 always-within 9 STEPS 2 SECOND CLAUSE LACKS 0";
    assert_eq!(file(2, 0, 2, words), bytes);
    let task = decode(&bytes).unwrap();
    let kinds: Vec<Kind> = task.preferences.iter().map(|p| p.kind).collect();
    assert_eq!(kinds, [Kind::Within(15), Kind::AlwaysWithin(2)]);
    assert_eq!(encode(&task), bytes);
}

#[test]
fn values_of_steps() {
    let accepted = |words: &str| check(&file(1, 0, 1, words)).map(|sizes| sizes.rows);
    for t in 0..=15 {
        assert_eq!(accepted(&format!("GOAL within 1 STEPS {t}")), Ok(3));
        assert_eq!(
            accepted(&format!("GOAL always-within 1 STEPS {t} SECOND")),
            Ok(4)
        );
    }
    for t in ["16", "17", "31", "255", "256", "65536", "4294967295"] {
        assert_eq!(accepted(&format!("GOAL within 1 STEPS {t}")), refused(5, 2));
        assert_eq!(
            accepted(&format!("GOAL always-within 1 STEPS {t} SECOND")),
            refused(5, 2)
        );
    }
}

/// STEPS stands directly behind the opening row, once, and behind no other kind's;
/// within has no SECOND.
#[test]
fn places_of_steps() {
    for (words, row) in [
        ("GOAL within CLAUSE HOLDS 0 STEPS 1", 2),
        ("GOAL within SECOND", 2),
        ("GOAL within STEPS 1 STEPS 1", 3),
        ("GOAL within STEPS 1 CLAUSE HOLDS 0 STEPS 1", 5),
        ("GOAL within STEPS 1 SECOND", 3),
        ("GOAL within STEPS 1 CLAUSE HOLDS 0 SECOND", 5),
        ("GOAL always-within SECOND STEPS 1", 2),
        ("GOAL always-within STEPS 1 SECOND STEPS 1", 4),
        ("GOAL always-within STEPS 1 SECOND SECOND", 4),
        ("GOAL always-within STEPS 1 always", 3),
        ("GOAL always STEPS 1", 2),
        ("GOAL sometime-after STEPS 1 SECOND", 2),
        ("GOAL sometime-after SECOND STEPS 1", 3),
        ("STEPS 1 GOAL", 0),
        ("GOAL STEPS 1", 1),
        ("GOAL ACTION STEPS 1", 2),
        // 4 before 5 on one row.
        ("GOAL always STEPS 16", 2),
        ("GOAL within CLAUSE 1", 2),
    ] {
        assert_eq!(check(&file(1, 0, 1, words)), refused(4, row), "{words}");
    }
}

#[test]
fn lines_of_the_report() {
    let task = file(
        1,
        1,
        4,
        "GOAL ACTION 3 EFFECT ADD 0 always 5 within 6 STEPS 0 CLAUSE HOLDS 0 \
         within 7 STEPS 1 CLAUSE HOLDS 0 always-within 8 STEPS 1 SECOND CLAUSE HOLDS 0",
    );
    assert_eq!(
        report(&task, &[0]),
        "solved steps 1 cost 3\n0 always 5 met\n1 within 6 missed\n2 within 7 met\n\
         3 always-within 8 met\nmetric 9 utility 17\n"
    );
}

#[test]
fn within() {
    for (t, phi, met) in [
        (0, "T", true),
        (0, "F", false),
        (0, "TF", true),
        (0, "FT", false),
        (1, "FT", true),
        (1, "FFT", false),
        (2, "FFT", true),
        // A plan may end before the deadline.
        (15, "F", false),
        (15, "FFT", true),
        (15, "FFF", false),
    ] {
        let psi = phi.replace('T', "F");
        assert_eq!(outcome(Kind::Within(t), phi, &psi), met, "{t} {phi}");
    }
    let never = only(40, &[]);
    for state in 0..40 {
        for t in 0..=15 {
            let phi = only(40, &[state]);
            assert_eq!(
                outcome(Kind::Within(t), &phi, &never),
                state <= t,
                "{t} {state}"
            );
        }
    }
}

#[test]
fn always_within() {
    for (t, phi, psi, met) in [
        (0, "F", "F", true),
        (0, "T", "F", false),
        (0, "T", "T", true),
        (0, "TF", "FT", false),
        (0, "TT", "TF", false),
        (1, "TF", "FT", true),
        (1, "TFF", "FFT", false),
        (2, "TFF", "FFT", true),
        // ψ before φ is of no use.
        (3, "FTF", "TFF", false),
        // Still open in the last state.
        (3, "FT", "TF", false),
        (15, "T", "F", false),
        (15, "TFF", "FFF", false),
        // One ψ for two states with φ, in time for both, and for the second alone.
        (2, "TTF", "FFT", true),
        (1, "TTF", "FFT", false),
        // Missed stays missed.
        (1, "TFFFF", "FFTTT", false),
        (0, "TFFF", "FTTT", false),
        // Met, and open again.
        (1, "TFTF", "FTFF", false),
        (1, "TFTF", "FTFT", true),
        (2, "TTTTT", "FFTFT", true),
        (1, "TTTTT", "FFTFT", false),
    ] {
        assert_eq!(
            outcome(Kind::AlwaysWithin(t), phi, psi),
            met,
            "{t} {phi} {psi}"
        );
    }
    for distance in 0..=20 {
        for t in 0..=15 {
            let (phi, psi) = (only(30, &[5]), only(30, &[5 + distance]));
            assert_eq!(
                outcome(Kind::AlwaysWithin(t), &phi, &psi),
                distance <= t,
                "{t} {distance}"
            );
        }
    }
}

/// With a deadline behind the last state, within is sometime and always-within is
/// sometime-after.
#[test]
fn late_deadlines() {
    for length in 1..=6usize {
        for bits in 0..1u32 << (2 * length) {
            let text = |first: usize| -> String {
                let letter = |i| if bits >> i & 1 == 1 { 'T' } else { 'F' };
                (first..first + length).map(letter).collect()
            };
            let (phi, psi) = (text(0), text(length));
            let same = |one, other| outcome(one, &phi, &psi) == outcome(other, &phi, &psi);
            for t in [length - 1, length, 15] {
                assert!(same(Kind::Within(t), Kind::Sometime), "{phi}");
                assert!(
                    same(Kind::AlwaysWithin(t), Kind::SometimeAfter),
                    "{phi} {psi}"
                );
            }
        }
    }
}

/// The translation of a task with one action and one preference, written out.
#[test]
fn trackers_by_kind() {
    let phi = "CLAUSE HOLDS 0 LACKS 1 CLAUSE HOLDS 2";
    let psi = "CLAUSE LACKS 2 HOLDS 1 CLAUSE HOLDS 0";
    let not_0 = "CLAUSE HOLDS 2 CLAUSE LACKS 1";
    let not_1 = "CLAUSE LACKS 0";
    // Facts: S 3, B 4, C 5, normal 6, ended 7, D1 8, D2 9, D3 10.
    let (holds_s, lacks_s) = ("CLAUSE HOLDS 3", "CLAUSE LACKS 3");
    let (holds_b, lacks_b) = ("CLAUSE HOLDS 4", "CLAUSE LACKS 4");
    let table = [
        (
            9,
            format!("within 9 STEPS 0 {phi}"),
            format!("EFFECT ADD 8 EFFECT CLAUSE LACKS 8 {phi} ADD 3"),
            holds_s,
            lacks_s,
        ),
        (
            10,
            format!("within 9 STEPS 1 {phi}"),
            format!(
                "EFFECT ADD 8 EFFECT CLAUSE HOLDS 8 ADD 9 \
                 EFFECT CLAUSE LACKS 9 {phi} ADD 3"
            ),
            holds_s,
            lacks_s,
        ),
        (
            11,
            "within 9 STEPS 2".to_string(),
            "EFFECT ADD 8 EFFECT CLAUSE HOLDS 8 ADD 9 EFFECT CLAUSE HOLDS 9 ADD 10 \
             EFFECT CLAUSE LACKS 10 ADD 3"
                .to_string(),
            holds_s,
            lacks_s,
        ),
        (
            8,
            format!("always-within 9 STEPS 0 {phi} SECOND {psi}"),
            format!(
                "EFFECT {phi} {not_0} ADD 4 ADD 3 EFFECT {phi} {not_1} ADD 4 ADD 3 \
                 EFFECT {lacks_s} {psi} DELETE 4"
            ),
            lacks_b,
            holds_b,
        ),
        (
            9,
            format!("always-within 9 STEPS 1 {phi} SECOND {psi}"),
            format!(
                "EFFECT {phi} {not_0} ADD 4 ADD 8 EFFECT {phi} {not_1} ADD 4 ADD 8 \
                 EFFECT CLAUSE HOLDS 8 {not_0} ADD 3 EFFECT CLAUSE HOLDS 8 {not_1} ADD 3 \
                 EFFECT {lacks_s} {psi} DELETE 4 DELETE 8"
            ),
            lacks_b,
            holds_b,
        ),
        (
            11,
            format!("always-within 9 STEPS 3 SECOND {psi}"),
            format!(
                "EFFECT {not_0} ADD 4 ADD 8 EFFECT {not_1} ADD 4 ADD 8 \
                 EFFECT CLAUSE HOLDS 8 {not_0} ADD 9 EFFECT CLAUSE HOLDS 8 {not_1} ADD 9 \
                 EFFECT CLAUSE HOLDS 9 {not_0} ADD 10 EFFECT CLAUSE HOLDS 9 {not_1} ADD 10 \
                 EFFECT CLAUSE HOLDS 10 {not_0} ADD 3 EFFECT CLAUSE HOLDS 10 {not_1} ADD 3 \
                 EFFECT {lacks_s} {psi} DELETE 4 DELETE 8 DELETE 9 DELETE 10"
            ),
            lacks_b,
            holds_b,
        ),
        (
            10,
            format!("always-within 9 STEPS 2 {phi} SECOND"),
            format!("EFFECT {lacks_s} DELETE 4 DELETE 8 DELETE 9"),
            lacks_b,
            holds_b,
        ),
    ];
    for (facts, preference, trackers, met, missed) in table {
        let source = file(
            3,
            1,
            1,
            &format!("GOAL ACTION 4 CLAUSE HOLDS 0 {preference}"),
        );
        let words = format!(
            "START 6 GOAL CLAUSE HOLDS 7 CLAUSE HOLDS 5 \
             ACTION 4 CLAUSE HOLDS 0 CLAUSE HOLDS 6 {trackers} \
             ACTION 0 CLAUSE HOLDS 6 EFFECT ADD 7 DELETE 6 {trackers} \
             ACTION 0 CLAUSE HOLDS 7 CLAUSE LACKS 5 {met} EFFECT ADD 5 \
             ACTION 9 CLAUSE HOLDS 7 CLAUSE LACKS 5 {missed} EFFECT ADD 5"
        );
        assert_eq!(
            translate(&source, ROOM),
            Ok(to_bytes([facts, 4, 0], &rows(&words))),
            "{preference}"
        );
    }
}

/// The facts D of each preference stand behind those of the one before.
#[test]
fn facts_of_several_preferences() {
    let source = file(
        1,
        0,
        5,
        "GOAL within 1 STEPS 1 always 2 always-within 3 STEPS 2 SECOND CLAUSE HOLDS 0 \
         always-within 4 STEPS 0 SECOND CLAUSE HOLDS 0 within 5 STEPS 0",
    );
    // Facts: S 1 4 7 10 13, B 2 5 8 11 14, C 3 6 9 12 15, normal 16, ended 17; D 18 19, none,
    // 20 21, none, 22.
    let words = "START 16 GOAL CLAUSE HOLDS 17 CLAUSE HOLDS 3 CLAUSE HOLDS 6 CLAUSE HOLDS 9 \
        CLAUSE HOLDS 12 CLAUSE HOLDS 15 \
        ACTION 0 CLAUSE HOLDS 16 EFFECT ADD 17 DELETE 16 \
        EFFECT ADD 18 EFFECT CLAUSE HOLDS 18 ADD 19 EFFECT CLAUSE LACKS 19 ADD 1 \
        EFFECT CLAUSE LACKS 0 ADD 8 ADD 20 EFFECT CLAUSE HOLDS 20 CLAUSE LACKS 0 ADD 21 \
        EFFECT CLAUSE HOLDS 21 CLAUSE LACKS 0 ADD 7 \
        EFFECT CLAUSE LACKS 7 CLAUSE HOLDS 0 DELETE 8 DELETE 20 DELETE 21 \
        EFFECT CLAUSE LACKS 0 ADD 11 ADD 10 EFFECT CLAUSE LACKS 10 CLAUSE HOLDS 0 DELETE 11 \
        EFFECT ADD 22 EFFECT CLAUSE LACKS 22 ADD 13 \
        ACTION 0 CLAUSE HOLDS 17 CLAUSE LACKS 3 CLAUSE HOLDS 1 EFFECT ADD 3 \
        ACTION 1 CLAUSE HOLDS 17 CLAUSE LACKS 3 CLAUSE LACKS 1 EFFECT ADD 3 \
        ACTION 0 CLAUSE HOLDS 17 CLAUSE HOLDS 3 CLAUSE LACKS 6 CLAUSE LACKS 5 EFFECT ADD 6 \
        ACTION 2 CLAUSE HOLDS 17 CLAUSE HOLDS 3 CLAUSE LACKS 6 CLAUSE HOLDS 5 EFFECT ADD 6 \
        ACTION 0 CLAUSE HOLDS 17 CLAUSE HOLDS 6 CLAUSE LACKS 9 CLAUSE LACKS 8 EFFECT ADD 9 \
        ACTION 3 CLAUSE HOLDS 17 CLAUSE HOLDS 6 CLAUSE LACKS 9 CLAUSE HOLDS 8 EFFECT ADD 9 \
        ACTION 0 CLAUSE HOLDS 17 CLAUSE HOLDS 9 CLAUSE LACKS 12 CLAUSE LACKS 11 EFFECT ADD 12 \
        ACTION 4 CLAUSE HOLDS 17 CLAUSE HOLDS 9 CLAUSE LACKS 12 CLAUSE HOLDS 11 EFFECT ADD 12 \
        ACTION 0 CLAUSE HOLDS 17 CLAUSE HOLDS 12 CLAUSE LACKS 15 CLAUSE HOLDS 13 EFFECT ADD 15 \
        ACTION 5 CLAUSE HOLDS 17 CLAUSE HOLDS 12 CLAUSE LACKS 15 CLAUSE LACKS 13 EFFECT ADD 15";
    assert_eq!(
        translate(&source, ROOM),
        Ok(to_bytes([23, 11, 0], &rows(words)))
    );
}

/// A task of so many facts without actions, and preferences of these kinds.
fn ruled(facts: usize, kinds: &[Kind]) -> Task {
    let mut task = bare_task(facts, 0, kinds.len());
    for (preference, &kind) in task.preferences.iter_mut().zip(kinds) {
        preference.kind = kind;
    }
    task
}

/// Cause 7 counts the facts D too.
#[test]
fn most_facts() {
    let facts = |most: usize, kinds: &[Kind]| {
        let fits = translate(&encode(&ruled(most, kinds)), ROOM).unwrap();
        assert_eq!(check(&fits).map(|sizes| sizes.facts), Ok(128));
        let over = encode(&ruled(most + 1, kinds));
        assert_eq!(translate(&over, ROOM), refused(7, 0));
        assert_eq!(translate(&over, 0), refused(7, 0));
        assert!(check(&over).is_ok());
    };
    // F + 3P + 2, and t + 1 for within, t for always-within.
    facts(122, &[Kind::Within(0)]);
    facts(123, &[Kind::AlwaysWithin(0)]);
    facts(107, &[Kind::Within(15)]);
    facts(108, &[Kind::AlwaysWithin(15)]);
    facts(
        86,
        &[Kind::Within(15), Kind::AlwaysWithin(15), Kind::Always],
    );
    facts(62, &[Kind::Within(0); 16]);
    facts(78, &[Kind::AlwaysWithin(0); 16]);
    facts(14, &[Kind::Within(3); 16]);
    facts(14, &[Kind::AlwaysWithin(4); 16]);
    facts(12, &[Kind::Within(15); 6]);
    // With so many deadlines F 1 is too much.
    let most = encode(&ruled(1, &[Kind::Within(15); 16]));
    assert!(check(&most).is_ok());
    assert_eq!(translate(&most, ROOM), refused(7, 0));
    assert_eq!(
        translate(&encode(&ruled(1, &[Kind::AlwaysWithin(5); 16])), ROOM),
        refused(7, 0)
    );
}

/// Causes 8 and 9 count the rows of the trackers.
#[test]
fn most_rows() {
    let long = |kind, literals: usize| {
        let mut task = ruled(2, &[kind]);
        task.actions = idle_actions(2);
        task.goal = vec![vec![holds(0)[0][0]; literals]];
        task.preferences[0].phi = holds(0);
        if kind.has_second() {
            task.preferences[0].psi = [holds(1), holds(0)].concat();
        }
        encode(&task)
    };
    for kind in [Kind::Within(15), Kind::AlwaysWithin(15)] {
        let least = (translate(&long(kind, 1), ROOM).unwrap().len() - 8) / 5;
        // The trackers stand there three times. Within: 2 rows for D1, 4 for each j, 6 for S.
        // Always-within: 7 for each clause of ψ, 6 for each j and clause, 23 for the deletes.
        let trackers = match kind {
            Kind::Within(_) => 2 + 15 * 4 + 6,
            _ => 2 * 7 + 15 * 2 * 6 + 23,
        };
        assert_eq!(least, 3 * trackers + 38);
        let most = long(kind, 1 + 12_000 - least);
        assert_eq!(translate(&most, ROOM).unwrap().len(), ROOM);
        assert_eq!(translate(&most, ROOM - 1), refused(9, 0));
        assert_eq!(
            translate(&long(kind, 2 + 12_000 - least), ROOM),
            refused(8, 0)
        );
    }
}

/// Closing actions of a plan that meets a deadline just in time, and of one that
/// comes a step late.
#[test]
fn just_in_time() {
    for t in 0..=15 {
        for late in [0, 1] {
            let states = t + 1 + late;
            let last = only(states, &[states - 1]);
            let first = only(states, &[0]);
            for (kind, phi, psi) in [
                (Kind::Within(t), &last, &first),
                (Kind::AlwaysWithin(t), &first, &last),
            ] {
                assert_eq!(outcome(kind, phi, psi), late == 0, "{kind:?}");
                let truth = |text: &str| -> Vec<bool> { text.chars().map(|c| c == 'T').collect() };
                let (source, plan) = course(kind, &truth(phi), &truth(psi));
                let task = decode(&translate(&encode(&source), ROOM).unwrap()).unwrap();
                let list = complete(&source, &plan);
                assert_eq!(list[states], states + late, "{kind:?}");
                assert_eq!(run(&task, &list), Some(late as u128), "{kind:?}");
            }
        }
    }
}
