//! Rules that must hold: the rows of hard rules, the verdict on a plan that misses
//! one, and what their translation forbids.

mod common;

use common::*;
use peer::encode::to_bytes;
use peer::*;

const ROOM: usize = 60_008;

/// Each kind made hard, with the rows of its deadline and of SECOND.
const HARD: [(&str, &str); 8] = [
    ("hard-always", ""),
    ("hard-sometime", ""),
    ("hard-at-end", ""),
    ("hard-at-most-once", ""),
    ("hard-sometime-before", "SECOND"),
    ("hard-sometime-after", "SECOND"),
    ("hard-within", "STEPS 3"),
    ("hard-always-within", "STEPS 3 SECOND"),
];

#[test]
fn in_bytes() {
    let marks = [8, 26, 27, 28, 29, 30, 16, 31, 16, 33, 19, 34, 19, 16];
    let mut bytes = vec![1, 0, 0, 0, 8, 0, 14, 0];
    bytes.extend(marks);
    for row in 0..14 {
        bytes.extend([if row == 10 || row == 12 { 3 } else { 0 }, 0, 0, 0]);
    }
    let words: Vec<String> = HARD
        .iter()
        .map(|(kind, rest)| format!("{kind} {rest}"))
        .collect();
    assert_eq!(file(1, 0, 8, &format!("GOAL {}", words.join(" "))), bytes);
    let task = decode(&bytes).unwrap();
    assert!(task.preferences.iter().all(|p| p.hard && p.weight == 0));
    let kinds: Vec<Kind> = task.preferences.iter().map(|p| p.kind).collect();
    assert_eq!(kinds, Kind::all(3));
    assert_eq!(encode(&task), bytes);
}

#[test]
fn weights_and_counts() {
    for (kind, rest) in HARD {
        let words = |weight: &str| format!("GOAL {kind} {weight} {rest}");
        assert!(check(&file(1, 0, 1, &words("0"))).is_ok(), "{kind}");
        for weight in [
            "1",
            "2",
            "256",
            "65536",
            "1000000",
            "16777216",
            "4294967295",
        ] {
            assert_eq!(
                check(&file(1, 0, 1, &words(weight))),
                refused(5, 1),
                "{kind} {weight}"
            );
        }
        let rows = rows(&words("0")).len() as u16;
        assert_eq!(check(&file(1, 0, 0, &words("0"))), refused(6, rows));
        assert_eq!(check(&file(1, 0, 2, &words("0"))), refused(6, rows));
    }
}

/// Marks 32 and from 35 on are refused everywhere, before their value; a hard rule's
/// rows are those of its kind.
#[test]
fn marks() {
    for (words, row) in [
        ("M32", 0),
        ("GOAL M32", 1),
        ("GOAL M32 1", 1),
        ("GOAL M35", 1),
        ("GOAL M20", 1),
        ("GOAL hard-sometime-before M32", 2),
        ("GOAL hard-always-within STEPS 1 M32", 3),
        ("GOAL hard-within M35", 2),
        ("hard-always GOAL", 0),
        ("GOAL hard-always ACTION", 2),
        ("GOAL hard-always SECOND", 2),
        ("GOAL hard-always STEPS 1", 2),
        ("GOAL hard-at-end CLAUSE hard-always", 3),
        ("GOAL hard-sometime-after hard-always", 2),
        ("GOAL hard-sometime-after", 2),
        ("GOAL hard-within CLAUSE HOLDS 0", 2),
        ("GOAL hard-within STEPS 1 SECOND", 3),
        ("GOAL hard-always-within SECOND", 2),
        ("GOAL hard-always-within STEPS 1", 3),
        ("GOAL sometime-before hard-always 1", 2),
    ] {
        assert_eq!(check(&file(1, 0, 1, words)), refused(4, row), "{words}");
    }
    assert_eq!(
        check(&file(1, 0, 1, "GOAL hard-within STEPS 16")),
        refused(5, 2)
    );
}

/// In the opening state fact 0 lacks. M is met and X is missed, small letters are soft.
fn rules(letters: &str) -> Task {
    let word = |letter| match letter {
        'm' => "at-most-once 5 CLAUSE HOLDS 0",
        'x' => "sometime 7 CLAUSE HOLDS 0",
        'M' => "hard-at-end CLAUSE LACKS 0",
        _ => "hard-always CLAUSE HOLDS 0",
    };
    let words: Vec<&str> = letters.chars().map(word).collect();
    let count = letters.len() as u16;
    let rows = format!("GOAL CLAUSE LACKS 0 ACTION 1 {}", words.join(" "));
    decode(&file(1, 1, count, &rows)).unwrap()
}

#[test]
fn the_lowest_is_named() {
    for (letters, missed) in [
        ("X", 0),
        ("XX", 0),
        ("MX", 1),
        ("xX", 1),
        ("mX", 1),
        ("XM", 0),
        ("xxMXxX", 3),
        ("xxxxxxxxxxxxxxxX", 15),
    ] {
        assert_eq!(
            verdict(&rules(letters), &[]),
            Verdict::RuleMissed(missed),
            "{letters}"
        );
    }
    for (letters, met) in [("M", 1), ("xM", 2), ("MmxM", 0b1011), ("", 0)] {
        assert_eq!(
            verdict(&rules(letters), &[0]),
            Verdict::Solved { cost: 1, met },
            "{letters}"
        );
    }
}

#[test]
fn after_stopped_and_goal_missed() {
    let task = |goal: &str| {
        let words = format!("GOAL {goal} ACTION ACTION CLAUSE HOLDS 0 hard-always CLAUSE HOLDS 0");
        file(1, 2, 1, &words)
    };
    let missed = task("CLAUSE HOLDS 0");
    assert_eq!(walk(&missed, &[1]), reading(2, Verdict::Stopped(0)));
    assert_eq!(walk(&missed, &[0, 1]), reading(3, Verdict::Stopped(1)));
    assert_eq!(walk(&missed, &[0]), reading(3, Verdict::GoalMissed));
    assert_eq!(walk(&task(""), &[0]), reading(2, Verdict::RuleMissed(0)));
    assert_eq!(walk(&task(""), &[2]), refused(11, 0));
    assert_eq!(report(&task(""), &[0]), "rule missed 0\n");
}

#[test]
fn lines_of_the_report() {
    assert_eq!(
        report(&encode(&rules("MmxM")), &[0]),
        "solved steps 1 cost 1\n0 hard-at-end 0 met\n1 at-most-once 5 met\n\
         2 sometime 7 missed\n3 hard-at-end 0 met\nmetric 8 utility 4\n"
    );
    let words: Vec<String> = HARD
        .iter()
        .map(|(kind, rest)| format!("{kind} {rest}"))
        .collect();
    let all = file(1, 0, 8, &format!("GOAL {}", words.join(" ")));
    // With empty conditions φ and ψ are true: only sometime-before is missed.
    assert_eq!(report(&all, &[]), "rule missed 4\n");
    for (kind, rest) in HARD {
        if kind != "hard-sometime-before" {
            let task = file(1, 0, 1, &format!("GOAL {kind} {rest}"));
            let lines = format!("solved steps 0 cost 0\n0 {kind} 0 met\nmetric 0 utility 0\n");
            assert_eq!(report(&task, &[]), lines);
        }
    }
}

/// A met bit of a hard rule is known, and worth nothing.
#[test]
fn settled() {
    let task = encode(&rules("XmXx"));
    for met in 0..16 {
        let gained = 5 * (met >> 1 & 1) + 7 * (met >> 3 & 1);
        let worth = Worth {
            metric: 3 + 12 - gained,
            utility: gained as i64 - 3,
        };
        assert_eq!(settle(&task, 3, met), Ok(worth));
    }
    assert_eq!(settle(&task, 3, 16), refused(15, 0));
}

#[test]
fn as_pddl() {
    let task = encode(&rules("M"));
    assert_eq!(pddl::write(&task, 0, 0).err(), refused::<()>(13, 0).err());
}

/// The translation of a hard rule is that of the soft one with weight 0, and forgo
/// has a last clause, lacks *ended*.
#[test]
fn translation() {
    for kind in Kind::all(2) {
        let (mut task, _) = course(kind, &[true, false], &[false, true]);
        task.preferences.insert(0, task.preferences[0].clone());
        for preference in &mut task.preferences {
            preference.weight = 0;
        }
        let soft = translated(&task, 12_000).unwrap();
        for which in [vec![0], vec![1], vec![0, 1]] {
            let mut expected = soft.clone();
            let mut hard = task.clone();
            for &k in &which {
                hard.preferences[k].hard = true;
                // One action; *end*; collect 0, forgo 0, collect 1, forgo 1. Two facts, S, B and C of each, normal 8, ended 9.
                let ended = Literal {
                    holds: false,
                    fact: 9,
                };
                expected.actions[3 + 2 * k].precondition.push(vec![ended]);
            }
            assert_eq!(translated(&hard, 12_000), Some(expected.clone()));
            assert_eq!(expected.rows(), soft.rows() + 2 * which.len());
            assert_eq!(
                decode(&translate(&encode(&hard), ROOM).unwrap()),
                Ok(expected)
            );
        }
    }
}

/// The rows of one, written out. At-end has no tracker in a source action.
#[test]
fn rows_of_a_translation() {
    let words = |weight: u32, last: &str| {
        format!(
            "START 4 GOAL CLAUSE HOLDS 5 CLAUSE HOLDS 3 ACTION 2 CLAUSE HOLDS 4 \
             ACTION CLAUSE HOLDS 4 EFFECT ADD 5 DELETE 4 EFFECT CLAUSE HOLDS 0 ADD 1 \
             ACTION CLAUSE HOLDS 5 CLAUSE LACKS 3 CLAUSE HOLDS 1 EFFECT ADD 3 \
             ACTION {weight} CLAUSE HOLDS 5 CLAUSE LACKS 3 CLAUSE LACKS 1 {last} EFFECT ADD 3"
        )
    };
    for (rule, expected) in [
        ("at-end 9", words(9, "")),
        ("hard-at-end", words(0, "CLAUSE LACKS 5")),
    ] {
        let task = file(1, 1, 1, &format!("GOAL ACTION 2 {rule} CLAUSE HOLDS 0"));
        assert_eq!(
            translate(&task, ROOM),
            Ok(to_bytes([6, 4, 0], &rows(&expected)))
        );
    }
}

/// The last translation of 12,000 rows, the first over it, and the area that fits it.
#[test]
fn edges_of_a_translation() {
    let task = |hard: usize, literals: usize| {
        let mut task = bare_task(2, 1, 4);
        for preference in &mut task.preferences[..hard] {
            preference.hard = true;
        }
        task.goal = vec![
            vec![
                Literal {
                    holds: false,
                    fact: 0
                };
                literals
            ];
            1
        ];
        encode(&task)
    };
    let rows = |hard: usize, literals: usize| {
        let bytes = translate(&task(hard, literals), ROOM).unwrap();
        (bytes.len() - 8) / 5
    };
    let most = 12_000 - rows(0, 1) + 1;
    for hard in 0..=4 {
        let fits = most - 2 * hard;
        assert_eq!(rows(hard, fits), 12_000);
        assert_eq!(translate(&task(hard, fits + 1), ROOM), refused(8, 0));
        assert_eq!(translate(&task(hard, fits), ROOM - 1), refused(9, 0));
    }
}
