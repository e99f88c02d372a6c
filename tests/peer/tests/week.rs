//! A week of plans in figures: its file, its refusals, and figures written by hand.

mod common;

use common::*;
use peer::random::{case, plans};
use peer::week::{joined, split};
use peer::*;

/// A task whose plans solve at metrics that are easy to sum: action 0 costs 2 and sets the goal, action 1 costs 5 and sweeps,
/// action 2 needs fact 2, which never holds; to sweep is worth 100, and ending unswept is a soft rule of weight 30.
const SMALL: &str =
    "GOAL CLAUSE HOLDS 0 ACTION 2 EFFECT ADD 0 ACTION 5 EFFECT ADD 1 ACTION 0 CLAUSE HOLDS 2 \
    sometime 100 CLAUSE HOLDS 1 at-end 30 CLAUSE LACKS 1";

fn small() -> Vec<u8> {
    file(3, 3, 2, SMALL)
}

/// The file of plans that stand one after the other.
fn of(plans: &[&[u8]]) -> Vec<u8> {
    let mut at = 0;
    let entries: Vec<(usize, usize)> = plans
        .iter()
        .map(|plan| {
            at += plan.len();
            (at - plan.len(), plan.len())
        })
        .collect();
    joined(&entries, &plans.concat())
}

#[test]
fn by_hand() {
    for (plans, text) in [
        // Metric 102: unswept. Meets preference 1 alone.
        (of(&[&[0]]), "plans 1\nsolving 1\nmetric least 102 greatest 102 sum 102 mean 102 remainder 0\npreference 0 met 0\npreference 1 met 1\n"),
        // Metric 37: swept, and it ends so.
        (of(&[&[0, 1]]), "plans 1\nsolving 1\nmetric least 37 greatest 37 sum 37 mean 37 remainder 0\npreference 0 met 1\npreference 1 met 0\n"),
        // 102, 37, 104: 243 over three; a goal that is missed, and a step that stops.
        (of(&[&[0], &[], &[0, 1], &[2], &[0, 0]]), "plans 5\nsolving 3\nmetric least 37 greatest 104 sum 243 mean 81 remainder 0\npreference 0 met 1\npreference 1 met 2\n"),
        (of(&[&[0], &[0, 1], &[0, 1], &[1, 0]]), "plans 4\nsolving 4\nmetric least 37 greatest 102 sum 213 mean 53 remainder 1\npreference 0 met 3\npreference 1 met 1\n"),
        (of(&[&[], &[1]]), "plans 2\nsolving 0\n"),
        (of(&[&[2]]), "plans 1\nsolving 0\n"),
    ] {
        assert_eq!(week_text(&small(), &plans), text);
    }
    // Plans that overlap: 0 1 0, of which 0 1, 1 0 and 0 0 would be three others.
    let overlapping = joined(&[(0, 3), (0, 2), (1, 2), (2, 1), (3, 0)], &[0, 1, 0]);
    assert_eq!(
        split(&overlapping).unwrap(),
        [&[0, 1, 0][..], &[0, 1], &[1, 0], &[0], &[]]
    );
    let text = "plans 5\nsolving 4\nmetric least 37 greatest 102 sum 215 mean 53 remainder 3\npreference 0 met 3\npreference 1 met 1\n";
    assert_eq!(week_text(&small(), &overlapping), text);
}

/// A plan that misses a hard rule doesn't solve.
#[test]
fn hard_rules() {
    let task = file(
        2,
        2,
        2,
        "GOAL ACTION 1 EFFECT ADD 0 ACTION 4 hard-always CLAUSE LACKS 0 always 9 CLAUSE HOLDS 1",
    );
    let text = "plans 3\nsolving 2\nmetric least 9 greatest 13 sum 22 mean 11 remainder 0\npreference 0 met 2\npreference 1 met 0\n";
    assert_eq!(week_text(&task, &of(&[&[], &[0], &[1]])), text);
}

#[test]
fn refusals() {
    let one = of(&[&[0]]);
    let many = |count: usize| joined(&vec![(0, 1); count], &[0]);
    let long = |length: usize| joined(&[(0, 1), (0, length)], &vec![0; 2_060]);
    // 1 to 6 come first, whatever the plans are.
    for plans in [&[][..], &one, &many(65)] {
        assert_eq!(week(&[], plans), refused(1, 0));
        assert_eq!(week(&file(3, 4, 2, SMALL), plans), refused(6, 18));
    }
    let eighteen = [
        vec![],
        vec![1],
        vec![0, 0],
        many(65),
        one[..2].to_vec(),
        one[..5].to_vec(),
        one[..6].to_vec(),
        joined(&[(0, 2)], &[0]),
        joined(&[(1, 1)], &[0]),
        joined(&[(2, 0)], &[0]),
        joined(&[(1, 0)], &[]),
        joined(&[(0, 1), (2, 0)], &[0]),
        joined(&[(65_535, 65_535)], &vec![0; 65_534]),
        [&[0, 1][..], &[0; 2_000]].concat(),
    ];
    for plans in &eighteen {
        assert_eq!(week(&small(), plans), refused(18, 0), "{plans:?}");
    }
    // At the edge: a start at the end with no steps, bytes that no plan names, 64 plans.
    for (plans, solving) in [
        (joined(&[(1, 0)], &[0]), 0),
        (joined(&[(0, 0)], &[]), 0),
        (joined(&[(0, 1)], &[0, 255, 255]), 1),
        (many(64), 64),
        (many(1), 1),
    ] {
        let figures = week(&small(), &plans).unwrap();
        assert_eq!(figures.map_or(0, |f| f.solving), solving);
    }
    let far = joined(&[(65_535, 1), (65_535, 65_535)], &[0; 131_070]);
    assert_eq!(week(&small(), &far), refused(10, 1));
    assert_eq!(week(&small(), &far[..far.len() - 1]), refused(18, 0));
    // 10 and 11: the first such plan decides, 10 before 11 on one plan; 18 before both, also of a later plan.
    assert!(week(&small(), &long(2_048)).is_ok());
    assert_eq!(week(&small(), &long(2_049)), refused(10, 1));
    assert_eq!(week(&small(), &of(&[&[0], &[3], &[255]])), refused(11, 1));
    assert_eq!(
        week(&small(), &joined(&[(0, 1), (0, 2_049)], &[9; 2_049])),
        refused(11, 0)
    );
    assert_eq!(
        week(&small(), &joined(&[(0, 2_049), (0, 1)], &[9; 2_049])),
        refused(10, 0)
    );
    assert_eq!(
        week(&small(), &joined(&[(0, 1), (1, 1)], &[9])),
        refused(18, 0)
    );
    // A step that is unknown and one that doesn't apply before it.
    assert_eq!(week(&small(), &of(&[&[2, 9]])), refused(11, 0));
}

/// The greatest amounts: 64 plans of 2,048 steps of the greatest cost, 16 of the greatest weights missed.
#[test]
fn greatest() {
    let task = file(
        1,
        1,
        16,
        &format!(
            "GOAL ACTION 4294967295{}",
            " always 4294967295 CLAUSE HOLDS 0".repeat(16)
        ),
    );
    let plans = joined(&[(0, 2_048); 64], &[0; 2_048]);
    let figures = week(&task, &plans).unwrap().unwrap();
    assert_eq!(figures.sum, 567_347_999_800_320);
    assert_eq!(
        (figures.least, figures.greatest),
        (8_864_812_496_880, 8_864_812_496_880)
    );
    assert_eq!((figures.mean, figures.remainder), (8_864_812_496_880, 0));
    assert_eq!(figures.meeting, [0; 16]);
}

/// The order of plans changes nothing; each refusal and both answers come up.
#[test]
fn random_cases() {
    let (mut some, mut none, mut seen) = (0, 0, [0; 19]);
    for seed in 0..4_000 {
        let case = case(seed);
        let plans = plans(seed, &case);
        let answer = week(&case.file, &plans);
        match &answer {
            Ok(Some(_)) => some += 1,
            Ok(None) => none += 1,
            Err(refusal) => seen[usize::from(refusal.number)] += 1,
        }
        if answer.is_ok() {
            let mut parts = split(&plans).unwrap();
            parts.reverse();
            assert_eq!(week(&case.file, &of(&parts)), answer, "seed {seed}");
        }
    }
    assert!(some > 1_000 && none > 300, "{some} {none}");
    assert!(
        [1, 2, 3, 4, 5, 6, 10, 11, 18].iter().all(|&n| seen[n] > 5),
        "{seen:?}"
    );
}
