//! What is already lost: by hand, by the states left, and beside all continuations.

mod common;

use common::*;
use peer::lost::{bound, lost_by_meaning};
use peer::random::{beginning, case};
use peer::*;

/// On the belt amber lies on the belt in the opening state, so that always is lost once that is left. Sweep is 0, load is 1, end
/// 2, collect and forgo of always 3 and 4, of sometime 5 and 6.
#[test]
fn the_belt() {
    for (steps, text) in [
        (&[][..], "run cost 0 lost 0"),
        (&[0], "run cost 3 lost 5"),
        (&[1], "run cost 1 lost 5"),
        (&[0, 1, 0], "run cost 7 lost 5"),
        (&[2], "run cost 0 lost 5"),
        (&[0, 2], "run cost 3 lost 5"),
        // Closed, it is paid and no longer lost.
        (&[0, 2, 4], "run cost 8 lost 0"),
        (&[0, 2, 4, 5], "run cost 8 lost 0"),
        (&[2, 4, 6], "run cost 12 lost 0"),
        // Met is not to be had; nor is what comes too early, twice or in another order.
        (&[0, 2, 3], "stopped 2"),
        (&[0, 2, 4, 6], "stopped 3"),
        (&[4], "stopped 0"),
        (&[0, 4], "stopped 1"),
        (&[0, 2, 2], "stopped 2"),
        (&[0, 2, 0], "stopped 2"),
        (&[0, 2, 5], "stopped 2"),
        (&[0, 2, 4, 4], "stopped 3"),
        (&[0, 7], "refused 11 1"),
        (&[255, 7], "refused 11 0"),
    ] {
        assert_eq!(lost_text(&belt(), steps), format!("{text}\n"), "{steps:?}");
    }
}

/// For each kind: the states that are left and what is lost after each, with φ as f, ψ as p, both as b.
#[test]
fn kinds() {
    for (kind, trace, lost) in [
        (Kind::Always, "ff-f-", "000111"),
        (Kind::AtMostOnce, "f-f--", "000111"),
        (Kind::AtMostOnce, "-ff-ff", "0000011"),
        (Kind::AtMostOnce, "----", "00000"),
        (Kind::SometimeBefore, "-pfb", "00000"),
        (Kind::SometimeBefore, "-bpf", "00111"),
        (Kind::SometimeBefore, "f", "01"),
        (Kind::Sometime, "---", "0000"),
        (Kind::AtEnd, "---", "0000"),
        (Kind::SometimeAfter, "fff", "0000"),
        (Kind::Within(0), "---", "0000"),
        (Kind::AlwaysWithin(0), "fff", "0000"),
    ] {
        let has =
            |letters: &str| -> Vec<bool> { trace.chars().map(|c| letters.contains(c)).collect() };
        let (task, plan) = course(kind, &has("fb"), &has("pb"));
        let file = encode(&task);
        // Each step leaves a state, and end leaves the last.
        let list: Vec<u8> = plan.iter().copied().chain([plan.len() as u8]).collect();
        for (n, wanted) in lost.chars().enumerate() {
            let got = peer::lost(&file, &list[..n]).unwrap();
            let lost = u64::from(wanted == '1');
            assert_eq!(
                got,
                Lost::Run { cost: 0, lost },
                "{kind:?} {trace} after {n}"
            );
        }
    }
}

/// Hard rules have no weight to lose.
#[test]
fn hard_rules() {
    let task = file(
        2,
        1,
        2,
        "GOAL ACTION 1 hard-always CLAUSE HOLDS 0 always 9 CLAUSE HOLDS 1",
    );
    assert_eq!(lost_text(&task, &[0, 0]), "run cost 2 lost 9\n");
    // The hard rule is missed: neither of its closings applies.
    assert_eq!(lost_text(&task, &[0, 1, 2]), "stopped 2\n");
    assert_eq!(lost_text(&task, &[0, 1, 3]), "stopped 2\n");
}

#[test]
fn refusals() {
    let wide = encode(&bare_task(127, 1, 0));
    let long = file(
        4,
        2,
        1,
        &format!(
            "GOAL ACTION ACTION always 1 CLAUSE{}",
            " HOLDS 0".repeat(2_500)
        ),
    );
    for (task, number) in [
        (vec![], 1),
        (file(0, 0, 0, "GOAL"), 2),
        (wide, 7),
        (long, 8),
    ] {
        // 1 to 8 come before 10 and 11.
        for steps in [&[][..], &[255], &[0; 2_049]] {
            assert_eq!(lost(&task, steps), refused(number, 0));
        }
    }
    assert_eq!(lost(&belt(), &[9; 2_049]), refused(10, 0));
    assert_eq!(
        lost(&belt(), &[0; 2_048]),
        Ok(Lost::Run {
            cost: 6_144,
            lost: 5
        })
    );
    assert_eq!(lost(&belt(), &[3, 6, 7]), refused(11, 2));
}

/// Random lists: the trackers show what the states left so far miss, and no continuation does better.
#[test]
fn random_cases() {
    let (mut stopped, mut none, mut some, mut bounds) = (0, 0, 0, [0; 3]);
    for seed in 0..6_000 {
        let case = case(seed);
        let list = beginning(seed, &case);
        match lost(&case.file, &list) {
            Ok(Lost::Run { lost, .. }) => {
                let task = decode(&case.file).unwrap();
                assert_eq!(lost, lost_by_meaning(&task, &list), "seed {seed}");
                *(if lost > 0 { &mut some } else { &mut none }) += 1;
                if task.facts <= 6 && task.preferences.len() <= 3 {
                    let found = bound(&task, &list, lost)
                        .unwrap_or_else(|why| panic!("seed {seed}: {why}"));
                    bounds[found as usize] += 1;
                }
            }
            Ok(Lost::Stopped(_)) => stopped += 1,
            Err(_) => {}
        }
    }
    let [hopeless, exact, less] = bounds; // in the order of Bound
    assert!(
        stopped > 300 && none > 1_000 && some > 300,
        "{stopped} {none} {some}"
    );
    assert!(hopeless > 50 && exact > 100 && less > 100, "{bounds:?}");
}
