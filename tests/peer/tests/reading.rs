//! How many literals a walk looks at, counted by hand.

mod common;

use common::*;
use peer::random::case;
use peer::*;

const SOLVED: Verdict = Verdict::Solved { cost: 0, met: 0 };
const MET: Verdict = Verdict::Solved { cost: 0, met: 1 };

/// The walk of a plan on a task of two facts, whose actions and preferences are
/// counted from its words.
fn walk_words(words: &str, plan: &[u8]) -> Result<Walked, Refusal> {
    let count = |marks: &[u8]| {
        rows(words)
            .iter()
            .filter(|r| marks.contains(&r.mark))
            .count() as u16
    };
    let (actions, preferences) = (count(&[1]), count(&[10, 11, 12, 13, 14, 15, 17, 18]));
    walk(&file(2, actions, preferences, words), plan)
}

#[test]
fn a_condition() {
    for (condition, literals, verdict) in [
        ("", 0, SOLVED),
        ("CLAUSE LACKS 0", 1, SOLVED),
        ("CLAUSE HOLDS 0", 1, Verdict::GoalMissed),
        // A clause is left at its first true literal.
        ("CLAUSE LACKS 0 LACKS 1 HOLDS 0", 1, SOLVED),
        ("CLAUSE HOLDS 0 LACKS 1 LACKS 0", 2, SOLVED),
        ("CLAUSE HOLDS 0 HOLDS 1 LACKS 0", 3, SOLVED),
        ("CLAUSE HOLDS 0 HOLDS 1", 2, Verdict::GoalMissed),
        // A literal that stands twice counts each time it is looked at.
        ("CLAUSE HOLDS 0 HOLDS 0", 2, Verdict::GoalMissed),
        ("CLAUSE HOLDS 0 HOLDS 0 LACKS 0 LACKS 0", 3, SOLVED),
        ("CLAUSE LACKS 0 CLAUSE LACKS 0", 2, SOLVED),
        // A condition is left at its first false clause.
        ("CLAUSE HOLDS 0 CLAUSE LACKS 0", 1, Verdict::GoalMissed),
        (
            "CLAUSE LACKS 0 LACKS 0 CLAUSE HOLDS 0 HOLDS 1 CLAUSE LACKS 1",
            3,
            Verdict::GoalMissed,
        ),
        ("CLAUSE HOLDS 0 LACKS 0 CLAUSE HOLDS 1 LACKS 1", 4, SOLVED),
    ] {
        assert_eq!(
            walk_words(&format!("GOAL {condition}"), &[]),
            reading(literals, verdict),
            "{condition}"
        );
    }
}

/// Every preference is read in every state, whatever its kind and its outcome.
#[test]
fn preferences() {
    for kind in [
        "always",
        "sometime",
        "at-end",
        "at-most-once",
        "within 0 STEPS 0",
        "within 0 STEPS 2",
        "within 0 STEPS 15",
    ] {
        // One true literal of two, and two false ones.
        let words = |phi: &str| format!("GOAL ACTION {kind} CLAUSE {phi}");
        for steps in [0, 1, 3, 9] {
            let states = steps as u64 + 1;
            let plan = vec![0; steps];
            assert_eq!(
                walk_words(&words("LACKS 0 HOLDS 1"), &plan),
                reading(states, MET),
                "{kind}"
            );
            let literals = walk_words(&words("HOLDS 0 HOLDS 1"), &plan).map(|w| w.literals);
            assert_eq!(literals, Ok(2 * states), "{kind}");
        }
    }
}

/// ψ is read whatever φ gave.
#[test]
fn both_conditions() {
    for kind in [
        "sometime-before 0",
        "sometime-after 0",
        "always-within 0 STEPS 0",
        "always-within 0 STEPS 15",
    ] {
        for (phi, psi, literals) in [
            ("HOLDS 0 HOLDS 1", "LACKS 0 LACKS 1", 3),
            ("HOLDS 0 HOLDS 1", "HOLDS 0 HOLDS 1 HOLDS 0", 5),
            ("LACKS 0 HOLDS 1", "LACKS 0 LACKS 1", 2),
            ("LACKS 0 HOLDS 1", "HOLDS 0 HOLDS 1 HOLDS 0", 4),
        ] {
            let words = format!("GOAL ACTION {kind} CLAUSE {phi} SECOND CLAUSE {psi}");
            for steps in [0, 1, 20] {
                let walked = walk_words(&words, &vec![0; steps]).unwrap();
                assert_eq!(walked.literals, literals * (steps as u64 + 1), "{words}");
            }
        }
    }
}

/// The goal is read in the last state alone, the step's conditions in all others.
#[test]
fn steps() {
    let goal = "GOAL CLAUSE LACKS 0 CLAUSE LACKS 1 ACTION ACTION CLAUSE HOLDS 0 LACKS 0";
    assert_eq!(walk_words(goal, &[]), reading(2, SOLVED));
    assert_eq!(walk_words(goal, &[0; 5]), reading(2, SOLVED));
    assert_eq!(walk_words(goal, &[0, 1, 0, 1]), reading(2 + 2 * 2, SOLVED));
    // Effects that fire and effects that don't; the last reads the state before.
    let effects = "GOAL ACTION CLAUSE LACKS 0 EFFECT CLAUSE HOLDS 0 CLAUSE LACKS 1 ADD 1 EFFECT \
                   EFFECT CLAUSE HOLDS 1 LACKS 1 ADD 0 EFFECT CLAUSE HOLDS 0 HOLDS 1 DELETE 1";
    assert_eq!(walk_words(effects, &[0]), reading(1 + 1 + 2 + 2, SOLVED));
    // The precondition that fails is read, the effects of its action are not; nor the goal.
    assert_eq!(
        walk_words(effects, &[0, 0, 0]),
        reading(6 + 1, Verdict::Stopped(1))
    );
    let stops = "GOAL CLAUSE LACKS 0 ACTION CLAUSE LACKS 0 LACKS 1 CLAUSE HOLDS 0 HOLDS 0 HOLDS 1 \
                 CLAUSE LACKS 0 EFFECT CLAUSE LACKS 0 ADD 0 ACTION \
                 always CLAUSE LACKS 0 at-end CLAUSE HOLDS 0 HOLDS 0";
    assert_eq!(walk_words(stops, &[0]), reading(3 + 4, Verdict::Stopped(0)));
    assert_eq!(
        walk_words(stops, &[0, 0]),
        reading(3 + 4, Verdict::Stopped(0))
    );
    assert_eq!(
        walk_words(stops, &[1, 1, 0, 1]),
        reading(3 * 3 + 4, Verdict::Stopped(2))
    );
    assert_eq!(walk_words(stops, &[1, 1]), reading(3 * 3 + 1, MET));
}

/// Of 12,000 rows all but four are looked at in every state.
#[test]
fn most() {
    let literals = "HOLDS 0 ".repeat(11_996);
    let words = format!("GOAL ACTION always CLAUSE {literals}");
    for steps in [0, 1, 2_048] {
        let most = 11_996 * (steps as u64 + 1);
        assert_eq!(
            walk_words(&words, &vec![0; steps]),
            reading(most, SOLVED),
            "{steps}"
        );
    }
}

/// On random cases: at most (steps + 1) × N; a plan's number grows with its steps,
/// and by the goal alone where it goes on.
#[test]
fn on_random_cases() {
    for seed in 0..6_000 {
        let case = case(seed);
        let Ok(Walked { verdict, literals }) = walk(&case.file, &case.plan) else {
            continue;
        };
        let task = decode(&case.file).unwrap();
        let states = match verdict {
            Verdict::Stopped(step) => step + 1,
            _ => case.plan.len() + 1,
        };
        assert!(literals <= (states * task.rows()) as u64, "seed {seed}");
        let without = Task {
            goal: vec![],
            ..task.clone()
        };
        let goal = literals - walked(&without, &case.plan).literals;
        match verdict {
            Verdict::Stopped(_) => assert_eq!(goal, 0, "seed {seed}"),
            _ => assert!(goal as usize <= task.goal.iter().map(Vec::len).sum()),
        }
        if let Some((_, shorter)) = case.plan.split_last() {
            let before = walked(&without, shorter).literals;
            assert!(before <= literals - goal, "seed {seed}");
        }
    }
}
