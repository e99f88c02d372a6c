//! Single literals in effects: what a task becomes, and that plans are judged alike.

mod common;

use common::*;
use peer::random::{case, widened, Random, MAX_FILE};
use peer::*;

const ROOM: usize = MAX_FILE;

/// A file of 128 facts with the sizes that its rows have.
fn words(words: &str) -> Vec<u8> {
    let rows = rows(words);
    let opens = |mark: u8| (10..35).contains(&mark) && mark != 16 && mark != 19;
    let actions = rows.iter().filter(|row| row.mark == 1).count() as u16;
    let preferences = rows.iter().filter(|row| opens(row.mark)).count() as u16;
    file(128, actions, preferences, words)
}

fn singles(from: &str, to: &str) {
    assert_eq!(single(&words(from), ROOM), Ok(words(to)), "{from}");
    assert_eq!(single(&words(to), ROOM), Ok(words(to)), "{to}");
}

#[test]
fn choices_of_an_effect() {
    for (from, to) in [
        // One choice: no clause, or clauses of one literal.
        ("EFFECT ADD 9", "EFFECT ADD 9"),
        ("EFFECT", "EFFECT"),
        (
            "EFFECT CLAUSE HOLDS 1 CLAUSE LACKS 2 ADD 9 DELETE 8",
            "EFFECT CLAUSE HOLDS 1 CLAUSE LACKS 2 ADD 9 DELETE 8",
        ),
        (
            "EFFECT CLAUSE HOLDS 1 LACKS 2 ADD 9 ADD 7 DELETE 8 DELETE 9",
            "EFFECT CLAUSE HOLDS 1 ADD 9 ADD 7 DELETE 8 DELETE 9 \
             EFFECT CLAUSE LACKS 2 ADD 9 ADD 7 DELETE 8 DELETE 9",
        ),
        // The first clause varies slowest.
        (
            "EFFECT CLAUSE HOLDS 1 HOLDS 2 CLAUSE HOLDS 3 HOLDS 4 HOLDS 5",
            "EFFECT CLAUSE HOLDS 1 CLAUSE HOLDS 3 EFFECT CLAUSE HOLDS 1 CLAUSE HOLDS 4 \
             EFFECT CLAUSE HOLDS 1 CLAUSE HOLDS 5 EFFECT CLAUSE HOLDS 2 CLAUSE HOLDS 3 \
             EFFECT CLAUSE HOLDS 2 CLAUSE HOLDS 4 EFFECT CLAUSE HOLDS 2 CLAUSE HOLDS 5",
        ),
        // Choices are by place: repeats, and choices that deny each other, stay.
        (
            "EFFECT CLAUSE HOLDS 1 HOLDS 1 CLAUSE LACKS 1 HOLDS 2 DELETE 1",
            "EFFECT CLAUSE HOLDS 1 CLAUSE LACKS 1 DELETE 1 EFFECT CLAUSE HOLDS 1 CLAUSE HOLDS 2 DELETE 1 \
             EFFECT CLAUSE HOLDS 1 CLAUSE LACKS 1 DELETE 1 EFFECT CLAUSE HOLDS 1 CLAUSE HOLDS 2 DELETE 1",
        ),
        // Each effect by itself, in its order; an effect without rows too.
        (
            "EFFECT CLAUSE HOLDS 1 HOLDS 2 EFFECT ADD 3 EFFECT CLAUSE LACKS 3 LACKS 4",
            "EFFECT CLAUSE HOLDS 1 EFFECT CLAUSE HOLDS 2 EFFECT ADD 3 \
             EFFECT CLAUSE LACKS 3 EFFECT CLAUSE LACKS 4",
        ),
    ] {
        for around in [
            "GOAL ACTION 7 {}",
            "START 1 START 5 GOAL CLAUSE HOLDS 1 LACKS 2 ACTION 7 CLAUSE HOLDS 3 HOLDS 4 {} ACTION 2 EFFECT",
            "GOAL ACTION 1 ACTION 4294967295 CLAUSE LACKS 1 LACKS 1 {} always 5 CLAUSE HOLDS 1 HOLDS 2",
            "GOAL ACTION 1 {} hard-sometime-before CLAUSE HOLDS 1 HOLDS 2 SECOND CLAUSE LACKS 1 LACKS 2 \
             within 3 STEPS 4 CLAUSE HOLDS 1 LACKS 1",
        ] {
            singles(&around.replace("{}", from), &around.replace("{}", to));
        }
    }
}

/// An effect whose clauses have these many literals.
fn wide(lengths: &[usize]) -> String {
    let clause = |&n: &usize| format!("CLAUSE {}", "HOLDS 1 ".repeat(n));
    format!("EFFECT {}", lengths.iter().map(clause).collect::<String>())
}

#[test]
fn sixty_four_choices() {
    for (lengths, choices) in [
        (vec![64], Some(64)),
        (vec![65], None),
        (vec![8, 8], Some(64)),
        (vec![8, 9], None),
        (vec![2; 6], Some(64)),
        (vec![2; 7], None),
        (vec![1; 100], Some(1)),
        ([vec![1; 50], vec![64]].concat(), Some(64)),
        ([vec![65], vec![1; 50]].concat(), None),
        (vec![2; 3_990], None),
        // 2 to the 64 is 0 in 64 bits, and 65,536 times 65,536 is 0 in 32.
        (vec![2; 64], None),
        (vec![16; 16], None),
    ] {
        let file = words(&format!("GOAL ACTION {}", wide(&lengths)));
        let effects =
            single(&file, ROOM).map(|bytes| decode(&bytes).unwrap().actions[0].effects.len());
        match choices {
            Some(count) => assert_eq!(effects, Ok(count), "{lengths:?}"),
            None => assert_eq!(effects, refused(17, 2), "{lengths:?}"),
        }
    }
}

#[test]
fn refusals() {
    for (task, number, place) in [
        (vec![], 1, 0),
        (file(0, 0, 0, "GOAL"), 2, 0),
        ([belt(), vec![0]].concat(), 3, 0),
        (file(4, 0, 0, "GOAL CLAUSE"), 4, 2),
        (file(4, 0, 0, "GOAL CLAUSE HOLDS 4"), 5, 2),
        (file(4, 1, 0, "GOAL"), 6, 1),
    ] {
        assert_eq!(single(&task, ROOM), refused(number, place));
        assert_eq!(single(&task, 0), refused(number, place));
    }
    // 17 at the first such EFFECT row, in whichever action, and not for preconditions, goals and rules.
    let (over, ok) = (wide(&[65]), wide(&[64]));
    let clause = &over["EFFECT ".len()..];
    for (rows, place) in [
        (format!("GOAL ACTION {over}"), 2),
        (format!("START 3 GOAL ACTION {over} {over}"), 3),
        (format!("GOAL ACTION {ok} {over} ACTION {over}"), 68),
        (
            format!("GOAL {clause} ACTION {clause} ACTION EFFECT {over}"),
            136,
        ),
        (
            format!("GOAL ACTION EFFECT ACTION EFFECT ADD 1 {over} EFFECT ADD 1"),
            6,
        ),
    ] {
        assert_eq!(single(&words(&rows), 0), refused(17, place), "{place}");
    }
    let kept = words(&format!(
        "GOAL {clause} ACTION {clause} EFFECT at-end 3 {clause}"
    ));
    assert_eq!(single(&kept, ROOM), Ok(kept.clone()));
    // 12,000 rows, and one more; 17 before 8, 8 before 9. An effect of two choices has 5 rows, and 6 of them after.
    let long = |rows: usize, effect: &str| {
        words(&format!(
            "GOAL CLAUSE {} ACTION {effect}",
            "HOLDS 1 ".repeat(rows - 3)
        ))
    };
    let two = "EFFECT CLAUSE HOLDS 1 LACKS 1";
    assert_eq!(single(&long(11_994, two), ROOM).unwrap().len(), 60_008);
    assert_eq!(single(&long(11_994, two), 60_007), refused(9, 0));
    assert_eq!(single(&long(11_995, two), ROOM), refused(8, 0));
    assert_eq!(single(&long(11_995, two), 0), refused(8, 0));
    let both = format!("{two} {}", wide(&[65]));
    assert_eq!(single(&long(11_900, &both), 0), refused(17, 11_904));
    assert_eq!(single(&belt(), 97), refused(9, 0));
    assert_eq!(single(&belt(), 98), Ok(belt()));
    // 7 is not tried: 128 facts and 128 actions.
    let many = words(&format!("GOAL{}", " ACTION 1".repeat(128)));
    assert_eq!(single(&many, ROOM), Ok(many.clone()));
}

/// Every effect has clauses of one literal, a second time changes nothing, from every state that a plan comes to each action leads
/// where it led, and plans are judged alike.
#[test]
fn random_cases() {
    let (mut wider, mut refused, mut solved) = (0, 0, 0);
    for seed in 0..6_000 {
        let case = case(seed);
        let Ok(task) = decode(&case.file) else {
            continue;
        };
        let task = widened(&mut Random::new(seed), &task);
        let file = encode(&task);
        let Ok(bytes) = single(&file, ROOM) else {
            refused += 1;
            continue;
        };
        let other = decode(&bytes).unwrap();
        let effects = other.actions.iter().flat_map(|action| &action.effects);
        assert!(effects
            .clone()
            .all(|effect| effect.condition.iter().all(|clause| clause.len() == 1)));
        assert_eq!(single(&bytes, ROOM), Ok(bytes.clone()), "seed {seed}");
        let count = |task: &Task| {
            task.actions
                .iter()
                .map(|action| action.effects.len())
                .sum::<usize>()
        };
        wider += u32::from(count(&task) < count(&other));
        let known = |step: &u8| usize::from(*step) < task.actions.len();
        let plan = match case.plan.iter().all(known) && case.plan.len() < 50 {
            true => &case.plan[..],
            false => &[],
        };
        for state in meaning::states(&task, plan).unwrap_or_default() {
            for (a, b) in task.actions.iter().zip(&other.actions) {
                let (a, b) = (meaning::after(a, &state), meaning::after(b, &state));
                assert_eq!(a, b, "seed {seed}");
            }
        }
        let judged = |file| walk(file, &case.plan).map(|walked| walked.verdict);
        assert_eq!(judged(&file), judged(&bytes), "seed {seed}");
        solved += u32::from(matches!(judged(&bytes), Ok(Verdict::Solved { .. })));
    }
    let came = (wider, refused, solved);
    assert!(wider > 500 && refused > 300 && solved > 500, "{came:?}");
}
