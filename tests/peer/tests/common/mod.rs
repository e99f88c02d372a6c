//! Rows written as words, and tasks whose conditions follow a given course.
#![allow(dead_code)]

use peer::encode::{to_bytes, Row};
use peer::{Action, Condition, Effect, Kind, Literal, Preference, Refusal, Task, Verdict, Walked};

/// Rows from words such as `START 1 GOAL CLAUSE LACKS 1`; no number means 0.
pub fn rows(words: &str) -> Vec<Row> {
    let mut rows: Vec<Row> = Vec::new();
    for word in words.split_whitespace() {
        if let Ok(value) = word.parse::<u32>() {
            rows.last_mut().expect("a mark before its value").value = value;
        } else {
            rows.push(Row {
                mark: mark(word),
                value: 0,
            });
        }
    }
    rows
}

fn mark(word: &str) -> u8 {
    match word {
        "ACTION" => 1,
        "EFFECT" => 2,
        "CLAUSE" => 3,
        "HOLDS" => 4,
        "LACKS" => 5,
        "ADD" => 6,
        "DELETE" => 7,
        "GOAL" => 8,
        "START" => 9,
        "always" => 10,
        "sometime" => 11,
        "at-end" => 12,
        "at-most-once" => 13,
        "sometime-before" => 14,
        "sometime-after" => 15,
        "SECOND" => 16,
        "within" => 17,
        "always-within" => 18,
        "STEPS" => 19,
        "hard-always" => 26,
        "hard-sometime" => 27,
        "hard-at-end" => 28,
        "hard-at-most-once" => 29,
        "hard-sometime-before" => 30,
        "hard-sometime-after" => 31,
        "M32" => 32,
        "hard-within" => 33,
        "hard-always-within" => 34,
        "M35" => 35,
        "M0" => 0,
        "M20" => 20,
        "M255" => 255,
        _ => panic!("no mark {word}"),
    }
}

/// A file with F, A, P and the rows in words.
pub fn file(facts: u16, actions: u16, preferences: u16, words: &str) -> Vec<u8> {
    to_bytes([facts, actions, preferences], &rows(words))
}

pub fn refused<T>(number: u8, place: u16) -> Result<T, Refusal> {
    Err(Refusal { number, place })
}

/// A verdict after so many literals.
pub fn reading(literals: u64, verdict: Verdict) -> Result<Walked, Refusal> {
    Ok(Walked { verdict, literals })
}

pub const BELT: &str = "START 1 GOAL CLAUSE LACKS 1 \
    ACTION 3 EFFECT ADD 0 DELETE 1 ACTION 1 EFFECT ADD 1 DELETE 0 \
    always 5 CLAUSE LACKS 1 sometime 7 CLAUSE HOLDS 0";

pub fn belt() -> Vec<u8> {
    file(2, 2, 2, BELT)
}

pub fn holds(fact: usize) -> Condition {
    vec![vec![Literal { holds: true, fact }]]
}

/// A task with one preference of weight 1 and a plan whose states have the given
/// truth of φ (fact 0) and ψ (fact 1): action i leads from state i to state i + 1.
pub fn course(kind: Kind, phi: &[bool], psi: &[bool]) -> (Task, Vec<u8>) {
    let truth = |i: usize| [(0, phi[i]), (1, psi[i])];
    let with = |i: usize, wanted: bool| -> Vec<usize> {
        truth(i)
            .iter()
            .filter(|(_, held)| *held == wanted)
            .map(|(fact, _)| *fact)
            .collect()
    };
    let steps = phi.len() - 1;
    let action = |i: usize| Action {
        cost: 0,
        precondition: vec![],
        effects: vec![Effect {
            condition: vec![],
            adds: with(i + 1, true),
            deletes: with(i + 1, false),
        }],
    };
    let task = Task {
        facts: 2,
        start: with(0, true),
        goal: vec![],
        actions: (0..steps).map(action).collect(),
        preferences: vec![Preference {
            kind,
            hard: false,
            weight: 1,
            phi: holds(0),
            psi: if kind.has_second() { holds(1) } else { vec![] },
        }],
    };
    (task, (0..steps).map(|i| i as u8).collect())
}

/// `n` preferences always, with φ empty.
pub fn easy_preferences(n: usize) -> Vec<Preference> {
    let easy = Preference {
        kind: Kind::Always,
        hard: false,
        weight: 0,
        phi: vec![],
        psi: vec![],
    };
    vec![easy; n]
}

/// `n` actions that always apply and change nothing.
pub fn idle_actions(n: usize) -> Vec<Action> {
    vec![
        Action {
            cost: 1,
            precondition: vec![],
            effects: vec![]
        };
        n
    ]
}

pub fn bare_task(facts: usize, actions: usize, preferences: usize) -> Task {
    Task {
        facts,
        start: vec![],
        goal: vec![],
        actions: idle_actions(actions),
        preferences: easy_preferences(preferences),
    }
}
