//! Tasks as PDDL: the lines letter by letter, empty and short lists, the refusals and the longest texts.

mod common;

use common::*;
use peer::pddl::{longest_domain, longest_problem, write, Texts, MAX_DOMAIN, MAX_PROBLEM};
use peer::random::case;
use peer::task::MAX_ROWS;
use peer::{check, encode, Refusal, Task};

fn texts(facts: u16, actions: u16, words: &str) -> Texts {
    let task = file(facts, actions, 0, words);
    write(&task, MAX_DOMAIN, MAX_PROBLEM).expect("two texts")
}

/// The line of the one action in these words, over 4 facts.
fn action(words: &str) -> String {
    let domain = texts(4, 1, &format!("GOAL {words}")).domain;
    domain.lines().nth(4).expect("an action").to_string()
}

/// The line of the goal in these words, over 4 facts.
fn goal(words: &str) -> String {
    let problem = texts(4, 0, words).problem;
    problem.lines().nth(2).expect("a goal").to_string()
}

#[test]
fn lines_of_the_request() {
    let condition = "CLAUSE HOLDS 2 CLAUSE HOLDS 0 LACKS 1";
    let task = format!(
        "START 1 GOAL {condition} ACTION 3 {condition} EFFECT {condition} ADD 0 DELETE 1 ACTION 4294967295"
    );
    let written = texts(3, 2, &task);
    assert_eq!(
        written.domain,
        "(define (domain d)\n\
         (:requirements :negative-preconditions :disjunctive-preconditions :conditional-effects :action-costs)\n\
         (:predicates (f0) (f1) (f2))\n\
         (:functions (total-cost))\n\
         (:action a0 :parameters () :precondition (and (f2) (or (f0) (not (f1)))) :effect \
         (and (increase (total-cost) 3) (when (and (f2) (or (f0) (not (f1)))) (and (f0) (not (f1))))))\n\
         (:action a1 :parameters () :precondition (and) :effect (and (increase (total-cost) 4294967295)))\n\
         )\n"
    );
    assert_eq!(
        written.problem,
        "(define (problem p) (:domain d)\n\
         (:init (= (total-cost) 0) (f1))\n\
         (:goal (and (f2) (or (f0) (not (f1)))))\n\
         (:metric minimize (total-cost)))\n"
    );
}

#[test]
fn no_start_and_no_actions() {
    let written = texts(1, 0, "GOAL");
    assert_eq!(
        written.domain,
        "(define (domain d)\n\
         (:requirements :negative-preconditions :disjunctive-preconditions :conditional-effects :action-costs)\n\
         (:predicates (f0))\n\
         (:functions (total-cost))\n\
         )\n"
    );
    assert_eq!(
        written.problem,
        "(define (problem p) (:domain d)\n\
         (:init (= (total-cost) 0))\n\
         (:goal (and))\n\
         (:metric minimize (total-cost)))\n"
    );
}

#[test]
fn openings() {
    let init = |words| texts(12, 0, words).problem.lines().nth(1).map(String::from);
    for (words, line) in [
        ("START 0 GOAL", "(:init (= (total-cost) 0) (f0))"),
        (
            "START 2 START 10 START 11 GOAL",
            "(:init (= (total-cost) 0) (f2) (f10) (f11))",
        ),
    ] {
        assert_eq!(init(words).as_deref(), Some(line));
    }
}

#[test]
fn conditions() {
    for (words, condition) in [
        ("", "(and)"),
        ("CLAUSE HOLDS 1", "(and (f1))"),
        ("CLAUSE LACKS 1", "(and (not (f1)))"),
        ("CLAUSE HOLDS 1 CLAUSE LACKS 0", "(and (f1) (not (f0)))"),
        ("CLAUSE HOLDS 3 HOLDS 0", "(and (or (f3) (f0)))"),
        ("CLAUSE LACKS 3 HOLDS 3", "(and (or (not (f3)) (f3)))"),
        // A literal twice is a clause of several.
        ("CLAUSE HOLDS 1 HOLDS 1", "(and (or (f1) (f1)))"),
        (
            "CLAUSE LACKS 2 LACKS 2 LACKS 2",
            "(and (or (not (f2)) (not (f2)) (not (f2))))",
        ),
        (
            "CLAUSE HOLDS 2 CLAUSE HOLDS 0 LACKS 1 CLAUSE LACKS 3 CLAUSE LACKS 3",
            "(and (f2) (or (f0) (not (f1))) (not (f3)) (not (f3)))",
        ),
    ] {
        assert_eq!(
            goal(&format!("GOAL {words}")),
            format!("(:goal {condition})")
        );
        assert_eq!(
            action(&format!("ACTION {words} EFFECT {words} ADD 1")),
            format!(
                "(:action a0 :parameters () :precondition {condition} :effect \
                 (and (increase (total-cost) 0) (when {condition} (and (f1)))))"
            )
        );
    }
}

#[test]
fn effects() {
    for (words, effects) in [
        ("", ""),
        ("EFFECT", " (when (and) (and))"),
        ("EFFECT EFFECT", " (when (and) (and)) (when (and) (and))"),
        ("EFFECT CLAUSE HOLDS 1", " (when (and (f1)) (and))"),
        ("EFFECT ADD 2", " (when (and) (and (f2)))"),
        ("EFFECT DELETE 2", " (when (and) (and (not (f2))))"),
        ("EFFECT ADD 2 ADD 2 DELETE 2", " (when (and) (and (f2) (f2) (not (f2))))"),
        (
            "EFFECT ADD 3 ADD 1 DELETE 2 DELETE 0 EFFECT CLAUSE LACKS 0 ADD 0",
            " (when (and) (and (f3) (f1) (not (f2)) (not (f0)))) (when (and (not (f0))) (and (f0)))",
        ),
    ] {
        assert_eq!(
            action(&format!("ACTION 10 {words}")),
            format!(
                "(:action a0 :parameters () :precondition (and) :effect \
                 (and (increase (total-cost) 10){effects}))"
            )
        );
    }
}

#[test]
fn refusals() {
    let room = 100_000;
    // 1 to 6 before 13, 13 before 14.
    assert_eq!(write(&belt()[..7], room, room), refused(1, 0));
    assert_eq!(write(&file(0, 0, 1, "GOAL always"), 0, 0), refused(2, 0));
    assert_eq!(write(&belt()[..97], 0, 0), refused(3, 0));
    assert_eq!(
        write(&file(1, 0, 1, "GOAL always CLAUSE"), 0, 0),
        refused(4, 3)
    );
    assert_eq!(
        write(&file(1, 0, 1, "GOAL hard-always 1"), 0, 0),
        refused(5, 1)
    );
    assert_eq!(write(&file(1, 0, 1, "GOAL"), 0, 0), refused(6, 1));
    assert_eq!(write(&belt(), room, room), refused(13, 0));
    assert_eq!(write(&belt(), 0, 0), refused(13, 0));
    let task = file(1, 0, 0, "GOAL");
    let Texts { domain, problem } = texts(1, 0, "GOAL");
    let (d, p) = (domain.len(), problem.len());
    assert_eq!(write(&task, d - 1, p), refused(14, 0));
    assert_eq!(write(&task, d, p - 1), refused(14, 0));
    assert_eq!(write(&task, 0, 0), refused(14, 0));
    assert_eq!(write(&task, d, p), Ok(Texts { domain, problem }));
}

#[test]
fn longest_texts() {
    let texts = |task: &Task| write(&encode(task), MAX_DOMAIN, MAX_PROBLEM).expect("two texts");
    let domain = longest_domain(MAX_ROWS);
    let problem = longest_problem(MAX_ROWS);
    assert_eq!((domain.rows(), problem.rows()), (MAX_ROWS, MAX_ROWS));
    assert_eq!(texts(&domain).domain.len(), MAX_DOMAIN);
    assert_eq!(texts(&problem).problem.len(), MAX_PROBLEM);
}

/// What rows give with the largest fact and the largest cost. Of a domain it is at most 19 a row but for an ACTION, which gives
/// more; of a problem at most 13, and 5 for a CLAUSE: so the longest texts are the longest.
#[test]
fn what_rows_give() {
    let domain = |words: &str| {
        let actions = words.matches("ACTION").count() as u16;
        texts(128, actions, words).domain.len()
    };
    let problem = |words: &str| texts(128, 0, words).problem.len();
    for (rows, bytes) in [
        ("EFFECT", 19),
        ("EFFECT EFFECT", 2 * 19),
        ("EFFECT ADD 127", 19 + 7),
        ("EFFECT DELETE 127", 19 + 13),
        ("CLAUSE HOLDS 127", 7),
        ("CLAUSE LACKS 127", 13),
        ("CLAUSE LACKS 127 LACKS 127", 5 + 2 * 13),
        ("CLAUSE LACKS 127 LACKS 127 LACKS 127", 5 + 3 * 13),
        ("EFFECT CLAUSE LACKS 127 LACKS 127", 19 + 5 + 2 * 13),
    ] {
        let action = format!("GOAL ACTION {rows}");
        assert_eq!(domain(&action) - domain("GOAL ACTION"), bytes, "{rows}");
    }
    for (words, bytes) in [
        ("START 127 GOAL", 7),
        ("GOAL CLAUSE HOLDS 127", 7),
        ("GOAL CLAUSE LACKS 127", 13),
        ("GOAL CLAUSE LACKS 127 LACKS 127", 5 + 2 * 13),
        ("GOAL CLAUSE LACKS 127 CLAUSE LACKS 127", 2 * 13),
    ] {
        assert_eq!(problem(words) - problem("GOAL"), bytes, "{words}");
    }
    let mut words = "GOAL".to_string();
    for _ in 0..128 {
        let more = format!("{words} ACTION 4294967295");
        assert!(domain(&more) - domain(&words) > 19);
        words = more;
    }
    assert_eq!(domain(&words) + 19 * (MAX_ROWS - 129), MAX_DOMAIN);
    assert_eq!(problem("GOAL") + 5 + 13 * (MAX_ROWS - 2), MAX_PROBLEM);
}

/// Random files get the answer of check where that refuses, and else two texts or 13; tasks with different files have
/// different texts.
#[test]
fn random_cases() {
    let mut seen = std::collections::HashMap::new();
    let mut preferences = 0;
    for seed in 0..20_000 {
        let task = case(seed).file;
        match (check(&task), write(&task, MAX_DOMAIN, MAX_PROBLEM)) {
            (Err(refusal), answer) => assert_eq!(answer, Err(refusal)),
            (Ok(sizes), Err(Refusal { number, place })) => {
                assert_eq!((number, place), (13, 0));
                assert!(sizes.preferences > 0);
                preferences += 1;
            }
            (Ok(sizes), Ok(written)) => {
                assert_eq!(sizes.preferences, 0);
                let first = seen
                    .entry((written.domain, written.problem))
                    .or_insert(task.clone());
                assert_eq!(*first, task, "seed {seed}");
            }
        }
    }
    assert!(
        preferences > 1_000 && seen.len() > 1_000,
        "{preferences} {}",
        seen.len()
    );
}
