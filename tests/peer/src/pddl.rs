//! A task without preferences as PDDL: the texts of a domain and of a problem.

use crate::decode::decode;
use crate::task::*;
use crate::{refuse, Refusal};

/// The length of the longest domain.
pub const MAX_DOMAIN: usize = 239_060;
/// The length of the longest problem.
pub const MAX_PROBLEM: usize = 156_085;

const REQUIREMENTS: &str =
    ":negative-preconditions :disjunctive-preconditions :conditional-effects :action-costs";

#[derive(Clone, PartialEq, Eq, Debug)]
pub struct Texts {
    pub domain: String,
    pub problem: String,
}

/// The two texts of a task, for areas of so many bytes, or the refusal (1 to 6, then 13 and 14).
pub fn write(file: &[u8], domain_room: usize, problem_room: usize) -> Result<Texts, Refusal> {
    let task = decode(file)?;
    if !task.preferences.is_empty() {
        return refuse(13, 0);
    }
    let texts = Texts {
        domain: domain(&task),
        problem: problem(&task),
    };
    if texts.domain.len() > domain_room || texts.problem.len() > problem_room {
        return refuse(14, 0);
    }
    Ok(texts)
}

fn domain(task: &Task) -> String {
    let predicates: Vec<String> = (0..task.facts).map(fact).collect();
    let mut lines = vec![
        "(define (domain d)".to_string(),
        format!("(:requirements {REQUIREMENTS})"),
        list(":predicates", predicates),
        "(:functions (total-cost))".to_string(),
    ];
    for (number, of_action) in task.actions.iter().enumerate() {
        lines.push(action(number, of_action));
    }
    lines.push(")".to_string());
    ended(lines)
}

fn problem(task: &Task) -> String {
    let mut opening = vec!["(= (total-cost) 0)".to_string()];
    opening.extend(task.start.iter().copied().map(fact));
    ended(vec![
        "(define (problem p) (:domain d)".to_string(),
        list(":init", opening),
        format!("(:goal {})", condition(&task.goal)),
        "(:metric minimize (total-cost)))".to_string(),
    ])
}

/// Lines, each ended by a newline.
fn ended(lines: Vec<String>) -> String {
    lines.iter().map(|line| format!("{line}\n")).collect()
}

/// A list that begins with a word.
fn list(word: &str, parts: Vec<String>) -> String {
    let mut words = vec![word.to_string()];
    words.extend(parts);
    format!("({})", words.join(" "))
}

fn fact(number: usize) -> String {
    format!("(f{number})")
}

fn denied(number: usize) -> String {
    format!("(not {})", fact(number))
}

fn literal(of: &Literal) -> String {
    if of.holds {
        fact(of.fact)
    } else {
        denied(of.fact)
    }
}

/// One literal stands without `or`.
fn clause(literals: &Clause) -> String {
    match literals.as_slice() {
        [one] => literal(one),
        several => list("or", several.iter().map(literal).collect()),
    }
}

fn condition(clauses: &Condition) -> String {
    list("and", clauses.iter().map(clause).collect())
}

fn action(number: usize, action: &Action) -> String {
    let mut effects = vec![format!("(increase (total-cost) {})", action.cost)];
    effects.extend(action.effects.iter().map(effect));
    format!(
        "(:action a{number} :parameters () :precondition {} :effect {})",
        condition(&action.precondition),
        list("and", effects)
    )
}

fn effect(effect: &Effect) -> String {
    let adds = effect.adds.iter().copied().map(fact);
    let deletes = effect.deletes.iter().copied().map(denied);
    let changes = list("and", adds.chain(deletes).collect());
    format!("(when {} {changes})", condition(&effect.condition))
}

// ---- the tasks with the longest texts

/// The task of so many rows (129 or more) with the longest domain. An ACTION gives the most bytes, then an EFFECT, 19: so it has
/// 128 facts, 128 actions of the largest cost, and an EFFECT in each row that is left but GOAL.
pub fn longest_domain(rows: usize) -> Task {
    let action = |effects| Action {
        cost: MAX_AMOUNT,
        precondition: vec![],
        effects: vec![
            Effect {
                condition: vec![],
                adds: vec![],
                deletes: vec![],
            };
            effects
        ],
    };
    let mut actions = vec![action(0); MAX_ACTIONS - 1];
    actions.push(action(rows - 1 - MAX_ACTIONS));
    Task {
        facts: MAX_FACTS,
        start: vec![],
        goal: vec![],
        actions,
        preferences: vec![],
    }
}

/// The task of so many rows (3 or more) with the longest problem. A denied literal gives the most bytes, 13, and a CLAUSE 5: so
/// it has a goal of one clause, and a literal in each row that is left.
pub fn longest_problem(rows: usize) -> Task {
    let literal = Literal {
        holds: false,
        fact: MAX_FACTS - 1,
    };
    Task {
        facts: MAX_FACTS,
        start: vec![],
        goal: vec![vec![literal; rows - 2]],
        actions: vec![],
        preferences: vec![],
    }
}
