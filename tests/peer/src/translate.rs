//! The translated task: preferences turned into facts, effects and closing actions.

use crate::decode::decode;
use crate::encode::encode;
use crate::meaning::{met, states};
use crate::task::*;
use crate::{refuse, Refusal};

/// The file of the translated task, or the refusal (1 to 6, then 7 to 9).
/// `room` is the length of the output area.
pub fn translate(file: &[u8], room: usize) -> Result<Vec<u8>, Refusal> {
    let source = decode(file)?;
    let layout = Layout::of(&source);
    if layout.all_facts() > MAX_FACTS || layout.all_actions() > MAX_ACTIONS {
        return refuse(7, 0);
    }
    let Some(task) = translated(&source, MAX_ROWS) else {
        return refuse(8, 0);
    };
    let bytes = encode(&task);
    if room < bytes.len() {
        return refuse(9, 0);
    }
    Ok(bytes)
}

/// How many facts D a preference of a kind has.
pub fn deadline_facts(kind: Kind) -> usize {
    match kind {
        Kind::Within(t) => t + 1,
        Kind::AlwaysWithin(t) => t,
        _ => 0,
    }
}

/// The numbers of the facts and actions of the translated task.
#[derive(Clone, Copy)]
struct Layout<'a> {
    facts: usize,
    actions: usize,
    preferences: &'a [Preference],
}

impl Layout<'_> {
    fn of(source: &Task) -> Layout<'_> {
        Layout {
            facts: source.facts,
            actions: source.actions.len(),
            preferences: &source.preferences,
        }
    }
    fn s(self, k: usize) -> usize {
        self.facts + 3 * k
    }
    fn b(self, k: usize) -> usize {
        self.facts + 3 * k + 1
    }
    fn closed(self, k: usize) -> usize {
        self.facts + 3 * k + 2
    }
    fn normal(self) -> usize {
        self.facts + 3 * self.preferences.len()
    }
    fn ended(self) -> usize {
        self.facts + 3 * self.preferences.len() + 1
    }
    /// D of j of preference k, j counted from 1. For always-within, D of t + 1 is S.
    fn d(self, k: usize, j: usize) -> usize {
        match self.preferences[k].kind {
            Kind::AlwaysWithin(t) if j == t + 1 => self.s(k),
            _ => self.first_d(k) + j - 1,
        }
    }
    /// Where the facts D of preference k begin: after *ended* and those of the
    /// preferences before.
    fn first_d(self, k: usize) -> usize {
        let before = self.preferences[..k].iter();
        self.ended() + 1 + before.map(|p| deadline_facts(p.kind)).sum::<usize>()
    }
    fn all_facts(self) -> usize {
        self.first_d(self.preferences.len())
    }
    fn end(self) -> usize {
        self.actions
    }
    fn collect(self, k: usize) -> usize {
        self.actions + 1 + 2 * k
    }
    fn forgo(self, k: usize) -> usize {
        self.actions + 2 + 2 * k
    }
    fn all_actions(self) -> usize {
        self.actions + 2 * self.preferences.len() + 1
    }
}

/// The tree of the translated task; none if it has over `limit` rows. Actions
/// are made one at a time and their rows counted, so a tree far too large is
/// never built.
pub fn translated(source: &Task, limit: usize) -> Option<Task> {
    let layout = Layout::of(source);
    let mut task = Task {
        facts: layout.all_facts(),
        start: [source.start.clone(), vec![layout.normal()]].concat(),
        goal: [source.goal.clone(), vec![vec![holds(layout.ended())]]].concat(),
        actions: Vec::new(),
        preferences: Vec::new(),
    };
    for k in 0..source.preferences.len() {
        task.goal.push(vec![holds(layout.closed(k))]);
    }
    let mut rows = task.rows();
    for number in 0..layout.all_actions() {
        let action = translated_action(source, number);
        rows += action.rows();
        if rows > limit {
            return None;
        }
        task.actions.push(action);
    }
    Some(task)
}

/// Action `number` of the translated task.
fn translated_action(source: &Task, number: usize) -> Action {
    let layout = Layout::of(source);
    if number < layout.end() {
        source_action(source, number)
    } else if number == layout.end() {
        end_action(source)
    } else {
        let k = (number - layout.end() - 1) / 2;
        closing_action(source, k, number == layout.collect(k))
    }
}

/// A source action: it needs *normal* too, and carries all trackers but at-end's.
fn source_action(source: &Task, number: usize) -> Action {
    let layout = Layout::of(source);
    let mut action = source.actions[number].clone();
    action.precondition.push(vec![holds(layout.normal())]);
    for (k, preference) in source.preferences.iter().enumerate() {
        if preference.kind != Kind::AtEnd {
            action.effects.extend(trackers(layout, k, preference));
        }
    }
    action
}

/// *End*: from *normal* to *ended*, with all trackers.
fn end_action(source: &Task) -> Action {
    let layout = Layout::of(source);
    let mut effects = vec![Effect {
        condition: vec![],
        adds: vec![layout.ended()],
        deletes: vec![layout.normal()],
    }];
    for (k, preference) in source.preferences.iter().enumerate() {
        effects.extend(trackers(layout, k, preference));
    }
    Action {
        cost: 0,
        precondition: vec![vec![holds(layout.normal())]],
        effects,
    }
}

/// Collect k or forgo k.
fn closing_action(source: &Task, k: usize, collect: bool) -> Action {
    let layout = Layout::of(source);
    let preference = &source.preferences[k];
    let met_clause = met_clause(layout, k, preference.kind);
    let mut precondition = vec![vec![holds(layout.ended())]];
    if k > 0 {
        precondition.push(vec![holds(layout.closed(k - 1))]);
    }
    precondition.push(vec![lacks(layout.closed(k))]);
    if collect {
        precondition.push(met_clause);
    } else {
        precondition.extend(denied(&met_clause));
    }
    // A hard rule is never forgone: *ended* holds where a closing action may come.
    if preference.hard && !collect {
        precondition.push(vec![lacks(layout.ended())]);
    }
    Action {
        cost: if collect { 0 } else { preference.weight },
        precondition,
        effects: vec![adding(vec![], vec![layout.closed(k)])],
    }
}

/// The effects that follow preference k.
fn trackers(layout: Layout, k: usize, preference: &Preference) -> Vec<Effect> {
    let (s, b, d) = (layout.s(k), layout.b(k), |j| layout.d(k, j));
    let phi = || preference.phi.clone();
    let psi = || preference.psi.clone();
    match preference.kind {
        Kind::Always => phi()
            .iter()
            .map(|clause| adding(denied(clause), vec![b]))
            .collect(),
        Kind::Sometime | Kind::AtEnd => vec![adding(phi(), vec![s])],
        Kind::AtMostOnce => {
            let mut effects = vec![adding(after(&[lacks(s), lacks(b)], phi()), vec![s])];
            for clause in &preference.phi {
                effects.push(adding(after(&[holds(s)], denied(clause)), vec![b]));
            }
            effects.push(deleting(after(&[holds(s), holds(b)], phi()), vec![s]));
            effects
        }
        Kind::SometimeBefore => vec![
            adding(psi(), vec![s]),
            adding(after(&[lacks(s)], phi()), vec![b]),
        ],
        Kind::SometimeAfter => {
            let unfollowed = |clause| adding([phi(), denied(clause)].concat(), vec![b]);
            let mut effects: Vec<Effect> = preference.psi.iter().map(unfollowed).collect();
            effects.push(deleting(psi(), vec![b]));
            effects
        }
        // D of j holds in state j and after it.
        Kind::Within(t) => {
            let mut effects = vec![adding(vec![], vec![d(1)])];
            for j in 1..=t {
                effects.push(adding(after(&[holds(d(j))], vec![]), vec![d(j + 1)]));
            }
            effects.push(adding(after(&[lacks(d(t + 1))], phi()), vec![s]));
            effects
        }
        // D of j holds where some φ has gone without ψ for j states or more.
        Kind::AlwaysWithin(t) => {
            let mut effects = Vec::new();
            for clause in &preference.psi {
                let unfollowed = [phi(), denied(clause)].concat();
                effects.push(adding(unfollowed, vec![b, d(1)]));
            }
            for j in 1..=t {
                for clause in &preference.psi {
                    let still = after(&[holds(d(j))], denied(clause));
                    effects.push(adding(still, vec![d(j + 1)]));
                }
            }
            let all = std::iter::once(b).chain((1..=t).map(d)).collect();
            effects.push(deleting(after(&[lacks(s)], psi()), all));
            effects
        }
    }
}

/// The clause that says, after *end*, that preference k is met.
fn met_clause(layout: Layout, k: usize, kind: Kind) -> Clause {
    let (s, b) = (layout.s(k), layout.b(k));
    match kind {
        Kind::Always | Kind::SometimeBefore | Kind::SometimeAfter | Kind::AlwaysWithin(_) => {
            vec![lacks(b)]
        }
        Kind::Sometime | Kind::AtEnd | Kind::Within(_) => vec![holds(s)],
        Kind::AtMostOnce => vec![holds(s), lacks(b)],
    }
}

fn holds(fact: usize) -> Literal {
    Literal { holds: true, fact }
}

fn lacks(fact: usize) -> Literal {
    Literal { holds: false, fact }
}

/// A clause denied: each literal denied, in their order, each a clause alone.
fn denied(clause: &Clause) -> Condition {
    let deny = |literal: &Literal| Literal {
        holds: !literal.holds,
        fact: literal.fact,
    };
    clause.iter().map(|literal| vec![deny(literal)]).collect()
}

/// A condition after literals that are each a clause alone.
fn after(literals: &[Literal], condition: Condition) -> Condition {
    let mut clauses: Condition = literals.iter().map(|&literal| vec![literal]).collect();
    clauses.extend(condition);
    clauses
}

fn adding(condition: Condition, adds: Vec<usize>) -> Effect {
    Effect {
        condition,
        adds,
        deletes: vec![],
    }
}

fn deleting(condition: Condition, deletes: Vec<usize>) -> Effect {
    Effect {
        condition,
        adds: vec![],
        deletes,
    }
}

/// The completed list of a plan: its steps, then *end*, then for each k rising
/// collect k if the plan meets preference k, and forgo k if not. Each step of
/// the plan must apply in turn. The plan may be of any length.
pub fn complete(source: &Task, plan: &[u8]) -> Vec<usize> {
    let layout = Layout::of(source);
    let states = states(source, plan).expect("each step applies in turn");
    let mut list: Vec<usize> = plan.iter().map(|&step| usize::from(step)).collect();
    list.push(layout.end());
    for (k, preference) in source.preferences.iter().enumerate() {
        list.push(if met(preference, &states) {
            layout.collect(k)
        } else {
            layout.forgo(k)
        });
    }
    list
}
