//! A search for a cheapest plan of a task without preferences: the open state of
//! least cost first, on ties the earliest found. States wait in a binary heap, and a
//! hash map says at which place a state was found.

use crate::decode::decode;
use crate::task::*;
use crate::{refuse, Refusal};
use std::cmp::Reverse;
use std::collections::{BinaryHeap, HashMap};

/// The most nodes that a search may keep.
pub const MAX_NODES: usize = 1_024;

/// The most steps of a plan that a search finds.
pub const MAX_FOUND: usize = MAX_NODES - 1;

/// A set of facts: bit f says whether fact f is held.
pub type Facts = u128;

/// A state that was found, with the cheapest way to it so far: from the node at the
/// place `origin` by `action`.
#[derive(Clone, Copy, PartialEq, Eq, Debug)]
pub struct Node {
    pub state: Facts,
    pub cost: u64,
    pub origin: usize,
    pub action: u8,
}

#[derive(Clone, PartialEq, Eq, Debug)]
pub enum Found {
    Plan { steps: Vec<u8>, cost: u64 },
    NoPlan,
    Full,
}

/// What a search comes to, and the nodes kept, in the order found.
#[derive(Clone, PartialEq, Eq, Debug)]
pub struct Searched {
    pub found: Found,
    pub nodes: Vec<Node>,
}

/// A search of the task in a file with at most `limit` nodes, in a list that has room
/// for so many, or the refusal (1 to 6, 13, 16).
pub fn search(file: &[u8], limit: u64, room: usize) -> Result<Searched, Refusal> {
    let task = decode(file)?;
    if !task.preferences.is_empty() {
        return refuse(13, 0);
    }
    if limit == 0 || limit > MAX_NODES as u64 || limit > room as u64 {
        return refuse(16, 0);
    }
    Ok(Search::new(&task, limit as usize).run())
}

struct Search<'a> {
    task: &'a Task,
    limit: usize,
    nodes: Vec<Node>,
    places: HashMap<Facts, usize>,
    /// Costs and places. One whose cost was lowered since, or that was taken, stays
    /// in the heap and is passed over.
    open: BinaryHeap<Reverse<(u64, usize)>>,
    taken: Vec<bool>,
}

impl Search<'_> {
    fn new(task: &Task, limit: usize) -> Search<'_> {
        let state = task.start.iter().fold(0, |state, fact| state | 1 << fact);
        let opening = Node {
            state,
            cost: 0,
            origin: 0,
            action: 0,
        };
        Search {
            task,
            limit,
            nodes: vec![opening],
            places: HashMap::from([(state, 0)]),
            open: BinaryHeap::from([Reverse((0, 0))]),
            taken: vec![false],
        }
    }

    fn run(mut self) -> Searched {
        while let Some(Reverse((cost, place))) = self.open.pop() {
            if self.taken[place] || self.nodes[place].cost != cost {
                continue;
            }
            self.taken[place] = true;
            if is_true(&self.task.goal, self.nodes[place].state) {
                let steps = self.steps_to(place);
                return self.ends(Found::Plan { steps, cost });
            }
            if !self.expand(place) {
                return self.ends(Found::Full);
            }
        }
        self.ends(Found::NoPlan)
    }

    fn ends(self, found: Found) -> Searched {
        let nodes = self.nodes;
        Searched { found, nodes }
    }

    /// Tries all actions from a node; false where a new state has no room.
    fn expand(&mut self, origin: usize) -> bool {
        let Node { state, cost, .. } = self.nodes[origin];
        for (number, action) in self.task.actions.iter().enumerate() {
            if !is_true(&action.precondition, state) {
                continue;
            }
            let met = Node {
                state: after(action, state),
                cost: cost + u64::from(action.cost),
                origin,
                action: number as u8,
            };
            if !self.meet(met) {
                return false;
            }
        }
        true
    }

    fn meet(&mut self, met: Node) -> bool {
        let place = match self.places.get(&met.state) {
            Some(&place) if met.cost < self.nodes[place].cost => {
                self.nodes[place] = met;
                place
            }
            Some(_) => return true,
            None if self.nodes.len() == self.limit => return false,
            None => {
                let place = self.nodes.len();
                self.places.insert(met.state, place);
                self.nodes.push(met);
                self.taken.push(false);
                place
            }
        };
        self.open.push(Reverse((met.cost, place)));
        true
    }

    /// The actions on the way to a place, read from the origins.
    fn steps_to(&self, mut place: usize) -> Vec<u8> {
        let mut steps = Vec::new();
        while place != 0 {
            steps.push(self.nodes[place].action);
            place = self.nodes[place].origin;
        }
        steps.reverse();
        steps
    }
}

fn holds(state: Facts, fact: usize) -> bool {
    state >> fact & 1 == 1
}

fn is_true(condition: &Condition, state: Facts) -> bool {
    let literal_true = |literal: &Literal| holds(state, literal.fact) == literal.holds;
    condition
        .iter()
        .all(|clause| clause.iter().any(literal_true))
}

/// Deletes of all effects that fire go out, then adds come in.
fn after(action: &Action, state: Facts) -> Facts {
    let (mut adds, mut deletes) = (0, 0);
    for effect in &action.effects {
        if is_true(&effect.condition, state) {
            effect.adds.iter().for_each(|fact| adds |= 1 << fact);
            effect.deletes.iter().for_each(|fact| deletes |= 1 << fact);
        }
    }
    state & !deletes | adds
}
