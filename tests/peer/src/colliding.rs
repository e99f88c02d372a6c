//! Tasks whose states have equal hashes, or hashes that meet in one slot of a table:
//! a search has to tell them apart all the same. The hash is FNV-1a of 32 bits, of the
//! 16 bytes of a state.

use crate::random::Random;
use crate::search::Facts;
use crate::task::*;
use std::collections::HashMap;

/// The 32-bit FNV-1a hash, by Fowler, Noll and Vo.
pub fn fnv1a(bytes: &[u8]) -> u32 {
    let mixed = |hash: u32, byte: &u8| (hash ^ u32::from(*byte)).wrapping_mul(16_777_619);
    bytes.iter().fold(2_166_136_261, mixed)
}

/// The hash of a state: fact n is bit n mod 64 of word n div 64, word 0 comes first,
/// and each word little-endian.
pub fn hash(state: Facts) -> u32 {
    fnv1a(&state.to_le_bytes())
}

/// So many pairs of states of 48 facts with the same hash, all 32 bits of it.
pub fn equal_pairs(count: usize) -> Vec<(Facts, Facts)> {
    let r = &mut Random::new(11);
    let (mut seen, mut pairs) = (HashMap::new(), vec![]);
    while pairs.len() < count {
        let state = Facts::from(r.draw() >> 16) << 40;
        match seen.insert(hash(state), state) {
            Some(other) if other != state => pairs.push((other, state)),
            _ => {}
        }
    }
    pairs
}

/// An action that leads to the same state of these facts from everywhere.
fn to(state: Facts, facts: std::ops::Range<usize>, cost: u32) -> Action {
    let (adds, deletes) = facts.partition(|fact| state >> fact & 1 == 1);
    Action {
        cost,
        precondition: vec![],
        effects: vec![Effect {
            condition: vec![],
            adds,
            deletes,
        }],
    }
}

fn task(actions: Vec<Action>, goal: Condition) -> Task {
    Task {
        facts: MAX_FACTS,
        start: vec![],
        goal,
        actions,
        preferences: vec![],
    }
}

/// An action to each state of these pairs, the second ones cheaper; the goal is one
/// that no state meets.
pub fn equal_hashes(pairs: usize) -> Task {
    let states = equal_pairs(pairs);
    let costs = |(n, &(a, b)): (usize, &(Facts, Facts))| {
        let cost = 2 * n as u32;
        [to(a, 40..88, cost + 1), to(b, 40..88, cost)]
    };
    let actions = states.iter().enumerate().flat_map(costs).collect();
    let never = [true, false].map(|holds| vec![Literal { holds, fact: 0 }]);
    task(actions, never.to_vec())
}

/// The low 11 bits of a hash after three bytes more: all that a table of 2,048 slots,
/// or fewer, looks at.
fn slot_after(hash: u32, bytes: &[u8]) -> u32 {
    let mixed = |hash: u32, byte: &u8| (hash ^ u32::from(*byte)).wrapping_mul(16_777_619) % 2_048;
    bytes.iter().fold(hash % 2_048, mixed)
}

/// 1,024 states whose hashes all agree in their low 11 bits: 32 choices of facts 0 to
/// 23, and for each 32 of facts 24 to 47, by 64 actions. No state meets the goal.
pub fn one_slot() -> Task {
    let mut hash = 2_166_136_261;
    let mut actions = vec![];
    for first in [0, 24] {
        let slot = slot_after(hash, &[0; 3]);
        let meets = |n: &u32| slot_after(hash, &n.to_le_bytes()[..3]) == slot;
        for (n, bits) in (0..1 << 24).filter(meets).take(32).enumerate() {
            let state = Facts::from(bits) << first;
            actions.push(to(state, first..first + 24, 1 + n as u32 % 5));
        }
        hash = slot;
    }
    let never = [true, false].map(|holds| vec![Literal { holds, fact: 99 }]);
    task(actions, never.to_vec())
}
