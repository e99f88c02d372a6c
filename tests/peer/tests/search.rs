//! A search for a cheapest plan: its order, its nodes, its answers.

mod common;

use common::*;
use peer::random::{case, searchable, Random};
use peer::search::{Node, MAX_NODES};
use peer::*;

fn words(words: &str) -> Vec<u8> {
    let rows = rows(words);
    let actions = rows.iter().filter(|row| row.mark == 1).count() as u16;
    file(128, actions, 0, words)
}

/// An action of a cost that applies where facts of the first list are held, those of the second not, adds and deletes.
fn action(cost: u32, needs: &[u8], lacks: &[u8], adds: &[u8], deletes: &[u8]) -> String {
    let each = |before: &str, facts: &[u8]| -> String {
        facts
            .iter()
            .map(|fact| format!(" {before} {fact}"))
            .collect()
    };
    format!(
        " ACTION {cost}{}{} EFFECT{}{}",
        each("CLAUSE HOLDS", needs),
        each("CLAUSE LACKS", lacks),
        each("ADD", adds),
        each("DELETE", deletes)
    )
}

/// An action that leads from the state with one fact alone to that with another alone.
fn edge(cost: u32, from: u8, to: u8) -> String {
    action(cost, &[from], &[], &[to], &[from])
}

fn node(state: u128, cost: u64, origin: usize, action: u8) -> Node {
    Node {
        state,
        cost,
        origin,
        action,
    }
}

fn searched(file: &[u8], limit: u64) -> Searched {
    search(file, limit, MAX_NODES).expect("no refusal")
}

fn finds(rows: &str, steps: &[u8], cost: u64, nodes: &[Node]) {
    let found = Found::Plan {
        steps: steps.to_vec(),
        cost,
    };
    let nodes = nodes.to_vec();
    let limit = nodes.len() as u64;
    let wanted = Searched { found, nodes };
    for limit in [limit, limit + 1, 1_024] {
        assert_eq!(searched(&words(rows), limit), wanted, "{rows}");
    }
    if limit > 1 {
        assert_eq!(
            searched(&words(rows), limit - 1).found,
            Found::Full,
            "{rows}"
        );
    }
}

#[test]
fn by_hand() {
    // The opening state meets the goal.
    finds(
        "START 5 GOAL CLAUSE HOLDS 5 ACTION EFFECT ADD 1",
        &[],
        0,
        &[node(32, 0, 0, 0)],
    );
    // Looked at when taken: the way straight to the goal is found first, and costs more. It keeps its place.
    finds(
        &format!(
            "START 0 GOAL CLAUSE HOLDS 3{}{}{}",
            edge(5, 0, 3),
            edge(1, 0, 1),
            edge(1, 1, 3)
        ),
        &[1, 2],
        2,
        &[node(1, 0, 0, 0), node(8, 2, 2, 2), node(2, 1, 0, 1)],
    );
    // The same, both at one cost: the first way stays, and is not replaced.
    finds(
        &format!(
            "START 0 GOAL CLAUSE HOLDS 3{}{}{}",
            edge(2, 0, 3),
            edge(1, 0, 1),
            edge(1, 1, 3)
        ),
        &[0],
        2,
        &[node(1, 0, 0, 0), node(8, 2, 0, 0), node(2, 1, 0, 1)],
    );
    // Two states of one cost: the earliest found first, though it is one whose cost was lowered.
    finds(
        &format!(
            "START 0 GOAL CLAUSE HOLDS 4 HOLDS 5{}{}{}{}{}{}",
            edge(9, 0, 1),
            edge(3, 0, 2),
            edge(1, 0, 3),
            edge(2, 3, 1),
            edge(1, 1, 4),
            edge(1, 2, 5)
        ),
        &[2, 3, 4],
        4,
        &[
            node(1, 0, 0, 0),
            node(2, 3, 3, 3),
            node(4, 3, 0, 1),
            node(8, 1, 0, 2),
            node(16, 4, 1, 4),
            node(32, 4, 2, 5),
        ],
    );
    // Costs of 0, in a ring: every state once.
    finds(
        &format!(
            "START 0 GOAL CLAUSE HOLDS 2{}{}{}",
            edge(0, 0, 1),
            edge(0, 1, 0),
            edge(0, 1, 2)
        ),
        &[0, 2],
        0,
        &[node(1, 0, 0, 0), node(2, 0, 0, 0), node(4, 0, 1, 2)],
    );
    // Actions by number: of two to one state at one cost the lower stays.
    finds(
        &format!(
            "START 0 GOAL CLAUSE HOLDS 1{}{}",
            edge(7, 0, 1),
            edge(7, 0, 1)
        ),
        &[0],
        7,
        &[node(1, 0, 0, 0), node(2, 7, 0, 0)],
    );
    // A later action of the same node is cheaper, and replaces.
    finds(
        &format!(
            "START 0 GOAL CLAUSE HOLDS 1{}{}",
            edge(7, 0, 1),
            edge(6, 0, 1)
        ),
        &[1],
        6,
        &[node(1, 0, 0, 0), node(2, 6, 0, 1)],
    );
    // Facts of both words, and costs of 32 bits.
    let large = u64::from(u32::MAX);
    finds(
        &format!(
            "START 63 GOAL CLAUSE HOLDS 127{}{}{}",
            edge(u32::MAX, 63, 64),
            edge(u32::MAX, 64, 0),
            edge(u32::MAX, 0, 127)
        ),
        &[0, 1, 2],
        3 * large,
        &[
            node(1 << 63, 0, 0, 0),
            node(1 << 64, large, 0, 0),
            node(1, 2 * large, 1, 1),
            node(1 << 127, 3 * large, 2, 2),
        ],
    );
}

#[test]
fn none_and_full() {
    let none = |rows: &str, limit, nodes: &[Node]| {
        let nodes = nodes.to_vec();
        let wanted = Searched {
            found: Found::NoPlan,
            nodes,
        };
        assert_eq!(searched(&words(rows), limit), wanted, "{rows}");
    };
    let full = |rows: &str, limit, nodes: &[Node]| {
        let nodes = nodes.to_vec();
        let wanted = Searched {
            found: Found::Full,
            nodes,
        };
        assert_eq!(searched(&words(rows), limit), wanted, "{rows}");
    };
    let opening = node(1, 0, 0, 0);
    none("START 0 GOAL CLAUSE HOLDS 1", 1, &[opening]);
    // A state that is there already is not a new one.
    none(
        &format!("START 0 GOAL CLAUSE HOLDS 1{}", edge(3, 0, 0)),
        1,
        &[opening],
    );
    // An action that doesn't apply leads nowhere.
    none(
        &format!("START 0 GOAL CLAUSE HOLDS 1{}", edge(3, 2, 1)),
        1,
        &[opening],
    );
    full(
        &format!("START 0 GOAL CLAUSE HOLDS 1{}", edge(3, 0, 1)),
        1,
        &[opening],
    );
    // At once: the second action would lower the first one's cost, and is not tried.
    let third = format!(
        "START 0 GOAL CLAUSE HOLDS 9{}{}{}",
        edge(3, 0, 1),
        edge(3, 0, 2),
        edge(1, 0, 1)
    );
    full(&third, 2, &[opening, node(2, 3, 0, 0)]);
    none(&third, 3, &[opening, node(2, 1, 0, 2), node(4, 3, 0, 1)]);
    // The goal is reached with the last node that there is room for.
    let two = format!(
        "START 0 GOAL CLAUSE HOLDS 1{}{}",
        edge(3, 0, 1),
        edge(1, 1, 2)
    );
    assert_eq!(
        searched(&words(&two), 2).found,
        Found::Plan {
            steps: vec![0],
            cost: 3
        }
    );
}

/// A counter of so many bits: 2 to that many states in one row.
fn counter(bits: usize) -> Vec<u8> {
    let mut rows = String::from("GOAL");
    (0..bits).for_each(|bit| rows += &format!(" CLAUSE HOLDS {bit}"));
    rows += " ACTION 4294967295";
    for bit in 0..bits {
        let below: String = (0..bit).map(|low| format!(" CLAUSE HOLDS {low}")).collect();
        rows += &format!(" EFFECT{below} CLAUSE LACKS {bit} ADD {bit} EFFECT{below} CLAUSE HOLDS {bit} DELETE {bit}");
    }
    words(&rows)
}

#[test]
fn longest_plan() {
    let file = counter(10);
    let plan = Found::Plan {
        steps: vec![0; 1_023],
        cost: 1_023 * u64::from(u32::MAX),
    };
    let longest = searched(&file, 1_024);
    assert_eq!((longest.found, longest.nodes.len()), (plan, 1_024));
    for (place, node) in longest.nodes.iter().enumerate() {
        assert_eq!(node.state, place as u128);
        assert_eq!(node.origin, place.saturating_sub(1));
    }
    let short = searched(&file, 1_023);
    assert_eq!((short.found, short.nodes.len()), (Found::Full, 1_023));
    assert_eq!(searched(&counter(11), 1_024).found, Found::Full);
}

#[test]
fn refusals() {
    for (task, number, place) in [
        (vec![], 1, 0),
        (file(0, 0, 0, "GOAL"), 2, 0),
        ([belt(), vec![0]].concat(), 3, 0),
        (file(4, 0, 0, "GOAL CLAUSE"), 4, 2),
        (file(4, 0, 0, "GOAL CLAUSE HOLDS 4"), 5, 2),
        (file(4, 1, 0, "GOAL"), 6, 1),
        (belt(), 13, 0),
        (file(1, 0, 1, "GOAL hard-always"), 13, 0),
    ] {
        for (limit, room) in [(1, 1), (0, 0), (1_025, 2_000)] {
            assert_eq!(search(&task, limit, room), refused(number, place));
        }
    }
    let task = words("GOAL");
    for (limit, room) in [
        (0, 0),
        (0, 5),
        (1, 0),
        (6, 5),
        (1_024, 1_023),
        (1_025, 2_000),
        (u64::MAX, 2_000),
        (1 << 32 | 1, 5),
    ] {
        assert_eq!(search(&task, limit, room), refused(16, 0), "{limit} {room}");
    }
    for (limit, room) in [(1, 1), (5, 5), (1_024, 1_024), (1_024, 5_000)] {
        assert!(search(&task, limit, room).is_ok(), "{limit} {room}");
    }
}

/// The least cost of a plan that solves, by lowering the costs of all states until none can be lowered; the states there are.
fn least(task: &Task) -> (Option<u64>, usize) {
    let mut states = vec![(meaning::opening(task), 0)];
    let mut lowered = true;
    while lowered {
        lowered = false;
        for at in 0..states.len() {
            let (state, cost): (_, u64) = states[at];
            for action in &task.actions {
                if !meaning::condition_true(&action.precondition, &state) {
                    continue;
                }
                let (next, cost) = (
                    meaning::after(action, &state),
                    cost + u64::from(action.cost),
                );
                match states.iter_mut().find(|(there, _)| *there == next) {
                    Some((_, old)) if cost < *old => *old = cost,
                    Some(_) => continue,
                    None => states.push((next, cost)),
                }
                lowered = true;
            }
        }
    }
    let solving = |(state, _): &&(_, u64)| meaning::condition_true(&task.goal, state);
    let costs = states.iter().filter(solving).map(|(_, cost)| *cost);
    (costs.min(), states.len())
}

/// What is found solves and costs what it says, the least that there is; none just where nothing solves; nodes are reached from their
/// origins; limits on both sides of the nodes kept.
#[test]
fn random_cases() {
    let (mut plans, mut none, mut full) = (0, 0, 0);
    for seed in 0..3_000 {
        let r = &mut Random::new(seed);
        let task = match decode(&case(seed).file) {
            Ok(task) if task.facts <= 6 => Task {
                preferences: vec![],
                ..task
            },
            _ => searchable(r, 4),
        };
        let file = encode(&task);
        let answer = searched(&file, 1_024);
        let (least, states) = least(&task);
        assert!(answer.nodes.len() <= states && states <= 64, "seed {seed}");
        match &answer.found {
            Found::Plan { steps, cost } => {
                let list: Vec<usize> = steps.iter().map(|&step| step.into()).collect();
                assert_eq!(run(&task, &list), Some(u128::from(*cost)), "seed {seed}");
                assert_eq!(Some(*cost), least, "seed {seed}");
                plans += 1;
            }
            Found::NoPlan => {
                assert_eq!((least, answer.nodes.len()), (None, states), "seed {seed}");
                none += 1;
            }
            Found::Full => panic!("seed {seed}"),
        }
        let limit = answer.nodes.len() as u64;
        assert_eq!(searched(&file, limit), answer, "seed {seed}");
        if limit > 1 {
            let short = searched(&file, limit - 1);
            assert_eq!(
                (short.found, short.nodes.len() as u64),
                (Found::Full, limit - 1),
                "seed {seed}"
            );
            full += 1;
        }
    }
    let came = (plans, none, full);
    assert!(plans > 500 && none > 200 && full > 1_000, "{came:?}");
}

/// Published vectors of FNV-1a of 32 bits (Landon Curt Noll's test suite), and of states.
#[test]
fn published_hashes() {
    use peer::colliding::{fnv1a, hash};
    for (text, wanted) in [
        ("", 0x811c_9dc5_u32),
        ("a", 0xe40c_292c),
        ("b", 0xe70c_2de5),
        ("c", 0xe60c_2c52),
        ("fo", 0x6222_e842),
        ("foo", 0xa9f3_7ed7),
        ("foob", 0x3f50_76ef),
        ("fooba", 0x39aa_a18a),
        ("foobar", 0xbf9c_f968),
        ("chongo was here!\n", 0xd49930d5),
        ("\0", 0x050c_5d1f),
        ("\0\0\0\0\0\0\0\0", 0x9be1_7165),
    ] {
        assert_eq!(fnv1a(text.as_bytes()), wanted, "{text:?}");
    }
    // The 16 bytes of a state: fact 0 is bit 0 of the first, fact 127 bit 7 of the last.
    assert_eq!(hash(0), fnv1a(&[0; 16]));
    let mut bytes = [0; 16];
    (bytes[0], bytes[8], bytes[15]) = (0b101, 0b10, 0x80);
    assert_eq!(hash(1 | 1 << 2 | 1 << 65 | 1 << 127), fnv1a(&bytes));
}

/// States that collide are told apart.
#[test]
fn colliding_states() {
    use peer::colliding::{equal_hashes, equal_pairs, hash, one_slot};
    for (a, b) in equal_pairs(8) {
        assert!(a != b && hash(a) == hash(b));
    }
    let equal = searched(&encode(&equal_hashes(8)), 1_024);
    assert_eq!((equal.found, equal.nodes.len()), (Found::NoPlan, 17));
    let slot = searched(&encode(&one_slot()), 1_024);
    assert_eq!((slot.found, slot.nodes.len()), (Found::NoPlan, 1_024));
    let low = hash(slot.nodes[0].state) % 2_048;
    assert!(slot
        .nodes
        .iter()
        .all(|node| hash(node.state) % 2_048 == low));
    assert_eq!(searched(&encode(&one_slot()), 1_023).found, Found::Full);
}
