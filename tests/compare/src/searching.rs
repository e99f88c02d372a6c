//! Searches for a cheapest plan: the library's answer, plan and nodes beside the independent implementation's.

use crate::library::{self, Found, Node, Refusal, Searched, Verdict, MAX_FOUND, MAX_NODES};
use crate::stored::{hold, number};
use crate::tally::Tally;
use peer::colliding::{equal_hashes, one_slot};
use peer::random::{searchable, Random, MAX_FILE};
use peer::{decode, encode, Action, Effect, Literal, Task};

// What callers are told.
const _: () = assert!(MAX_NODES == peer::search::MAX_NODES && MAX_FOUND == peer::search::MAX_FOUND);

const ANSWERS: [&str; 11] = [
    "refused 1",
    "refused 2",
    "refused 3",
    "refused 4",
    "refused 5",
    "refused 6",
    "refused 13",
    "refused 16",
    "found",
    "none",
    "full",
];

/// What is on a node that was lent and not written, and on those after the list.
const UNTOUCHED: Node = Node {
    state: [0xA5A5_A5A5_A5A5_A5A5, 0x5A5A_5A5A_5A5A_5A5A],
    cost: 0xA5A5_A5A5,
    way: 0x5A5A_5A5A,
};

/// How many nodes stand after the list, and bytes after the plan.
const BEHIND: usize = 4;

/// The lent areas, with what stands after them, and the answer.
#[derive(PartialEq)]
struct Left {
    nodes: Vec<Node>,
    plan: Vec<u8>,
    answer: Result<Searched, Refusal>,
}

fn library(file: &[u8], limit: u64, room: usize) -> Left {
    let mut nodes = vec![UNTOUCHED; room + BEHIND];
    let mut plan = library::area(MAX_FOUND);
    let lent = (&mut plan[..MAX_FOUND])
        .try_into()
        .expect("the plan's area");
    let answer = library::search(file, limit, &mut nodes[..room], lent);
    Left {
        nodes,
        plan,
        answer,
    }
}

fn node(node: &peer::search::Node) -> Node {
    Node {
        state: [node.state as u64, (node.state >> 64) as u64],
        cost: node.cost,
        way: node.origin as u64 * 256 + u64::from(node.action),
    }
}

/// What the areas and the answer have to be where the independent implementation answers this.
fn expected(room: usize, searched: Result<peer::Searched, peer::Refusal>) -> Left {
    let mut nodes = vec![UNTOUCHED; room + BEHIND];
    let mut plan = library::area(MAX_FOUND);
    let answer = searched.map_err(library::refusal).map(|searched| {
        let count = searched.nodes.len();
        for (place, kept) in searched.nodes.iter().enumerate() {
            nodes[place] = node(kept);
        }
        let found = match searched.found {
            peer::Found::Plan { steps, cost } => {
                plan[..steps.len()].copy_from_slice(&steps);
                let steps = steps.len();
                Found::Plan { cost, steps }
            }
            peer::Found::NoPlan => Found::NoPlan,
            peer::Found::Full => Found::Full,
        };
        Searched {
            found,
            nodes: count,
        }
    });
    Left {
        nodes,
        plan,
        answer,
    }
}

/// The library's answer, held to the independent implementation's: every word and byte of both areas, and after them.
fn same(file: &[u8], limit: u64, room: usize) -> Result<(&'static str, usize), String> {
    let got = library(file, limit, room);
    let wanted = expected(room, peer::search(file, limit, room));
    if got != wanted {
        let at = |nodes: &[Node], place: usize| format!("{:x?}", nodes[place]);
        let differs = (0..room + BEHIND).find(|&place| got.nodes[place] != wanted.nodes[place]);
        let nodes = differs.map_or("the nodes agree".to_string(), |place| {
            let (got, wanted) = (at(&got.nodes, place), at(&wanted.nodes, place));
            format!("node {place} is {got}, and not {wanted}")
        });
        return Err(format!(
            "limit {limit}, room {room}: the library answers {:?}, and not {:?}, or writes another plan; {nodes}",
            got.answer, wanted.answer
        ));
    }
    Ok(match got.answer {
        Ok(searched) => match searched.found {
            Found::Plan { .. } => ("found", searched.nodes),
            Found::NoPlan => ("none", searched.nodes),
            Found::Full => ("full", searched.nodes),
        },
        Err(refusal) => {
            let name = format!("refused {}", refusal.number);
            let known = ANSWERS.iter().find(|answer| **answer == name);
            (known.ok_or(format!("an unknown refusal {refusal:?}"))?, 0)
        }
    })
}

/// A plan that is found solves, for the library's walk, at the cost that it has.
fn walked(file: &[u8]) -> Result<(), String> {
    let left = library(file, MAX_NODES as u64, MAX_NODES);
    let Ok(Searched {
        found: Found::Plan { cost, steps },
        ..
    }) = left.answer
    else {
        return Ok(());
    };
    match library::walk(file, &left.plan[..steps]).map(|walked| walked.verdict) {
        Ok(Verdict::Solved { cost: paid, .. }) if paid == cost => Ok(()),
        other => Err(format!("a plan of cost {cost} is walked as {other:?}")),
    }
}

/// Limits 1 and 2, the most, as many nodes as it takes, one less and one more; lists of just that room, of less and of more.
fn limits(file: &[u8], tally: &mut Tally) -> Result<(), String> {
    let most = MAX_NODES as u64;
    let (answer, count) = same(file, most, MAX_NODES)?;
    tally.count(answer);
    if answer.starts_with("refused") {
        // A file is refused by its own number also where the limit is none.
        for (limit, room) in [(0, 0), (2, 1), (most + 1, MAX_NODES + 2)] {
            let (other, _) = same(file, limit, room)?;
            if other != answer {
                return Err(format!(
                    "limit {limit}, room {room}: {other}, and not {answer}"
                ));
            }
        }
        return Ok(());
    }
    walked(file)?;
    let needed = count as u64;
    for (limit, room) in [
        (1, 1),
        (2, 2),
        (2, 7),
        (needed, count),
        (needed - 1, count),
        (needed + 1, count + 1),
    ] {
        let (answer, _) = same(file, limit, room)?;
        tally.count(answer);
        // A search that does not get full needs as many nodes as it keeps, and no fewer.
        if limit == needed - 1 && limit > 0 && answer != "full" {
            return Err(format!("limit {limit}, one less than needed: {answer}"));
        }
    }
    for (limit, room) in [(0, count), (needed + 1, count), (most + 1, MAX_NODES + 2)] {
        tally.count(same(file, limit, room)?.0);
    }
    Ok(())
}

/// The task of a seed: mostly few states that many ways lead to; random tasks without their preferences; translations; damaged
/// files; and now and then as many states as a list has room for.
fn file(seed: u64) -> Vec<u8> {
    let r = &mut Random::new(!seed);
    let case = peer::random::case(seed);
    match r.below(20) {
        0..=8 => {
            let facts = r.between(1, 6);
            encode(&searchable(r, facts))
        }
        9 => {
            let facts = r.between(7, 12);
            encode(&searchable(r, facts))
        }
        10..=15 => match decode(&case.file) {
            Ok(task) => encode(&Task {
                preferences: vec![],
                ..task
            }),
            Err(_) => case.file,
        },
        16..=17 => peer::translate(&case.file, MAX_FILE).unwrap_or(case.file),
        _ => case.file,
    }
}

pub fn compare(first: u64, count: u64) -> Result<(), String> {
    let mut tally = Tally::new(&ANSWERS);
    for seed in first..first + count {
        let at = |why| format!("search of seed {seed}: {why}");
        limits(&file(seed), &mut tally).map_err(at)?;
    }
    println!("searches of {count} tasks:");
    tally.finish()
}

// ---- the stored vectors

/// The answer, the plan and the nodes as tests/search/vectors.py writes them.
fn shown(file: &[u8], limit: u64, room: usize) -> String {
    let left = library(file, limit, room);
    let searched = match left.answer {
        Ok(searched) => searched,
        Err(refusal) => return format!("refused {} {}\n", refusal.number, refusal.place),
    };
    let (found, steps) = match searched.found {
        Found::Plan { cost, steps } => (format!("found cost {cost} steps {steps}"), steps),
        Found::NoPlan => ("none".to_string(), 0),
        Found::Full => ("full".to_string(), 0),
    };
    let mut text = format!("{found} nodes {}\n", searched.nodes);
    for step in &left.plan[..steps] {
        text += &format!("(a{step})\n");
    }
    for node in &left.nodes[..searched.nodes] {
        let [low, high] = node.state;
        let (origin, action) = (node.origin(), node.action());
        text += &format!("{low:016x} {high:016x} {} {origin} {action}\n", node.cost);
    }
    text
}

/// The library gives the answers that the account in Python and the outside engine gave.
pub fn vectors() -> Result<(), String> {
    hold("search", 2, |records| {
        let (file, of) = (&records[0], &records[1]);
        Ok(shown(file, number(of, 0), number(of, 8) as usize))
    })
}

// ---- the edges

fn holds(fact: usize) -> Vec<Literal> {
    vec![Literal { holds: true, fact }]
}

fn lacks(fact: usize) -> Vec<Literal> {
    vec![Literal { holds: false, fact }]
}

/// A counter of so many bits, from fact `first` on, whose one action has the greatest cost; its goal is that all are held.
fn counter(first: usize, bits: usize) -> Task {
    let mut effects = vec![];
    for bit in first..first + bits {
        let below: Vec<_> = (first..bit).map(holds).collect();
        let when = |last| [below.clone(), vec![last]].concat();
        effects.push(Effect {
            condition: when(lacks(bit)),
            adds: vec![bit],
            deletes: vec![],
        });
        effects.push(Effect {
            condition: when(holds(bit)),
            adds: vec![],
            deletes: vec![bit],
        });
    }
    let action = Action {
        cost: u32::MAX,
        precondition: vec![],
        effects,
    };
    Task {
        facts: 128,
        start: vec![],
        goal: (first..first + bits).map(holds).collect(),
        actions: vec![action],
        preferences: vec![],
    }
}

fn edge(task: &Task, limit: u64, room: usize, wanted: (&str, usize)) -> Result<(), String> {
    match same(&encode(task), limit, room)? {
        answer if answer == wanted => Ok(()),
        answer => Err(format!(
            "limit {limit}, room {room}: {answer:?}, and not {wanted:?}"
        )),
    }
}

pub fn edges() -> Result<(), String> {
    // 1,024 states in a row: the longest plan, at the greatest cost; one node less, and one state more. The facts are those of the
    // first word, of both, and of the second.
    for first in [0, 59, 118] {
        let longest = counter(first, 10);
        edge(&longest, 1_024, 1_024, ("found", 1_024))?;
        edge(&longest, 1_024, 2_000, ("found", 1_024))?;
        edge(&longest, 1_023, 1_024, ("full", 1_023))?;
        let left = library(&encode(&longest), 1_024, 1_024);
        let steps = 1_023;
        let cost = steps as u64 * u64::from(u32::MAX);
        if left.answer.map(|searched| searched.found) != Ok(Found::Plan { cost, steps }) {
            return Err("the longest plan is another".to_string());
        }
        let never = Task {
            goal: vec![holds(first), lacks(first)],
            ..longest
        };
        edge(&never, 1_024, 1_024, ("none", 1_024))?;
        edge(&never, 1_023, 1_023, ("full", 1_023))?;
        edge(&never, 1_025, 1_025, ("refused 16", 0))?;
        edge(&never, 1_024, 1_023, ("refused 16", 0))?;
        edge(&never, u64::MAX, 1_024, ("refused 16", 0))?;
        edge(&never, 1 << 32 | 5, 1_024, ("refused 16", 0))?;
        edge(&never, 0, 0, ("refused 16", 0))?;
        edge(&never, 0, 1_024, ("refused 16", 0))?;
    }
    edge(&counter(0, 11), 1_024, 1_024, ("full", 1_024))?;
    // 128 actions, each to a state of its own, and one goal among them.
    let mut many = counter(0, 10);
    many.actions = (0..128)
        .map(|fact| Action {
            cost: 128 - fact as u32,
            precondition: vec![],
            effects: vec![Effect {
                condition: vec![],
                adds: vec![fact],
                deletes: vec![],
            }],
        })
        .collect();
    for (goal, found) in [(127, ("found", 129)), (126, ("found", 256))] {
        many.goal = vec![holds(goal)];
        edge(&many, 1_024, 1_024, found)?;
        edge(&many, found.1 as u64 - 1, 1_024, ("full", found.1 - 1))?;
    }
    // States of one hash, and states that meet in one slot of a table, are told apart.
    edge(&equal_hashes(40), 1_024, 1_024, ("none", 81))?;
    edge(&equal_hashes(40), 80, 1_024, ("full", 80))?;
    edge(&one_slot(), 1_024, 1_024, ("none", 1_024))?;
    edge(&one_slot(), 1_023, 1_024, ("full", 1_023))?;
    println!("edges of search: as they should be");
    Ok(())
}
