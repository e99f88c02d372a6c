//! The proved library on areas with guard bytes behind, through the functions that Rust callers use.

#[path = "../../../include/route_rules.rs"]
mod route_rules;

pub use route_rules::{
    check, lost, refused, search, settle, walk, walk_text, week, Figures, Found, Lost, Node,
    Refusal, Searched, Sizes, Verdict, Walked, Worth, MAX_CHOICES, MAX_COST, MAX_FOUND, MAX_NODES,
    MAX_PDDL, MAX_REPORT, MAX_STEPS,
};

/// Fills an area before it is lent, and stands behind it.
pub const GUARD: u8 = 0xA5;

/// An area of `room` bytes, with 16 more behind it that are not lent.
pub fn area(room: usize) -> Vec<u8> {
    vec![GUARD; room + 16]
}

/// What an operation leaves in an area of `room` bytes, and the length or the refusal that it answers.
pub type Left = (Vec<u8>, Result<usize, Refusal>);

fn left(room: usize, call: impl FnOnce(&mut [u8]) -> Result<usize, Refusal>) -> Left {
    let mut out = area(room);
    let answer = call(&mut out[..room]);
    (out, answer)
}

pub fn translate(file: &[u8], room: usize) -> Left {
    left(room, |out| route_rules::translate(file, out))
}

pub fn spell(file: &[u8], room: usize) -> Left {
    left(room, |out| route_rules::spell(file, out))
}

pub fn single(file: &[u8], room: usize) -> Left {
    left(room, |out| route_rules::single(file, out))
}

pub fn read_plan(text: &[u8], room: usize) -> Left {
    left(room, |out| route_rules::read_plan(text, out))
}

pub fn write_plan(plan: &[u8], room: usize) -> Left {
    left(room, |out| route_rules::write_plan(plan, out))
}

pub fn source(file: &[u8], text: &[u8], room: usize) -> Left {
    left(room, |out| route_rules::source(file, text, out))
}

pub fn report(file: &[u8], plan: &[u8], room: usize) -> Left {
    left(room, |out| route_rules::report(file, plan, out))
}

/// What writing PDDL leaves in two areas, and the two lengths or the refusal that it answers.
#[derive(PartialEq)]
pub struct Both {
    pub domain: Vec<u8>,
    pub problem: Vec<u8>,
    pub answer: Result<(usize, usize), Refusal>,
}

pub fn pddl(file: &[u8], rooms: (usize, usize)) -> Both {
    let (mut domain, mut problem) = (area(rooms.0), area(rooms.1));
    let answer = route_rules::pddl(file, &mut domain[..rooms.0], &mut problem[..rooms.1]);
    Both {
        domain,
        problem,
        answer,
    }
}

/// What both areas and the answer have to be where the independent implementation gives these texts.
pub fn both_expected(
    rooms: (usize, usize),
    texts: Result<peer::pddl::Texts, peer::Refusal>,
) -> Both {
    let (mut domain, mut problem) = (area(rooms.0), area(rooms.1));
    let answer = texts.map_err(refusal).map(|texts| {
        domain[..texts.domain.len()].copy_from_slice(texts.domain.as_bytes());
        problem[..texts.problem.len()].copy_from_slice(texts.problem.as_bytes());
        (texts.domain.len(), texts.problem.len())
    });
    Both {
        domain,
        problem,
        answer,
    }
}

/// What the area and the answer have to be where the independent implementation gives this output.
pub fn expected(room: usize, output: Result<Vec<u8>, peer::Refusal>) -> Left {
    let mut out = area(room);
    let answer = output.map_err(refusal).map(|bytes| {
        out[..bytes.len()].copy_from_slice(&bytes);
        bytes.len()
    });
    (out, answer)
}

/// A refusal of the independent implementation, as the library has it.
pub fn refusal(refusal: peer::Refusal) -> Refusal {
    Refusal {
        number: u32::from(refusal.number),
        place: u64::from(refusal.place),
    }
}
