//! The implementations beside each other, all with the answers of include/route_rules.h.

use crate::inputs::Input;
use peer::search::MAX_NODES;
use peer::{text, Figures, Found, Lost, Refusal, Searched, Sizes, Verdict, Walked, Worth};

/// What a call returns, and the words of its answer.
pub type Answer = (u32, [u64; 8]);

pub const NAMES: [&str; 4] = ["library", "Rust", "plain C", "tuned C"];

/// The areas that outputs are written to.
pub struct Areas {
    pub out: Vec<u8>,
    pub other: Vec<u8>,
    pub nodes: Vec<u64>,
}

type Words = *mut [u64; 8];
type Check = unsafe extern "C" fn(*const u8, usize, Words) -> u32;
type Walk = unsafe extern "C" fn(*const u8, usize, *const u8, usize, Words) -> u32;
type Settle = unsafe extern "C" fn(*const u8, usize, u64, u64, Words) -> u32;
type Week = unsafe extern "C" fn(*const u8, usize, *const u8, usize, *mut [u64; 24]) -> u32;
type Write = unsafe extern "C" fn(*const u8, usize, *mut u8, usize, Words) -> u32;
type Search = unsafe extern "C" fn(*const u8, usize, u64, *mut u64, usize, *mut u8, Words) -> u32;
type WriteOn =
    unsafe extern "C" fn(*const u8, usize, *const u8, usize, *mut u8, usize, Words) -> u32;
type Pddl = unsafe extern "C" fn(*const u8, usize, *mut u8, usize, *mut u8, usize, Words) -> u32;

/// Declares functions of one type, of the library or of C.
macro_rules! functions {
    ($($name:ident($($type:ty),*);)*) => {
        extern "C" { $(fn $name($(_: $type),*, _: Words) -> u32;)* }
    };
}

functions! {
    route_rules_check(*const u8, usize);
    route_rules_walk(*const u8, usize, *const u8, usize);
    route_rules_settle(*const u8, usize, u64, u64);
    route_rules_lost(*const u8, usize, *const u8, usize);
    route_rules_translate(*const u8, usize, *mut u8, usize);
    route_rules_spell(*const u8, usize, *mut u8, usize);
    route_rules_single(*const u8, usize, *mut u8, usize);
    route_rules_read_plan(*const u8, usize, *mut u8, usize);
    route_rules_write_plan(*const u8, usize, *mut u8, usize);
    route_rules_walk_text(*const u8, usize, *const u8, usize);
    route_rules_source(*const u8, usize, *const u8, usize, *mut u8, usize);
    route_rules_pddl(*const u8, usize, *mut u8, usize, *mut u8, usize);
    route_rules_report(*const u8, usize, *const u8, usize, *mut u8, usize);
    route_rules_search(*const u8, usize, u64, *mut u64, usize, *mut u8);
    plain_check(*const u8, usize);
    plain_walk(*const u8, usize, *const u8, usize);
    plain_settle(*const u8, usize, u64, u64);
    plain_lost(*const u8, usize, *const u8, usize);
    plain_translate(*const u8, usize, *mut u8, usize);
    plain_spell(*const u8, usize, *mut u8, usize);
    plain_single(*const u8, usize, *mut u8, usize);
    plain_read_plan(*const u8, usize, *mut u8, usize);
    plain_write_plan(*const u8, usize, *mut u8, usize);
    plain_walk_text(*const u8, usize, *const u8, usize);
    plain_source(*const u8, usize, *const u8, usize, *mut u8, usize);
    plain_pddl(*const u8, usize, *mut u8, usize, *mut u8, usize);
    plain_report(*const u8, usize, *const u8, usize, *mut u8, usize);
    plain_search(*const u8, usize, u64, *mut u64, usize, *mut u8);
    tuned_walk(*const u8, usize, *const u8, usize);
    tuned_translate(*const u8, usize, *mut u8, usize);
}

// The answer of a week has more words.
extern "C" {
    fn route_rules_week(_: *const u8, _: usize, _: *const u8, _: usize, _: *mut [u64; 24]) -> u32;
    fn plain_week(_: *const u8, _: usize, _: *const u8, _: usize, _: *mut [u64; 24]) -> u32;
}

// ---- answers of the Rust as words

fn refused(refusal: Refusal) -> Answer {
    let place = u64::from(refusal.place);
    (u32::from(refusal.number), [place, 0, 0, 0, 0, 0, 0, 0])
}

fn checked(sizes: Sizes) -> Answer {
    let [f, a, p, n] = [sizes.facts, sizes.actions, sizes.preferences, sizes.rows].map(u64::from);
    (0, [0, f, a, p, n, 0, 0, 0])
}

fn walked(walked: Walked) -> Answer {
    let literals = walked.literals;
    let words = match walked.verdict {
        Verdict::Solved { cost, met } => [0, 1, 0, cost, met, literals, 0, 0],
        Verdict::Stopped(step) => [0, 2, step as u64, 0, 0, literals, 0, 0],
        Verdict::GoalMissed => [0, 3, 0, 0, 0, literals, 0, 0],
        Verdict::RuleMissed(k) => [0, 4, k as u64, 0, 0, literals, 0, 0],
    };
    (0, words)
}

fn settled(worth: Worth) -> Answer {
    (0, [0, worth.metric, worth.utility as u64, 0, 0, 0, 0, 0])
}

fn losses(lost: Lost) -> Answer {
    match lost {
        Lost::Run { cost, lost } => (0, [0, 1, 0, cost, lost, 0, 0, 0]),
        Lost::Stopped(step) => (0, [0, 2, step as u64, 0, 0, 0, 0, 0]),
    }
}

/// Of 24 words eight at a time.
fn in_three(number: u32, words: [u64; 24]) -> [Answer; 3] {
    let eight = |n: usize| words[8 * n..8 * n + 8].try_into().expect("eight words");
    [(number, eight(0)), (number, eight(1)), (number, eight(2))]
}

fn figures(figures: Option<Figures>) -> [Answer; 3] {
    let mut words = [0; 24];
    if let Some(f) = figures {
        let amounts = [f.solving, f.least, f.greatest, f.sum, f.mean, f.remainder];
        words[1..7].copy_from_slice(&amounts);
        words[8..8 + f.meeting.len()].copy_from_slice(&f.meeting);
    }
    in_three(0, words)
}

/// The Rust makes an area of its own, and its bytes are copied.
fn written(out: &mut [u8], bytes: &[u8]) -> Answer {
    out[..bytes.len()].copy_from_slice(bytes);
    (0, [0, bytes.len() as u64, 0, 0, 0, 0, 0, 0])
}

/// The Rust makes a list of its own, and its nodes and its plan are copied.
fn searched(areas: &mut Areas, searched: Searched) -> Answer {
    for (words, node) in areas.nodes.chunks_mut(4).zip(&searched.nodes) {
        words[0] = node.state as u64;
        words[1] = (node.state >> 64) as u64;
        words[2] = node.cost;
        words[3] = node.origin as u64 * 256 + u64::from(node.action);
    }
    let (outcome, cost, steps) = match searched.found {
        Found::Plan { steps, cost } => (1, cost, written(&mut areas.out, &steps).1[1]),
        Found::NoPlan => (2, 0, 0),
        Found::Full => (3, 0, 0),
    };
    let nodes = searched.nodes.len() as u64;
    (0, [0, outcome, cost, steps, nodes, 0, 0, 0])
}

// ---- calls; each pointer comes with the length of its area

fn call_walk(walk: Walk, file: &[u8], plan: &[u8]) -> Answer {
    let mut words = [0; 8];
    let number = unsafe {
        walk(
            file.as_ptr(),
            file.len(),
            plan.as_ptr(),
            plan.len(),
            &mut words,
        )
    };
    (number, words)
}

fn call_write(write: Write, bytes: &[u8], out: &mut [u8]) -> Answer {
    let mut words = [0; 8];
    let (from, to) = (bytes.as_ptr(), out.as_mut_ptr());
    let number = unsafe { write(from, bytes.len(), to, out.len(), &mut words) };
    (number, words)
}

/// What is written of the task in a file and a plan or a text.
fn call_write_on(write: WriteOn, file: &[u8], of: &[u8], out: &mut [u8]) -> Answer {
    let mut words = [0; 8];
    let (task, from, to) = (file.as_ptr(), of.as_ptr(), out.as_mut_ptr());
    let number = unsafe { write(task, file.len(), from, of.len(), to, out.len(), &mut words) };
    (number, words)
}

pub fn check(who: usize, input: &Input) -> Answer {
    let call = |check: Check| {
        let mut words = [0; 8];
        let number = unsafe { check(input.file.as_ptr(), input.file.len(), &mut words) };
        (number, words)
    };
    match who {
        0 => call(route_rules_check),
        1 => peer::check(&input.file).map_or_else(refused, checked),
        _ => call(plain_check),
    }
}

/// What a walk gives, the literals looked at among it. Tuned C makes tables first.
pub fn walk(who: usize, input: &Input) -> Answer {
    match who {
        0 => call_walk(route_rules_walk, &input.file, &input.plan),
        1 => peer::walk(&input.file, &input.plan).map_or_else(refused, walked),
        2 => call_walk(plain_walk, &input.file, &input.plan),
        _ => call_walk(tuned_walk, &input.file, &input.plan),
    }
}

pub fn walk_text(who: usize, input: &Input) -> Answer {
    match who {
        0 => call_walk(route_rules_walk_text, &input.file, &input.text),
        1 => text::walk_text(&input.file, &input.text).map_or_else(refused, walked),
        _ => call_walk(plain_walk_text, &input.file, &input.text),
    }
}

/// What a cost and met preferences are worth. Both programs in C do the same here.
pub fn settle(who: usize, file: &[u8], cost: u64, met: u64) -> Answer {
    let call = |settle: Settle| {
        let mut words = [0; 8];
        let number = unsafe { settle(file.as_ptr(), file.len(), cost, met, &mut words) };
        (number, words)
    };
    match who {
        0 => call(route_rules_settle),
        1 => peer::settle(file, cost, met).map_or_else(refused, settled),
        _ => call(plain_settle),
    }
}

/// A walk, and what settle makes of the cost and the met preferences that it gave.
pub fn walk_and_settle(who: usize, input: &Input) -> [Answer; 2] {
    let walked = walk(who, input);
    [walked, settle(who, &input.file, walked.1[3], walked.1[4])]
}

/// What is lost after a list of translated actions. The Rust makes the translation.
pub fn lost(who: usize, input: &Input) -> Answer {
    match who {
        0 => call_walk(route_rules_lost, &input.file, &input.list),
        1 => peer::lost(&input.file, &input.list).map_or_else(refused, losses),
        _ => call_walk(plain_lost, &input.file, &input.list),
    }
}

/// The figures of a week.
pub fn week(who: usize, input: &Input) -> [Answer; 3] {
    let (file, plans) = (&input.file, &input.plans);
    let call = |week: Week| {
        let mut words = [0; 24];
        let (from, of) = (file.as_ptr(), plans.as_ptr());
        let number = unsafe { week(from, file.len(), of, plans.len(), &mut words) };
        in_three(number, words)
    };
    match who {
        0 => call(route_rules_week),
        1 => peer::week(file, plans).map_or_else(|why| [refused(why); 3], figures),
        _ => call(plain_week),
    }
}

pub fn translate(who: usize, input: &Input, areas: &mut Areas) -> Answer {
    let out = &mut areas.out;
    match who {
        0 => call_write(route_rules_translate, &input.file, out),
        1 => peer::translate(&input.file, out.len())
            .map_or_else(refused, |bytes| written(out, &bytes)),
        2 => call_write(plain_translate, &input.file, out),
        _ => call_write(tuned_translate, &input.file, out),
    }
}

pub fn spell(who: usize, input: &Input, areas: &mut Areas) -> Answer {
    let out = &mut areas.out;
    match who {
        0 => call_write(route_rules_spell, &input.file, out),
        1 => peer::spell(&input.file, out.len()).map_or_else(refused, |bytes| written(out, &bytes)),
        _ => call_write(plain_spell, &input.file, out),
    }
}

pub fn single(who: usize, input: &Input, areas: &mut Areas) -> Answer {
    let out = &mut areas.out;
    match who {
        0 => call_write(route_rules_single, &input.file, out),
        1 => {
            peer::single(&input.file, out.len()).map_or_else(refused, |bytes| written(out, &bytes))
        }
        _ => call_write(plain_single, &input.file, out),
    }
}

pub fn read_plan(who: usize, input: &Input, areas: &mut Areas) -> Answer {
    let out = &mut areas.out;
    match who {
        0 => call_write(route_rules_read_plan, &input.text, out),
        1 => text::read(&input.text, out.len()).map_or_else(refused, |bytes| written(out, &bytes)),
        _ => call_write(plain_read_plan, &input.text, out),
    }
}

pub fn write_plan(who: usize, input: &Input, areas: &mut Areas) -> Answer {
    let out = &mut areas.out;
    match who {
        0 => call_write(route_rules_write_plan, &input.plan, out),
        1 => text::write(&input.plan, out.len()).map_or_else(refused, |bytes| written(out, &bytes)),
        _ => call_write(plain_write_plan, &input.plan, out),
    }
}

pub fn pddl(who: usize, input: &Input, areas: &mut Areas) -> Answer {
    let (file, out, other) = (&input.file, &mut areas.out, &mut areas.other);
    let mut call = |pddl: Pddl| {
        let mut words = [0; 8];
        let (domain, problem) = (out.as_mut_ptr(), other.as_mut_ptr());
        let number = unsafe {
            pddl(
                file.as_ptr(),
                file.len(),
                domain,
                out.len(),
                problem,
                other.len(),
                &mut words,
            )
        };
        (number, words)
    };
    match who {
        0 => call(route_rules_pddl),
        1 => peer::pddl::write(file, out.len(), other.len()).map_or_else(refused, |texts| {
            let (domain, _) = (
                written(out, texts.domain.as_bytes()),
                written(other, texts.problem.as_bytes()),
            );
            (
                0,
                [0, domain.1[1], texts.problem.len() as u64, 0, 0, 0, 0, 0],
            )
        }),
        _ => call(plain_pddl),
    }
}

/// A search with all the nodes that there may be.
pub fn search(who: usize, input: &Input, areas: &mut Areas) -> Answer {
    let limit = MAX_NODES as u64;
    let call = |search: Search, areas: &mut Areas| {
        let mut words = [0; 8];
        let (nodes, plan) = (areas.nodes.as_mut_ptr(), areas.out.as_mut_ptr());
        let (file, length) = (input.file.as_ptr(), input.file.len());
        let room = areas.nodes.len();
        let number = unsafe { search(file, length, limit, nodes, room, plan, &mut words) };
        (number, words)
    };
    match who {
        0 => call(route_rules_search, areas),
        1 => peer::search(&input.file, limit, areas.nodes.len() / 4)
            .map_or_else(refused, |found| searched(areas, found)),
        _ => call(plain_search, areas),
    }
}

pub fn report(who: usize, input: &Input, areas: &mut Areas) -> Answer {
    let (file, plan, out) = (&input.file, &input.plan, &mut areas.out);
    match who {
        0 => call_write_on(route_rules_report, file, plan, out),
        1 => peer::report::write(file, plan, out.len())
            .map_or_else(refused, |bytes| written(out, &bytes)),
        _ => call_write_on(plain_report, file, plan, out),
    }
}

/// The source part of a list of translated actions, as a planner prints it. The Rust makes the translation.
pub fn source(who: usize, input: &Input, areas: &mut Areas) -> Answer {
    let (file, printed, out) = (&input.file, &input.printed, &mut areas.out);
    match who {
        0 => call_write_on(route_rules_source, file, printed, out),
        1 => peer::source(file, printed, out.len())
            .map_or_else(refused, |bytes| written(out, &bytes)),
        _ => call_write_on(plain_source, file, printed, out),
    }
}
