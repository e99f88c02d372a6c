//! Safe functions over the static library, for Rust. It says what include/route_rules.h says.
//!
//! Take it into a crate as a module, and link `libroute_rules.a`: `rustc -L FOLDER -l static=route_rules`, the folder being lib of a
//! release, or crates/route_rules/out.
#![allow(dead_code)]

/// Why a call was refused, and where: a row, a step, a line, a plan, or 0. The numbers are those of `refused`.
#[derive(Clone, Copy, PartialEq, Eq, Debug)]
pub struct Refusal {
    pub number: u32,
    pub place: u64,
}

/// The numbers of refusals.
pub mod refused {
    pub const SHORT_FILE: u32 = 1;
    pub const SIZE: u32 = 2;
    pub const LENGTH: u32 = 3;
    pub const MARK: u32 = 4;
    pub const VALUE: u32 = 5;
    pub const COUNTS: u32 = 6;
    pub const TOO_MANY: u32 = 7;
    pub const TRANSLATION_ROWS: u32 = 8;
    pub const SHORT_OUTPUT: u32 = 9;
    pub const LONG_PLAN: u32 = 10;
    pub const STEP: u32 = 11;
    pub const TEXT: u32 = 12;
    pub const PREFERENCES: u32 = 13;
    pub const SHORT_AREA: u32 = 14;
    pub const ARGUMENT: u32 = 15;
    pub const LIMIT: u32 = 16;
    pub const CHOICES: u32 = 17;
    pub const PLANS: u32 = 18;
}

/// The version, the same as the header's.
pub const VERSION: &str = "1.0.0";

/// The most facts, actions, preferences and rows of a task.
pub const MAX_FACTS: usize = 128;
pub const MAX_ACTIONS: usize = 128;
pub const MAX_PREFERENCES: usize = 16;
pub const MAX_ROWS: usize = 12_000;

/// The greatest cost of an action, and the greatest weight of a soft rule; a hard rule's is 0.
pub const MAX_AMOUNT: u64 = 4_294_967_295;

/// The most steps of a plan: an area of this length is never too short for a plan that is read, or for a source part.
pub const MAX_STEPS: usize = 2_048;

/// The most steps of within and always-within.
pub const MAX_DEADLINE: usize = 15;

/// The length of the longest task file: an output area of this length is never too short.
pub const MAX_FILE: usize = 8 + 5 * MAX_ROWS;

/// The largest cost that settle takes: no plan costs more.
pub const MAX_COST: u64 = 8_796_093_020_160;

/// The most choices of one effect, of a literal from each clause, that single takes.
pub const MAX_CHOICES: usize = 64;

/// The most nodes that a search may keep.
pub const MAX_NODES: usize = 1_024;

/// The most steps of a plan that a search finds.
pub const MAX_FOUND: usize = 1_023;

/// The most plans of a week.
pub const MAX_PLANS: usize = 64;

/// The length of the longest plan's text that is read: an area of this length is never too short for a plan's text.
pub const MAX_TEXT: usize = 65_536;

/// An area of this length is never too short for a domain or a problem in PDDL.
pub const MAX_PDDL: usize = 262_144;

/// An area of this length is never too short for a report.
pub const MAX_REPORT: usize = 2_048;

/// The four sizes of an accepted file.
#[derive(Clone, Copy, PartialEq, Eq, Debug)]
pub struct Sizes {
    pub facts: u64,
    pub actions: u64,
    pub preferences: u64,
    pub rows: u64,
}

/// What a walk of a plan comes to.
#[derive(Clone, Copy, PartialEq, Eq, Debug)]
pub enum Verdict {
    /// Bit k of `met` is 1 where preference k is met.
    Solved {
        cost: u64,
        met: u64,
    },
    /// The first step that doesn't apply.
    Stopped(u64),
    GoalMissed,
    /// The lowest hard rule that is missed.
    RuleMissed(u64),
}

/// A walked plan.
#[derive(Clone, Copy, PartialEq, Eq, Debug)]
pub struct Walked {
    pub verdict: Verdict,
    /// How many literals were looked at, at most (steps + 1) × N.
    pub literals: u64,
}

/// What a cost and met preferences are worth.
#[derive(Clone, Copy, PartialEq, Eq, Debug)]
pub struct Worth {
    pub metric: u64,
    pub utility: i64,
}

/// A node that a search keeps.
#[repr(C)]
#[derive(Clone, Copy, PartialEq, Eq, Debug, Default)]
pub struct Node {
    /// Fact n is held where bit n % 64 of word n / 64 is 1.
    pub state: [u64; 2],
    pub cost: u64,
    /// origin × 256 + action.
    pub way: u64,
}

impl Node {
    /// The place of the node from which the action leads to the state.
    pub fn origin(&self) -> usize {
        (self.way >> 8) as usize
    }

    pub fn action(&self) -> u8 {
        self.way as u8
    }
}

/// What a search comes to.
#[derive(Clone, Copy, PartialEq, Eq, Debug)]
pub enum Found {
    /// A cheapest plan, whose steps fill the start of the plan's area.
    Plan { cost: u64, steps: usize },
    /// No plan solves, of any length.
    NoPlan,
    /// There was no room for a further node.
    Full,
}

/// A search.
#[derive(Clone, Copy, PartialEq, Eq, Debug)]
pub struct Searched {
    pub found: Found,
    /// How many nodes the list begins with, in the order found.
    pub nodes: usize,
}

/// The figures of a week of plans, one of which solves at least.
#[derive(Clone, Copy, PartialEq, Eq, Debug)]
pub struct Figures {
    /// How many plans solve; what follows is over those.
    pub solving: u64,
    /// Of the metrics.
    pub least: u64,
    pub greatest: u64,
    pub sum: u64,
    /// `sum` is `mean * solving + remainder`.
    pub mean: u64,
    pub remainder: u64,
    /// How many meet preference k; 0 where there is no such preference.
    pub meeting: [u64; MAX_PREFERENCES],
}

/// What comes of a list of translated actions.
#[derive(Clone, Copy, PartialEq, Eq, Debug)]
pub enum Lost {
    /// Each step applies: the cost so far, and the weights of the soft always, at-most-once and sometime-before rules that are
    /// missed whatever follows and are not closed yet.
    Run { cost: u64, lost: u64 },
    /// The first step that doesn't apply.
    Stopped(u64),
}

/// The words of an answer: the structs of the header.
type Answer = [u64; 8];
type WeekAnswer = [u64; 24];

extern "C" {
    fn route_rules_check(file: *const u8, length: usize, answer: *mut Answer) -> u32;
    fn route_rules_translate(
        file: *const u8,
        file_length: usize,
        out: *mut u8,
        out_length: usize,
        answer: *mut Answer,
    ) -> u32;
    fn route_rules_spell(
        file: *const u8,
        file_length: usize,
        out: *mut u8,
        out_length: usize,
        answer: *mut Answer,
    ) -> u32;
    fn route_rules_single(
        file: *const u8,
        file_length: usize,
        out: *mut u8,
        out_length: usize,
        answer: *mut Answer,
    ) -> u32;
    fn route_rules_walk(
        file: *const u8,
        file_length: usize,
        plan: *const u8,
        plan_length: usize,
        answer: *mut Answer,
    ) -> u32;
    fn route_rules_settle(
        file: *const u8,
        file_length: usize,
        cost: u64,
        met: u64,
        answer: *mut Answer,
    ) -> u32;
    fn route_rules_read_plan(
        text: *const u8,
        text_length: usize,
        out: *mut u8,
        out_length: usize,
        answer: *mut Answer,
    ) -> u32;
    fn route_rules_write_plan(
        plan: *const u8,
        plan_length: usize,
        out: *mut u8,
        out_length: usize,
        answer: *mut Answer,
    ) -> u32;
    fn route_rules_walk_text(
        file: *const u8,
        file_length: usize,
        text: *const u8,
        text_length: usize,
        answer: *mut Answer,
    ) -> u32;
    fn route_rules_source(
        file: *const u8,
        file_length: usize,
        text: *const u8,
        text_length: usize,
        out: *mut u8,
        out_length: usize,
        answer: *mut Answer,
    ) -> u32;
    fn route_rules_pddl(
        file: *const u8,
        file_length: usize,
        domain: *mut u8,
        domain_length: usize,
        problem: *mut u8,
        problem_length: usize,
        answer: *mut Answer,
    ) -> u32;
    fn route_rules_search(
        file: *const u8,
        file_length: usize,
        limit: u64,
        nodes: *mut u64,
        node_words: usize,
        plan: *mut [u8; MAX_FOUND],
        answer: *mut Answer,
    ) -> u32;
    fn route_rules_report(
        file: *const u8,
        file_length: usize,
        plan: *const u8,
        plan_length: usize,
        out: *mut u8,
        out_length: usize,
        answer: *mut Answer,
    ) -> u32;
    fn route_rules_lost(
        file: *const u8,
        file_length: usize,
        steps: *const u8,
        steps_length: usize,
        answer: *mut Answer,
    ) -> u32;
    fn route_rules_week(
        file: *const u8,
        file_length: usize,
        plans: *const u8,
        plans_length: usize,
        answer: *mut WeekAnswer,
    ) -> u32;
}

/// A function that fills one area from another.
type Filling = unsafe extern "C" fn(*const u8, usize, *mut u8, usize, *mut Answer) -> u32;

/// A function that walks a plan, or a plan's text, on the task in a file.
type Walking = unsafe extern "C" fn(*const u8, usize, *const u8, usize, *mut Answer) -> u32;

/// The answer of a call that lends an answer area, or its refusal.
fn answered<const WORDS: usize>(
    call: impl FnOnce(*mut [u64; WORDS]) -> u32,
) -> Result<[u64; WORDS], Refusal> {
    let mut answer = [0; WORDS];
    match call(&mut answer) {
        0 => Ok(answer),
        number => Err(Refusal {
            number,
            place: answer[0],
        }),
    }
}

/// Checks a task file: accepted with its sizes, or refused by 1 to 6.
pub fn check(file: &[u8]) -> Result<Sizes, Refusal> {
    // SAFETY: here and below, each pointer comes with the length of the area it points to.
    let words = answered(|answer| unsafe { route_rules_check(file.as_ptr(), file.len(), answer) })?;
    Ok(Sizes {
        facts: words[1],
        actions: words[2],
        preferences: words[3],
        rows: words[4],
    })
}

/// The length that was written to the start of the output.
fn filled(fill: Filling, input: &[u8], out: &mut [u8]) -> Result<usize, Refusal> {
    let words = answered(|answer| unsafe {
        fill(
            input.as_ptr(),
            input.len(),
            out.as_mut_ptr(),
            out.len(),
            answer,
        )
    })?;
    Ok(words[1] as usize)
}

/// Translates the task in a file into the start of the output, and answers the length written; or it is refused by 1 to 9,
/// and the output is as it was.
pub fn translate(file: &[u8], out: &mut [u8]) -> Result<usize, Refusal> {
    filled(route_rules_translate, file, out)
}

/// Writes the one spelling of the task in a file into the start of the output, and answers the length written; or it is refused by
/// 1 to 6 or 9, and the output is as it was. Two accepted files have equal spellings exactly when their tasks differ only in the
/// order and the repeats of literals in clauses, of ADD rows and of DELETE rows.
pub fn spell(file: &[u8], out: &mut [u8]) -> Result<usize, Refusal> {
    filled(route_rules_spell, file, out)
}

/// Writes the task in a file with single literals in its effects into the start of the output, and answers the length written; or it
/// is refused by 1 to 6, 17, 8 or 9, and the output is as it was. Every plan gets the same verdict, cost and met preferences on both.
pub fn single(file: &[u8], out: &mut [u8]) -> Result<usize, Refusal> {
    filled(route_rules_single, file, out)
}

/// The walk of a plan, or of the plan in a text.
fn walked(walk: Walking, file: &[u8], plan: &[u8]) -> Result<Walked, Refusal> {
    let words = answered(|answer| unsafe {
        walk(file.as_ptr(), file.len(), plan.as_ptr(), plan.len(), answer)
    })?;
    let verdict = match words[1] {
        1 => Verdict::Solved {
            cost: words[3],
            met: words[4],
        },
        2 => Verdict::Stopped(words[2]),
        3 => Verdict::GoalMissed,
        4 => Verdict::RuleMissed(words[2]),
        verdict => unreachable!("verdict {verdict}"),
    };
    Ok(Walked {
        verdict,
        literals: words[5],
    })
}

/// Walks a plan, one byte a step, on the task in a file: a verdict, or refused by 1 to 6, 10 or 11.
pub fn walk(file: &[u8], plan: &[u8]) -> Result<Walked, Refusal> {
    walked(route_rules_walk, file, plan)
}

/// Walks the plan in a text on the task in a file: a verdict, or refused by 1 to 6, 12, 10 or 11.
pub fn walk_text(file: &[u8], text: &[u8]) -> Result<Walked, Refusal> {
    walked(route_rules_walk_text, file, text)
}

/// Reads what a planner prints for the translation of the task in a file, writes its source part, one byte a step, into the start of the
/// output, and answers its length; or it is refused by 1 to 8, 12, 10, 11 (a step not below A + 2 * P + 1) or 9, and the output is as it
/// was. Where the printed list solves the translation, the plan solves the source task, and its metric is what the list costs.
pub fn source(file: &[u8], text: &[u8], out: &mut [u8]) -> Result<usize, Refusal> {
    let words = answered(|answer| unsafe {
        route_rules_source(
            file.as_ptr(),
            file.len(),
            text.as_ptr(),
            text.len(),
            out.as_mut_ptr(),
            out.len(),
            answer,
        )
    })?;
    Ok(words[1] as usize)
}

/// Settles a cost and met preferences on the task in a file: those that `walk` gave, or any others. Preference k is met where bit
/// k of `met` is 1. Or it is refused by 1 to 6 or 15.
pub fn settle(file: &[u8], cost: u64, met: u64) -> Result<Worth, Refusal> {
    let words = answered(|answer| unsafe {
        route_rules_settle(file.as_ptr(), file.len(), cost, met, answer)
    })?;
    Ok(Worth {
        metric: words[1],
        utility: words[2] as i64,
    })
}

/// Reads a plan's text into the start of the output, one byte a step, and answers the number of steps; or it is refused by 12,
/// 10 or 9, and the output is as it was.
pub fn read_plan(text: &[u8], out: &mut [u8]) -> Result<usize, Refusal> {
    filled(route_rules_read_plan, text, out)
}

/// Writes a plan as text into the start of the output, and answers its length; or it is refused by 10 or 9, and the output is as
/// it was.
pub fn write_plan(plan: &[u8], out: &mut [u8]) -> Result<usize, Refusal> {
    filled(route_rules_write_plan, plan, out)
}

/// Writes a task without preferences as PDDL, the domain into the start of one area and the problem into the start of the other,
/// and answers both lengths; or it is refused by 1 to 6, 13 or 14, and both areas are as they were.
pub fn pddl(file: &[u8], domain: &mut [u8], problem: &mut [u8]) -> Result<(usize, usize), Refusal> {
    let words = answered(|answer| unsafe {
        route_rules_pddl(
            file.as_ptr(),
            file.len(),
            domain.as_mut_ptr(),
            domain.len(),
            problem.as_mut_ptr(),
            problem.len(),
            answer,
        )
    })?;
    Ok((words[1] as usize, words[2] as usize))
}

/// Searches a task without preferences for a cheapest plan, keeping at most `limit` nodes in the lent list; or it is refused by 1 to 6,
/// 13 or 16, and list and plan are as they were. The list then begins with the nodes kept, in the order found, and its rest is as it was.
pub fn search(
    file: &[u8],
    limit: u64,
    nodes: &mut [Node],
    plan: &mut [u8; MAX_FOUND],
) -> Result<Searched, Refusal> {
    // A node is four words, so the list is an area of words.
    let words = answered(|answer| unsafe {
        route_rules_search(
            file.as_ptr(),
            file.len(),
            limit,
            nodes.as_mut_ptr().cast(),
            4 * nodes.len(),
            plan,
            answer,
        )
    })?;
    let found = match words[1] {
        1 => Found::Plan {
            cost: words[2],
            steps: words[3] as usize,
        },
        2 => Found::NoPlan,
        3 => Found::Full,
        outcome => unreachable!("outcome {outcome}"),
    };
    Ok(Searched {
        found,
        nodes: words[4] as usize,
    })
}

/// Writes the lines of program judge about a plan on the task in a file into the start of the output, and answers their length;
/// or it is refused by 1 to 6, 10, 11 or 9, and the output is as it was.
pub fn report(file: &[u8], plan: &[u8], out: &mut [u8]) -> Result<usize, Refusal> {
    let words = answered(|answer| unsafe {
        route_rules_report(
            file.as_ptr(),
            file.len(),
            plan.as_ptr(),
            plan.len(),
            out.as_mut_ptr(),
            out.len(),
            answer,
        )
    })?;
    Ok(words[1] as usize)
}

/// The figures of up to 64 plans for the task in a file, none where no plan solves; or it is refused by 1 to 6, 18, 10 or 11. The
/// plans stand in a file of their own, little-endian: a count, then so many starts and so many lengths, 16 bits each, then the steps.
pub fn week(file: &[u8], plans: &[u8]) -> Result<Option<Figures>, Refusal> {
    let words = answered(|answer| unsafe {
        route_rules_week(
            file.as_ptr(),
            file.len(),
            plans.as_ptr(),
            plans.len(),
            answer,
        )
    })?;
    let [_, solving, least, greatest, sum, mean, remainder, ..] = words;
    let mut meeting = [0; MAX_PREFERENCES];
    meeting.copy_from_slice(&words[8..]);
    Ok((solving > 0).then_some(Figures {
        solving,
        least,
        greatest,
        sum,
        mean,
        remainder,
        meeting,
    }))
}

/// Follows a list of actions of the translation of the task in a file, one byte each, and says what is lost after it; or it is
/// refused by 1 to 8, 10 or 11. Every solution of the translation that begins with this list costs at least `cost` plus `lost`.
pub fn lost(file: &[u8], steps: &[u8]) -> Result<Lost, Refusal> {
    let words = answered(|answer| unsafe {
        route_rules_lost(
            file.as_ptr(),
            file.len(),
            steps.as_ptr(),
            steps.len(),
            answer,
        )
    })?;
    match words[1] {
        1 => Ok(Lost::Run {
            cost: words[3],
            lost: words[4],
        }),
        2 => Ok(Lost::Stopped(words[2])),
        verdict => unreachable!("verdict {verdict}"),
    }
}
