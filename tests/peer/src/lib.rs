//! Task files with soft and hard rules: check a file, give it its one spelling, walk a
//! plan on it, settle what that is worth, put a week of plans into figures, translate it
//! into a classical task, give its effects single literals, say what a beginning of that
//! task's runs has lost, write it as PDDL, search it for a cheapest plan. Written plainly
//! from the specification, to compare another implementation with.

pub mod colliding;
pub mod decode;
pub mod encode;
pub mod lost;
pub mod meaning;
pub mod pddl;
pub mod random;
pub mod report;
pub mod search;
pub mod settle;
pub mod single;
pub mod source;
pub mod spelling;
pub mod task;
pub mod text;
pub mod translate;
pub mod walk;
pub mod week;

pub use decode::{check, decode, Sizes};
pub use encode::encode;
pub use lost::{lost, lost_text, Lost};
pub use meaning::run;
pub use report::{refused_text, report};
pub use search::{search, Found, Searched};
pub use settle::{settle, worth, Worth};
pub use single::{single, singled};
pub use source::source;
pub use spelling::{alike, spell};
pub use task::{Action, Clause, Condition, Effect, Kind, Literal, Preference, Task};
pub use translate::{complete, translate, translated};
pub use walk::{verdict, walk, walked, Verdict, Walked};
pub use week::{week, week_text, Figures};

/// Why something is refused, and where: a row, a step, a line, a plan, or 0.
#[derive(Clone, Copy, PartialEq, Eq, Debug)]
pub struct Refusal {
    pub number: u8,
    pub place: u16,
}

/// A refusal as a result. Rows and steps that are refused fit 16 bits.
fn refuse<T>(number: u8, place: usize) -> Result<T, Refusal> {
    let place = u16::try_from(place).expect("a place fits 16 bits");
    Err(Refusal { number, place })
}
