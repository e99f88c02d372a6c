//! A task as a tree, and the limits of the task file.

pub const MAX_FACTS: usize = 128;
pub const MAX_ACTIONS: usize = 128;
pub const MAX_PREFERENCES: usize = 16;
pub const MAX_ROWS: usize = 12_000;
/// The largest cost and the largest weight: any number of 32 bits is one.
pub const MAX_AMOUNT: u32 = u32::MAX;
/// The latest deadline, in steps.
pub const MAX_DEADLINE: usize = 15;
pub const MAX_STEPS: usize = 2_048;
/// The largest cost that settle takes: 2,048 steps of the largest.
pub const MAX_COST: u64 = 8_796_093_020_160;

/// The marks of the rows. Marks 10 to 15, 17 and 18 open soft rules, 26 to 31, 33
/// and 34 the same kinds of hard ones (`Kind`).
pub mod mark {
    pub const ACTION: u8 = 1;
    pub const EFFECT: u8 = 2;
    pub const CLAUSE: u8 = 3;
    pub const HOLDS: u8 = 4;
    pub const LACKS: u8 = 5;
    pub const ADD: u8 = 6;
    pub const DELETE: u8 = 7;
    pub const GOAL: u8 = 8;
    pub const START: u8 = 9;
    pub const SECOND: u8 = 16;
    pub const STEPS: u8 = 19;
}

/// HOLDS fact, or LACKS fact.
#[derive(Clone, Copy, PartialEq, Eq, Debug)]
pub struct Literal {
    pub holds: bool,
    pub fact: usize,
}

/// True if some literal is.
pub type Clause = Vec<Literal>;

/// True if every clause is.
pub type Condition = Vec<Clause>;

#[derive(Clone, PartialEq, Eq, Debug)]
pub struct Effect {
    pub condition: Condition,
    pub adds: Vec<usize>,
    pub deletes: Vec<usize>,
}

#[derive(Clone, PartialEq, Eq, Debug)]
pub struct Action {
    pub cost: u32,
    pub precondition: Condition,
    pub effects: Vec<Effect>,
}

#[derive(Clone, Copy, PartialEq, Eq, Debug)]
pub enum Kind {
    Always,
    Sometime,
    AtEnd,
    AtMostOnce,
    SometimeBefore,
    SometimeAfter,
    /// With its deadline, in steps.
    Within(usize),
    /// With its deadline, in steps.
    AlwaysWithin(usize),
}

#[derive(Clone, PartialEq, Eq, Debug)]
pub struct Preference {
    pub kind: Kind,
    /// Whether a plan that misses it doesn't solve. The weight is then 0.
    pub hard: bool,
    pub weight: u32,
    pub phi: Condition,
    /// Read only for the kinds with two conditions; empty for the others.
    pub psi: Condition,
}

#[derive(Clone, PartialEq, Eq, Debug)]
pub struct Task {
    /// How many facts there are; they are numbered from 0.
    pub facts: usize,
    /// The facts of the opening state, strictly rising.
    pub start: Vec<usize>,
    pub goal: Condition,
    pub actions: Vec<Action>,
    pub preferences: Vec<Preference>,
}

impl Kind {
    /// All kinds, those with a deadline having this one.
    pub const fn all(deadline: usize) -> [Kind; 8] {
        [
            Kind::Always,
            Kind::Sometime,
            Kind::AtEnd,
            Kind::AtMostOnce,
            Kind::SometimeBefore,
            Kind::SometimeAfter,
            Kind::Within(deadline),
            Kind::AlwaysWithin(deadline),
        ]
    }

    /// The kind that a mark opens and whether it is hard, if it opens a preference.
    /// Its deadline stands in the row after, and is 0 here.
    pub fn of_mark(mark: u8) -> Option<(Kind, bool)> {
        let kind = match mark {
            10 | 26 => Kind::Always,
            11 | 27 => Kind::Sometime,
            12 | 28 => Kind::AtEnd,
            13 | 29 => Kind::AtMostOnce,
            14 | 30 => Kind::SometimeBefore,
            15 | 31 => Kind::SometimeAfter,
            17 | 33 => Kind::Within(0),
            18 | 34 => Kind::AlwaysWithin(0),
            _ => return None,
        };
        Some((kind, mark > 20))
    }

    pub fn mark(self, hard: bool) -> u8 {
        let (soft_mark, hard_mark) = match self {
            Kind::Always => (10, 26),
            Kind::Sometime => (11, 27),
            Kind::AtEnd => (12, 28),
            Kind::AtMostOnce => (13, 29),
            Kind::SometimeBefore => (14, 30),
            Kind::SometimeAfter => (15, 31),
            Kind::Within(_) => (17, 33),
            Kind::AlwaysWithin(_) => (18, 34),
        };
        match hard {
            true => hard_mark,
            false => soft_mark,
        }
    }

    pub fn name(self) -> &'static str {
        match self {
            Kind::Always => "always",
            Kind::Sometime => "sometime",
            Kind::AtEnd => "at-end",
            Kind::AtMostOnce => "at-most-once",
            Kind::SometimeBefore => "sometime-before",
            Kind::SometimeAfter => "sometime-after",
            Kind::Within(_) => "within",
            Kind::AlwaysWithin(_) => "always-within",
        }
    }

    /// Whether the kind has SECOND and the condition ψ.
    pub fn has_second(self) -> bool {
        matches!(
            self,
            Kind::SometimeBefore | Kind::SometimeAfter | Kind::AlwaysWithin(_)
        )
    }

    /// The value of the STEPS row, if the kind has one.
    pub fn deadline(self) -> Option<usize> {
        match self {
            Kind::Within(t) | Kind::AlwaysWithin(t) => Some(t),
            _ => None,
        }
    }
}

// How many rows each part takes in a file.

pub fn condition_rows(condition: &Condition) -> usize {
    condition.iter().map(|clause| 1 + clause.len()).sum()
}

impl Effect {
    pub fn rows(&self) -> usize {
        1 + condition_rows(&self.condition) + self.adds.len() + self.deletes.len()
    }
}

impl Action {
    pub fn rows(&self) -> usize {
        1 + condition_rows(&self.precondition)
            + self.effects.iter().map(Effect::rows).sum::<usize>()
    }
}

impl Preference {
    /// The kind as it is spelled in a report.
    pub fn name(&self) -> String {
        let hard = if self.hard { "hard-" } else { "" };
        format!("{hard}{}", self.kind.name())
    }

    pub fn rows(&self) -> usize {
        let steps = usize::from(self.kind.deadline().is_some());
        let second = if self.kind.has_second() {
            1 + condition_rows(&self.psi)
        } else {
            0
        };
        1 + steps + condition_rows(&self.phi) + second
    }
}

impl Task {
    pub fn rows(&self) -> usize {
        self.start.len()
            + 1
            + condition_rows(&self.goal)
            + self.actions.iter().map(Action::rows).sum::<usize>()
            + self.preferences.iter().map(Preference::rows).sum::<usize>()
    }
}
