//! The operations that are measured, and one call of one of them.

use crate::contenders::{self, Answer, Areas};
use crate::inputs::Input;

#[derive(Clone, Copy, PartialEq, Eq)]
pub enum Operation {
    Check,
    WalkAndSettle,
    Walk,
    Settle,
    Week,
    Lost,
    Translate,
    Spell,
    Single,
    Pddl,
    ReadPlan,
    WritePlan,
    WalkText,
    Source,
    Report,
    Search,
}

use Operation::*;

pub const ALL: [Operation; 16] = [
    Check,
    WalkAndSettle,
    Walk,
    Settle,
    Week,
    Lost,
    Translate,
    Spell,
    Single,
    Pddl,
    ReadPlan,
    WritePlan,
    WalkText,
    Source,
    Report,
    Search,
];

impl Operation {
    pub fn name(self) -> &'static str {
        match self {
            Check => "check",
            WalkAndSettle => "walk and settle",
            Walk => "walk",
            Settle => "settle",
            Week => "week",
            Lost => "lost",
            Translate => "translate",
            Spell => "spell",
            Single => "single",
            Pddl => "pddl",
            ReadPlan => "read_plan",
            WritePlan => "write_plan",
            WalkText => "walk_text",
            Source => "source",
            Report => "report",
            Search => "search",
        }
    }

    /// How many implementations it has: tuned C has walk and translate alone.
    pub fn contenders(self) -> usize {
        match self {
            WalkAndSettle | Walk | Translate => 4,
            _ => 3,
        }
    }

    /// Its answers; only that of a week has words in all three.
    pub fn call(self, who: usize, input: &Input, areas: &mut Areas) -> [Answer; 3] {
        let none = (0, [0; 8]);
        let one = |answer| [answer, none, none];
        match self {
            Check => one(contenders::check(who, input)),
            WalkAndSettle => {
                let [walked, settled] = contenders::walk_and_settle(who, input);
                [walked, settled, none]
            }
            Walk => one(contenders::walk(who, input)),
            Settle => one(contenders::settle(who, &input.file, input.cost, input.met)),
            Week => contenders::week(who, input),
            Lost => one(contenders::lost(who, input)),
            Translate => one(contenders::translate(who, input, areas)),
            Spell => one(contenders::spell(who, input, areas)),
            Single => one(contenders::single(who, input, areas)),
            Pddl => one(contenders::pddl(who, input, areas)),
            ReadPlan => one(contenders::read_plan(who, input, areas)),
            WritePlan => one(contenders::write_plan(who, input, areas)),
            WalkText => one(contenders::walk_text(who, input)),
            Source => one(contenders::source(who, input, areas)),
            Report => one(contenders::report(who, input, areas)),
            Search => one(contenders::search(who, input, areas)),
        }
    }

    /// What its work is counted in, and how many of these it has on an input.
    pub fn work(self, input: &Input, areas: &mut Areas) -> (u64, &'static str) {
        let rows = (input.file.len() as u64 - 8) / 5;
        match self {
            Check | Settle | Spell | Pddl => (rows, "rows"),
            Translate | Single => match self.call(0, input, areas)[0] {
                (0, words) => ((words[1] - 8) / 5, "rows written"),
                _ => (rows, "rows"),
            },
            Search => (self.call(0, input, areas)[0].1[4], "nodes"),
            ReadPlan | WritePlan => (input.plan.len() as u64, "steps"),
            Week => (input.planned_steps(), "steps"),
            Lost | Source => (input.list.len() as u64, "steps"),
            WalkAndSettle | Walk | WalkText | Report => {
                (Walk.call(0, input, areas)[0].1[5], "literals")
            }
        }
    }
}
