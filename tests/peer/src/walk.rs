//! Walking a plan on a task: the verdict, of a plan that solves its cost and the
//! preferences that it meets, and how many literals were looked at.

use crate::decode::decode;
use crate::meaning::{changed, literal_true, met_by, opening, State};
use crate::settle::is_met;
use crate::task::*;
use crate::{refuse, Refusal};

#[derive(Clone, Copy, PartialEq, Eq, Debug)]
pub enum Verdict {
    Solved {
        cost: u64,
        /// Bit k says that preference k is met.
        met: u64,
    },
    /// The first step that doesn't apply.
    Stopped(usize),
    GoalMissed,
    /// The lowest hard rule that is missed.
    RuleMissed(usize),
}

#[derive(Clone, Copy, PartialEq, Eq, Debug)]
pub struct Walked {
    pub verdict: Verdict,
    /// How many literals were looked at.
    pub literals: u64,
}

/// The walk of a plan, one byte a step, or the refusal (1 to 6, 10, 11).
pub fn walk(file: &[u8], plan: &[u8]) -> Result<Walked, Refusal> {
    let task = decode(file)?;
    admit(&task, plan)?;
    Ok(walked(&task, plan))
}

/// Refusals 10 and 11.
pub fn admit(task: &Task, plan: &[u8]) -> Result<(), Refusal> {
    if plan.len() > MAX_STEPS {
        return refuse(10, 0);
    }
    let unknown = |&step: &u8| usize::from(step) >= task.actions.len();
    match plan.iter().position(unknown) {
        Some(step) => refuse(11, step),
        None => Ok(()),
    }
}

/// The verdict on a plan of any length, whose steps are numbers of actions.
pub fn verdict(task: &Task, plan: &[u8]) -> Verdict {
    walked(task, plan).verdict
}

/// The walk of such a plan.
pub fn walked(task: &Task, plan: &[u8]) -> Walked {
    let mut walk = Walk::of(task);
    let verdict = walk.verdict(plan);
    Walked {
        verdict,
        literals: walk.literals,
    }
}

/// A walk as far as it has come.
struct Walk<'a> {
    task: &'a Task,
    state: State,
    /// φ and ψ of each preference, by state.
    seen: Vec<(Vec<bool>, Vec<bool>)>,
    literals: u64,
}

impl Walk<'_> {
    fn of(task: &Task) -> Walk<'_> {
        Walk {
            task,
            state: opening(task),
            seen: vec![(Vec::new(), Vec::new()); task.preferences.len()],
            literals: 0,
        }
    }

    /// In each state the preferences are read, then the step; in the last state the
    /// goal instead of that.
    fn verdict(&mut self, plan: &[u8]) -> Verdict {
        let task = self.task;
        let mut cost = 0;
        for (i, &step) in plan.iter().enumerate() {
            let action = &task.actions[usize::from(step)];
            self.preferences();
            if !self.step(action) {
                return Verdict::Stopped(i);
            }
            cost += u64::from(action.cost);
        }
        self.preferences();
        if !self.is_true(&task.goal) {
            return Verdict::GoalMissed;
        }
        let met = self.met();
        let missed = |k: &usize| task.preferences[*k].hard && !is_met(met, *k);
        match (0..task.preferences.len()).find(missed) {
            Some(k) => Verdict::RuleMissed(k),
            None => Verdict::Solved { cost, met },
        }
    }

    /// Whether a condition is true in the state. Every literal looked at is counted:
    /// a clause is left at its first true literal, and the condition at its first
    /// false clause.
    fn is_true(&mut self, condition: &Condition) -> bool {
        for clause in condition {
            let first = clause.iter().position(|&l| literal_true(l, &self.state));
            self.literals += first.map_or(clause.len(), |before| before + 1) as u64;
            if first.is_none() {
                return false;
            }
        }
        true
    }

    /// φ and then ψ of each preference in turn, whatever its kind.
    fn preferences(&mut self) {
        for (k, preference) in self.task.preferences.iter().enumerate() {
            let phi = self.is_true(&preference.phi);
            let psi = self.is_true(&preference.psi);
            self.seen[k].0.push(phi);
            self.seen[k].1.push(psi);
        }
    }

    /// The precondition, and where the step applies all effect conditions.
    fn step(&mut self, action: &Action) -> bool {
        if !self.is_true(&action.precondition) {
            return false;
        }
        let fires = |effect: &&Effect| self.is_true(&effect.condition);
        let firing: Vec<&Effect> = action.effects.iter().filter(fires).collect();
        self.state = changed(&self.state, &firing);
        true
    }

    fn met(&self) -> u64 {
        let pairs = self.task.preferences.iter().zip(&self.seen).enumerate();
        pairs
            .map(|(k, (preference, (phi, psi)))| u64::from(met_by(preference.kind, phi, psi)) << k)
            .sum()
    }
}
