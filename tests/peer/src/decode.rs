//! From a task file to its tree, or to the refusal.
//!
//! One function stands for each part of the grammar. Each looks at the mark of
//! the next row to decide how to go on; a row whose mark no part can take is
//! refused with number 4, and a row that is taken has its value looked at with
//! number 5. So the first faulty row decides, and 4 comes before 5.

use crate::task::*;
use crate::{refuse, Refusal};

/// The four sizes a file begins with.
#[derive(Clone, Copy, PartialEq, Eq, Debug)]
pub struct Sizes {
    pub facts: u16,
    pub actions: u16,
    pub preferences: u16,
    pub rows: u16,
}

/// The four sizes of an accepted file, or the refusal (1 to 6).
pub fn check(file: &[u8]) -> Result<Sizes, Refusal> {
    decode(file)?;
    read_sizes(file)
}

/// The tree of an accepted file, or the refusal (1 to 6).
pub fn decode(file: &[u8]) -> Result<Task, Refusal> {
    let sizes = read_sizes(file)?;
    let count = usize::from(sizes.rows);
    let mut rows = Rows {
        marks: &file[8..8 + count],
        values: &file[8 + count..],
        facts: u32::from(sizes.facts),
        at: 0,
    };
    let task = rows.task()?;
    if task.actions.len() != usize::from(sizes.actions)
        || task.preferences.len() != usize::from(sizes.preferences)
    {
        return refuse(6, count);
    }
    Ok(task)
}

/// The sizes, with refusals 1 to 3.
fn read_sizes(file: &[u8]) -> Result<Sizes, Refusal> {
    if file.len() < 8 {
        return refuse(1, 0);
    }
    let size = |at: usize| u16::from_le_bytes([file[at], file[at + 1]]);
    let sizes = Sizes {
        facts: size(0),
        actions: size(2),
        preferences: size(4),
        rows: size(6),
    };
    if sizes.facts < 1
        || usize::from(sizes.facts) > MAX_FACTS
        || usize::from(sizes.actions) > MAX_ACTIONS
        || usize::from(sizes.preferences) > MAX_PREFERENCES
        || usize::from(sizes.rows) > MAX_ROWS
    {
        return refuse(2, 0);
    }
    if file.len() != 8 + 5 * usize::from(sizes.rows) {
        return refuse(3, 0);
    }
    Ok(sizes)
}

/// The rows of a file, read up to row `at`.
struct Rows<'a> {
    marks: &'a [u8],
    values: &'a [u8],
    facts: u32,
    at: usize,
}

impl Rows<'_> {
    /// The mark of the next row; none after the last row.
    fn mark(&self) -> Option<u8> {
        self.marks.get(self.at).copied()
    }

    /// The refusal of the next row with this number. Behind the last row its
    /// place is N.
    fn refuse<T>(&self, number: u8) -> Result<T, Refusal> {
        refuse(number, self.at)
    }

    /// Takes the next row, whose value must be `least` to `most`.
    fn take(&mut self, least: u32, most: u32) -> Result<u32, Refusal> {
        let four = &self.values[4 * self.at..4 * self.at + 4];
        let value = u32::from_le_bytes([four[0], four[1], four[2], four[3]]);
        if value < least || value > most {
            return self.refuse(5);
        }
        self.at += 1;
        Ok(value)
    }

    fn take_zero(&mut self) -> Result<(), Refusal> {
        self.take(0, 0).map(|_| ())
    }

    fn take_amount(&mut self) -> Result<u32, Refusal> {
        self.take(0, MAX_AMOUNT)
    }

    fn take_fact(&mut self) -> Result<usize, Refusal> {
        self.take(0, self.facts - 1).map(|fact| fact as usize)
    }

    /// START rows, strictly rising; GOAL and its condition; the actions; the
    /// preferences; then the rows must be over.
    fn task(&mut self) -> Result<Task, Refusal> {
        let mut start: Vec<usize> = Vec::new();
        while self.mark() == Some(mark::START) {
            let least = start.last().map_or(0, |last| last + 1);
            start.push(self.take(least as u32, self.facts - 1)? as usize);
        }
        if self.mark() != Some(mark::GOAL) {
            return self.refuse(4);
        }
        self.take_zero()?;
        let goal = self.condition()?;
        let mut actions = Vec::new();
        while self.mark() == Some(mark::ACTION) {
            actions.push(self.action()?);
        }
        let mut preferences = Vec::new();
        while let Some((kind, hard)) = self.mark().and_then(Kind::of_mark) {
            preferences.push(self.preference(kind, hard)?);
        }
        if self.mark().is_some() {
            return self.refuse(4);
        }
        Ok(Task {
            facts: self.facts as usize,
            start,
            goal,
            actions,
            preferences,
        })
    }

    /// ACTION, the precondition, effects.
    fn action(&mut self) -> Result<Action, Refusal> {
        let cost = self.take_amount()?;
        let precondition = self.condition()?;
        let mut effects = Vec::new();
        while self.mark() == Some(mark::EFFECT) {
            effects.push(self.effect()?);
        }
        Ok(Action {
            cost,
            precondition,
            effects,
        })
    }

    /// EFFECT, its condition, ADD rows, DELETE rows.
    fn effect(&mut self) -> Result<Effect, Refusal> {
        self.take_zero()?;
        let condition = self.condition()?;
        let mut adds = Vec::new();
        while self.mark() == Some(mark::ADD) {
            adds.push(self.take_fact()?);
        }
        let mut deletes = Vec::new();
        while self.mark() == Some(mark::DELETE) {
            deletes.push(self.take_fact()?);
        }
        Ok(Effect {
            condition,
            adds,
            deletes,
        })
    }

    /// The opening row, for the kinds with a deadline STEPS, φ, and for those with
    /// two conditions SECOND and ψ.
    fn preference(&mut self, kind: Kind, hard: bool) -> Result<Preference, Refusal> {
        let weight = self.take(0, if hard { 0 } else { MAX_AMOUNT })?;
        let kind = match kind {
            Kind::Within(_) => Kind::Within(self.deadline()?),
            Kind::AlwaysWithin(_) => Kind::AlwaysWithin(self.deadline()?),
            _ => kind,
        };
        let phi = self.condition()?;
        let mut psi = Vec::new();
        if kind.has_second() {
            if self.mark() != Some(mark::SECOND) {
                return self.refuse(4);
            }
            self.take_zero()?;
            psi = self.condition()?;
        }
        Ok(Preference {
            kind,
            hard,
            weight,
            phi,
            psi,
        })
    }

    /// STEPS.
    fn deadline(&mut self) -> Result<usize, Refusal> {
        if self.mark() != Some(mark::STEPS) {
            return self.refuse(4);
        }
        self.take(0, MAX_DEADLINE as u32).map(|t| t as usize)
    }

    /// Zero or more clauses.
    fn condition(&mut self) -> Result<Condition, Refusal> {
        let mut clauses = Vec::new();
        while self.mark() == Some(mark::CLAUSE) {
            clauses.push(self.clause()?);
        }
        Ok(clauses)
    }

    /// CLAUSE and one or more literals.
    fn clause(&mut self) -> Result<Clause, Refusal> {
        self.take_zero()?;
        let mut literals = Vec::new();
        while let Some(found @ (mark::HOLDS | mark::LACKS)) = self.mark() {
            let fact = self.take_fact()?;
            literals.push(Literal {
                holds: found == mark::HOLDS,
                fact,
            });
        }
        if literals.is_empty() {
            return self.refuse(4);
        }
        Ok(literals)
    }
}
