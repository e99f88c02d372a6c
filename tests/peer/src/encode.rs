//! From a tree to its rows and to the bytes of its file.

use crate::task::*;

#[derive(Clone, Copy, PartialEq, Eq, Debug)]
pub struct Row {
    pub mark: u8,
    pub value: u32,
}

/// The file of a tree. A tree within the limits gives an accepted file; the
/// sizes of any tree must fit 16 bits.
pub fn encode(task: &Task) -> Vec<u8> {
    let sizes = [task.facts, task.actions.len(), task.preferences.len()];
    to_bytes(sizes.map(to_size), &rows(task))
}

/// The bytes of a file with the sizes F, A, P and these rows, N being their number.
pub fn to_bytes(sizes: [u16; 3], rows: &[Row]) -> Vec<u8> {
    let mut file = Vec::with_capacity(8 + 5 * rows.len());
    for size in sizes {
        file.extend(size.to_le_bytes());
    }
    file.extend(to_size(rows.len()).to_le_bytes());
    for row in rows {
        file.push(row.mark);
    }
    for row in rows {
        file.extend(row.value.to_le_bytes());
    }
    file
}

fn to_size(size: usize) -> u16 {
    u16::try_from(size).expect("a size fits 16 bits")
}

/// The rows of a tree, in the order of a file.
pub fn rows(task: &Task) -> Vec<Row> {
    let mut out = Rows(Vec::new());
    for &fact in &task.start {
        out.fact(mark::START, fact);
    }
    out.amount(mark::GOAL, 0);
    out.condition(&task.goal);
    for action in &task.actions {
        out.amount(mark::ACTION, action.cost);
        out.condition(&action.precondition);
        for effect in &action.effects {
            out.amount(mark::EFFECT, 0);
            out.condition(&effect.condition);
            for &fact in &effect.adds {
                out.fact(mark::ADD, fact);
            }
            for &fact in &effect.deletes {
                out.fact(mark::DELETE, fact);
            }
        }
    }
    for preference in &task.preferences {
        out.amount(preference.kind.mark(preference.hard), preference.weight);
        if let Some(t) = preference.kind.deadline() {
            out.amount(mark::STEPS, t as u32);
        }
        out.condition(&preference.phi);
        if preference.kind.has_second() {
            out.amount(mark::SECOND, 0);
            out.condition(&preference.psi);
        }
    }
    out.0
}

struct Rows(Vec<Row>);

impl Rows {
    fn amount(&mut self, mark: u8, value: u32) {
        self.0.push(Row { mark, value });
    }

    fn fact(&mut self, mark: u8, fact: usize) {
        self.amount(mark, fact as u32);
    }

    fn condition(&mut self, condition: &Condition) {
        for clause in condition {
            self.amount(mark::CLAUSE, 0);
            for literal in clause {
                let mark = if literal.holds {
                    mark::HOLDS
                } else {
                    mark::LACKS
                };
                self.fact(mark, literal.fact);
            }
        }
    }
}
