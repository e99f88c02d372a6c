//! Settling a cost and a set of met preferences, whoever they come from.

use crate::decode::decode;
use crate::task::{Task, MAX_COST};
use crate::{refuse, Refusal};

#[derive(Clone, Copy, PartialEq, Eq, Debug)]
pub struct Worth {
    pub metric: u64,
    pub utility: i64,
}

/// What a cost and met preferences (bit k for preference k) are worth on a task,
/// or the refusal (1 to 6, 15).
pub fn settle(file: &[u8], cost: u64, met: u64) -> Result<Worth, Refusal> {
    let task = decode(file)?;
    let unknown = |k: usize| k >= task.preferences.len() && is_met(met, k);
    if cost > MAX_COST || (0..64).any(unknown) {
        return refuse(15, 0);
    }
    Ok(worth(&task, cost, met))
}

/// Whether preference k is in a set of met ones.
pub fn is_met(met: u64, k: usize) -> bool {
    met >> k & 1 == 1
}

/// Metric is cost plus the weights of missed preferences, utility the weights of
/// met ones minus cost.
pub fn worth(task: &Task, cost: u64, met: u64) -> Worth {
    let weights = |wanted: bool| -> u64 {
        let preferences = task.preferences.iter().enumerate();
        preferences
            .filter(|(k, _)| is_met(met, *k) == wanted)
            .map(|(_, preference)| u64::from(preference.weight))
            .sum()
    };
    Worth {
        metric: cost + weights(false),
        utility: weights(true) as i64 - cost as i64,
    }
}
