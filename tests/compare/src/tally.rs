//! How often each answer came up.

pub struct Tally {
    times: Vec<(&'static str, u64)>,
}

impl Tally {
    pub fn new(answers: &[&'static str]) -> Tally {
        Tally {
            times: answers.iter().map(|&answer| (answer, 0)).collect(),
        }
    }

    pub fn count(&mut self, answer: &str) {
        let line = self.times.iter_mut().find(|(name, _)| *name == answer);
        line.expect("a known answer").1 += 1;
    }

    /// Prints the counts. An answer that never came up is a failure.
    pub fn finish(self) -> Result<(), String> {
        for (answer, times) in &self.times {
            println!("{}: {times}", answer.trim_end());
        }
        match self.times.iter().find(|(_, times)| *times == 0) {
            Some((answer, _)) => Err(format!("never came up: {answer}")),
            None => Ok(()),
        }
    }
}
