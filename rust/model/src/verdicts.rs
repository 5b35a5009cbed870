//! How often each verdict was met.

use std::fmt::{Display, Formatter, Result};

/// The refusals that a judge can give.
const REFUSALS: [usize; 8] = [1, 2, 3, 4, 5, 6, 7, 11];

/// How many stored sheets were judged with each rule, 0 if none is broken, and refused with each number.
#[derive(Default)]
pub struct Verdicts {
    pub rules: [usize; 7],
    pub refusals: [usize; 12],
}

impl Verdicts {
    /// One more of this refusal, or where it is 0 of this rule.
    pub fn count(&mut self, (refusal, rule): (u8, u8)) {
        match refusal {
            0 => self.rules[usize::from(rule)] += 1,
            _ => self.refusals[usize::from(refusal)] += 1,
        }
    }

    /// How often the rarest verdict that a judge can give was met.
    pub fn rarest(&self) -> usize {
        let refused = REFUSALS.iter().map(|refusal| self.refusals[*refusal]);
        self.rules.iter().copied().chain(refused).min().unwrap_or(0)
    }
}

impl Display for Verdicts {
    fn fmt(&self, text: &mut Formatter) -> Result {
        write!(text, "lawful {}", self.rules[0])?;
        for (rule, times) in self.rules.iter().enumerate().skip(1) {
            write!(text, ", rule {rule} {times}")?;
        }
        for refusal in REFUSALS {
            write!(text, ", refused {refusal} {}", self.refusals[refusal])?;
        }
        Ok(())
    }
}
