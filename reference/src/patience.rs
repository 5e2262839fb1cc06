//! How long an enumeration may go on.
//!
//! Some tables have so many derivations that going through them takes hours.
//! Made-up tables of that sort are given up, after a number of steps and not
//! after some time, so that the same seed gives the same run everywhere.

/// How many steps may still be made.
#[derive(Debug)]
pub struct Patience(u64);

impl Patience {
    /// So many steps.
    pub fn new(steps: u64) -> Patience {
        Patience(steps)
    }

    /// Makes so many steps, if so many may still be made.
    pub fn spend(&mut self, steps: usize) -> Option<()> {
        self.0 = self.0.checked_sub(steps as u64)?;
        Some(())
    }
}
