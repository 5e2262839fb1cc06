//! A time by which a search has to end, which it asks for as it goes on.

use std::time::{Duration, Instant};

/// The clock is read once in so many steps.
const STEPS: u32 = 256;

/// When a search has to end.
pub struct Deadline {
    end: Option<Instant>,
    steps: u32,
}

impl Deadline {
    /// So long from now. A time too far away to be told is none.
    pub fn within(limit: Duration) -> Deadline {
        Deadline {
            end: Instant::now().checked_add(limit),
            steps: 0,
        }
    }

    /// Makes a step, if time is not up.
    pub fn step(&mut self) -> Option<()> {
        self.steps += 1;
        if self.steps < STEPS {
            return Some(());
        }
        self.steps = 0;
        match self.end {
            Some(end) if Instant::now() >= end => None,
            _ => Some(()),
        }
    }
}

#[cfg(test)]
mod tests {
    use super::{Deadline, STEPS};
    use std::time::Duration;

    #[test]
    fn time_that_is_up_is_noticed() {
        let mut deadline = Deadline::within(Duration::ZERO);
        let steps = (0..STEPS).filter(|_| deadline.step().is_some());
        assert_eq!(steps.count(), STEPS as usize - 1);
    }

    #[test]
    fn time_that_is_left_is_left() {
        for limit in [Duration::from_secs(3_600), Duration::MAX] {
            let mut deadline = Deadline::within(limit);
            assert!((0..4 * STEPS).all(|_| deadline.step().is_some()));
        }
    }
}
