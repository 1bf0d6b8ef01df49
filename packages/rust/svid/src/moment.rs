//! Moments, and how much time has passed since.

use std::time::{Duration, Instant};
#[cfg(feature = "postgres")]
use std::time::{SystemTime, UNIX_EPOCH};

/// A moment by two clocks.
#[derive(Debug, Clone, Copy)]
pub(crate) struct Moment {
    /// By the one that only goes ahead, which stands still while the machine is suspended.
    pub up: Instant,
    /// Since 1970, by the one that may be wrong, and go back.
    pub wall: Duration,
    /// How much that one leaves out.
    pub rounding: Duration,
}

impl Moment {
    /// Now, by the clocks of the system.
    #[cfg(feature = "postgres")]
    pub fn now() -> Moment {
        let wall = SystemTime::now().duration_since(UNIX_EPOCH).unwrap_or_default();
        Moment { up: Instant::now(), wall, rounding: Duration::ZERO }
    }

    /// Now, where a clock of whole seconds shows so many.
    pub fn of(seconds: u64) -> Moment {
        Moment { up: Instant::now(), wall: Duration::from_secs(seconds), rounding: Duration::from_secs(1) }
    }

    /// Whether more time has passed since then, by either clock.
    pub fn is_older_than(&self, most: Duration, now: &Moment) -> bool {
        now.up.saturating_duration_since(self.up) > most || now.wall.saturating_sub(self.wall) > most.saturating_add(self.rounding)
    }
}

#[cfg(test)]
mod tests {
    use super::*;

    /// The clock that only goes ahead stands still while the machine is suspended. While a process is stopped, both go on.
    #[test]
    fn time_has_passed_by_either_clock() {
        let millis = Duration::from_millis;
        let (begun, most) = (Instant::now(), millis(7000));
        let at = |up: u64, wall: u64, rounding: u64| Moment { up: begun + millis(up), wall: millis(wall), rounding: millis(rounding) };
        let rows = [
            (8000, 507_000, 0, false),
            (8001, 500_000, 0, true),
            (1000, 507_001, 0, true),
            (1000, 508_000, 1000, false),
            (1000, 509_000, 1000, true),
            (8001, 500_000, 1000, true),
            (0, 100_000, 0, false),
        ];
        for (up, wall, rounding, is_older) in rows {
            assert_eq!(at(1000, 500_000, rounding).is_older_than(most, &at(up, wall, rounding)), is_older, "{up} {wall} {rounding}");
        }
    }
}
