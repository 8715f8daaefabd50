//! A supplied clock in the place of std's `Instant`: whole milliseconds, set by the caller.

use std::cell::Cell;
use std::ops::Sub;
use std::time::Duration;

thread_local! {
    static NOW: Cell<u64> = const { Cell::new(0) };
}

pub fn set(now: u64) {
    NOW.set(now);
}

#[derive(Debug, Clone, Copy)]
pub struct Instant(pub u64);

impl Instant {
    pub fn now() -> Self {
        Self(NOW.get())
    }

    /// Zero where `earlier` is later, as std's.
    pub fn duration_since(self, earlier: Self) -> Duration {
        Duration::from_millis(self.0.saturating_sub(earlier.0))
    }
}

impl Sub for Instant {
    type Output = Duration;
    fn sub(self, earlier: Self) -> Duration {
        self.duration_since(earlier)
    }
}
