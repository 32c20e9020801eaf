//! The real `std`, save that `time::Instant` reads a clock which the day sets.

pub use ::std::*;

pub mod time {
    pub use ::std::time::Instant as WallInstant;
    pub use ::std::time::*;
    use ::std::{cell::Cell, ops::Sub};

    thread_local! {
        static NOW: Cell<u64> = const { Cell::new(0) };
        static MEASURED: Cell<Duration> = const { Cell::new(Duration::ZERO) };
    }

    /// Milliseconds of the day; they may pass what the real `Instant` can hold.
    #[derive(Clone, Copy, Debug, PartialEq, Eq, PartialOrd, Ord)]
    pub struct Instant {
        milliseconds: u64,
    }

    pub fn set_clock(milliseconds: u64) {
        NOW.with(|now| now.set(milliseconds));
    }

    /// What the last `duration_since` gave. The files call that by name in one place, the idle test;
    /// their other durations are differences.
    pub fn last_measured() -> Duration {
        MEASURED.with(Cell::get)
    }

    impl Instant {
        pub fn now() -> Self {
            Self {
                milliseconds: NOW.with(Cell::get),
            }
        }

        pub fn duration_since(&self, earlier: Instant) -> Duration {
            let measured = *self - earlier;
            MEASURED.with(|last| last.set(measured));
            measured
        }
    }

    impl Sub<Instant> for Instant {
        type Output = Duration;

        /// Saturates at zero, as the real one does.
        fn sub(self, earlier: Instant) -> Duration {
            Duration::from_millis(self.milliseconds.saturating_sub(earlier.milliseconds))
        }
    }
}
