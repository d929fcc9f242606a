//! The forms of an effect: kind 6, and kind 8 with either last byte.

use crate::random::Random;
use crate::studies::{self, Record};
use second_desk::chance::Clock;
use second_desk::record;

/// How an effect's record gives its duration.
#[derive(Clone, Copy, Debug, PartialEq, Eq)]
pub enum Timing {
    /// Kind 6.
    Untimed,
    /// Kind 8, last byte 0.
    Seconds,
    /// Kind 8, last byte 1.
    Tenths,
}

impl Timing {
    pub const ALL: [Timing; 3] = [Timing::Untimed, Timing::Seconds, Timing::Tenths];

    /// The timing of a record; none where it is no effect or its last byte
    /// names no clock.
    pub fn of(record: &[u8]) -> Option<Timing> {
        match record {
            [record::EFFECT, ..] => Some(Timing::Untimed),
            [record::TIMED_EFFECT, .., 0] => Some(Timing::Seconds),
            [record::TIMED_EFFECT, .., 1] => Some(Timing::Tenths),
            _ => None,
        }
    }

    pub fn clock(self) -> &'static Clock {
        match self {
            Timing::Untimed | Timing::Seconds => &Clock::SECONDS,
            Timing::Tenths => &Clock::TENTHS,
        }
    }

    pub fn effect(self, target: u16, intensity: u32, duration: u16) -> Record {
        match self {
            Timing::Untimed => studies::effect(target, intensity, duration),
            Timing::Seconds => studies::timed(target, intensity, duration, 0),
            Timing::Tenths => studies::timed(target, intensity, duration, 1),
        }
    }
}

/// The timing of all effects of an outcome; none where each has its own.
pub fn of_outcome(random: &mut Random) -> Option<Timing> {
    random.pick(&[
        Some(Timing::Untimed),
        Some(Timing::Untimed),
        Some(Timing::Seconds),
        Some(Timing::Tenths),
        Some(Timing::Tenths),
        None,
        None,
    ])
}
