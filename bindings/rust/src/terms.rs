//! The numbers that the desk answers with, and those of a study's bytes.

/// The numbers that a call is answered with.
pub mod number {
    /// Taken.
    pub const TAKEN: u8 = 0;
    /// No kind of record has this first byte.
    pub const UNKNOWN_KIND: u8 = 1;
    /// A record that the order does not allow here.
    pub const ORDER: u8 = 2;
    /// A field outside its bounds.
    pub const FIELD: u8 = 3;
    /// A target or scenario number breaks its rule.
    pub const NUMBERING: u8 = 4;
    /// One target, scenario, record or level of a tree too many.
    pub const TOO_MANY: u8 = 5;
    /// The closing record's count or sum differs.
    pub const CLOSING_DIFFERS: u8 = 6;
    /// Bytes after the closing record.
    pub const AFTER_CLOSING: u8 = 7;
    /// A report was asked before the closing record.
    pub const NOT_CLOSED: u8 = 8;
    /// The study has no target of this number.
    pub const NO_SUCH_TARGET: u8 = 9;
    /// The lent list is shorter than the domino list.
    pub const LIST_TOO_SHORT: u8 = 10;
}

/// The kinds of records: the first byte of each.
#[allow(missing_docs)]
pub mod record {
    pub const OPENING: u8 = 1;
    pub const TARGET: u8 = 2;
    pub const LEAK: u8 = 3;
    pub const BRANCHING: u8 = 4;
    pub const OUTCOME: u8 = 5;
    pub const EFFECT: u8 = 6;
    pub const CLOSING: u8 = 7;
    /// An effect with a last byte, a number of [`unit`](super::unit).
    pub const TIMED_EFFECT: u8 = 8;
    /// A branching that names an ignition curve, 1 to
    /// [`MOST_CURVE`](crate::Study::MOST_CURVE), and a release rate in tenths of a
    /// gram per second.
    pub const CURVE_BRANCHING: u8 = 10;
}

/// The units of a duration: the last byte of a timed effect. Effects of kind 6
/// are in seconds.
pub mod unit {
    /// Seconds.
    pub const SECONDS: u8 = 0;
    /// Tenths of a second.
    pub const TENTHS: u8 = 1;
}

/// The classes of targets. All but the first are equipment.
pub mod class {
    /// A place of people.
    pub const PEOPLE: u8 = 0;
    /// A vessel at atmospheric pressure.
    pub const ATMOSPHERIC: u8 = 1;
    /// A vessel under pressure.
    pub const PRESSURISED: u8 = 2;
    /// A tower.
    pub const TOWER: u8 = 3;
    /// A pump, compressor or exchanger.
    pub const MACHINE: u8 = 4;
    /// A pipe.
    pub const PIPE: u8 = 5;
}

/// The settings of a place of people; equipment has 0.
pub mod setting {
    /// Individual risk.
    pub const INDIVIDUAL: u8 = 0;
    /// Social risk outdoors.
    pub const OUTDOORS: u8 = 1;
    /// Social risk indoors.
    pub const INDOORS: u8 = 2;
}

/// The kinds of outcomes.
#[allow(missing_docs)]
pub mod outcome {
    pub const NO_EFFECT: u8 = 0;
    pub const POOL_FIRE: u8 = 1;
    pub const JET_FIRE: u8 = 2;
    pub const FIREBALL: u8 = 3;
    pub const FLASH_FIRE: u8 = 4;
    pub const EXPLOSION: u8 = 5;
}
