//! The kinds of record and their lengths.

pub const OPENING: u8 = 1;
pub const TARGET: u8 = 2;
pub const LEAK: u8 = 3;
pub const BRANCHING: u8 = 4;
pub const OUTCOME: u8 = 5;
pub const EFFECT: u8 = 6;
pub const CLOSING: u8 = 7;
/// An effect with a last byte that names the clock of its duration.
pub const TIMED_EFFECT: u8 = 8;
/// A branching that names an ignition curve and a release rate.
pub const CURVE_BRANCHING: u8 = 10;

/// Lengths by kind, the kind byte included; 0 where the kind is unknown.
const LENGTHS: [u8; 11] = [0, 5, 9, 13, 5, 4, 9, 13, 10, 0, 6];

/// The length of a record of this kind, its kind byte included; none for an
/// unknown kind.
#[inline]
pub const fn length(kind: u8) -> Option<usize> {
    if kind as usize >= LENGTHS.len() {
        return None;
    }
    match LENGTHS[kind as usize] {
        0 => None,
        length => Some(length as usize),
    }
}

/// Outcome kinds.
pub mod outcome {
    pub const NO_EFFECT: u8 = 0;
    pub const POOL_FIRE: u8 = 1;
    pub const JET_FIRE: u8 = 2;
    pub const FIREBALL: u8 = 3;
    pub const FLASH_FIRE: u8 = 4;
    pub const EXPLOSION: u8 = 5;
}

/// The numbers the desk answers with.
pub mod number {
    pub const TAKEN: u8 = 0;
    pub const UNKNOWN_KIND: u8 = 1;
    pub const ORDER: u8 = 2;
    pub const FIELD: u8 = 3;
    pub const NUMBERING: u8 = 4;
    pub const TOO_MANY: u8 = 5;
    pub const CLOSING_DIFFERS: u8 = 6;
    pub const AFTER_CLOSING: u8 = 7;
    pub const NOT_CLOSED: u8 = 8;
    pub const NO_SUCH_TARGET: u8 = 9;
    pub const LIST_TOO_SHORT: u8 = 10;
}

/// The words of document 01 for a number.
pub const fn words(number: u8) -> &'static str {
    match number {
        0 => "taken",
        1 => "unknown kind byte",
        2 => "a record the order doesn't allow here",
        3 => "a field outside its bounds",
        4 => "a target or scenario number breaks its rule",
        5 => "one target, scenario, record or level too many",
        6 => "closing count or sum differs",
        7 => "bytes after the closing record",
        8 => "report asked before the closing record",
        9 => "no such target",
        10 => "lent list shorter than the domino list",
        _ => "no number of document 01",
    }
}

#[cfg(test)]
mod tests {
    use super::*;

    #[test]
    fn lengths_of_all_bytes() {
        let known = (0..=255).filter_map(|kind| length(kind).map(|n| (kind, n)));
        let expected = [
            (1, 5),
            (2, 9),
            (3, 13),
            (4, 5),
            (5, 4),
            (6, 9),
            (7, 13),
            (8, 10),
            (10, 6),
        ];
        assert_eq!(known.collect::<Vec<_>>(), expected);
    }
}
