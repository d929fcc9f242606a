//! The answer to a call: a number and a place.

use std::error::Error;
use std::fmt;

use crate::terms::number;

/// What a call was answered with. As an error it is a refusal.
///
/// With 1 to 6 the place is that of the refused record's first byte, with 7 the
/// closed study's length, else the bytes read so far.
#[derive(Clone, Copy, Debug, PartialEq, Eq)]
#[repr(C)]
pub struct Answer {
    /// A number of the module [`number`]; 0 is taken.
    pub number: u8,
    /// A place in the study's bytes, from 0 on.
    pub place: u64,
}

impl Answer {
    pub(crate) fn new(number: u8, place: u64) -> Answer {
        Answer { number, place }
    }

    /// Whether the number is 0.
    pub fn is_taken(self) -> bool {
        self.number == number::TAKEN
    }

    /// The place where the number is 0.
    ///
    /// # Errors
    ///
    /// The answer itself where it is a refusal.
    pub fn result(self) -> Result<u64, Answer> {
        if self.is_taken() {
            Ok(self.place)
        } else {
            Err(self)
        }
    }

    /// What the number says, in words.
    pub fn words(self) -> &'static str {
        match self.number {
            number::TAKEN => "taken",
            number::UNKNOWN_KIND => "no kind of record has this first byte",
            number::ORDER => "a record that the order does not allow here",
            number::FIELD => "a field outside its bounds",
            number::NUMBERING => "a target or scenario number breaks its rule",
            number::TOO_MANY => "one target, scenario, record or level of a tree too many",
            number::CLOSING_DIFFERS => "the closing record's count or sum differs",
            number::AFTER_CLOSING => "bytes after the closing record",
            number::NOT_CLOSED => "a report was asked before the closing record",
            number::NO_SUCH_TARGET => "the study has no target of this number",
            number::LIST_TOO_SHORT => "the lent list is shorter than the domino list",
            _ => "no number of the desk",
        }
    }
}

impl fmt::Display for Answer {
    fn fmt(&self, f: &mut fmt::Formatter<'_>) -> fmt::Result {
        let Answer { number, place } = self;
        if self.is_taken() {
            write!(f, "taken, {place} bytes read")
        } else {
            write!(f, "refused {number} at {place}: {}", self.words())
        }
    }
}

impl Error for Answer {}
