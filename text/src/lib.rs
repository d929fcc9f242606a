//! A study as text: one record a line.
//!
//! | Line | Record |
//! |---|---|
//! | `study NUMBER` | opening |
//! | `target NUMBER CLASS SETTING VOLUME` | target |
//! | `leak SCENARIO FREQUENCY` | leak |
//! | `branching CHANCE` | branching |
//! | `branching curve CURVE RATE` | branching of kind 10; a rate has its unit, as `500kg/s` |
//! | `outcome KIND EFFECTS` | outcome |
//! | `effect TARGET INTENSITY DURATION` | effect; of kind 8 with a unit, as `20s`, `200t` |
//! | `closing` or `closing COUNT SUM` | closing |
//! | `raw BYTE ...` | bytes in hexadecimal that are no whole record |
//!
//! Whether a study is refused, with which number and where, is asked of the
//! proved desk (feature `desk`, crate `riskdesk`). Nothing here decides it.

#![forbid(unsafe_code)]

mod form;
pub mod output;
mod parts;
mod rate;
mod read;
#[cfg(feature = "desk")]
mod reason;
#[cfg(feature = "desk")]
mod show;

pub use read::{Limits, TextError, to_bytes, to_text};
#[cfg(feature = "desk")]
pub use reason::looks_like_text;
#[cfg(feature = "desk")]
pub use riskdesk::Answer;
#[cfg(feature = "desk")]
pub use show::{Extent, show, verdict};
