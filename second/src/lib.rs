//! The risk desk: reads one study as bytes, in pieces of any size, and when
//! the study is closed reports totals, sums, grades and the domino list.
//!
//! This is a second implementation, written from the rules of document 01 and
//! requests P1, P2, P3 and P6 of document 02 alone, to be compared with the first
//! one call by call.

#![forbid(unsafe_code)]

pub mod chance;
pub mod ignition;
pub mod logarithm;
pub mod probit;
pub mod record;
pub mod replay;
pub mod report;
pub mod study;
pub mod volume;

pub use report::{Report, Standing, TargetFigures, Totals, report_text, report_text_of_pieces};
pub use study::{Answer, Study};
