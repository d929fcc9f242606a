//! A list of calls on one study as bytes, and the answers as lines of text.
//!
//! The calls: `p`, a length (2 bytes) and that many bytes is a piece; `t` the
//! totals; `g` and a target (2 bytes) one target; `d` and a count (2 bytes, at
//! most 300) the domino list into that many lent numbers.

use std::fmt::Write;

use crate::report::write_target;
use crate::study::{Answer, Study};

/// The most numbers a call lends.
pub const MAX_LENT: usize = 300;

/// What each lent number holds before the call.
pub const LENT: u16 = 65_535;

/// Runs a list of calls from a fresh study on and gives the lines.
pub fn replay(mut calls: &[u8]) -> String {
    let mut study = Study::new();
    let mut text = String::new();
    while !calls.is_empty() {
        match call(&mut study, calls, &mut text) {
            Some(rest) => calls = rest,
            None => {
                text += "bad call\n";
                break;
            }
        }
    }
    text
}

/// Runs one call; none for a bad one.
fn call<'a>(study: &mut Study, calls: &'a [u8], text: &mut String) -> Option<&'a [u8]> {
    let (&word, rest) = calls.split_first()?;
    match word {
        b'p' => {
            let (length, rest) = number(rest)?;
            let (piece, rest) = rest.split_at_checked(usize::from(length))?;
            write_answer(text, "piece", study.piece(piece));
            text.push('\n');
            Some(rest)
        }
        b't' => {
            totals(study, text);
            Some(rest)
        }
        b'g' => {
            let (target, rest) = number(rest)?;
            one_target(study, target, text);
            Some(rest)
        }
        b'd' => {
            let (count, rest) = number(rest)?;
            if usize::from(count) > MAX_LENT {
                return None;
            }
            domino(study, usize::from(count), text);
            Some(rest)
        }
        _ => None,
    }
}

fn number(calls: &[u8]) -> Option<(u16, &[u8])> {
    let (bytes, rest) = calls.split_first_chunk()?;
    Some((u16::from_be_bytes(*bytes), rest))
}

// Writing into a string gives no error, so the results are dropped below.

fn write_answer(text: &mut String, word: &str, answer: Answer) {
    let _ = write!(text, "{word} {} at {}", answer.number, answer.place);
}

fn totals(study: &Study, text: &mut String) {
    let report = study.totals();
    write_answer(text, "totals", report.answer());
    if let Some(totals) = report.figures {
        let _ = write!(
            text,
            " study {} records {} leaks {} kinds",
            totals.study, totals.records, totals.leaks
        );
        for total in totals.kinds {
            let _ = write!(text, " {total}");
        }
        let _ = write!(text, " unjudged {}", totals.unjudged);
    }
    text.push('\n');
}

fn one_target(study: &Study, target: u16, text: &mut String) {
    let report = study.target(target);
    write_answer(text, "target", report.answer());
    if let Some(figures) = report.figures {
        text.push(' ');
        write_target(text, &figures);
    }
    text.push('\n');
}

fn domino(study: &Study, count: usize, text: &mut String) {
    let mut numbers = [LENT; MAX_LENT];
    let lent = &mut numbers[..count];
    let report = study.domino(lent);
    write_answer(text, "domino", report.answer());
    if let Some(count) = report.figures {
        let _ = write!(text, " count {count}");
    }
    text.push_str(" lent");
    for number in lent {
        let _ = write!(text, " {number}");
    }
    text.push('\n');
}
