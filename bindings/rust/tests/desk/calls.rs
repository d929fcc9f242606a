//! The stored lists of calls (crates/replay), answered by this crate. The
//! expected lines are worked out in docs/REPLAY_LIST.md.

use std::fs;

use crate::common::repository;
use riskdesk::{Answer, Standing, Study};

const BEFORE: u16 = 65_535;

/// The lines of a list of calls on a fresh study.
fn replay(mut calls: &[u8]) -> String {
    let mut study = Study::fresh();
    let mut text = String::new();
    while !calls.is_empty() {
        let Some((line, rest)) = call(&mut study, calls) else {
            return text + "bad call\n";
        };
        text += &(line + "\n");
        calls = rest;
    }
    text
}

/// One call's line and the calls after it; none for a bad one.
fn call<'a>(study: &mut Study, calls: &'a [u8]) -> Option<(String, &'a [u8])> {
    let (&letter, rest) = calls.split_first()?;
    if letter == b't' {
        return Some((totals(study), rest));
    }
    let (&two, rest) = rest.split_first_chunk()?;
    let number = u16::from_be_bytes(two);
    match letter {
        b'p' => {
            let (piece, rest) = rest.split_at_checked(number.into())?;
            Some((answer("piece", study.feed(piece)), rest))
        }
        b'g' => Some((target(study, number), rest)),
        b'd' if number <= 300 => Some((domino(study, number.into()), rest)),
        _ => None,
    }
}

fn answer(word: &str, answer: Answer) -> String {
    format!("{word} {} at {}", answer.number, answer.place)
}

/// `word N at P`, and the figures where there are any.
fn line(word: &str, study: &Study, figures: Result<String, Answer>) -> String {
    match figures {
        Err(refusal) => answer(word, refusal),
        Ok(figures) => answer(word, study.clone().feed(&[])) + &figures,
    }
}

fn totals(study: &Study) -> String {
    let figures = study.totals().map(|totals| {
        let (number, records, leaks) = (totals.study, totals.records, totals.leaks);
        let [a, b, c, d, e, f] = totals.kinds;
        let unjudged = totals.unjudged;
        format!(
            " study {number} records {records} leaks {leaks} kinds {a} {b} {c} {d} {e} {f} unjudged {unjudged}"
        )
    });
    line("totals", study, figures)
}

fn target(study: &Study, number: u16) -> String {
    let figures = study.target(number).map(|target| {
        let standing = match target.standing {
            Standing::People { grade } => format!(" grade {grade}"),
            Standing::Equipment { listed: true, .. } => " domino".into(),
            Standing::Equipment { listed: false, .. } => String::new(),
        };
        format!(" sum {} margin {}{standing}", target.sum, target.margin)
    });
    line("target", study, figures)
}

fn domino(study: &Study, length: usize) -> String {
    let mut lent = vec![BEFORE; length];
    let count = study.domino(&mut lent);
    let figures = count.map(|count| format!(" count {count}"));
    let numbers: String = lent.iter().map(|number| format!(" {number}")).collect();
    line("domino", study, figures) + " lent" + &numbers
}

#[test]
fn stored_lists() {
    let folder = repository().join("crates/replay");
    let names = fs::read_to_string(folder.join("args")).unwrap();
    let mut text = replay(&fs::read(folder.join("stdin")).unwrap());
    for name in names.lines() {
        text += &format!("list {name}\n");
        text += &replay(&fs::read(folder.join("data").join(name)).unwrap());
    }
    let expected = fs::read_to_string(folder.join("stdout")).unwrap();
    assert!(names.lines().count() >= 21, "lists are missing");
    for (number, (line, expected)) in text.lines().zip(expected.lines()).enumerate() {
        assert_eq!(line, expected, "line {}", number + 1);
    }
    assert_eq!(text, expected);
}
