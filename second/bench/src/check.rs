//! Before anything is timed: the three readers give the same answer to every
//! piece and the same reports, on whole studies and on refused ones.

use std::fmt::Debug;

use second_desk::Answer;
use second_desk::record::number;

use crate::plain;
use crate::readers::{Desk, StudyReader};
use crate::studies::Input;

/// The closing record's length.
const CLOSING: usize = 13;

/// A byte that starts no record.
const UNKNOWN_KIND: u8 = 11;

/// A study's bytes, and what is to be answered by document 01.
struct Case {
    name: &'static str,
    bytes: Vec<u8>,
    /// The answer to the last piece.
    last: Answer,
    /// The refusal of every report; none where the study is closed.
    refusal: Option<Answer>,
}

impl Case {
    /// The input's bytes; `last` is the number of the last piece's answer,
    /// `reports` that of every report.
    fn new(input: &Input, name: &'static str, last: u8, reports: u8, place: usize) -> Case {
        let answer = |number| Answer {
            number,
            place: place as u64,
        };
        Case {
            name,
            bytes: input.bytes.clone(),
            last: answer(last),
            refusal: (reports != number::TAKEN).then_some(answer(reports)),
        }
    }
}

/// The input, and five others that are made of it by a change at one place.
fn cases(input: &Input) -> [Case; 6] {
    let length = input.bytes.len();
    let closing = length - CLOSING;
    let leak = 5 + 9 * usize::from(input.targets);
    let case = |name, last, reports, place| Case::new(input, name, last, reports, place);
    let whole = case("whole", 0, 0, length);
    let mut first_leak = case("kind of the first leak", 1, 1, leak);
    first_leak.bytes[leak] = UNKNOWN_KIND;
    let mut last_kind = case("kind of the closing record", 1, 1, closing);
    last_kind.bytes[closing] = UNKNOWN_KIND;
    let mut other_sum = case("sum of the closing record", 6, 6, closing);
    other_sum.bytes[length - 1] ^= 1;
    let mut cut = case("last byte missing", 0, 8, length - 1);
    cut.bytes.truncate(length - 1);
    let mut longer = case("byte after the end", 7, 0, length);
    longer.bytes.push(0);
    [whole, first_leak, last_kind, other_sum, cut, longer]
}

/// A study in all three readers.
struct Three {
    desk: Desk,
    plain: plain::Reader,
    second: second_desk::Study,
}

impl Three {
    /// One call on each; the result, or how they differ.
    fn same<T: PartialEq + Debug + Copy>(call: &str, results: [T; 3]) -> Result<T, String> {
        if results == [results[0]; 3] {
            Ok(results[0])
        } else {
            Err(format!("{call}: {results:?} differ"))
        }
    }

    fn feed(&mut self, piece: &[u8]) -> Result<Answer, String> {
        let desk = StudyReader::feed(&mut self.desk, piece);
        let plain = StudyReader::feed(&mut self.plain, piece);
        Three::same(
            "a piece",
            [desk, plain, StudyReader::feed(&mut self.second, piece)],
        )
    }

    /// Whether every report is as expected. Gives how many sums are above 0.
    fn reports(&self, targets: u16, refusal: Option<Answer>) -> Result<usize, String> {
        let Three {
            desk,
            plain,
            second,
        } = self;
        let totals = [
            StudyReader::totals(desk),
            StudyReader::totals(plain),
            StudyReader::totals(second),
        ];
        let totals = Three::same("totals", totals)?;
        if totals.err() != refusal {
            return Err(format!("totals: {totals:?}, not {refusal:?}"));
        }
        let mut above = 0;
        for number in 0..=targets {
            let figures = [
                StudyReader::target(desk, number),
                StudyReader::target(plain, number),
                StudyReader::target(second, number),
            ];
            let figures = Three::same(&format!("target {number}"), figures)?;
            let missing = number == targets && refusal.is_none();
            let number_9 = figures.is_err_and(|answer| answer.number == number::NO_SUCH_TARGET);
            if missing != number_9 || !missing && figures.err() != refusal {
                return Err(format!("target {number}: {figures:?}, not {refusal:?}"));
            }
            above += usize::from(figures.is_ok_and(|figures| figures.sum > 0));
        }
        Ok(above)
    }
}

/// One case in pieces of one size. Gives how many sums are above 0.
fn check_case(case: &Case, size: usize, targets: u16) -> Result<usize, String> {
    let mut three = Three {
        desk: StudyReader::fresh(),
        plain: StudyReader::fresh(),
        second: StudyReader::fresh(),
    };
    let mut last = three.feed(&[])?;
    for piece in case.bytes.chunks(size) {
        last = three.feed(piece)?;
    }
    if last != case.last {
        return Err(format!("last piece: {last:?}, not {:?}", case.last));
    }
    three.reports(targets, case.refusal)
}

/// Whether all three agree on the input and on the studies made of it. Says how
/// they differ, or what was compared.
pub fn check(input: &Input, sizes: &[usize]) -> bool {
    let cases = cases(input);
    let mut above = 0;
    for case in &cases {
        for &size in sizes {
            match check_case(case, size, input.targets) {
                Ok(sums) if case.refusal.is_none() => above = sums,
                Ok(_) => (),
                Err(difference) => {
                    println!(
                        "{}, {}, pieces of {size}: {difference}",
                        input.name, case.name
                    );
                    return false;
                }
            }
        }
    }
    let others: Vec<_> = cases[1..].iter().map(|case| case.name).collect();
    println!(
        "{}: {} bytes, {} records, {} targets: every answer, total and figure agrees, {above} sums above 0",
        input.name,
        input.bytes.len(),
        input.records,
        input.targets
    );
    println!("    also with a fault: {}", others.join(", "));
    above > 0
}
