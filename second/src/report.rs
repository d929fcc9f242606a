//! What the reports give, and the text of the report program.

use std::fmt::Write;

use crate::record::number;
use crate::study::{Answer, Study};

/// A report: number and place, and with number 0 the figures.
#[derive(Clone, Copy, Debug, PartialEq, Eq)]
pub struct Report<T> {
    pub number: u8,
    pub place: u64,
    pub figures: Option<T>,
}

impl<T> Report<T> {
    /// The number and place alone.
    pub fn answer(&self) -> Answer {
        Answer {
            number: self.number,
            place: self.place,
        }
    }
}

/// The totals of a closed study.
#[derive(Clone, Copy, Debug, PartialEq, Eq)]
pub struct Totals {
    pub study: u32,
    pub records: u32,
    pub leaks: u64,
    /// Frequency by outcome kind.
    pub kinds: [u64; 6],
    /// Effects of fires on classes 3 and 4, and on class 2 where its volume is
    /// 0 or above 10,000.
    pub unjudged: u32,
}

/// What a target has beside its sum and margin.
#[derive(Clone, Copy, Debug, PartialEq, Eq)]
pub enum Standing {
    /// A place of people and its grade.
    Grade(u8),
    /// Equipment on the domino list.
    Listed,
    /// Equipment not on it.
    NotListed,
}

/// The figures of one target.
#[derive(Clone, Copy, Debug, PartialEq, Eq)]
pub struct TargetFigures {
    pub sum: u64,
    pub margin: u32,
    pub standing: Standing,
}

/// The report program's text for a study given whole.
pub fn report_text(bytes: &[u8]) -> String {
    report_text_of_pieces([bytes])
}

/// The report program's text for a study given in pieces.
pub fn report_text_of_pieces<'a>(pieces: impl IntoIterator<Item = &'a [u8]>) -> String {
    let mut study = Study::new();
    for piece in pieces {
        let answer = study.piece(piece);
        if answer.number != number::TAKEN {
            return refused(answer);
        }
    }
    closed_report(&study).unwrap_or_else(refused)
}

fn refused(answer: Answer) -> String {
    format!("refused {} at {}\n", answer.number, answer.place)
}

fn closed_report(study: &Study) -> Result<String, Answer> {
    let report = study.totals();
    let totals = report.figures.ok_or(report.answer())?;
    let mut text = format!(
        "study {} records {} leaks {}\n",
        totals.study, totals.records, totals.leaks
    );
    for (kind, total) in totals.kinds.iter().enumerate() {
        text += &format!("kind {kind} {total}\n");
    }
    for target in 0..Study::MAX_TARGETS {
        let Some(figures) = study.target(target).figures else {
            break;
        };
        text += &format!("target {target} ");
        write_target(&mut text, &figures);
        text.push('\n');
    }
    text += &format!("unjudged {}\n", totals.unjudged);
    Ok(text)
}

/// `sum S margin M` and what stands after it.
pub(crate) fn write_target(text: &mut String, figures: &TargetFigures) {
    let TargetFigures {
        sum,
        margin,
        standing,
    } = figures;
    // Writing into a string gives no error.
    let _ = write!(text, "sum {sum} margin {margin}");
    let _ = match standing {
        Standing::Grade(grade) => write!(text, " grade {grade}"),
        Standing::Listed => write!(text, " domino"),
        Standing::NotListed => Ok(()),
    };
}
