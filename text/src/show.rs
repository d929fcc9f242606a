//! From bytes to text, with the place of each record and the refusal.

use crate::form::{Field, Form, RAW, Rule, TARGET, form_of, unit_of};
use crate::parts::{Part, bytes_in_words, parts};
use crate::reason::{AFTER_CLOSING, NOT_CLOSED, TAKEN, reason};
use riskdesk::{Answer, Study};
use std::io::{self, Write};

/// Where the comment of a line starts.
const COMMENT: usize = 44;
/// Bytes in one line of bytes that are no record.
const RAW_BYTES: usize = 12;
/// Lines shown after the line that is refused.
const LINES_AFTER: usize = 3;

/// How much is shown after a refusal.
#[derive(Clone, Copy, Debug, PartialEq, Eq)]
pub enum Extent {
    /// A few lines.
    Some,
    /// All.
    All,
}

/// The desk's answer to a study of these bytes: 0 where it is closed and nothing
/// follows, else the number and place for which it or its report is refused.
pub fn verdict(bytes: &[u8]) -> Answer {
    let mut study = Study::fresh();
    let answer = study.feed(bytes);
    match study.totals() {
        Err(refusal) if answer.number == TAKEN => refusal,
        _ => answer,
    }
}

/// Writes any bytes as a study's records, one a line, each with its place. The
/// line that the desk refuses is marked with the number and the reason, and the
/// last line says what the desk answers.
pub fn show(bytes: &[u8], extent: Extent, out: &mut impl Write) -> io::Result<()> {
    let answer = verdict(bytes);
    let mut shower = Shower {
        out,
        answer,
        reason: reason(answer, bytes),
        extent,
        lines: 0,
        refused_line: None,
        hidden: 0,
    };
    for part in parts(bytes) {
        if shower.enough() {
            shower.hidden = bytes.len() - part.place;
            break;
        }
        match part.form {
            Some(form) => shower.line(&record_words(form, part.bytes), part.place, "")?,
            None => shower.no_record(&part)?,
        }
    }
    shower.end()
}

struct Shower<'a, W> {
    out: &'a mut W,
    answer: Answer,
    reason: String,
    extent: Extent,
    /// Lines written so far, and the number of the refused one.
    lines: usize,
    refused_line: Option<usize>,
    /// Bytes that are not shown.
    hidden: usize,
}

impl<W: Write> Shower<'_, W> {
    /// Writes the line of what stands at a place.
    fn line(&mut self, words: &str, place: usize, remark: &str) -> io::Result<()> {
        self.lines += 1;
        let comment = match self.refused_line {
            Some(_) => format!("at {place}, not read"),
            None if self.refuses(place) => {
                self.refused_line = Some(self.lines);
                let Answer { number, place: at } = self.answer;
                format!("at {place}: REFUSED {number} at {at}: {}", self.reason)
            }
            None => format!("at {place}{remark}"),
        };
        writeln!(self.out, "{words:COMMENT$}# {comment}")
    }

    fn enough(&self) -> bool {
        let last = self.refused_line.map(|line| line + LINES_AFTER);
        self.extent == Extent::Some && last == Some(self.lines)
    }

    /// Whether the answer refuses what stands at this place.
    fn refuses(&self, place: usize) -> bool {
        let Answer { number, place: at } = self.answer;
        (TAKEN + 1..=AFTER_CLOSING).contains(&number) && at == place as u64
    }

    /// Bytes that cannot be split into records.
    fn no_record(&mut self, part: &Part) -> io::Result<()> {
        let remark = match form_of(part.bytes[0]) {
            Some(form) => {
                let (length, whole) = (part.bytes.len(), form.length());
                format!(", cut short: {length} of {whole} bytes")
            }
            None => String::new(),
        };
        for (bytes, nth) in part.bytes.chunks(RAW_BYTES).zip(0..) {
            let shown = nth * RAW_BYTES;
            if self.enough() {
                self.hidden = part.bytes.len() - shown;
                break;
            }
            let hex: Vec<String> = bytes.iter().map(|byte| format!("{byte:02x}")).collect();
            let words = format!("{RAW} {}", hex.join(" "));
            self.line(&words, part.place + shown, &remark)?;
        }
        Ok(())
    }

    /// The last lines: what is not shown, and what the desk answers.
    fn end(&mut self) -> io::Result<()> {
        if self.hidden > 0 {
            let bytes = bytes_in_words(self.hidden);
            let remedy = "`study show --all` shows all";
            writeln!(self.out, "# {bytes} more not shown: {remedy}")?;
        }
        let Answer { number, place } = self.answer;
        if number == TAKEN {
            return writeln!(self.out, "# closed after {place} bytes");
        }
        // A study that is not closed ends with its last line.
        let last = Some(self.lines).filter(|&lines| number == NOT_CLOSED && lines > 0);
        let line = match self.refused_line.or(last) {
            Some(line) => format!(", line {line} of this text"),
            None => String::new(),
        };
        writeln!(
            self.out,
            "# refused {number} at {place}{line}: {}",
            self.reason
        )
    }
}

/// The words of a whole record.
fn record_words(form: &Form, record: &[u8]) -> String {
    let mut line = form.start.to_string();
    let people = record[0] != TARGET || record[3] == 0;
    for (field, number) in form.fields.iter().zip(form.numbers(record)) {
        if field.rule == Rule::LastByte {
            line += &unit_of(number);
            continue;
        }
        line.push(' ');
        line += &field_text(field, number, people);
    }
    line
}

/// A field's word, or its number where it has none. The setting of equipment
/// is no place of people's and stays a number.
fn field_text(field: &Field, number: u64, people: bool) -> String {
    match field.words.get(number as usize) {
        Some(word) if people || field.name != "setting" => (*word).to_string(),
        _ => field.rule.text(number),
    }
}
