//! From text to bytes.

use crate::form::{
    CLOSING, EFFECT, FORMS, Field, Form, LEAK, OUTCOME, RAW, Rule, TIMED_EFFECT, form_of,
    last_byte_of, words_of,
};
use crate::parts::parts;
use crate::rate;
use std::fmt;

/// The numbers that a text may have.
#[derive(Clone, Copy, Debug, PartialEq, Eq)]
pub enum Limits {
    /// Those within the bounds that the rules give a field.
    Rules,
    /// All that fit the field's bytes.
    Bytes,
}

/// An error in the text: its line, counted from 1, and what was expected.
#[derive(Clone, Debug, PartialEq, Eq)]
pub struct TextError {
    pub line: usize,
    pub message: String,
}

impl fmt::Display for TextError {
    fn fmt(&self, f: &mut fmt::Formatter) -> fmt::Result {
        write!(f, "line {}: {}", self.line, self.message)
    }
}

impl std::error::Error for TextError {}

/// The text of a file in UTF-8, a byte order mark passed over.
pub fn to_text(bytes: &[u8]) -> Result<&str, TextError> {
    let error = |front: &[u8], message: &str| TextError {
        line: lines(&String::from_utf8_lossy(front)).count().max(1),
        message: message.into(),
    };
    if bytes.starts_with(b"\xff\xfe") || bytes.starts_with(b"\xfe\xff") {
        return Err(error(b"", "expected text in UTF-8, found UTF-16"));
    }
    if bytes.first().is_some_and(|&byte| byte < b'\t') {
        let message = "expected text, found the bytes of a study: `study show` makes text of them";
        return Err(error(b"", message));
    }
    let bytes = bytes.strip_prefix(b"\xef\xbb\xbf").unwrap_or(bytes);
    std::str::from_utf8(bytes).map_err(|wrong| {
        let front = &bytes[..=wrong.valid_up_to()];
        error(front, "expected text in UTF-8")
    })
}

/// The lines of a text: a line feed, a carriage return or both end a line.
fn lines(text: &str) -> impl Iterator<Item = &str> {
    let mut rest = text;
    std::iter::from_fn(move || {
        if rest.is_empty() {
            return None;
        }
        let end = rest.find(['\n', '\r']).unwrap_or(rest.len());
        let (line, after) = rest.split_at(end);
        let after = after.strip_prefix("\r\n").or_else(|| after.get(1..));
        rest = after.unwrap_or_default();
        Some(line)
    })
}

/// The bytes of a study given as text.
pub fn to_bytes(text: &str, limits: Limits) -> Result<Vec<u8>, TextError> {
    let mut writer = Writer {
        limits,
        bytes: Vec::new(),
        outcome: None,
    };
    for (line, number) in lines(text).zip(1..) {
        let line = line.split('#').next().unwrap_or_default();
        let words: Vec<&str> = line.split_whitespace().collect();
        writer.line(&words).map_err(|message| TextError {
            line: number,
            message,
        })?;
    }
    Ok(writer.bytes)
}

/// The bytes so far, and the kind of the last outcome, if it is known.
struct Writer {
    limits: Limits,
    bytes: Vec<u8>,
    outcome: Option<u64>,
}

impl Writer {
    fn line(&mut self, words: &[&str]) -> Result<(), String> {
        let Some((&first, rest)) = words.split_first() else {
            return Ok(());
        };
        if first == RAW {
            return self.raw(rest);
        }
        let forms = FORMS
            .iter()
            .filter_map(|form| Some((form, form.values(words)?)));
        let (form, values) = forms
            .min_by_key(|(_, values)| values.len())
            .ok_or_else(|| unknown_word(first))?;
        if form.kind == CLOSING && values.is_empty() {
            return self.closing();
        }
        let (form, values) = self.parted(form, values)?;
        self.bytes.push(form.kind);
        let numbers = self.fields(form, &values)?;
        if form.kind == OUTCOME {
            self.outcome = Some(numbers[0]);
        }
        Ok(())
    }

    /// The form of a line and its values. Where an effect's duration has a unit, it
    /// is parted from it and stands after it as the last byte's number.
    fn parted<'a>(
        &self,
        form: &'static Form,
        values: &[&'a str],
    ) -> Result<(&'static Form, Vec<&'a str>), String> {
        let mut values = values.to_vec();
        let timed = form_of(TIMED_EFFECT).filter(|_| form.kind == EFFECT);
        let (Some(timed), Some(&duration)) = (timed, values.get(2)) else {
            return Ok((form, values));
        };
        let end = duration.find(|letter: char| !letter.is_ascii_digit());
        let Some(end) = end else {
            return Ok((form, values));
        };
        let (time, unit) = duration.split_at(end);
        let last = last_byte_of(unit).filter(|_| !time.is_empty()).ok_or_else(|| {
            let (expected, _) = self.expected(&timed.fields[2], &[]);
            let duration = duration.escape_debug();
            format!(
                "duration: expected {expected}, in digits alone or followed by s (seconds) or t \
                 (tenths of a second), found '{duration}'"
            )
        })?;
        values.splice(2..3, [time, last]);
        Ok((timed, values))
    }

    fn fields(&mut self, form: &Form, values: &[&str]) -> Result<Vec<u64>, String> {
        let mut numbers = Vec::with_capacity(form.fields.len());
        let mut values = values.iter();
        for field in form.fields {
            let &value = values.next().ok_or_else(|| {
                let Field { name, .. } = field;
                format!("expected {}: the {name} is missing", layout(form))
            })?;
            let number = self.number(field, &numbers, value)?;
            let bytes = number.to_be_bytes();
            self.bytes.extend_from_slice(&bytes[8 - field.width..]);
            numbers.push(number);
        }
        match values.next() {
            Some(more) => Err(format!(
                "expected {} and nothing more, found '{}'",
                layout(form),
                more.escape_debug()
            )),
            None => Ok(numbers),
        }
    }

    /// The number that a value stands for, after these fields of the same record.
    fn number(&self, field: &Field, earlier: &[u64], value: &str) -> Result<u64, String> {
        let bounds = field.rule.bounds(earlier, self.outcome);
        let allowed = |number| match self.limits {
            Limits::Rules => bounds.allow(number),
            Limits::Bytes => number <= field.most(),
        };
        let form = match number_of(field, value) {
            Ok(number) if allowed(number) => return Ok(number),
            Ok(_) => "",
            Err(form) => form,
        };
        let (expected, single) = self.expected(field, earlier);
        let words = match field.words {
            [] => String::new(),
            _ if single => String::new(),
            words => format!("{} or ", words.join(", ")),
        };
        let (name, value) = (field.name, value.escape_debug());
        Err(format!(
            "{name}: expected {words}{expected}{form}, found '{value}'"
        ))
    }

    /// The numbers that a field may have, in words, and whether it is one alone.
    fn expected(&self, field: &Field, earlier: &[u64]) -> (String, bool) {
        let bounds = field.rule.bounds(earlier, self.outcome);
        match self.limits {
            Limits::Rules => (bounds.to_string(), bounds.single()),
            Limits::Bytes => {
                let [least, most] = [0, field.most()].map(|number| field.rule.text(number));
                (format!("{least} to {most}"), false)
            }
        }
    }

    /// A closing with the count and sum of the records so far.
    fn closing(&mut self) -> Result<(), String> {
        let mut records = 1_u32;
        let mut leaks = 0_u64;
        for part in parts(&self.bytes) {
            let Some(form) = part.form else { break };
            records = records.saturating_add(1);
            if form.kind == LEAK {
                let frequency = form.numbers(part.bytes)[1];
                leaks = leaks.checked_add(frequency).ok_or_else(|| {
                    "expected leak frequencies whose sum fits 8 bytes".to_string()
                })?;
            }
        }
        self.bytes.push(CLOSING);
        self.bytes.extend_from_slice(&records.to_be_bytes());
        self.bytes.extend_from_slice(&leaks.to_be_bytes());
        Ok(())
    }

    fn raw(&mut self, values: &[&str]) -> Result<(), String> {
        if values.is_empty() {
            return Err("expected raw BYTE ...: there is no byte".into());
        }
        self.outcome = None;
        for value in values {
            let digits = value.bytes().all(|byte| byte.is_ascii_hexdigit());
            let byte = match value.len() {
                2 if digits => u8::from_str_radix(value, 16).ok(),
                _ => None,
            };
            let wrong = || {
                let value = value.escape_debug();
                format!("expected a byte of two hexadecimal digits, found '{value}'")
            };
            self.bytes.push(byte.ok_or_else(wrong)?);
        }
        Ok(())
    }
}

/// The number that a field's word, a rate or digits stand for, or what is expected
/// of the value's form. Nothing is expected of it where only words or fewer digits
/// would do.
fn number_of(field: &Field, value: &str) -> Result<u64, &'static str> {
    let word = field.words.iter().position(|word| *word == value);
    match word {
        Some(position) => Ok(position as u64),
        None if field.rule == Rule::Rate => rate::tenths(value),
        None if value.bytes().all(|byte| byte.is_ascii_digit()) => value.parse().map_err(|_| ""),
        None if field.words.is_empty() => Err(", in digits alone"),
        None => Err(""),
    }
}

fn unknown_word(word: &str) -> String {
    let words = words_of(FORMS.iter());
    let word = word.escape_debug();
    format!("expected {} or {RAW}, found '{word}'", words.join(", "))
}

/// The line of a form: its words and the names of its fields. A last byte is
/// part of the duration.
fn layout(form: &Form) -> String {
    let mut line = form.start.to_string();
    let fields = form.fields.iter();
    for field in fields.filter(|field| field.rule != Rule::LastByte) {
        line.push(' ');
        line += &field.name.to_uppercase();
    }
    line
}
