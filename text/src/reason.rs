//! Why the desk refuses, in words. The number and the place are the desk's;
//! the words are made from them and from the records before the place.

use crate::form::{
    BRANCHING, CURVE_BRANCHING, EFFECT, FORMS, Form, LEAK, OUTCOME, Rule, TARGET, TIMED_EFFECT,
    words_of,
};
use crate::parts::{Part, bytes_in_words, parts};
use riskdesk::{Answer, Study};

/// The numbers that the desk answers with.
pub(crate) const TAKEN: u8 = 0;
const UNKNOWN_KIND: u8 = 1;
const ORDER: u8 = 2;
const FIELD: u8 = 3;
const NUMBERING: u8 = 4;
const TOO_MANY: u8 = 5;
const CLOSING_DIFFERS: u8 = 6;
pub(crate) const AFTER_CLOSING: u8 = 7;
pub(crate) const NOT_CLOSED: u8 = 8;

/// The general meaning of a number.
pub(crate) fn meaning(number: u8) -> &'static str {
    match number {
        0 => "taken",
        1 => "unknown kind byte",
        2 => "a record that the order does not allow here",
        3 => "a field outside its bounds",
        4 => "a target or scenario number breaks its rule",
        5 => "one target, scenario, record or level too many",
        6 => "closing count or sum differs",
        7 => "bytes after the closing record",
        8 => "report asked before the closing record",
        9 => "no such target",
        10 => "lent list shorter than the domino list",
        _ => "a number without a meaning here",
    }
}

/// The meaning of the desk's answer to these bytes and, where it can be found,
/// the reason.
pub(crate) fn reason(answer: Answer, bytes: &[u8]) -> String {
    let meaning = meaning(answer.number);
    match particulars(answer, bytes) {
        Some(words) => format!("{meaning}: {words}"),
        None => meaning.into(),
    }
}

fn particulars(answer: Answer, bytes: &[u8]) -> Option<String> {
    let place = usize::try_from(answer.place).ok()?;
    let before = Before::of(bytes.get(..place)?);
    let part = parts(&bytes[place..]).next();
    let record = part.as_ref().and_then(|part| Some((part.form?, part)));
    match (answer.number, record) {
        (UNKNOWN_KIND, _) => unknown_kind(place, bytes),
        (ORDER, _) => Some(format!("expected {}", expected_kinds(&bytes[..place]))),
        (FIELD, Some((form, part))) => before.field(form, part),
        (NUMBERING, Some((form, part))) => before.numbering(form, part),
        (TOO_MANY, Some((form, _))) => before.too_many(form),
        (CLOSING_DIFFERS, _) => Some(format!(
            "expected count {} and sum {}",
            before.records + 1,
            before.leaks
        )),
        (AFTER_CLOSING, _) => Some(bytes_in_words(bytes.len() - place)),
        (NOT_CLOSED, _) => not_closed(bytes),
        _ => None,
    }
}

/// Whether the first bytes are those of a text and of no study.
pub fn looks_like_text(bytes: &[u8]) -> bool {
    let front = &bytes[..bytes.len().min(256)];
    let control = |&byte: &u8| byte < b' ' && !b"\t\n\r\x0c".contains(&byte);
    !front.is_empty() && !front.iter().any(control)
}

fn unknown_kind(place: usize, bytes: &[u8]) -> Option<String> {
    if place == 0 && looks_like_text(bytes) {
        return Some("this is text: `study bytes` makes a study of it".into());
    }
    let byte = bytes.get(place)?;
    let wrong_length = match place {
        0 => "",
        _ => ", or a record before it has a wrong length",
    };
    Some(format!(
        "the byte {byte:02x} starts no record{wrong_length}"
    ))
}

/// The records that the order allows after these bytes, by their words. The
/// desk is asked: it refuses a record for its order before all else.
fn expected_kinds(before: &[u8]) -> String {
    let mut study = Study::fresh();
    // What stands before the place of a refusal is taken.
    let _ = study.feed(before);
    let allowed = FORMS.iter().filter(|form| {
        let mut record = vec![0; form.length()];
        record[0] = form.kind;
        study.clone().feed(&record).number != ORDER
    });
    words_of(allowed).join(" or ")
}

fn not_closed(bytes: &[u8]) -> Option<String> {
    let Some(last) = parts(bytes).last() else {
        return Some("there are no bytes".into());
    };
    if last.form.is_some() {
        return Some(format!("expected {} next", expected_kinds(bytes)));
    }
    let form = crate::form::form_of(*last.bytes.first()?)?;
    Some(format!(
        "the last record is cut short, {} of {} bytes",
        last.bytes.len(),
        form.length()
    ))
}

/// What the words need of the records before a place.
#[derive(Default)]
struct Before {
    records: u64,
    leaks: u64,
    targets: u64,
    scenarios: u64,
    last_scenario: Option<u64>,
    outcome: Option<u64>,
    last_effect: Option<u64>,
}

impl Before {
    fn of(bytes: &[u8]) -> Before {
        let mut before = Before::default();
        for part in parts(bytes) {
            if let Some(form) = part.form {
                before.note(form.kind, &form.numbers(part.bytes));
            }
        }
        before
    }

    fn note(&mut self, kind: u8, numbers: &[u64]) {
        self.records += 1;
        match kind {
            TARGET => self.targets += 1,
            LEAK => {
                self.scenarios += 1;
                self.last_scenario = Some(numbers[0]);
                self.leaks = self.leaks.saturating_add(numbers[1]);
            }
            OUTCOME => {
                self.outcome = Some(numbers[0]);
                self.last_effect = None;
            }
            EFFECT | TIMED_EFFECT => self.last_effect = Some(numbers[0]),
            _ => {}
        }
    }

    /// The first field outside its bounds. Whether a number suits the records
    /// before is no question of bounds.
    fn field(&self, form: &Form, part: &Part) -> Option<String> {
        let numbers = form.numbers(part.bytes);
        form.fields.iter().enumerate().find_map(|(index, field)| {
            let number = numbers[index];
            let bounds = field.rule.bounds(&numbers[..index], self.outcome);
            let outside = !matches!(field.rule, Rule::Numbering(_)) && !bounds.allow(number);
            outside.then(|| {
                let found = field.rule.text(number);
                format!("{}: expected {bounds}, found {found}", field.name)
            })
        })
    }

    fn numbering(&self, form: &Form, part: &Part) -> Option<String> {
        let number = *form.numbers(part.bytes).first()?;
        match form.kind {
            TARGET => Some(format!("the next target is {}", self.targets)),
            LEAK => {
                let last = self.last_scenario?;
                Some(format!("the scenario number must be above {last}"))
            }
            EFFECT | TIMED_EFFECT if number >= self.targets => Some(match self.targets {
                0 => "no target is declared".into(),
                1 => "target 0 alone is declared".into(),
                targets => format!("targets 0 to {} are declared", targets - 1),
            }),
            EFFECT | TIMED_EFFECT => {
                let last = self.last_effect?;
                Some(format!("the target must be above {last}"))
            }
            _ => None,
        }
    }

    fn too_many(&self, form: &Form) -> Option<String> {
        let most = match form.kind {
            _ if self.records >= 1_000_000 => "1000000 records",
            TARGET => "256 targets",
            LEAK => "65536 scenarios",
            BRANCHING | CURVE_BRANCHING => "7 branchings above a branching",
            _ => return None,
        };
        Some(format!("at most {most}"))
    }
}

#[cfg(test)]
mod tests {
    use super::*;

    /// The words are for the number that is given: they do not find another.
    #[test]
    fn numbers_without_words_have_their_meaning() {
        let opening = [1, 0, 0, 0, 1];
        let of = |number, place| reason(Answer { number, place }, &opening);
        assert_eq!(of(3, 0), meaning(3));
        assert_eq!(of(4, 0), meaning(4));
        assert_eq!(of(5, 0), meaning(5));
        assert_eq!(of(9, 5), meaning(9));
        assert_eq!(of(3, 5), meaning(3));
        assert_eq!(of(2, 99), meaning(2));
        assert_eq!(of(200, 0), "a number without a meaning here");
    }
}
