//! The kinds of record: their words, their fields, and the bounds and units
//! that the rules give each field.

use crate::rate;
use std::fmt;

/// Kind bytes.
pub(crate) const OPENING: u8 = 1;
pub(crate) const TARGET: u8 = 2;
pub(crate) const LEAK: u8 = 3;
pub(crate) const BRANCHING: u8 = 4;
pub(crate) const OUTCOME: u8 = 5;
pub(crate) const EFFECT: u8 = 6;
pub(crate) const CLOSING: u8 = 7;
/// An effect with a last byte that names the unit of its duration.
pub(crate) const TIMED_EFFECT: u8 = 8;
/// A branching that names an ignition curve and a release rate.
pub(crate) const CURVE_BRANCHING: u8 = 10;

/// The word of a line of bytes that are no whole record.
pub(crate) const RAW: &str = "raw";

/// Words for the classes, settings and outcome kinds, by number.
const CLASSES: [&str; 6] = [
    "people",
    "atmospheric",
    "pressurised",
    "tower",
    "pump",
    "pipe",
];
const SETTINGS: [&str; 3] = ["individual", "outdoors", "indoors"];
const OUTCOMES: [&str; 6] = [
    "no-effect",
    "pool-fire",
    "jet-fire",
    "fireball",
    "flash-fire",
    "explosion",
];

const PEOPLE: u64 = 0;
const NO_EFFECT: u64 = 0;
const POOL_FIRE: u64 = 1;
const FIREBALL: u64 = 3;
const FLASH_FIRE: u64 = 4;
const EXPLOSION: u64 = 5;

const FREQUENCY_UNIT: &str = ", in units of 10^-13 per year";

/// What the rules allow in a field.
#[derive(Clone, Copy, PartialEq, Eq)]
pub(crate) enum Rule {
    /// From the first number to the second; the unit.
    Range(u64, u64, &'static str),
    /// A number that has to suit the records before: from 0 to this one.
    Numbering(u64),
    /// By the class, which is two fields before.
    Setting,
    /// By the outcome kind, which is one field before.
    Effects,
    /// By the kind of the outcome that the effect belongs to.
    Intensity,
    /// The same; the unit of a fire's duration.
    Duration(&'static str),
    /// An effect's last byte.
    LastByte,
    /// A release rate, which a text gives in kilograms or grams per second.
    Rate,
}

/// The least and the greatest number of a field, their unit in words, and the rule
/// that they are of.
#[derive(Clone, Copy)]
pub(crate) struct Bounds {
    least: u64,
    most: u64,
    unit: &'static str,
    rule: Rule,
}

impl Bounds {
    pub(crate) fn allow(self, number: u64) -> bool {
        (self.least..=self.most).contains(&number)
    }

    /// Whether one number alone is allowed.
    pub(crate) fn single(self) -> bool {
        self.least == self.most
    }
}

impl fmt::Display for Bounds {
    fn fmt(&self, f: &mut fmt::Formatter) -> fmt::Result {
        let unit = self.unit;
        let [least, most] = [self.least, self.most].map(|number| self.rule.text(number));
        match self.most - self.least {
            0 => write!(f, "{least}{unit}"),
            1 => write!(f, "{least} or {most}{unit}"),
            _ if self.most == 10_u64.pow(13) => write!(f, "{least} to 10^13{unit}"),
            _ => write!(f, "{least} to {most}{unit}"),
        }
    }
}

impl Rule {
    /// The bounds after these fields of the same record, in an outcome of this
    /// kind; none where the outcome is not known.
    pub(crate) fn bounds(self, earlier: &[u64], outcome: Option<u64>) -> Bounds {
        let (least, most, unit) = match self {
            Rule::Range(least, most, unit) => (least, most, unit),
            Rule::Numbering(most) => (0, most, ""),
            Rule::Setting if earlier[1] != PEOPLE => (0, 0, " for equipment"),
            Rule::Setting => (0, 2, ""),
            Rule::Effects if earlier[0] == NO_EFFECT => (0, 0, " for no-effect"),
            Rule::Effects => (0, 256, ""),
            Rule::Intensity => match outcome {
                Some(POOL_FIRE..=FIREBALL) => (0, u32::MAX.into(), ", in W/m²"),
                Some(FLASH_FIRE) => (0, 1, " (1 inside the lower flammable limit)"),
                Some(EXPLOSION) => (0, u32::MAX.into(), ", in Pa"),
                _ => (0, u32::MAX.into(), ", in W/m² or Pa"),
            },
            Rule::Duration(unit) => match outcome {
                Some(POOL_FIRE..=FIREBALL) => (1, u16::MAX.into(), unit),
                Some(FLASH_FIRE) => (0, 0, " for a flash fire"),
                Some(EXPLOSION) => (0, 0, " for an explosion"),
                _ => (0, u16::MAX.into(), unit),
            },
            Rule::LastByte => (0, 1, " (0 seconds, 1 tenths of a second)"),
            Rule::Rate => (1, u32::MAX.into(), ""),
        };
        Bounds {
            least,
            most,
            unit,
            rule: self,
        }
    }

    /// A number of the field as a text has it.
    pub(crate) fn text(self, number: u64) -> String {
        match self {
            Rule::Rate => rate::text(number),
            _ => number.to_string(),
        }
    }
}

/// One field of a record: its name, its bytes, words for its numbers, and what
/// the rules allow.
pub(crate) struct Field {
    pub(crate) name: &'static str,
    pub(crate) width: usize,
    pub(crate) words: &'static [&'static str],
    pub(crate) rule: Rule,
}

impl Field {
    /// The bounds of the field's bytes.
    pub(crate) fn most(&self) -> u64 {
        u64::MAX >> (64 - 8 * self.width)
    }
}

const fn number(name: &'static str, width: usize, rule: Rule) -> Field {
    let words = &[];
    Field {
        name,
        width,
        words,
        rule,
    }
}

const fn word(name: &'static str, words: &'static [&'static str], rule: Rule) -> Field {
    let width = 1;
    Field {
        name,
        width,
        words,
        rule,
    }
}

/// A kind of record: its byte, the words its line starts with, its fields.
pub(crate) struct Form {
    pub(crate) kind: u8,
    pub(crate) start: &'static str,
    pub(crate) fields: &'static [Field],
}

impl Form {
    /// The length of a record, its kind byte included.
    pub(crate) fn length(&self) -> usize {
        1 + self.fields.iter().map(|field| field.width).sum::<usize>()
    }

    /// The first word of its line.
    fn word(&self) -> &'static str {
        self.start.split(' ').next().unwrap_or_default()
    }

    /// The values in the words of a line that starts as the form's; none where it
    /// starts otherwise.
    pub(crate) fn values<'a>(&self, line: &'a [&'a str]) -> Option<&'a [&'a str]> {
        let mut words = self.start.split(' ');
        words.try_fold(line, |rest, word| rest.strip_prefix(&[word]))
    }

    /// The numbers in the fields of a whole record.
    pub(crate) fn numbers(&self, record: &[u8]) -> Vec<u64> {
        let mut rest = &record[1..];
        let mut numbers = Vec::with_capacity(self.fields.len());
        for field in self.fields {
            let (bytes, after) = rest.split_at(field.width);
            numbers.push(bytes.iter().fold(0, |n, &byte| n << 8 | u64::from(byte)));
            rest = after;
        }
        numbers
    }
}

/// The forms by kind. A line has the form that it shares the most words with, of
/// two that start alike the first, but for an effect whose duration has a unit.
pub(crate) const FORMS: [Form; 9] = [
    Form {
        kind: OPENING,
        start: "study",
        fields: &[number("number", 4, Rule::Range(0, u32::MAX as u64, ""))],
    },
    Form {
        kind: TARGET,
        start: "target",
        fields: &[
            number("number", 2, Rule::Numbering(255)),
            word("class", &CLASSES, Rule::Range(0, 5, "")),
            word("setting", &SETTINGS, Rule::Setting),
            number("volume", 4, Rule::Range(0, 100_000, ", in m³")),
        ],
    },
    Form {
        kind: LEAK,
        start: "leak",
        fields: &[
            number("scenario", 4, Rule::Numbering(u32::MAX as u64)),
            number(
                "frequency",
                8,
                Rule::Range(1, 10_u64.pow(13), FREQUENCY_UNIT),
            ),
        ],
    },
    Form {
        kind: BRANCHING,
        start: "branching",
        fields: &[number(
            "chance",
            4,
            Rule::Range(0, 1_000_000, ", in millionths"),
        )],
    },
    Form {
        kind: OUTCOME,
        start: "outcome",
        fields: &[
            word("kind", &OUTCOMES, Rule::Range(0, 5, "")),
            number("effects", 2, Rule::Effects),
        ],
    },
    Form {
        kind: EFFECT,
        start: "effect",
        fields: &[
            number("target", 2, Rule::Numbering(u16::MAX as u64)),
            number("intensity", 4, Rule::Intensity),
            number("duration", 2, Rule::Duration(", in seconds")),
        ],
    },
    Form {
        kind: CLOSING,
        start: "closing",
        fields: &[
            number("count", 4, Rule::Range(0, u32::MAX as u64, "")),
            number("sum", 8, Rule::Range(0, u64::MAX, FREQUENCY_UNIT)),
        ],
    },
    Form {
        kind: TIMED_EFFECT,
        start: "effect",
        fields: &[
            number("target", 2, Rule::Numbering(u16::MAX as u64)),
            number("intensity", 4, Rule::Intensity),
            number("duration", 2, Rule::Duration(", in seconds or tenths")),
            number("last byte", 1, Rule::LastByte),
        ],
    },
    Form {
        kind: CURVE_BRANCHING,
        start: "branching curve",
        fields: &[
            number("curve", 1, Rule::Range(1, 13, "")),
            number("rate", 4, Rule::Rate),
        ],
    },
];

/// The unit of a duration by an effect's last byte, as it stands right after the
/// duration.
#[cfg(feature = "desk")]
pub(crate) fn unit_of(last_byte: u64) -> String {
    match last_byte {
        0 => "s".into(),
        1 => "t".into(),
        number => format!("u{number}"),
    }
}

/// The last byte of a unit, in digits; none where it is no unit.
pub(crate) fn last_byte_of(unit: &str) -> Option<&str> {
    match unit {
        "s" => Some("0"),
        "t" => Some("1"),
        _ => unit
            .strip_prefix('u')
            .filter(|number| !number.is_empty() && number.bytes().all(|n| n.is_ascii_digit())),
    }
}

/// The first words of some forms, each one once.
pub(crate) fn words_of<'a>(forms: impl Iterator<Item = &'a Form>) -> Vec<&'static str> {
    let mut words = Vec::new();
    for word in forms.map(Form::word) {
        if !words.contains(&word) {
            words.push(word);
        }
    }
    words
}

/// The form of a kind byte.
pub(crate) fn form_of(kind: u8) -> Option<&'static Form> {
    FORMS.iter().find(|form| form.kind == kind)
}

#[cfg(test)]
mod tests {
    use super::*;

    #[test]
    fn lengths_by_kind() {
        let lengths: Vec<_> = FORMS
            .iter()
            .map(|form| (form.kind, form.length()))
            .collect();
        let expected = [
            (1, 5),
            (2, 9),
            (3, 13),
            (4, 5),
            (5, 4),
            (6, 9),
            (7, 13),
            (8, 10),
            (10, 6),
        ];
        assert_eq!(lengths, expected);
    }
}
