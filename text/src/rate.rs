//! Release rates: in bytes tenths of a gram per second, in text kilograms or grams
//! per second, as `500kg/s`, `0.35kg/s` or `12.5g/s`.

/// The units, and how many decimals of each are tenths of a gram.
const UNITS: [(&str, usize); 2] = [("kg/s", 4), ("g/s", 1)];

/// Tenths of a gram in a kilogram.
const KILOGRAM: u64 = 10_000;

/// What is expected of a text that is no rate, and of one that is none in whole
/// tenths of a gram.
const FORM: &str = ", in digits with or without a point and right after them kg/s or g/s";
const WHOLE: &str = ", in whole tenths of a gram per second: at most 4 decimals in kg/s, 1 in g/s";

/// The tenths of a gram per second that a text gives exactly, or what is expected
/// of it. Nothing more is expected where they are too many for a number.
pub(crate) fn tenths(text: &str) -> Result<u64, &'static str> {
    let in_unit = |&(unit, places)| Some((text.strip_suffix(unit)?, places));
    let (number, places) = UNITS.iter().find_map(in_unit).ok_or(FORM)?;
    let (whole, decimals) = number.split_once('.').unwrap_or((number, "0"));
    let digits = |part: &str| !part.is_empty() && part.bytes().all(|byte| byte.is_ascii_digit());
    if !digits(whole) || !digits(decimals) {
        return Err(FORM);
    }
    let (decimals, finer) = decimals.split_at(places.min(decimals.len()));
    if finer.bytes().any(|digit| digit != b'0') {
        return Err(WHOLE);
    }
    format!("{whole}{decimals:0<places$}")
        .parse()
        .map_err(|_| "")
}

/// A rate in kilograms per second.
pub(crate) fn text(tenths: u64) -> String {
    let (whole, rest) = (tenths / KILOGRAM, tenths % KILOGRAM);
    match rest {
        0 => format!("{whole}kg/s"),
        _ => {
            let decimals = format!("{rest:04}");
            format!("{whole}.{}kg/s", decimals.trim_end_matches('0'))
        }
    }
}

#[cfg(test)]
mod tests {
    use super::*;

    #[test]
    fn texts_and_tenths() {
        for (tenths_of_a_gram, words) in [
            (0, "0kg/s"),
            (1, "0.0001kg/s"),
            (10, "0.001kg/s"),
            (999, "0.0999kg/s"),
            (1_000, "0.1kg/s"),
            (10_000, "1kg/s"),
            (10_010, "1.001kg/s"),
            (123_456, "12.3456kg/s"),
            (5_000_000, "500kg/s"),
            (u32::MAX.into(), "429496.7295kg/s"),
        ] {
            assert_eq!(text(tenths_of_a_gram), words);
            assert_eq!(tenths(words), Ok(tenths_of_a_gram));
        }
        let step = u32::MAX / 9_973;
        for rate in (0..20_100).chain((0..9_973).map(|n| n * step + n)) {
            assert_eq!(tenths(&text(rate.into())), Ok(rate.into()));
        }
    }

    #[test]
    fn other_texts_of_the_same_tenths() {
        for (words, tenths_of_a_gram) in [
            ("500.0kg/s", 5_000_000),
            ("0500.00000kg/s", 5_000_000),
            ("500000g/s", 5_000_000),
            ("0.10000kg/s", 1_000),
            ("100g/s", 1_000),
            ("100.00g/s", 1_000),
            ("0.1g/s", 1),
            ("12.5g/s", 125),
            ("0.0g/s", 0),
        ] {
            assert_eq!(tenths(words), Ok(tenths_of_a_gram), "{words}");
        }
    }

    #[test]
    fn texts_that_are_no_rates() {
        for words in [
            "500",
            "kg/s",
            "g/s",
            ".5kg/s",
            "5.kg/s",
            ".kg/s",
            "1.2.3kg/s",
            "-5kg/s",
            "+5kg/s",
            "1e2kg/s",
            "1,5kg/s",
            "5kg",
            "5kg/h",
            "5t/h",
            "5KG/S",
            "5mg/s",
            "5kg/s/s",
            "５kg/s",
            "",
        ] {
            assert_eq!(tenths(words), Err(FORM), "{words}");
        }
        for words in [
            "0.00001kg/s",
            "0.10005kg/s",
            "5.00000001kg/s",
            "0.05g/s",
            "12.51g/s",
        ] {
            assert_eq!(tenths(words), Err(WHOLE), "{words}");
        }
        assert_eq!(tenths("1844674407370955.1615kg/s"), Ok(u64::MAX));
        assert_eq!(tenths("1844674407370955.1616kg/s"), Err(""));
    }
}
