//! From text to bytes.

mod common;

use common::{any, repository, ruled, specimen, vectors};
use std::fs;
use study_text::to_text;

fn error(text: &str) -> String {
    ruled(text).expect_err("an error").to_string()
}

fn any_error(text: &str) -> String {
    any(text).expect_err("an error").to_string()
}

#[test]
fn the_examples() {
    let bytes_of = |name: &str| {
        let file = repository().join("examples").join(name);
        let text = fs::read_to_string(file.with_extension("txt")).unwrap();
        let bytes = fs::read(file.with_extension("study")).unwrap();
        assert_eq!(ruled(&text), Ok(bytes.clone()));
        assert_eq!(any(&text), Ok(bytes.clone()));
        bytes
    };
    let vectors = vectors();
    for name in ["specimen", "resin-works"] {
        let vector = vectors.iter().find(|vector| vector.name == name).unwrap();
        assert_eq!(bytes_of(name), vector.study);
    }
    assert_eq!(bytes_of("tank-farm").len(), 125);
}

#[test]
fn each_record_has_its_bytes() {
    let records: [(&str, &[u8]); 19] = [
        ("study 7", &[1, 0, 0, 0, 7]),
        ("target 258 pipe 2 3", &[2, 1, 2, 5, 2, 0, 0, 0, 3]),
        ("leak 1 258", &[3, 0, 0, 0, 1, 0, 0, 0, 0, 0, 0, 1, 2]),
        ("branching 250000", &[4, 0, 3, 0xd0, 0x90]),
        ("branching curve 8 500kg/s", &[10, 8, 0, 0x4c, 0x4b, 0x40]),
        ("branching curve 13 0.1kg/s", &[10, 13, 0, 0, 3, 0xe8]),
        ("branching curve 1 100g/s", &[10, 1, 0, 0, 3, 0xe8]),
        ("branching curve 1 0.1g/s", &[10, 1, 0, 0, 0, 1]),
        ("branching curve 0 0kg/s", &[10, 0, 0, 0, 0, 0]),
        (
            "branching curve 255 429496.7295kg/s",
            &[10, 255, 255, 255, 255, 255],
        ),
        ("outcome explosion 256", &[5, 5, 1, 0]),
        ("effect 1 70000 20", &[6, 0, 1, 0, 1, 0x11, 0x70, 0, 20]),
        ("effect 1 70000 20s", &[8, 0, 1, 0, 1, 0x11, 0x70, 0, 20, 0]),
        ("effect 1 5 6001t", &[8, 0, 1, 0, 0, 0, 5, 0x17, 0x71, 1]),
        ("effect 1 5 20u0", &[8, 0, 1, 0, 0, 0, 5, 0, 20, 0]),
        ("effect 1 5 20u1", &[8, 0, 1, 0, 0, 0, 5, 0, 20, 1]),
        ("effect 1 5 20u255", &[8, 0, 1, 0, 0, 0, 5, 0, 20, 255]),
        ("closing 4 7", &[7, 0, 0, 0, 4, 0, 0, 0, 0, 0, 0, 0, 7]),
        ("raw 00 fF", &[0, 255]),
    ];
    for (line, bytes) in records {
        assert_eq!(any(line).as_deref(), Ok(bytes), "{line}");
    }
}

#[test]
fn numbers_and_words() {
    let words = "target 0 people outdoors 5\noutcome flash-fire 2\n";
    let numbers = " target 0 0 1 5 # a comment\n\n# another\noutcome 4 2";
    assert_eq!(ruled(words), ruled(numbers));
    assert_eq!(ruled(""), Ok(vec![]));
}

#[test]
fn a_closing_alone_and_one_given() {
    let front = "study 1\nleak 1 7\noutcome 0 0\n";
    let closing = |line: &str| ruled(&format!("{front}{line}")).unwrap();
    assert_eq!(closing("closing"), closing("closing 4 7"));
    assert_ne!(closing("closing"), closing("closing 5 8"));
    // Branchings by a curve are records as the others.
    let branched = |line: &str| {
        let lines = "branching curve 8 500kg/s\noutcome 0 0\noutcome 0 0";
        ruled(&format!("study 1\nleak 1 7\n{lines}\n{line}")).unwrap()
    };
    assert_eq!(branched("closing"), branched("closing 6 7"));
    // Records that were given as bytes count too.
    let raw = "raw 01 00 00 00 01\nleak 1 7\nraw 05 00\nraw 00 00\nclosing";
    assert_eq!(ruled(raw).unwrap(), closing("closing"));
    let sum = any_error(&format!("leak 1 {}\nleak 2 1\nclosing", u64::MAX));
    assert_eq!(
        sum,
        "line 3: expected leak frequencies whose sum fits 8 bytes"
    );
}

#[test]
fn lines_end_with_either_character_or_both() {
    let lines = ["study 1", "", "leak 1 7", "outcome 0 0", "closing"];
    let bytes = ruled(&lines.join("\n")).unwrap();
    for end in ["\n", "\r", "\r\n"] {
        assert_eq!(ruled(&lines.join(end)), Ok(bytes.clone()), "{end:?}");
        assert_eq!(ruled(&(lines.join(end) + end)), Ok(bytes.clone()));
        let wrong = error(&(lines.join(end) + end + end + "closed"));
        assert!(wrong.starts_with("line 7: "), "{end:?}: {wrong}");
    }
    // A comment ends with its line, and two of one kind are two lines.
    assert_eq!(ruled("study 1 # one\rclosing"), ruled("study 1\nclosing"));
    assert!(error("\r\r\n\n\rx").starts_with("line 5: "));
}

#[test]
fn a_byte_order_mark_is_passed_over() {
    let text = fs::read(repository().join("examples/specimen.txt")).unwrap();
    let marked = [b"\xef\xbb\xbf".as_slice(), &text].concat();
    let bytes = ruled(to_text(&marked).unwrap());
    assert_eq!(bytes, Ok(specimen()));
    assert_eq!(to_text(b"\xef\xbb\xbf"), Ok(""));
    // Only at the front.
    assert!(ruled("study 1\n\u{feff}closing").is_err());
}

#[test]
fn what_is_no_text() {
    let wrong = |bytes: &[u8]| to_text(bytes).expect_err("an error").to_string();
    assert_eq!(
        wrong(b"study 1\n# m\xb3\n"),
        "line 2: expected text in UTF-8"
    );
    assert_eq!(wrong(b"study 1\n\xb3"), "line 2: expected text in UTF-8");
    assert_eq!(
        wrong(b"\xff\xfes\0"),
        "line 1: expected text in UTF-8, found UTF-16"
    );
    assert!(wrong(&specimen()).contains("`study show`"));
    assert!(to_text(b"").is_ok());
}

#[test]
fn errors_name_the_line_and_what_was_expected() {
    assert_eq!(
        error("study 1\n\nstudie 2"),
        "line 3: expected study, target, leak, branching, outcome, effect, closing or raw, \
         found 'studie'"
    );
    assert_eq!(
        error("target 1 people 0"),
        "line 1: expected target NUMBER CLASS SETTING VOLUME: the volume is missing"
    );
    assert_eq!(
        error("study 1 2"),
        "line 1: expected study NUMBER and nothing more, found '2'"
    );
    assert_eq!(
        error("outcome fire 0"),
        "line 1: kind: expected no-effect, pool-fire, jet-fire, fireball, flash-fire, explosion \
         or 0 to 5, found 'fire'"
    );
    for value in ["-5", "+5", "1e5", "1,000", "0.5", "x"] {
        assert_eq!(
            error(&format!("leak 1 {value}")),
            format!(
                "line 1: frequency: expected 1 to 10^13, in units of 10^-13 per year, \
                 in digits alone, found '{value}'"
            )
        );
    }
    assert!(error("raw").contains("there is no byte"));
    assert!(error("raw 5").contains("two hexadecimal digits"));
    assert!(error("raw +5").contains("two hexadecimal digits"));
}

/// A line with a field at each of its bounds, and outside of them with the
/// words of the error. `{}` stands for the field.
struct Edge {
    line: &'static str,
    good: &'static [&'static str],
    bad: &'static [&'static str],
    expected: &'static str,
}

const EDGES: [Edge; 23] = [
    Edge {
        line: "study {}",
        good: &["0", "4294967295"],
        bad: &["4294967296"],
        expected: "number: expected 0 to 4294967295, found",
    },
    Edge {
        line: "target {} people individual 0",
        good: &["0", "255"],
        bad: &["256", "65535"],
        expected: "number: expected 0 to 255, found",
    },
    Edge {
        line: "target 0 {} 0 0",
        good: &["0", "5", "people", "pipe"],
        bad: &["6", "vessel"],
        expected: "class: expected people, atmospheric, pressurised, tower, pump, pipe or 0 to 5, found",
    },
    Edge {
        line: "target 0 people {} 0",
        good: &["0", "2", "indoors"],
        bad: &["3", "inside"],
        expected: "setting: expected individual, outdoors, indoors or 0 to 2, found",
    },
    Edge {
        line: "target 0 pump {} 0",
        good: &["0", "individual"],
        bad: &["1", "outdoors"],
        expected: "setting: expected 0 for equipment, found",
    },
    Edge {
        line: "target 0 pipe 0 {}",
        good: &["0", "100000"],
        bad: &["100001", "4294967296"],
        expected: "volume: expected 0 to 100000, in m³, found",
    },
    Edge {
        line: "leak {} 1",
        good: &["0", "4294967295"],
        bad: &["4294967296"],
        expected: "scenario: expected 0 to 4294967295, found",
    },
    Edge {
        line: "leak 1 {}",
        good: &["1", "10000000000000"],
        bad: &[
            "0",
            "10000000000001",
            "20000000000000",
            "99999999999999999999",
        ],
        expected: "frequency: expected 1 to 10^13, in units of 10^-13 per year, found",
    },
    Edge {
        line: "branching {}",
        good: &["0", "1000000"],
        bad: &["1000001"],
        expected: "chance: expected 0 to 1000000, in millionths, found",
    },
    Edge {
        line: "branching curve {} 500kg/s",
        good: &["1", "13", "08"],
        bad: &["0", "14", "255", "256", "18446744073709551616"],
        expected: "curve: expected 1 to 13, found",
    },
    Edge {
        line: "branching curve 8 {}",
        good: &["0.0001kg/s", "0.1g/s", "1000kg/s", "429496.7295kg/s"],
        bad: &[
            "0kg/s",
            "0.0g/s",
            "429496.7296kg/s",
            "429497kg/s",
            "429496729.6g/s",
            "18446744073709551616kg/s",
        ],
        expected: "rate: expected 0.0001kg/s to 429496.7295kg/s, found",
    },
    Edge {
        line: "branching curve 8 {}",
        good: &["0.1000000kg/s", "12.500g/s"],
        bad: &["0.00005kg/s", "0.10001kg/s", "0.05g/s", "12.55g/s"],
        expected: "rate: expected 0.0001kg/s to 429496.7295kg/s, in whole tenths of a gram per \
                   second: at most 4 decimals in kg/s, 1 in g/s, found",
    },
    Edge {
        line: "outcome explosion {}",
        good: &["0", "256"],
        bad: &["257"],
        expected: "effects: expected 0 to 256, found",
    },
    Edge {
        line: "outcome no-effect {}",
        good: &["0"],
        bad: &["1"],
        expected: "effects: expected 0 for no-effect, found",
    },
    Edge {
        line: "effect {} 0 0",
        good: &["0", "65535"],
        bad: &["65536"],
        expected: "target: expected 0 to 65535, found",
    },
    Edge {
        line: "outcome jet-fire 1 \n effect 0 {} 1",
        good: &["0", "4294967295"],
        bad: &["4294967296"],
        expected: "intensity: expected 0 to 4294967295, in W/m², found",
    },
    Edge {
        line: "outcome explosion 1 \n effect 0 {} 0",
        good: &["0", "4294967295"],
        bad: &["4294967296"],
        expected: "intensity: expected 0 to 4294967295, in Pa, found",
    },
    Edge {
        line: "outcome flash-fire 1 \n effect 0 {} 0",
        good: &["0", "1"],
        bad: &["2"],
        expected: "intensity: expected 0 or 1 (1 inside the lower flammable limit), found",
    },
    Edge {
        line: "outcome fireball 1 \n effect 0 0 {}",
        good: &["1", "65535"],
        bad: &["0", "65536"],
        expected: "duration: expected 1 to 65535, in seconds, found",
    },
    Edge {
        line: "outcome explosion 1 \n effect 0 0 {}",
        good: &["0", "0s", "0t"],
        bad: &["1"],
        expected: "duration: expected 0 for an explosion, found",
    },
    Edge {
        line: "outcome fireball 1 \n effect 0 0 {}t",
        good: &["1", "65535"],
        bad: &["0", "65536"],
        expected: "duration: expected 1 to 65535, in seconds or tenths, found",
    },
    Edge {
        line: "outcome flash-fire 1 \n effect 0 0 {}s",
        good: &["0"],
        bad: &["1"],
        expected: "duration: expected 0 for a flash fire, found",
    },
    Edge {
        line: "outcome jet-fire 1 \n effect 0 0 9u{}",
        good: &["0", "1"],
        bad: &["2", "255", "256"],
        expected: "last byte: expected 0 or 1 (0 seconds, 1 tenths of a second), found",
    },
];

#[test]
fn units_of_durations() {
    let units = "in digits alone or followed by s (seconds) or t (tenths of a second)";
    for value in [
        "20x", "x", "s", "t", "u2", "20u", "20S", "20ss", "1.5s", "20u-1", "20ux", "-5",
    ] {
        let line = format!("outcome fireball 1\neffect 0 12500 {value}");
        assert_eq!(
            error(&line),
            format!(
                "line 2: duration: expected 1 to 65535, in seconds or tenths, {units}, \
                 found '{value}'"
            )
        );
        assert_eq!(
            any_error(&line),
            format!("line 2: duration: expected 0 to 65535, {units}, found '{value}'")
        );
    }
    assert_eq!(
        error("outcome explosion 1\neffect 0 12500 0m"),
        format!("line 2: duration: expected 0 for an explosion, {units}, found '0m'")
    );
    assert_eq!(
        any_error("effect 0 12500 20u256"),
        "line 1: last byte: expected 0 to 255, found '256'"
    );
    // A unit is part of its duration's word, and a duration's alone.
    for line in ["effect 0 12500 20 s", "effect 0 12500 20s 1"] {
        let wrong = error(line);
        let expected = "line 1: expected effect TARGET INTENSITY DURATION and nothing more, found";
        assert!(wrong.starts_with(expected), "{wrong}");
    }
    assert!(error("effect 0 12500s 20").starts_with("line 1: intensity: expected "));
    assert!(error("effect 0s 12500 20t").starts_with("line 1: target: expected "));
    assert!(error("closing 1 2 3s").ends_with("and nothing more, found '3s'"));
    assert_eq!(
        error("effect 0 12500"),
        "line 1: expected effect TARGET INTENSITY DURATION: the duration is missing"
    );
}

#[test]
fn units_of_release_rates() {
    let form = "in digits with or without a point and right after them kg/s or g/s";
    for value in [
        "500", "5000000", "kg/s", "500kg", "500kg/h", "500t/s", "500KG/S", ".5kg/s", "5.kg/s",
        "-5kg/s", "+5kg/s", "1e3kg/s", "1,5kg/s", "x",
    ] {
        let line = format!("study 1\nbranching curve 8 {value}");
        assert_eq!(
            error(&line),
            format!(
                "line 2: rate: expected 0.0001kg/s to 429496.7295kg/s, {form}, found '{value}'"
            )
        );
        assert_eq!(
            any_error(&line),
            format!("line 2: rate: expected 0kg/s to 429496.7295kg/s, {form}, found '{value}'")
        );
    }
    // A unit is part of its rate's word.
    assert!(error("branching curve 8 500 kg/s").ends_with("found '500'"));
    assert_eq!(
        any_error("branching curve 256 1kg/s"),
        "line 1: curve: expected 0 to 255, found '256'"
    );
    assert_eq!(
        any_error("branching curve 1 429496.7296kg/s"),
        "line 1: rate: expected 0kg/s to 429496.7295kg/s, found '429496.7296kg/s'"
    );
}

#[test]
fn words_of_a_branching_by_a_curve() {
    for value in ["x", "-1", "8.0", "eight"] {
        assert_eq!(
            error(&format!("branching curve {value} 500kg/s")),
            format!("line 1: curve: expected 1 to 13, in digits alone, found '{value}'")
        );
    }
    let layout = "line 1: expected branching curve CURVE RATE";
    assert_eq!(
        error("branching curve"),
        format!("{layout}: the curve is missing")
    );
    assert_eq!(
        error("branching curve 8"),
        format!("{layout}: the rate is missing")
    );
    assert_eq!(
        error("branching curve 8 500kg/s 1"),
        format!("{layout} and nothing more, found '1'")
    );
    // The other form is as it was.
    assert_eq!(
        error("branching"),
        "line 1: expected branching CHANCE: the chance is missing"
    );
    assert_eq!(
        error("branching 8 500kg/s"),
        "line 1: expected branching CHANCE and nothing more, found '500kg/s'"
    );
    for value in ["Curve", "curves", "500kg/s"] {
        assert_eq!(
            error(&format!("branching {value}")),
            format!(
                "line 1: chance: expected 0 to 1000000, in millionths, in digits alone, \
                 found '{value}'"
            )
        );
    }
    assert!(error("curve 8 500kg/s").ends_with("found 'curve'"));
}

#[test]
fn bounds_of_the_rules_are_errors() {
    for edge in EDGES {
        for value in edge.good {
            let text = edge.line.replace("{}", value);
            assert!(ruled(&text).is_ok(), "{text}: {}", error(&text));
        }
        for value in edge.bad {
            let text = edge.line.replace("{}", value);
            let line = text.lines().count();
            let expected = format!("line {line}: {} '{value}'", edge.expected);
            assert_eq!(error(&text), expected, "{text}");
        }
    }
}

#[test]
fn any_number_that_fits_its_bytes() {
    let fitting = [
        "target 65535 255 255 4294967295",
        "leak 1 0",
        "leak 1 18446744073709551615",
        "branching 4294967295",
        "branching curve 0 1kg/s",
        "branching curve 255 1kg/s",
        "branching curve 8 0kg/s",
        "outcome 255 65535",
        "outcome flash-fire 1\neffect 0 2 65535",
        "outcome pool-fire 1\neffect 0 0 0",
        "outcome pool-fire 1\neffect 0 0 0t",
        "outcome pool-fire 1\neffect 0 0 9u2",
    ];
    for text in fitting {
        assert!(any(text).is_ok(), "{text}");
        assert!(ruled(text).is_err(), "{text}");
    }
    assert_eq!(
        any_error("leak 1 18446744073709551616"),
        "line 1: frequency: expected 0 to 18446744073709551615, found '18446744073709551616'"
    );
    assert_eq!(
        any_error("target 0 256 0 0"),
        "line 1: class: expected people, atmospheric, pressurised, tower, pump, pipe or 0 to 255, \
         found '256'"
    );
}

/// What depends on other records is for the desk to refuse.
#[test]
fn numbering_order_and_closing_are_no_errors() {
    for text in [
        "target 9 people individual 0",
        "study 1\nstudy 2",
        "leak 5 1\nleak 5 1",
        "effect 300 0 0",
        "outcome no-effect 0\neffect 0 70000 600",
        "closing 0 0",
        "closing 4294967295 18446744073709551615",
        "outcome flash-fire 1\nraw 05 05 00 01\neffect 0 70000 0",
    ] {
        assert!(ruled(text).is_ok(), "{text}: {}", error(text));
    }
}
