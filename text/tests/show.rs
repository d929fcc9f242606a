//! From bytes to text, with what the desk answers.
#![cfg(feature = "desk")]

mod common;

use common::{any, repository, specimen, vectors};
use std::fs;
use study_text::{Extent, verdict};

fn shown(bytes: &[u8], extent: Extent) -> String {
    let mut text = Vec::new();
    study_text::show(bytes, extent, &mut text).expect("text");
    String::from_utf8(text).expect("text in UTF-8")
}

fn show(bytes: &[u8]) -> String {
    shown(bytes, Extent::Some)
}

fn last_line(text: &str) -> &str {
    text.lines().last().unwrap_or_default()
}

/// The number of the line that is marked as refused, counted from 1.
fn refused_line(text: &str) -> Option<usize> {
    let line = text.lines().position(|line| line.contains(": REFUSED "))?;
    Some(line + 1)
}

#[test]
fn vectors_give_their_bytes_back() {
    for vector in vectors() {
        let text = shown(&vector.study, Extent::All);
        assert_eq!(any(&text), Ok(vector.study.clone()), "{}", vector.name);
        let front = any(&show(&vector.study)).unwrap();
        assert!(vector.study.starts_with(&front), "{}", vector.name);
        if vector.refusal().is_none() {
            assert_eq!(front, vector.study, "{}", vector.name);
        }
    }
}

/// Number and place are those stored with the vectors.
#[test]
fn vectors_have_the_answer_expected() {
    let mut refused = 0;
    for vector in vectors() {
        let text = show(&vector.study);
        let last = last_line(&text);
        let answer = verdict(&vector.study);
        match vector.refusal() {
            None => {
                assert_eq!(answer.number, 0, "{}", vector.name);
                assert_eq!(last, format!("# closed after {} bytes", vector.study.len()));
                assert_eq!(refused_line(&text), None);
            }
            Some(refusal) => {
                let given = format!("{} at {}", answer.number, answer.place);
                assert_eq!(given, refusal, "{}", vector.name);
                assert!(last.starts_with(&format!("# refused {refusal}")), "{last}");
                let marked = text.contains(&format!(": REFUSED {refusal}: "));
                assert_eq!(marked, answer.number != 8, "{}", vector.name);
                refused += 1;
            }
        }
    }
    assert_eq!(refused, 34);
}

/// The specimen with its effects as kind 8.
fn timed_specimen() -> Vec<u8> {
    let text = show(&specimen());
    let text = text.replace("12500 20 ", "12500 200t ");
    let text = text.replace("20000 0 ", "20000 0s ");
    any(&text.replace("70000 0 ", "70000 0t ")).unwrap()
}

#[test]
fn effects_of_kind_8() {
    let bytes = timed_specimen();
    assert_eq!(bytes.len(), 101);
    assert_eq!([bytes[45], bytes[64], bytes[74]], [8; 3]);
    let text = show(&bytes);
    for line in [
        "effect 0 12500 200t                         # at 45",
        "effect 0 20000 0s                           # at 64",
        "effect 1 70000 0t                           # at 74",
        "# closed after 101 bytes",
    ] {
        assert!(text.lines().any(|shown| shown == line), "{line}\n{text}");
    }
    assert_eq!(common::ruled(&text), Ok(bytes));
}

#[test]
fn every_last_byte_gives_itself_back() {
    let mut bytes = timed_specimen();
    for last in 0..=255 {
        bytes[54] = last;
        let text = shown(&bytes, Extent::All);
        let unit = match last {
            0 => "s".into(),
            1 => "t".into(),
            _ => format!("u{last}"),
        };
        let line = format!("\neffect 0 12500 200{unit} ");
        assert!(text.contains(&line), "{text}");
        assert_eq!(any(&text).as_ref(), Ok(&bytes));
        assert_eq!(common::ruled(&text).is_ok(), last < 2);
        assert_eq!(verdict(&bytes).number, if last < 2 { 0 } else { 3 });
    }
}

/// The specimen with branchings by a curve: the first one, the second one or both.
fn curve_specimens() -> [Vec<u8>; 3] {
    let text = show(&specimen());
    let first = |text: &str| text.replace("branching 100000 ", "branching curve 8 500kg/s ");
    let second = |text: &str| text.replace("branching 250000 ", "branching curve 4 99.9999kg/s ");
    [first(&text), second(&text), first(&second(&text))].map(|text| any(&text).unwrap())
}

#[test]
fn branchings_by_a_curve() {
    let [first, second, both] = curve_specimens();
    for (bytes, kinds) in [(&first, [10, 4]), (&second, [4, 10]), (&both, [10, 10])] {
        let place = if kinds[0] == 10 { 55 } else { 54 };
        assert_eq!([bytes[36], bytes[place]], kinds);
        let text = show(bytes);
        assert_eq!(common::ruled(&text).as_ref(), Ok(bytes), "{text}");
        let last = format!("# closed after {} bytes", bytes.len());
        assert_eq!(last_line(&text), last);
    }
    let text = show(&both);
    for line in [
        "branching curve 8 500kg/s                   # at 36",
        "branching curve 4 99.9999kg/s               # at 55",
        "# closed after 100 bytes",
    ] {
        assert!(text.lines().any(|shown| shown == line), "{line}\n{text}");
    }
    // A branching of kind 4 is shown as before.
    let line = "branching 100000                            # at 36";
    assert!(show(&second).lines().any(|shown| shown == line));
}

#[test]
fn every_curve_and_many_rates_give_themselves_back() {
    let mut bytes = curve_specimens()[0].clone();
    let around = |rate: u32| [rate - 1, rate, rate + 1];
    let powers = (0..10).flat_map(|power| around(10_u32.pow(power)));
    let rates: Vec<u32> = powers.chain([5_000_000, u32::MAX - 1, u32::MAX]).collect();
    for curve in 0..=255 {
        for rate in &rates {
            bytes[37] = curve;
            bytes[38..42].copy_from_slice(&rate.to_be_bytes());
            let text = shown(&bytes, Extent::All);
            assert_eq!(any(&text).as_ref(), Ok(&bytes), "{text}");
            let good = (1..=13).contains(&curve) && *rate > 0;
            assert_eq!(common::ruled(&text).is_ok(), good, "{text}");
            assert_eq!(verdict(&bytes).number, if good { 0 } else { 3 });
        }
    }
}

#[test]
fn any_bytes_give_themselves_back() {
    changed_bytes_give_themselves_back(specimen());
    changed_bytes_give_themselves_back(timed_specimen());
    for bytes in curve_specimens() {
        changed_bytes_give_themselves_back(bytes);
    }
}

fn changed_bytes_give_themselves_back(mut bytes: Vec<u8>) {
    let mut state = 1u32;
    for _ in 0..2_000 {
        state = state.wrapping_mul(1_664_525).wrapping_add(1_013_904_223);
        let place = (state >> 8) as usize % bytes.len();
        bytes[place] = (state >> 24) as u8 % 12;
        assert_eq!(any(&shown(&bytes, Extent::All)), Ok(bytes.clone()));
        let front = &bytes[..place];
        assert_eq!(any(&shown(front, Extent::All)), Ok(front.to_vec()));
        line_of_the_refusal(&bytes);
    }
}

/// The line that the last one names stands at the place of the refusal: what is
/// before it has as many bytes.
fn line_of_the_refusal(bytes: &[u8]) {
    let text = show(bytes);
    let answer = verdict(bytes);
    let line = refused_line(&text);
    assert_eq!(line.is_some(), (1..=7).contains(&answer.number), "{text}");
    let Some(line) = line else { return };
    let before: Vec<&str> = text.lines().take(line - 1).collect();
    let length = any(&before.join("\n")).unwrap().len() as u64;
    assert_eq!(length, answer.place, "{text}");
    let named = format!(" at {}, line {line} of this text: ", answer.place);
    assert!(last_line(&text).contains(&named), "{text}");
}

#[test]
fn the_examples_are_good() {
    for name in ["specimen", "resin-works", "tank-farm"] {
        let file = repository().join("examples").join(name);
        let bytes = fs::read(file.with_extension("study")).unwrap();
        assert_eq!(verdict(&bytes).number, 0);
        let text = show(&bytes);
        assert_eq!(common::ruled(&text), Ok(bytes.clone()));
        assert_eq!(
            last_line(&text),
            format!("# closed after {} bytes", bytes.len())
        );
    }
}

/// A study that is refused: its lines after `study 1`, and what its last line
/// says of it.
const REFUSALS: [(&str, &str); 34] = [
    (
        "raw 0b",
        "1 at 5, line 2 of this text: unknown kind byte: the byte 0b starts no record, \
         or a record before it has a wrong length",
    ),
    (
        "study 2",
        "2 at 5, line 2 of this text: a record that the order does not allow here: \
         expected target or leak or closing",
    ),
    (
        "leak 1 1\nclosing 3 1",
        "2 at 18, line 3 of this text: a record that the order does not allow here: \
         expected branching or outcome",
    ),
    (
        "target 0 0 0 0\nleak 1 1\noutcome 1 1\nleak 2 1",
        "2 at 31, line 5 of this text: a record that the order does not allow here: \
         expected effect",
    ),
    (
        "target 0 pipe 1 0",
        "3 at 5, line 2 of this text: a field outside its bounds: \
         setting: expected 0 for equipment, found 1",
    ),
    (
        "target 0 6 0 0",
        "3 at 5, line 2 of this text: a field outside its bounds: \
         class: expected 0 to 5, found 6",
    ),
    // The volume is judged before the number.
    (
        "target 300 pipe 0 100001",
        "3 at 5, line 2 of this text: a field outside its bounds: \
         volume: expected 0 to 100000, in m³, found 100001",
    ),
    (
        "leak 1 20000000000000",
        "3 at 5, line 2 of this text: a field outside its bounds: \
         frequency: expected 1 to 10^13, in units of 10^-13 per year, found 20000000000000",
    ),
    (
        "leak 1 1\nbranching 1000001",
        "3 at 18, line 3 of this text: a field outside its bounds: \
         chance: expected 0 to 1000000, in millionths, found 1000001",
    ),
    (
        "leak 1 1\nbranching curve 0 500kg/s",
        "3 at 18, line 3 of this text: a field outside its bounds: \
         curve: expected 1 to 13, found 0",
    ),
    (
        "leak 1 1\nbranching curve 14 500kg/s",
        "3 at 18, line 3 of this text: a field outside its bounds: \
         curve: expected 1 to 13, found 14",
    ),
    (
        "leak 1 1\nbranching curve 8 0kg/s",
        "3 at 18, line 3 of this text: a field outside its bounds: \
         rate: expected 0.0001kg/s to 429496.7295kg/s, found 0kg/s",
    ),
    (
        "leak 1 1\nbranching curve 255 0kg/s",
        "3 at 18, line 3 of this text: a field outside its bounds: \
         curve: expected 1 to 13, found 255",
    ),
    (
        "branching curve 0 0kg/s",
        "2 at 5, line 2 of this text: a record that the order does not allow here: \
         expected target or leak or closing",
    ),
    (
        "leak 1 1\noutcome no-effect 1",
        "3 at 18, line 3 of this text: a field outside its bounds: \
         effects: expected 0 for no-effect, found 1",
    ),
    (
        "target 0 0 0 0\nleak 1 1\noutcome flash-fire 1\neffect 0 2 0",
        "3 at 31, line 5 of this text: a field outside its bounds: \
         intensity: expected 0 or 1 (1 inside the lower flammable limit), found 2",
    ),
    (
        "target 0 0 0 0\nleak 1 1\noutcome jet-fire 1\neffect 0 2 0",
        "3 at 31, line 5 of this text: a field outside its bounds: \
         duration: expected 1 to 65535, in seconds, found 0",
    ),
    (
        "target 0 0 0 0\nleak 1 1\noutcome fireball 1\neffect 0 2 0t",
        "3 at 31, line 5 of this text: a field outside its bounds: \
         duration: expected 1 to 65535, in seconds or tenths, found 0",
    ),
    (
        "target 0 0 0 0\nleak 1 1\noutcome fireball 1\neffect 0 2 20u2",
        "3 at 31, line 5 of this text: a field outside its bounds: \
         last byte: expected 0 or 1 (0 seconds, 1 tenths of a second), found 2",
    ),
    // The last byte is judged before the target.
    (
        "target 0 0 0 0\nleak 1 1\noutcome explosion 1\neffect 1 2 0u255",
        "3 at 31, line 5 of this text: a field outside its bounds: \
         last byte: expected 0 or 1 (0 seconds, 1 tenths of a second), found 255",
    ),
    (
        "target 1 0 0 0",
        "4 at 5, line 2 of this text: a target or scenario number breaks its rule: \
         the next target is 0",
    ),
    (
        "leak 7 1\noutcome 0 0\nleak 7 1",
        "4 at 22, line 4 of this text: a target or scenario number breaks its rule: \
         the scenario number must be above 7",
    ),
    (
        "leak 1 1\noutcome 1 1\neffect 0 1 1",
        "4 at 22, line 4 of this text: a target or scenario number breaks its rule: \
         no target is declared",
    ),
    (
        "target 0 0 0 0\ntarget 1 0 0 0\nleak 1 1\noutcome 1 1\neffect 2 1 1",
        "4 at 40, line 6 of this text: a target or scenario number breaks its rule: \
         targets 0 to 1 are declared",
    ),
    (
        "target 0 0 0 0\nleak 1 1\noutcome 1 2\neffect 0 1 1\neffect 0 1 1",
        "4 at 40, line 6 of this text: a target or scenario number breaks its rule: \
         the target must be above 0",
    ),
    (
        "target 0 0 0 0\nleak 1 1\noutcome 1 2\neffect 0 1 1t\neffect 0 1 1s",
        "4 at 41, line 6 of this text: a target or scenario number breaks its rule: \
         the target must be above 0",
    ),
    (
        "leak 1 7\noutcome 0 0\nclosing 5 8",
        "6 at 22, line 4 of this text: closing count or sum differs: expected count 4 and sum 7",
    ),
    (
        "closing\nstudy 2",
        "7 at 18, line 3 of this text: bytes after the closing record: 5 bytes",
    ),
    (
        "closing\nraw 01",
        "7 at 18, line 3 of this text: bytes after the closing record: 1 byte",
    ),
    (
        "raw 02 00",
        "8 at 7, line 2 of this text: report asked before the closing record: \
         the last record is cut short, 2 of 9 bytes",
    ),
    (
        "leak 1 1\nraw 08 00 00 00 00 30 d4 00 14",
        "8 at 27, line 3 of this text: report asked before the closing record: \
         the last record is cut short, 9 of 10 bytes",
    ),
    (
        "leak 1 1\nraw 0a 08 00 4c 4b",
        "8 at 23, line 3 of this text: report asked before the closing record: \
         the last record is cut short, 5 of 6 bytes",
    ),
    (
        "leak 1 1",
        "8 at 18, line 2 of this text: report asked before the closing record: \
         expected branching or outcome next",
    ),
    (
        "",
        "8 at 5, line 1 of this text: report asked before the closing record: \
         expected target or leak or closing next",
    ),
];

#[test]
fn each_refusal_has_its_reason() {
    for (lines, expected) in REFUSALS {
        let bytes = any(&format!("study 1\n{lines}")).unwrap();
        let text = show(&bytes);
        assert_eq!(last_line(&text), format!("# refused {expected}"), "{text}");
        if !expected.starts_with('8') {
            let (answer, reason) = expected.split_once(", line ").unwrap();
            let reason = reason.split_once(": ").unwrap().1;
            let (_, place) = answer.split_once(" at ").unwrap();
            let mark = format!("# at {place}: REFUSED {answer}: {reason}");
            assert!(text.contains(&mark), "{text}");
        }
    }
}

#[test]
fn one_too_many() {
    let deep = format!("leak 1 5\n{}", "branching 0\n".repeat(9));
    // The level is judged before the curve.
    let curves = format!(
        "leak 1 5\n{}branching curve 0 0kg/s",
        "branching curve 8 500kg/s\n".repeat(8)
    );
    let targets: String = (0..257)
        .map(|number| format!("target {number} 0 0 0\n"))
        .collect();
    let scenarios: String = (0..65_537)
        .map(|number| format!("leak {number} 1\noutcome 0 0\n"))
        .collect();
    let cases = [
        (deep, "5 at 58, line 11", "7 branchings above a branching"),
        (curves, "5 at 66, line 11", "7 branchings above a branching"),
        (targets, "5 at 2309, line 258", "256 targets"),
        (scenarios, "5 at 1114117, line 131074", "65536 scenarios"),
        (
            many_records(),
            "5 at 8996121, line 1000001",
            "1000000 records",
        ),
    ];
    for (lines, answer, most) in cases {
        let text = show(&any(&format!("study 1\n{lines}")).unwrap());
        let meaning = "one target, scenario, record or level too many";
        let last = format!("# refused {answer} of this text: {meaning}: at most {most}");
        assert_eq!(last_line(&text), last);
    }
}

/// After an opening and 256 targets outcomes with 256 effects each, until one
/// record more than a million.
fn many_records() -> String {
    let mut lines: Vec<String> = (0..256)
        .map(|number| format!("target {number} 0 0 0"))
        .collect();
    let mut scenario = 0;
    while lines.len() < 1_000_000 {
        lines.push(format!("leak {scenario} 1"));
        lines.push("outcome explosion 256".into());
        lines.extend((0..256).map(|number| format!("effect {number} 1 0")));
        scenario += 1;
    }
    lines.truncate(1_000_000);
    lines.join("\n")
}

#[test]
fn three_lines_after_a_refusal() {
    let lines =
        "study 1\nleak 1 0\nleak 2 5\noutcome 0 0\nleak 3 5\noutcome 0 0\nleak 4 5\nclosing";
    let bytes = any(lines).unwrap();
    let text = show(&bytes);
    let shown_lines: Vec<&str> = text.lines().collect();
    assert_eq!(shown_lines.len(), 7, "{text}");
    assert!(shown_lines[1].contains("# at 5: REFUSED 3 at 5: "));
    assert!(shown_lines[2].ends_with("# at 18, not read"));
    assert!(shown_lines[4].ends_with("# at 35, not read"));
    assert_eq!(
        shown_lines[5],
        "# 30 bytes more not shown: `study show --all` shows all"
    );
    assert!(shown_lines[6].starts_with("# refused 3 at 5, line 2 of this text: "));
    assert_eq!(any(&text).unwrap().len() + 30, bytes.len());

    let all = shown(&bytes, Extent::All);
    assert_eq!(all.lines().count(), 9);
    assert!(!all.contains("not shown"));

    // With three lines after it nothing is left out.
    let text = show(&any("study 1\nleak 1 0\nleak 2 5\nleak 3 5\nleak 4 5").unwrap());
    assert_eq!(text.lines().count(), 6);
    assert!(!text.contains("not shown"));
}

#[test]
fn bytes_after_the_end_and_bytes_that_are_no_record() {
    let closed = any("study 1\nclosing").unwrap();
    let after = [closed.as_slice(), &[9; 100]].concat();
    let text = show(&after);
    assert_eq!(text.lines().count(), 8, "{text}");
    assert!(text.contains("# 52 bytes more not shown"), "{text}");
    assert_eq!(
        last_line(&text),
        "# refused 7 at 18, line 3 of this text: bytes after the closing record: 100 bytes"
    );
    let twice = closed.repeat(2);
    let text = show(&twice);
    assert!(text.contains("# at 18: REFUSED 7 at 18: "), "{text}");
    assert!(text.contains("# at 23, not read"), "{text}");
    assert_eq!(any(&text), Ok(twice));
}

#[test]
fn text_is_named_as_text() {
    let text = fs::read(repository().join("examples/specimen.txt")).unwrap();
    let last = show(&text);
    assert_eq!(
        last_line(&last),
        "# refused 1 at 0, line 1 of this text: unknown kind byte: \
         this is text: `study bytes` makes a study of it"
    );
    assert!(study_text::looks_like_text(&text));
    assert!(study_text::looks_like_text("\u{feff}study 1".as_bytes()));
    assert!(!study_text::looks_like_text(&specimen()));
    assert!(!study_text::looks_like_text(b""));
}

#[test]
fn nothing_at_all() {
    assert_eq!(
        last_line(&show(&[0])),
        "# refused 1 at 0, line 1 of this text: unknown kind byte: the byte 00 starts no record"
    );
    assert_eq!(
        show(b""),
        "# refused 8 at 0: report asked before the closing record: there are no bytes\n"
    );
}
