//! include/riskdesk.h gives its names the numbers that this crate has.

use riskdesk::{Study, record, unit};

/// The number that the header gives a name, in an enum or by a define.
fn number(header: &str, name: &str) -> Option<u64> {
    let name = format!("RISKDESK_{name} ");
    let number = header.lines().find_map(|line| {
        let line = line.trim_start();
        line.strip_prefix("#define ")
            .unwrap_or(line)
            .strip_prefix(&name)
    })?;
    let number = number.trim_start_matches("= ");
    let digits = number.trim_start_matches("UINT64_C(");
    digits
        .split(|c: char| !c.is_ascii_digit())
        .next()?
        .parse()
        .ok()
}

#[test]
fn the_header_has_the_same_numbers() {
    let path = crate::common::repository().join("include/riskdesk.h");
    let header = std::fs::read_to_string(path).unwrap();
    let names = [
        ("RECORD_OPENING", record::OPENING.into()),
        ("RECORD_TARGET", record::TARGET.into()),
        ("RECORD_LEAK", record::LEAK.into()),
        ("RECORD_BRANCHING", record::BRANCHING.into()),
        ("RECORD_OUTCOME", record::OUTCOME.into()),
        ("RECORD_EFFECT", record::EFFECT.into()),
        ("RECORD_CLOSING", record::CLOSING.into()),
        ("RECORD_TIMED_EFFECT", record::TIMED_EFFECT.into()),
        ("RECORD_CURVE_BRANCHING", record::CURVE_BRANCHING.into()),
        ("UNIT_SECONDS", unit::SECONDS.into()),
        ("UNIT_TENTHS", unit::TENTHS.into()),
        ("MOST_TARGETS", Study::MOST_TARGETS.into()),
        ("MOST_SCENARIOS", Study::MOST_SCENARIOS.into()),
        ("MOST_RECORDS", Study::MOST_RECORDS.into()),
        ("MOST_ABOVE", Study::MOST_ABOVE.into()),
        ("MOST_EFFECTS", Study::MOST_EFFECTS.into()),
        ("MOST_VOLUME", Study::MOST_VOLUME.into()),
        ("MOST_CHANCE", Study::MOST_CHANCE.into()),
        ("MOST_CURVE", Study::MOST_CURVE.into()),
        ("LEAST_FREQUENCY", Study::LEAST_FREQUENCY),
        ("MOST_FREQUENCY", Study::MOST_FREQUENCY),
    ];
    for (name, expected) in names {
        assert_eq!(number(&header, name), Some(expected), "{name}");
    }
    let records = header.matches("    RISKDESK_RECORD_").count();
    let named = names.iter().filter(|(name, _)| name.starts_with("RECORD_"));
    assert_eq!(records, named.count());
}
