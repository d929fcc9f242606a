//! Each refusal with its place, the order of several faults, what is kept,
//! and the bounds at their edge and one beyond.

mod common;

use common::{Builder, specimen};
use second_desk::{Answer, Study};

/// Feeds the bytes whole and byte by byte; both must give the same answer and
/// leave the same reports. Gives the last answer and the study.
fn read(bytes: &[u8]) -> (Answer, Study) {
    let mut whole = Study::new();
    let answer = whole.piece(bytes);
    if bytes.len() < 10_000 {
        let mut single = Study::new();
        let mut last = single.piece(&[]);
        for byte in bytes.chunks(1) {
            last = single.piece(byte);
        }
        assert_eq!(last, answer);
        assert_eq!(single.totals(), whole.totals());
    }
    (answer, whole)
}

/// The record that `faulty` appends must be refused with this number at its
/// first byte, not before its last byte, and the refusal must be kept.
fn refused(before: &Builder, faulty: &Builder, number: u8) {
    let place = before.len();
    let expected = Answer { number, place };
    let last = faulty.bytes.len() - 1;
    let mut study = Study::new();
    assert_eq!(study.piece(&before.bytes).number, 0);
    for end in before.bytes.len()..last {
        let answer = study.piece(&faulty.bytes[end..end + 1]);
        let place = end as u64 + 1;
        assert_eq!(answer, Answer { number: 0, place });
        assert_eq!((study.totals().number, study.totals().place), (8, place));
    }
    assert_eq!(study.piece(&faulty.bytes[last..]), expected);
    kept(&mut study, expected);
    let (answer, mut study) = read(&faulty.bytes);
    assert_eq!(answer, expected);
    kept(&mut study, expected);
}

/// Every later call gives the refusal and writes nothing.
fn kept(study: &mut Study, expected: Answer) {
    for _ in 0..2 {
        assert_eq!(study.piece(&[]), expected);
        assert_eq!(study.piece(&specimen().bytes), expected);
        assert_eq!(study.totals().answer(), expected);
        assert_eq!(study.totals().figures, None);
        assert_eq!(study.target(0).answer(), expected);
        assert_eq!(study.target(65_535).answer(), expected);
        let mut lent = [65_535; 300];
        assert_eq!(study.domino(&mut lent).answer(), expected);
        assert_eq!(study.domino(&mut []).answer(), expected);
        assert_eq!(lent, [65_535; 300]);
    }
}

fn taken(builder: &Builder) {
    let place = builder.len();
    let (answer, _) = read(&builder.bytes);
    assert_eq!(answer, Answer { number: 0, place });
}

/// An opening, one place of people and one vessel.
fn two_targets() -> Builder {
    Builder::new(1).target(0, 0, 0, 0).target(1, 1, 0, 500)
}

/// A scenario's leak and `branchings` branchings, one in the first branch of
/// the other.
fn nested(branchings: u8) -> Builder {
    let mut builder = two_targets().leak(9, 1_000);
    for _ in 0..branchings {
        builder = builder.branching(500_000);
    }
    builder
}

#[test]
fn unknown_kinds_at_the_kind_byte() {
    let stages = [
        Builder::default(),
        Builder::new(1),
        two_targets(),
        nested(0),
        nested(2),
        nested(0).outcome(1, 2),
        nested(0).outcome(0, 0),
    ];
    for before in &stages {
        for kind in [0, 9, 11, 15, 128, 136, 138, 255] {
            refused(before, &before.clone().record(kind, &[]), 1);
        }
    }
}

#[test]
fn order() {
    let records = |before: &Builder| {
        let before = before.clone();
        [
            before.clone().record(1, &[&[0; 4]]),
            before.clone().target(2, 0, 0, 0),
            before.clone().leak(10, 5),
            before.clone().branching(7),
            before.clone().outcome(0, 0),
            before.clone().effect(0, 1, 1),
            before.clone().close(),
            before.clone().timed(0, 1, 1, 1),
            before.clone().on_curve(1, 1),
        ]
    };
    let stages: [(Builder, &[usize]); 6] = [
        (Builder::default(), &[1]),
        (two_targets(), &[2, 3, 7]),
        (nested(0), &[4, 5, 10]),
        (nested(3), &[4, 5, 10]),
        (nested(0).outcome(1, 1), &[6, 8]),
        (nested(0).outcome(0, 0), &[3, 7]),
    ];
    for (before, allowed) in &stages {
        for (record, kind) in records(before).iter().zip([1, 2, 3, 4, 5, 6, 7, 8, 10]) {
            if allowed.contains(&kind) {
                taken(record);
            } else {
                refused(before, record, 2);
            }
        }
    }
    // After the second branch of the last branching the tree is complete.
    let tree = nested(2).outcome(0, 0).outcome(0, 0).outcome(0, 0);
    refused(&tree, &tree.clone().outcome(0, 0), 2);
    refused(&tree, &tree.clone().on_curve(1, 1), 2);
    taken(&tree.close());
    // An outcome with fewer effects than it says.
    let short = nested(0).outcome(1, 2).effect(0, 1, 1);
    refused(&short, &short.clone().close(), 2);
    let long = nested(0).outcome(1, 1).effect(0, 1, 1);
    refused(&long, &long.clone().effect(1, 1, 1), 2);
    refused(&long, &long.clone().timed(1, 1, 1, 1), 2);
}

#[test]
fn fields_of_targets() {
    let before = two_targets();
    for (class, setting, volume) in [(0, 2, 0), (0, 1, 100_000), (5, 0, 100_000), (3, 0, 0)] {
        taken(&before.clone().target(2, class, setting, volume));
    }
    for (class, setting, volume) in [
        (6, 0, 0),
        (255, 0, 0),
        (0, 3, 0),
        (0, 255, 0),
        (0, 0, 100_001),
        (1, 0, u32::MAX),
        (1, 1, 0),
        (5, 2, 0),
    ] {
        let faulty = before.clone().target(2, class, setting, volume);
        refused(&before, &faulty, 3);
    }
}

#[test]
fn fields_of_trees() {
    let before = two_targets();
    for frequency in [1, 10_000_000_000_000] {
        taken(&before.clone().leak(0, frequency));
    }
    for frequency in [0, 10_000_000_000_001, u64::MAX] {
        refused(&before, &before.clone().leak(0, frequency), 3);
    }
    let before = nested(0);
    taken(&before.clone().branching(1_000_000));
    for chance in [1_000_001, u32::MAX] {
        refused(&before, &before.clone().branching(chance), 3);
    }
    for (kind, effects) in [(1, 0), (5, 256), (3, 256), (0, 0)] {
        taken(&before.clone().outcome(kind, effects));
    }
    for (kind, effects) in [(6, 0), (255, 0), (5, 257), (1, 65_535), (0, 1), (0, 257)] {
        refused(&before, &before.clone().outcome(kind, effects), 3);
    }
}

#[test]
fn fields_of_branchings_by_a_curve() {
    let before = nested(0);
    for (curve, rate) in [
        (1, 1),
        (1, u32::MAX),
        (13, 1),
        (13, u32::MAX),
        (8, 5_000_000),
    ] {
        taken(&before.clone().on_curve(curve, rate));
    }
    for curve in [0, 14, 15, 128, 141, 255] {
        for rate in [0, 1, 10_000_000, u32::MAX] {
            refused(&before, &before.clone().on_curve(curve, rate), 3);
        }
    }
    for curve in 1..=13 {
        refused(&before, &before.clone().on_curve(curve, 0), 3);
    }
}

#[test]
fn a_branching_by_a_curve_cut_short() {
    let before = nested(2);
    let whole = before.clone().on_curve(8, 5_000_000).bytes;
    assert_eq!(whole.len(), before.bytes.len() + 6);
    for end in before.bytes.len() + 1..whole.len() {
        let (answer, study) = read(&whole[..end]);
        let place = end as u64;
        assert_eq!(answer, Answer { number: 0, place });
        assert_eq!(study.totals().answer(), Answer { number: 8, place });
    }
}

#[test]
fn fields_of_effects() {
    for kind in 1..=3 {
        let before = nested(0).outcome(kind, 2);
        taken(&before.clone().effect(0, u32::MAX, 1));
        taken(&before.clone().effect(0, 0, u16::MAX));
        refused(&before, &before.clone().effect(0, 5, 0), 3);
    }
    let before = nested(0).outcome(4, 2);
    for intensity in [0, 1] {
        taken(&before.clone().effect(0, intensity, 0));
        refused(&before, &before.clone().effect(0, intensity, 1), 3);
    }
    for intensity in [2, 0x0100_0001, u32::MAX] {
        refused(&before, &before.clone().effect(0, intensity, 0), 3);
    }
    let before = nested(0).outcome(5, 2);
    taken(&before.clone().effect(0, u32::MAX, 0));
    refused(&before, &before.clone().effect(0, 5, 1), 3);
    refused(&before, &before.clone().effect(0, 5, 256), 3);
}

#[test]
fn fields_of_timed_effects() {
    for (kind, intensity, duration) in [(1, 9, 1), (2, 9, 1), (3, 9, 65_535), (4, 1, 0), (5, 9, 0)]
    {
        let before = nested(0).outcome(kind, 2);
        let effect = |last| before.clone().timed(0, intensity, duration, last);
        taken(&effect(0));
        taken(&effect(1));
        for last in [2, 3, 128, 255] {
            refused(&before, &effect(last), 3);
        }
    }
    // The other fields have the bounds of kind 6, whatever the clock.
    for (kind, intensity, duration) in [(1, 5, 0), (3, 5, 0), (4, 2, 0), (4, 1, 1), (5, 5, 1)] {
        let before = nested(0).outcome(kind, 2);
        for last in [0, 1, 2] {
            let faulty = before.clone().timed(0, intensity, duration, last);
            refused(&before, &faulty, 3);
        }
    }
}

#[test]
fn numbers_of_timed_effects() {
    for (first, second) in [(0, 1), (1, 0), (1, 1)] {
        let before = nested(0).outcome(5, 3);
        refused(&before, &before.clone().timed(2, 5, 0, first), 4);
        refused(&before, &before.clone().timed(u16::MAX, 5, 0, first), 4);
        // After one of kind 6, and one of kind 6 after it.
        let timed = before.clone().timed(1, 5, 0, first);
        let untimed = before.effect(1, 5, 0);
        for target in [0, 1] {
            refused(&untimed, &untimed.clone().timed(target, 5, 0, second), 4);
            refused(&timed, &timed.clone().timed(target, 5, 0, second), 4);
            refused(&timed, &timed.clone().effect(target, 5, 0), 4);
        }
    }
}

#[test]
fn numbers_of_targets_scenarios_and_effects() {
    let before = two_targets();
    for number in [0, 1, 3, 258, u16::MAX] {
        refused(&before, &before.clone().target(number, 0, 0, 0), 4);
    }
    let before = Builder::new(1);
    refused(&before, &before.clone().target(1, 0, 0, 0), 4);
    taken(&before.clone().leak(0, 1));
    taken(&before.leak(u32::MAX, 1));
    let before = nested(0).outcome(0, 0);
    for scenario in [0, 8, 9] {
        refused(&before, &before.clone().leak(scenario, 1), 4);
    }
    taken(&before.clone().leak(10, 1));
    let before = two_targets().leak(u32::MAX, 1).outcome(0, 0);
    refused(&before, &before.clone().leak(u32::MAX, 1), 4);
    refused(&before, &before.clone().leak(0, 1), 4);
    let before = nested(0).outcome(5, 3);
    refused(&before, &before.clone().effect(2, 5, 0), 4);
    refused(&before, &before.clone().effect(256, 5, 0), 4);
    refused(&before, &before.clone().effect(u16::MAX, 5, 0), 4);
    let before = before.effect(1, 5, 0);
    for target in [0, 1, 2] {
        refused(&before, &before.clone().effect(target, 5, 0), 4);
    }
    // A new outcome starts again with any declared target.
    let before = nested(1).outcome(5, 1).effect(1, 5, 0).outcome(5, 1);
    taken(&before.effect(0, 5, 0));
}

#[test]
fn closing_differs() {
    let before = nested(0).outcome(0, 0);
    let (count, sum) = (before.records + 1, before.leaks);
    for (count, sum) in [
        (count - 1, sum),
        (count + 1, sum),
        (count, sum + 1),
        (count, sum - 1),
        (0, 0),
        (count | 1 << 24, sum),
        (count, sum | 1 << 63),
    ] {
        refused(&before, &before.clone().closing(count, sum), 6);
    }
    taken(&before.close());
}

#[test]
fn bytes_after_the_closing_are_not_kept() {
    let builder = specimen();
    let end = Answer {
        number: 7,
        place: 98,
    };
    let mut together = builder.bytes.clone();
    together.extend_from_slice(&[1, 2, 3]);
    let mut study = Study::new();
    assert_eq!(study.piece(&together), end);
    for _ in 0..2 {
        assert_eq!(study.piece(&[0]), end);
        assert_eq!(study.piece(&builder.bytes), end);
        let empty = study.piece(&[]);
        assert_eq!(
            empty,
            Answer {
                number: 0,
                place: 98
            }
        );
        let totals = study.totals();
        assert_eq!((totals.number, totals.place), (0, 98));
        assert_eq!(totals.figures.unwrap().records, 13);
        let target = study.target(1);
        assert_eq!((target.number, target.place), (0, 98));
        assert_eq!(target.figures.unwrap().sum, 16_200_000);
        assert_eq!((study.target(2).number, study.target(2).place), (9, 98));
        assert_eq!((study.domino(&mut []).number), 10);
        assert_eq!(study.domino(&mut [5]).figures, Some(1));
    }
}

#[test]
fn several_faults_in_one_record() {
    // 1 before all: an unknown kind where the order allows none and after the
    // last record.
    let full = records(1_000_000);
    refused(&full, &full.clone().record(11, &[]), 1);
    // 2 before 5, 3, 4 and 6.
    refused(&full, &full.clone().target(7, 9, 9, u32::MAX), 2);
    refused(&full, &full.clone().record(1, &[&[0; 4]]), 2);
    let before = nested(8);
    refused(&before, &before.clone().leak(0, 0), 2);
    refused(&before, &before.clone().closing(0, 0), 2);
    refused(&nested(0), &nested(0).effect(9, 1, 0), 2);
    refused(&nested(0), &nested(0).timed(9, 1, 0, 2), 2);
    for before in [two_targets(), nested(8).outcome(1, 1)] {
        refused(&before, &before.clone().on_curve(0, 0), 2);
        refused(&before, &before.clone().on_curve(14, 1), 2);
    }
    refused(&full, &full.clone().on_curve(0, 0), 2);
    // 5 before 3, 4 and 6.
    refused(&full, &full.clone().leak(0, 0), 5);
    refused(&full, &full.clone().closing(0, 0), 5);
    refused(&before, &before.clone().branching(1_000_001), 5);
    for (curve, rate) in [(0, 1), (14, 1), (255, 1), (1, 0), (0, 0)] {
        refused(&before, &before.clone().on_curve(curve, rate), 5);
    }
    let before = targets(256);
    refused(&before, &before.clone().target(0, 6, 3, u32::MAX), 5);
    refused(&before, &before.clone().target(256, 6, 0, 0), 5);
    let before = scenarios(65_536);
    refused(&before, &before.clone().leak(0, 0), 5);
    refused(&before, &before.clone().leak(u32::MAX, 0), 5);
    // 3 before 4.
    let before = two_targets();
    refused(&before, &before.clone().target(7, 6, 0, 0), 3);
    let before = nested(0).outcome(0, 0);
    refused(&before, &before.clone().leak(0, 0), 3);
    for (kind, intensity, duration) in [(1, 5, 0), (4, 2, 0), (4, 1, 1), (5, 5, 5)] {
        let before = nested(0).outcome(kind, 1);
        let faulty = before.clone().effect(2, intensity, duration);
        refused(&before, &faulty, 3);
        let faulty = before.clone().timed(2, intensity, duration, 1);
        refused(&before, &faulty, 3);
    }
    // The last byte too, for a target that is not declared or does not rise.
    let before = nested(0).outcome(1, 2);
    refused(&before, &before.clone().timed(2, 5, 1, 2), 3);
    let before = before.timed(1, 5, 1, 1);
    refused(&before, &before.clone().timed(1, 5, 1, 255), 3);
}

fn targets(count: u16) -> Builder {
    let mut builder = Builder::new(1);
    for number in 0..count {
        builder = builder.target(number, (number % 6) as u8, 0, 0);
    }
    builder
}

fn scenarios(count: u32) -> Builder {
    let mut builder = Builder::new(1);
    for number in 0..count {
        builder = builder.leak(number, 1).outcome(0, 0);
    }
    builder
}

/// An open study of this many records that allows a leak or the closing.
fn records(count: u32) -> Builder {
    let mut builder = targets(256).leak(0, 1);
    let mut scenario = 0;
    loop {
        let left = count - builder.records;
        if left <= 258 {
            builder = outcome_of(builder, (left - 1).min(256));
            let left = count - builder.records;
            assert!(left == 0 || left == 1);
            break builder;
        }
        let effects = (left - 3).min(256);
        builder = outcome_of(builder, effects);
        scenario += 1;
        builder = builder.leak(scenario, 1);
    }
}

fn outcome_of(mut builder: Builder, effects: u32) -> Builder {
    builder = builder.outcome(5, effects as u16);
    for target in 0..effects {
        builder = builder.effect(target as u16, 5, 0);
    }
    builder
}

#[test]
fn targets_at_the_bound() {
    let before = targets(256);
    taken(&before.clone().close());
    refused(&before, &before.clone().target(256, 0, 0, 0), 5);
    // All 256 effects of an outcome can name them.
    taken(&outcome_of(before.leak(0, 1), 256).close());
}

#[test]
fn scenarios_at_the_bound() {
    let before = scenarios(65_536);
    taken(&before.clone().close());
    refused(&before, &before.clone().leak(65_536, 1), 5);
}

#[test]
fn levels_at_the_bound() {
    let before = nested(8);
    let mut whole = before.clone();
    for _ in 0..9 {
        whole = whole.outcome(0, 0);
    }
    taken(&whole.close());
    refused(&before, &before.clone().branching(0), 5);
    // The level counts in second branches too.
    let mut builder = nested(0);
    for _ in 0..8 {
        builder = builder.branching(1).outcome(0, 0);
    }
    taken(&builder.clone().outcome(5, 1).effect(0, 1, 0).close());
    refused(&builder, &builder.clone().branching(1), 5);
    // And goes back with the branches.
    let before = nested(8).outcome(0, 0).outcome(0, 0);
    taken(&before.clone().branching(1));
    let before = before.branching(1);
    refused(&before, &before.clone().branching(1), 5);
}

#[test]
fn levels_of_both_kinds() {
    for first in [0, 1] {
        let mut before = nested(0);
        for level in 0..8 {
            before = match (first + level) % 2 {
                0 => before.branching(500_000),
                _ => before.on_curve(13, 1),
            };
            taken(&before);
        }
        refused(&before, &before.clone().on_curve(13, 1), 5);
        refused(&before, &before.clone().branching(500_000), 5);
        // In the second branch of the last branching there is no level more.
        let second = before.outcome(0, 0);
        refused(&second, &second.clone().on_curve(13, 1), 5);
        taken(&second.outcome(0, 0).on_curve(13, 1));
    }
}

#[test]
fn records_at_the_bound() {
    let before = records(999_999);
    assert_eq!(before.records, 999_999);
    taken(&before.close());
    let before = records(1_000_000);
    assert_eq!(before.records, 1_000_000);
    taken(&before);
    refused(&before, &before.clone().close(), 5);
    refused(&before, &before.clone().leak(u32::MAX, 1), 5);
    // An effect beyond the bound, in the middle of an outcome.
    let mut before = records(999_990).leak(99_999, 1).outcome(5, 20);
    for target in 0..8 {
        before = before.effect(target, 5, 0);
    }
    assert_eq!(before.records, 1_000_000);
    refused(&before, &before.clone().effect(8, 5, 0), 5);
    refused(&before, &before.clone().effect(0, 5, 1), 5);
    refused(&before, &before.clone().timed(8, 5, 0, 1), 5);
    refused(&before, &before.clone().timed(0, 5, 1, 2), 5);
    // And a branching.
    let before = records(999_999).leak(99_999, 1);
    assert_eq!(before.records, 1_000_000);
    refused(&before, &before.clone().on_curve(1, 1), 5);
    refused(&before, &before.clone().on_curve(0, 0), 5);
}
