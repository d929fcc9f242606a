//! Figures and reports by the rules of document 01 and requests P1, P2, P3 and P6
//! of document 02.

mod common;

use common::{Builder, specimen};
use second_desk::{Answer, Standing, Study, report_text, report_text_of_pieces};

fn closed(builder: &Builder) -> Study {
    let mut study = Study::new();
    let answer = study.piece(&builder.bytes);
    let place = builder.len();
    assert_eq!(answer, Answer { number: 0, place });
    study
}

fn sum(study: &Study, target: u16) -> u64 {
    study.target(target).figures.expect("a sum").sum
}

/// The chance of one effect on one target, read off a sum.
fn chance(class: u8, setting: u8, volume: u32, kind: u8, effect: (u32, u16)) -> u64 {
    let builder = Builder::new(1)
        .target(0, class, setting, volume)
        .leak(1, 1_000_000)
        .outcome(kind, 1)
        .effect(0, effect.0, effect.1)
        .close();
    sum(&closed(&builder), 0)
}

#[test]
fn the_specimen() {
    let builder = specimen();
    assert_eq!(builder.len(), 98);
    let text = "study 7 records 13 leaks 100000000\n\
                kind 0 67500000\nkind 1 0\nkind 2 10000000\nkind 3 0\nkind 4 0\nkind 5 22500000\n\
                target 0 sum 600000 margin 5 grade 1\n\
                target 1 sum 16200000 margin 3 domino\n\
                unjudged 0\n";
    assert_eq!(report_text(&builder.bytes), text);
}

#[test]
fn a_fresh_study_and_one_without_scenarios() {
    assert_eq!(report_text(b""), "refused 8 at 0\n");
    let builder = Builder::new(5).closing(2, 0);
    let totals = closed(&builder).totals();
    let figures = totals.figures.unwrap();
    assert_eq!((totals.number, totals.place), (0, builder.len()));
    assert_eq!((figures.study, figures.records), (5, 2));
    assert_eq!((figures.leaks, figures.unjudged), (0, 0));
    assert_eq!(figures.kinds, [0; 6]);
}

#[test]
fn branches() {
    for (frequency, chance, first) in [
        (1, 500_000, 0),
        (10_000_000_000_000, 999_999, 9_999_990_000_000),
        (10_000_000_000_000, 1_000_000, 10_000_000_000_000),
        (10_000_000_000_000, 0, 0),
        (3, 999_999, 2),
    ] {
        let builder = Builder::new(1)
            .leak(0, frequency)
            .branching(chance)
            .outcome(1, 0)
            .outcome(2, 0)
            .close();
        let kinds = closed(&builder).totals().figures.unwrap().kinds;
        assert_eq!(kinds, [0, first, frequency - first, 0, 0, 0]);
    }
}

/// The chance of a branching by a curve, read off the totals of the kinds.
fn ignition(curve: u8, rate: u32) -> u64 {
    let builder = Builder::new(1)
        .leak(0, 1_000_000)
        .on_curve(curve, rate)
        .outcome(1, 0)
        .outcome(2, 0)
        .close();
    let kinds = closed(&builder).totals().figures.unwrap().kinds;
    assert_eq!(kinds[1] + kinds[2], 1_000_000);
    kinds[1]
}

#[test]
fn chances_by_the_curves() {
    let at_50_kg = [
        110_700, 57_000, 13_000, 125_000, 67_000, 50_000, 286_000, 15_300, 15_000, 2_400, 349_200,
        102_600, 29_600,
    ];
    for (curve, chance) in (1..=13).zip(at_50_kg) {
        let rates = [200_001, 360_000, 499_999, 500_000];
        assert_eq!(rates.map(|rate| ignition(curve, rate)), [chance; 4]);
        assert_eq!([1, 1_000].map(|rate| ignition(curve, rate)), [1_000; 2]);
    }
    // Both sides of a tabulated rate, and above the last one.
    for (curve, rate, both) in [
        (1, 1_000, [1_000, 1_300]),
        (3, 50_000, [8_800, 13_000]),
        (7, 1_000_000, [481_500, 600_000]),
        (8, 2_000_000, [51_700, 120_000]),
        (8, 5_000_000, [120_000, 120_000]),
        (11, 1_000_000, [960_000, 1_000_000]),
        (12, 5_000_000, [643_400, 1_000_000]),
        (13, 5_000_000, [75_500, 100_000]),
        (13, 10_000_000, [100_000, 100_000]),
    ] {
        let given = [rate, rate + 1].map(|rate| ignition(curve, rate));
        assert_eq!(given, both, "curve {curve} at {rate}");
    }
    for (curve, chance) in [(1, 600_000), (10, 2_400), (12, 1_000_000), (13, 100_000)] {
        assert_eq!(ignition(curve, u32::MAX), chance);
    }
}

/// Two levels of branchings: 0.25, and in its second branch 0.12.
fn two_levels(first: fn(Builder) -> Builder, second: fn(Builder) -> Builder) -> Builder {
    let builder = Builder::new(1).target(0, 0, 0, 0).leak(1, 100_000_001);
    let builder = first(builder).outcome(4, 1).effect(0, 1, 0);
    let builder = second(builder).outcome(5, 1).effect(0, 30_000, 0);
    builder.outcome(0, 0).close()
}

#[test]
fn a_curve_gives_what_its_chance_gives() {
    let kind_4: [fn(Builder) -> Builder; 2] = [|b| b.branching(250_000), |b| b.branching(120_000)];
    let kind_10: [fn(Builder) -> Builder; 2] =
        [|b| b.on_curve(4, 1_000_000), |b| b.on_curve(8, 5_000_000)];
    let text = report_text(&two_levels(kind_4[0], kind_4[1]).bytes);
    assert!(
        text.contains("target 0 sum 34000000 margin 5 grade 3\n"),
        "{text}"
    );
    for (first, second) in [
        (kind_10[0], kind_10[1]),
        (kind_4[0], kind_10[1]),
        (kind_10[0], kind_4[1]),
    ] {
        let builder = two_levels(first, second);
        for size in 1..=builder.bytes.len() {
            let pieces = report_text_of_pieces(builder.bytes.chunks(size));
            assert_eq!(pieces, text, "pieces of {size}");
        }
    }
}

#[test]
fn chances_of_death() {
    for kind in 1..=3 {
        for (setting, at_12_500) in [(0, 60_000), (1, 8_400), (2, 0)] {
            assert_eq!(chance(0, setting, 0, kind, (12_500, 20)), at_12_500);
            assert_eq!(chance(0, setting, 0, kind, (12_500, 3_000)), at_12_500);
            assert_eq!(chance(0, setting, 0, kind, (35_000, 1)), 1_000_000);
            assert_eq!(chance(0, setting, 0, kind, (0, 20)), 0);
        }
        assert_eq!(chance(0, 0, 0, kind, (34_999, 20)), 970_000);
        assert_eq!(chance(0, 1, 0, kind, (34_999, 20)), 135_800);
    }
    for setting in 0..3 {
        assert_eq!(chance(0, setting, 0, 4, (1, 0)), 1_000_000);
        assert_eq!(chance(0, setting, 0, 4, (0, 0)), 0);
        assert_eq!(chance(0, setting, 0, 5, (30_000, 0)), 1_000_000);
        assert_eq!(chance(0, setting, 0, 5, (9_999, 0)), 0);
    }
    assert_eq!(chance(0, 2, 0, 5, (10_000, 0)), 25_000);
    assert_eq!(chance(0, 2, 0, 5, (29_999, 0)), 25_000);
    assert_eq!(chance(0, 1, 0, 5, (29_999, 0)), 0);
}

#[test]
fn chances_of_damage() {
    assert_eq!(chance(1, 0, 0, 5, (67_000, 0)), 700_000);
    assert_eq!(chance(1, 0, 0, 5, (70_000, 0)), 720_000);
    for class in [2, 5] {
        assert_eq!(chance(class, 0, 0, 5, (29_999, 0)), 0);
        assert_eq!(chance(class, 0, 0, 5, (30_000, 0)), 240_000);
    }
    for class in 1..=5 {
        assert_eq!(chance(class, 0, 0, 4, (1, 0)), 0);
        assert_eq!(chance(class, 0, 0, 5, (70, 0)), 0);
        assert_eq!(chance(class, 0, 0, 5, (u32::MAX, 0)), 999_000);
    }
    for class in [1, 5] {
        assert_eq!(chance(class, 0, 100_000, 1, (15_000, 601)), 0);
        assert_eq!(chance(class, 0, 100_000, 1, (15_001, 600)), 0);
        assert_eq!(chance(class, 0, 100_000, 1, (15_001, 601)), 440_000);
    }
}

#[test]
fn both_sides_of_the_entries_of_p2() {
    // The greatest overpressure below 7.58, 7.65, 7.75 and 7.88, and the least
    // from there.
    let chances = [994_000, 995_000, 996_000, 997_000, 998_000];
    for (class, pressures) in [
        (1, [309_221, 326_428, 351_185, 387_141]),
        (2, [179_924, 186_875, 197_274, 212_236]),
    ] {
        for (i, pressure) in pressures.into_iter().enumerate() {
            let both = [pressure, pressure + 1].map(|pa| chance(class, 0, 0, 5, (pa, 0)));
            assert_eq!(both, chances[i..i + 2], "class {class}, {pressure} Pa");
        }
    }
}

/// The chance of damage to a pressurised vessel by a fire longer than 600 s.
fn sphere(volume: u32, heat: u32) -> u64 {
    chance(2, 0, volume, 1, (heat, 601))
}

#[test]
fn pressurised_vessels_in_a_fire() {
    // K is 1000, 1022, 1158, 1341, 1342 and 1342.
    assert_eq!([sphere(1, 60_000), sphere(2, 60_000)], [50_000, 20_000]);
    assert_eq!(sphere(100, 500_000), 300_000);
    assert_eq!(sphere(9_823, 4_000_000), 550_000);
    assert_eq!(sphere(9_824, 4_000_000), 540_000);
    assert_eq!(sphere(10_000, 4_000_000), 540_000);
    // The least heats with 1 %: L is 3917 and 5097.
    assert_eq!([sphere(1, 40_363), sphere(1, 40_364)], [0, 10_000]);
    let largest = [sphere(10_000, 985_267), sphere(10_000, 985_268)];
    assert_eq!(largest, [0, 10_000]);
    for volume in [1, 10_000] {
        assert_eq!(sphere(volume, u32::MAX), 999_000);
    }
    // Y is 5,950,000 and 4,800,000; one less if the difference of the brackets
    // is rounded instead of each.
    assert_eq!(
        [sphere(331, 1_768_268), sphere(331, 1_768_269)],
        [820_000, 830_000]
    );
    assert_eq!(
        [sphere(1_272, 1_503_122), sphere(1_272, 1_503_123)],
        [410_000, 420_000]
    );
    // At most 40,000 W/m² and at most 600 s.
    for kind in 1..=3 {
        for (heat, duration) in [(40_000, 65_535), (40_001, 65_535), (u32::MAX, 600)] {
            assert_eq!(chance(2, 0, 1, kind, (heat, duration)), 0);
        }
        assert_eq!(chance(2, 0, 1, kind, (u32::MAX, 601)), 999_000);
    }
    assert_eq!(chance(2, 0, 1, 4, (1, 0)), 0);
}

#[test]
fn pressurised_vessels_left_unjudged() {
    let volumes = [0, 1, 500, 10_000, 10_001, 100_000];
    // Weak and short, short, weak, above both lines.
    for effect in [(0, 1), (u32::MAX, 600), (40_000, 601), (u32::MAX, 601)] {
        let mut builder = Builder::new(1);
        for (number, volume) in volumes.into_iter().enumerate() {
            builder = builder.target(number as u16, 2, 0, volume);
        }
        builder = builder.leak(1, 10_000_000).outcome(2, 6);
        for target in 0..6 {
            builder = builder.effect(target, effect.0, effect.1);
        }
        let study = closed(&builder.close());
        assert_eq!(study.totals().figures.unwrap().unjudged, 3);
        let judged = if effect == (u32::MAX, 601) {
            9_990_000
        } else {
            0
        };
        let sums = [0, 1, 2, 3, 4, 5].map(|target| sum(&study, target));
        assert_eq!(sums, [0, judged, judged, judged, 0, 0]);
        let listed = if judged > 0 { vec![1, 2, 3] } else { vec![] };
        let mut lent = [65_535; 6];
        assert_eq!(study.domino(&mut lent).figures, Some(listed.len() as u16));
        assert_eq!(lent[..listed.len()], listed);
    }
}

/// The chance of one fire of kind 8 on one target of class 0, 1 or 2, with a
/// volume that has a chance.
fn timed_chance(class: u8, heat: u32, duration: u16, last: u8) -> u64 {
    let volume = [0, 100_000, 1][usize::from(class)];
    let builder = Builder::new(1)
        .target(0, class, 0, volume)
        .leak(1, 1_000_000)
        .outcome(3, 1)
        .timed(0, heat, duration, last)
        .close();
    sum(&closed(&builder), 0)
}

#[test]
fn fires_timed_in_seconds_and_tenths() {
    let people = |last, times: [u16; 5]| times.map(|time| timed_chance(0, 16_789, time, last));
    // Y at 16,789 W/m² in tenths: 4,475,836 at 199, 4,489,699 at 200.
    let tenths = [0, 0, 290_000, 300_000, 300_000];
    assert_eq!(people(1, [1, 20, 199, 200, 201]), tenths);
    // In seconds: 4,360,870 at 19, 4,492,568 at 20.
    let seconds = [0, 260_000, 300_000, 300_000, 300_000];
    assert_eq!(people(0, [1, 19, 20, 21, 200]), seconds);
    assert_eq!(timed_chance(0, 12_500, 200, 1), 60_000);
    assert_eq!(timed_chance(0, 35_000, 1, 1), 1_000_000);
    for (class, heat, chance) in [(1, 15_001, 440_000), (2, 60_000, 50_000)] {
        let damage = |last, times: [u16; 4]| times.map(|t| timed_chance(class, heat, t, last));
        assert_eq!(damage(0, [599, 600, 601, 6_000]), [0, 0, chance, chance]);
        assert_eq!(damage(1, [601, 5_999, 6_000, 6_001]), [0, 0, 0, chance]);
    }
}

#[test]
fn kinds_of_effect_in_one_outcome() {
    // A pool fire of 20 s, 20 s, 20 tenths and 200 tenths on four places of
    // people, one of 601 s and of 601 and 6,001 tenths on three vessels of
    // 100,000 m³, and one of a tenth on a tower.
    let mut builder = Builder::new(1);
    for number in 0..8 {
        let class = [0, 0, 0, 0, 1, 1, 1, 3][usize::from(number)];
        builder = builder.target(number, class, 0, 100_000);
    }
    let builder = builder
        .leak(1, 1_000_000)
        .outcome(1, 8)
        .effect(0, 16_789, 20)
        .timed(1, 16_789, 20, 0)
        .timed(2, 16_789, 20, 1)
        .timed(3, 16_789, 200, 1)
        .effect(4, 15_001, 601)
        .timed(5, 15_001, 601, 1)
        .timed(6, 15_001, 6_001, 1)
        .timed(7, 15_001, 1, 1)
        .close();
    let study = closed(&builder);
    let sums = [0, 1, 2, 3, 4, 5, 6, 7].map(|target| sum(&study, target));
    let people = [300_000, 300_000, 0, 300_000];
    assert_eq!(sums[..4], people);
    assert_eq!(sums[4..], [440_000, 0, 440_000, 0]);
    assert_eq!(study.totals().figures.unwrap().unjudged, 1);
    assert_eq!(study.target(6).figures.unwrap().margin, 1);
}

#[test]
fn either_clock_where_there_is_no_duration() {
    for last in [0, 1] {
        let builder = Builder::new(1)
            .target(0, 0, 2, 0)
            .target(1, 1, 0, 0)
            .leak(1, 20_000_000)
            .branching(500_000)
            .outcome(4, 1)
            .timed(0, 1, 0, last)
            .outcome(5, 2)
            .timed(0, 10_000, 0, last)
            .timed(1, 70_000, 0, last)
            .close();
        let study = closed(&builder);
        assert_eq!(sum(&study, 0), 10_000_000 + 250_000);
        assert_eq!(sum(&study, 1), 7_200_000);
        let standing = study.target(1).figures.unwrap().standing;
        assert_eq!(standing, Standing::Listed);
    }
}

#[test]
fn fires_left_unjudged() {
    let mut builder = Builder::new(1);
    for class in 0..6 {
        builder = builder.target(class.into(), class, 0, 0);
    }
    builder = builder.leak(1, 20_000_000);
    builder = builder.branching(1).outcome(3, 6);
    for target in 0..6 {
        builder = builder.effect(target, 1, 1);
    }
    builder = builder.outcome(5, 6);
    for target in 0..6 {
        builder = builder.effect(target, u32::MAX, 0);
    }
    let study = closed(&builder.close());
    assert_eq!(study.totals().figures.unwrap().unjudged, 3);
    assert_eq!(sum(&study, 3), 19_999_980 * 999 / 1000);
    assert_eq!(study.target(3).figures.unwrap().margin, 4);
}

#[test]
fn grades() {
    let mut figures = vec![(1, 0), (99_999, 0)];
    let mut power = 100_000u64;
    for grade in 1..=6 {
        figures.push((power, grade));
        figures.push((power * 10 - 1, grade));
        power *= 10;
    }
    figures.push((10_000_000_000_000, 6));
    for (frequency, grade) in figures {
        let builder = Builder::new(1)
            .target(0, 0, 0, 0)
            .leak(1, frequency)
            .outcome(4, 1)
            .effect(0, 1, 0)
            .close();
        let figures = closed(&builder).target(0).figures.unwrap();
        assert_eq!(figures.sum, frequency);
        assert_eq!(figures.standing, Standing::Grade(grade));
    }
}

#[test]
fn domino_leak_and_chance_on_both_sides() {
    // An explosion on an atmospheric vessel, and a fire on a pressurised one of
    // 1 m³: 700,000 is not listed, and the next chance is.
    let most = 10_000_000_000_000;
    for (frequency, class, kind, effect, listed) in [
        (10_000_000, 1, 5, (70_000, 0), true),
        (9_999_999, 1, 5, (70_000, 0), false),
        (most, 1, 5, (67_000, 0), false),
        (10_000_000, 2, 3, (209_383, 601), true),
        (9_999_999, 2, 3, (209_383, 601), false),
        (most, 2, 3, (209_382, 601), false),
    ] {
        // The outcome is nearly never reached: the leak decides.
        let builder = Builder::new(1)
            .target(0, class, 0, 1)
            .leak(1, frequency)
            .branching(0)
            .outcome(kind, 1)
            .effect(0, effect.0, effect.1)
            .outcome(0, 0)
            .close();
        let study = closed(&builder);
        let standing = study.target(0).figures.unwrap().standing;
        assert_eq!(standing == Standing::Listed, listed);
        assert_eq!(sum(&study, 0), 0);
    }
}

fn three_listed() -> Builder {
    let mut builder = Builder::new(1);
    for (number, class) in [1, 0, 3, 4, 5].into_iter().enumerate() {
        builder = builder.target(number as u16, class, 0, 0);
    }
    builder = builder.leak(1, 10_000_000).outcome(5, 4);
    for target in [0, 1, 3, 4] {
        builder = builder.effect(target, 1_000_000, 0);
    }
    builder.close()
}

#[test]
fn the_domino_list_fills_from_the_front() {
    let builder = three_listed();
    let study = closed(&builder);
    let mut lent = [65_535; 5];
    let report = study.domino(&mut lent);
    assert_eq!((report.number, report.place), (0, builder.len()));
    assert_eq!(report.figures, Some(3));
    assert_eq!(lent, [0, 3, 4, 65_535, 65_535]);
    let mut lent = [1; 3];
    assert_eq!(study.domino(&mut lent).figures, Some(3));
    assert_eq!(lent, [0, 3, 4]);
}

#[test]
fn refused_reports_write_nothing_and_give_no_figures() {
    let builder = three_listed();
    let study = closed(&builder);
    let mut lent = [65_535; 2];
    let report = study.domino(&mut lent);
    assert_eq!((report.number, report.place), (10, builder.len()));
    assert_eq!((report.figures, lent), (None, [65_535; 2]));
    assert_eq!(study.domino(&mut []).number, 10);
    let report = study.target(5);
    assert_eq!((report.number, report.place), (9, builder.len()));
    assert_eq!(report.figures, None);
    assert_eq!(study.target(65_535).number, 9);

    let mut study = Study::new();
    study.piece(&builder.bytes[..builder.bytes.len() - 1]);
    let mut lent = [65_535; 9];
    let report = study.domino(&mut lent);
    assert_eq!((report.number, report.place), (8, builder.len() - 1));
    assert_eq!(lent, [65_535; 9]);
    assert_eq!(study.target(9).number, 8);
    assert_eq!(study.totals().number, 8);
}

#[test]
fn no_report_because_a_piece_ended_on_an_edge() {
    let builder = specimen();
    let mut study = Study::new();
    assert_eq!(study.piece(&builder.bytes[..85]).number, 0);
    assert_eq!(study.totals().number, 8);
    assert_eq!(study.totals().place, 85);
}

#[test]
fn the_state_keeps_sums_of_the_largest_study() {
    // 65,536 leaks of the greatest frequency on one place of people.
    let mut builder = Builder::new(1).target(0, 0, 0, 0);
    for scenario in 0..65_536 {
        builder = builder.leak(scenario, 10_000_000_000_000);
        builder = builder.outcome(4, 1).effect(0, 1, 0);
    }
    let study = closed(&builder.close());
    assert_eq!(sum(&study, 0), 655_360_000_000_000_000);
    let totals = study.totals().figures.unwrap();
    assert_eq!(totals.leaks, 655_360_000_000_000_000);
    assert_eq!(totals.kinds[4], totals.leaks);
}
