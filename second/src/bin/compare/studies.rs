//! Valid studies of all shapes, with values at and around the rules' limits.

use crate::branchings::{self, Form};
use crate::random::Random;
use crate::timing::{self, Timing};
use second_desk::chance::{self, Clock};
use second_desk::logarithm::THRESHOLDS;
use second_desk::probit;
use second_desk::record::{self, outcome};
use second_desk::volume::{LEAST, MOST};
use std::sync::OnceLock;

/// A record: its kind byte and body.
pub type Record = Vec<u8>;

pub fn opening(study: u32) -> Record {
    [&[record::OPENING][..], &study.to_be_bytes()].concat()
}

pub fn target(number: u16, class: u8, setting: u8, volume: u32) -> Record {
    let mut bytes = vec![record::TARGET];
    bytes.extend(number.to_be_bytes());
    bytes.extend([class, setting]);
    bytes.extend(volume.to_be_bytes());
    bytes
}

pub fn leak(scenario: u32, frequency: u64) -> Record {
    let mut bytes = vec![record::LEAK];
    bytes.extend(scenario.to_be_bytes());
    bytes.extend(frequency.to_be_bytes());
    bytes
}

pub fn branching(chance: u32) -> Record {
    [&[record::BRANCHING][..], &chance.to_be_bytes()].concat()
}

/// A branching by an ignition curve at a release rate.
pub fn curve_branching(curve: u8, rate: u32) -> Record {
    [&[record::CURVE_BRANCHING, curve][..], &rate.to_be_bytes()].concat()
}

pub fn outcome(kind: u8, effects: u16) -> Record {
    [&[record::OUTCOME, kind][..], &effects.to_be_bytes()].concat()
}

pub fn effect(target: u16, intensity: u32, duration: u16) -> Record {
    let mut bytes = vec![record::EFFECT];
    bytes.extend(target.to_be_bytes());
    bytes.extend(intensity.to_be_bytes());
    bytes.extend(duration.to_be_bytes());
    bytes
}

/// An effect whose last byte names its clock.
pub fn timed(target: u16, intensity: u32, duration: u16, last: u8) -> Record {
    let mut bytes = effect(target, intensity, duration);
    bytes[0] = record::TIMED_EFFECT;
    bytes.push(last);
    bytes
}

pub fn closing(count: u32, sum: u64) -> Record {
    let mut bytes = vec![record::CLOSING];
    bytes.extend(count.to_be_bytes());
    bytes.extend(sum.to_be_bytes());
    bytes
}

/// The number in some bytes of a record.
pub fn number(record: &[u8], from: usize, width: usize) -> u64 {
    let bytes = &record[from..from + width];
    bytes.iter().fold(0, |n, &byte| n << 8 | u64::from(byte))
}

/// Writes a number's low bytes, most significant first.
pub fn set(record: &mut [u8], from: usize, width: usize, number: u64) {
    record[from..from + width].copy_from_slice(&number.to_be_bytes()[8 - width..]);
}

/// What a target is, as far as its effects depend on it.
#[derive(Clone, Copy)]
pub struct Facts {
    pub class: u8,
    pub setting: u8,
    pub volume: u32,
    /// Heat at which the probit of damage by fire meets an entry of the table,
    /// or misses it by one millionth; 0 where none was looked for.
    pub edge_heat: u32,
}

/// How the branches of a tree go on.
#[derive(Clone, Copy)]
enum Shape {
    /// Branchings with this chance in a hundred, at any level.
    Spread(u64),
    /// A branching in the first branch down to this level.
    First(u32),
    /// A branching in the second branch down to this level.
    Second(u32),
    /// A branching in either branch down to this level.
    Either(u32),
}

/// Makes one valid study.
pub struct Maker<'a> {
    random: &'a mut Random,
    targets: Vec<Facts>,
    records: Vec<Record>,
    leaks: u64,
    /// At most this many effects an outcome.
    most_effects: u64,
    /// The form of the tree's branchings.
    form: Option<Form>,
}

/// A valid study, its closing included.
pub fn valid(random: &mut Random) -> Vec<Record> {
    let most_effects = random.pick(&[1, 2, 3, 3, 8, 8, 256]);
    let mut maker = Maker {
        random,
        targets: Vec::new(),
        records: Vec::new(),
        leaks: 0,
        most_effects,
        form: None,
    };
    maker.study();
    maker.records
}

impl Maker<'_> {
    fn study(&mut self) {
        let number = self.random.any_size(32) as u32;
        self.records.push(opening(number));
        self.declare_targets();
        let scenarios = match self.random.below(10) {
            0 => 0,
            1..=6 => self.random.between(1, 2),
            7 | 8 => self.random.between(3, 6),
            _ => self.random.between(7, 20),
        };
        let mut next = match self.random.below(4) {
            0 => 0,
            1 => 1,
            _ => self.random.any_size(31),
        };
        for left in (0..scenarios).rev() {
            if left == 0 && self.random.percent(5) {
                next = u64::from(u32::MAX);
            }
            self.scenario(next as u32);
            next += 1 + self.random.pick(&[0, 0, 0, 1, 255, 65_536]);
        }
        let count = self.records.len() as u32 + 1;
        self.records.push(closing(count, self.leaks));
    }

    fn declare_targets(&mut self) {
        let count = match self.random.below(100) {
            0..=9 => 0,
            10..=24 => 1,
            25..=74 => self.random.between(2, 8),
            75..=96 => self.random.between(9, 30),
            97 | 98 => self.random.between(31, 255),
            _ => 256,
        };
        for number in 0..count {
            let class = self.random.below(6) as u8;
            let setting = if class == 0 {
                self.random.below(3) as u8
            } else {
                0
            };
            let (volume, edge_heat) = match class {
                1 | 5 if self.random.percent(50) => edge_volume(self.random),
                2 if self.random.percent(20) => self.random.pick(sphere_edges()),
                2 if self.random.percent(70) => (sphere_volume(self.random), 0),
                _ => (self.volume(), 0),
            };
            self.targets.push(Facts {
                class,
                setting,
                volume,
                edge_heat,
            });
            self.records
                .push(target(number as u16, class, setting, volume));
        }
    }

    fn volume(&mut self) -> u32 {
        match self.random.below(3) {
            0 => self
                .random
                .pick(&[0, 0, 1, 2, 500, 1_000, 20_000, 99_999, 100_000]),
            1 => self.random.between(0, 100_000) as u32,
            _ => self.random.any_size(16) as u32,
        }
    }

    fn scenario(&mut self, number: u32) {
        let frequency = frequency(self.random);
        self.leaks += frequency;
        self.records.push(leak(number, frequency));
        let level = self.random.between(1, 8) as u32;
        let shape = match self.random.below(10) {
            0..=4 => Shape::Spread(self.random.pick(&[0, 20, 40, 50])),
            5 => Shape::Spread(60),
            6 => Shape::First(level),
            7 => Shape::Second(level),
            _ => Shape::Either(level),
        };
        self.form = branchings::of_tree(self.random);
        self.tree(shape, 0);
    }

    /// A tree with this many branchings above it.
    fn tree(&mut self, shape: Shape, above: u32) {
        let branches = match shape {
            Shape::Spread(percent) => above < 8 && self.random.percent(percent),
            Shape::First(level) | Shape::Second(level) | Shape::Either(level) => above < level,
        };
        if !branches {
            self.outcome();
            return;
        }
        let branching = branchings::valid(self.random, self.form);
        self.records.push(branching);
        let first = match shape {
            Shape::Spread(_) => {
                self.tree(shape, above + 1);
                self.tree(shape, above + 1);
                return;
            }
            Shape::First(_) => true,
            Shape::Second(_) => false,
            Shape::Either(_) => self.random.percent(50),
        };
        if first {
            self.tree(shape, above + 1);
            self.outcome();
        } else {
            self.outcome();
            self.tree(shape, above + 1);
        }
    }

    fn outcome(&mut self) {
        let kind = self.random.below(6) as u8;
        let named = if kind == outcome::NO_EFFECT {
            Vec::new()
        } else {
            self.named_targets()
        };
        self.records.push(outcome(kind, named.len() as u16));
        let timing = timing::of_outcome(self.random);
        for number in named {
            let facts = self.targets[usize::from(number)];
            let effect = valid_effect(self.random, kind, timing, number, facts);
            self.records.push(effect);
        }
    }

    /// Some of the targets, rising.
    fn named_targets(&mut self) -> Vec<u16> {
        let count = self.targets.len() as u64;
        let wanted = self.random.between(0, self.most_effects.min(count));
        let mut left = wanted;
        let mut named = Vec::new();
        for number in 0..count {
            if self.random.below(count - number) < left {
                named.push(number as u16);
                left -= 1;
            }
        }
        named
    }
}

/// A leak's frequency, odd ones and those around the limits.
pub fn frequency(random: &mut Random) -> u64 {
    let frequency = match random.below(6) {
        0 => random.pick(&[1, 2, 3, 7, 10_000_000_000_000, 9_999_999_999_999]),
        1 => random.pick(&[9_999_999, 10_000_000, 10_000_001]),
        2 => 10u64.pow(random.below(13) as u32 + 1) + random.below(3) - 1,
        3 => random.between(1, 10_000_000_000_000),
        _ => random.any_size(43),
    };
    frequency.clamp(1, 10_000_000_000_000)
}

/// A valid effect of an outcome whose effects have this timing, or each one its
/// own.
pub fn valid_effect(
    random: &mut Random,
    kind: u8,
    timing: Option<Timing>,
    target: u16,
    facts: Facts,
) -> Record {
    let timing = timing.unwrap_or_else(|| random.pick(&Timing::ALL));
    let (intensity, duration) = effect_values(random, kind, facts, timing.clock());
    timing.effect(target, intensity, duration)
}

/// Intensity and duration of a valid effect by a clock.
fn effect_values(random: &mut Random, kind: u8, facts: Facts, clock: &Clock) -> (u32, u16) {
    let limit = clock.limit;
    match kind {
        outcome::FLASH_FIRE => (random.below(2) as u32, 0),
        outcome::EXPLOSION => (overpressure(random, facts), 0),
        _ if facts.edge_heat > 0 && random.percent(40) => {
            let durations = [limit, limit + 1, limit + 2, limit + 4_032, 65_535];
            (facts.edge_heat, random.pick(&durations))
        }
        _ => {
            let duration = duration(random, facts, clock);
            (heat(random, facts, clock, duration), duration)
        }
    }
}

fn duration(random: &mut Random, facts: Facts, clock: &Clock) -> u16 {
    let Clock { longest, limit, .. } = *clock;
    match random.below(4) {
        0 => random.between(1, u64::from(longest) + 2) as u16,
        1 if facts.class == 0 => random.pick(&[1, longest - 1, longest, longest + 1, 65_535]),
        1 => random.pick(&[1, limit - 1, limit, limit + 1, limit + 2, 65_535]),
        2 if facts.class != 0 => {
            random.between(u64::from(limit) - 5, u64::from(limit) + 100) as u16
        }
        _ => random.between(1, 65_535) as u16,
    }
}

fn heat(random: &mut Random, facts: Facts, clock: &Clock, duration: u16) -> u32 {
    match (random.below(6), facts.class) {
        (0, 0) => random.pick(&[0, 1, 2, 3, 34_999, 35_000, 35_001]),
        (0, 2) => random.pick(&[0, 1, 39_999, 40_000, 40_001, 40_002]),
        (0, _) => random.pick(&[0, 1, 14_999, 15_000, 15_001, 15_002]),
        // From 60,000 to nearly 4,000,000,000, each octave as often.
        (1, 2) => (random.between(60_000, 119_999) << random.below(16)) as u32,
        (1, _) => random.between(0, 40_000) as u32,
        (2, _) => step_value(random),
        (3, _) => random.any_size(32) as u32,
        (_, 0) => edge_of_chance(random, |heat| {
            probit::chance(chance::fire_death_probit(clock, heat, duration))
        }),
        (_, class) => {
            let volume = chance::volume_term(class, facts.volume).unwrap_or(0);
            edge_of_chance(random, |heat| {
                probit::chance(chance::fire_damage_probit(class, heat, volume))
            })
        }
    }
}

/// The overpressure from which each class is damaged.
const DAMAGING: [u64; 6] = [10_000, 5_170, 30_000, 17_000, 18_700, 30_000];

fn overpressure(random: &mut Random, facts: Facts) -> u32 {
    let threshold = DAMAGING[usize::from(facts.class)];
    match (random.below(6), facts.class) {
        (0, _) => (threshold + random.below(3) - 1) as u32,
        (1, _) => random.between(0, 200_000) as u32,
        (2, _) => step_value(random),
        (3, _) => random.any_size(32) as u32,
        (_, 0) => random.pick(&[0, 9_999, 10_000, 29_999, 30_000, 30_001]),
        (4, 1) => random.between(66_000, 71_000) as u32,
        (_, class) => edge_of_chance(random, |pressure| chance::blast_damage(class, pressure)),
    }
}

/// The least number of a step of the logarithm, or a neighbour.
fn step_value(random: &mut Random) -> u32 {
    let mantissa = u64::from(random.pick(&THRESHOLDS));
    let octave = random.pick(&[14, 15, 16, 17, 12, 31]);
    let least = mantissa.div_ceil(1 << (31 - octave));
    (least + random.below(3) - 1).min(u64::from(u32::MAX)) as u32
}

/// A volume and a heat at which the probit of damage by fire for classes 1 and
/// 5 is exactly an entry of the table, or one millionth less.
fn edge_volume(random: &mut Random) -> (u32, u32) {
    for _ in 0..100 {
        let heat = random.between(15_001, 400_000) as u32;
        let entry = random.between(267, 809) as i64 * 10_000;
        if probit::chance(entry) == probit::chance(entry - 1) {
            continue;
        }
        let needed = entry - chance::fire_damage_probit(1, heat, 0);
        let Ok(needed @ 1..=4_925_949) = i32::try_from(needed) else {
            continue;
        };
        let volume = (needed as u64 * 100_000).div_ceil(4_925_949) as u32;
        let term = |volume| chance::volume_term(1, volume);
        if term(volume) == Some(needed) {
            return (volume, heat);
        }
        if term(volume - 1) == Some(needed - 1) {
            return (volume - 1, heat);
        }
    }
    (random.between(0, 100_000) as u32, 0)
}

/// A volume of class 2 around the limits and the steps of K.
fn sphere_volume(random: &mut Random) -> u32 {
    match random.below(4) {
        0 => random.pick(&[0, 1, MOST, MOST + 1]),
        1 => random.between(1, MOST.into()) as u32,
        _ => u32::from(random.pick(&LEAST)) - random.below(2) as u32,
    }
}

/// Least volumes of some K and heats at which the probit of damage by fire for
/// class 2 is exactly an entry of the table, or one millionth less: all of them.
fn sphere_edges() -> &'static [(u32, u32)] {
    static EDGES: OnceLock<Vec<(u32, u32)>> = OnceLock::new();
    EDGES.get_or_init(|| {
        let mut edges = Vec::new();
        for volume in LEAST.map(u32::from) {
            let term = chance::volume_term(2, volume).unwrap_or(0);
            let probit = |heat| chance::fire_damage_probit(2, heat, term);
            for entry in (267..=809).map(|entry| entry * 10_000) {
                if probit::chance(entry) == probit::chance(entry - 1) {
                    continue;
                }
                let heat = least(|heat| probit(heat) >= entry - 1);
                if probit(heat) <= entry && !edges.contains(&(volume, heat)) {
                    edges.push((volume, heat));
                }
            }
        }
        edges
    })
}

/// The least value at which the chance, rising with it, reaches a random
/// percentage, or a neighbour.
fn edge_of_chance(random: &mut Random, chance: impl Fn(u32) -> u32) -> u32 {
    let wanted = if random.percent(20) {
        random.between(991, 999) as u32 * 1_000
    } else {
        random.between(1, 100) as u32 * 10_000
    };
    let value = least(|value| chance(value) >= wanted);
    let value = value.saturating_add(random.below(3) as u32);
    value.saturating_sub(1)
}

/// The least value that reaches something, or the greatest where none does.
fn least(reaches: impl Fn(u32) -> bool) -> u32 {
    let (mut low, mut high) = (0, u32::MAX);
    while low < high {
        let middle = low + (high - low) / 2;
        if reaches(middle) {
            high = middle;
        } else {
            low = middle + 1;
        }
    }
    low
}

#[test]
fn edges_of_spheres() {
    let edges = sphere_edges();
    assert_eq!(edges.len(), 16);
    // K 1204 and L 5,313 give exactly 5.95, K 1342 and L 5,599 a millionth less
    // than 5.05.
    assert!(edges.contains(&(331, 1_768_269)));
    assert!(edges.contains(&(9_824, 3_835_794)));
}
