//! The studies that are timed, made from a seed.

use second_desk::ignition::RATES;
use second_desk::{Study, record};

/// A closed study.
pub struct Input {
    pub name: &'static str,
    pub bytes: Vec<u8>,
    pub records: u32,
    pub targets: u16,
}

pub fn inputs(seed: u64) -> [Input; 6] {
    [
        effects(seed),
        timed_effects(seed),
        mixed_timings(seed),
        deep_trees(seed),
        ignition_curves(seed),
        small_scenarios(seed),
    ]
}

/// Numbers from a seed (splitmix64).
struct Random(u64);

impl Random {
    fn below(&mut self, bound: u64) -> u64 {
        self.0 = self.0.wrapping_add(0x9e37_79b9_7f4a_7c15);
        let mut mixed = self.0;
        mixed = (mixed ^ (mixed >> 30)).wrapping_mul(0xbf58_476d_1ce4_e5b9);
        mixed = (mixed ^ (mixed >> 27)).wrapping_mul(0x94d0_49bb_1331_11eb);
        (mixed ^ (mixed >> 31)) % bound
    }
}

/// How the effects of a study are timed.
#[derive(Clone, Copy)]
enum Timing {
    /// By kind 6.
    Plain,
    /// By kind 8, each outcome in one unit, seven of eight in tenths.
    ByOutcome,
    /// Each by kind 6, by kind 8 in seconds or by kind 8 in tenths.
    ByEffect,
}

/// How the branchings of a study give their chances.
#[derive(Clone, Copy)]
enum Branchings {
    /// By kind 4.
    Chances,
    /// By kind 10.
    Curves,
}

struct Maker {
    random: Random,
    timing: Timing,
    branchings: Branchings,
    bytes: Vec<u8>,
    records: u32,
    scenarios: u32,
    leaks: u64,
    targets: u16,
}

impl Maker {
    fn new(seed: u64, targets: u16) -> Maker {
        let mut maker = Maker {
            random: Random(seed),
            timing: Timing::Plain,
            branchings: Branchings::Chances,
            bytes: Vec::new(),
            records: 0,
            scenarios: 0,
            leaks: 0,
            targets,
        };
        maker.record(record::OPENING, &[&seed.to_be_bytes()[4..]]);
        for number in 0..targets {
            let class = maker.random.below(6) as u8;
            let people = class == 0;
            let setting = if people {
                maker.random.below(3) as u8
            } else {
                0
            };
            let volume = maker.random.below(100_001) as u32;
            maker.record(
                record::TARGET,
                &[
                    &number.to_be_bytes(),
                    &[class, setting],
                    &volume.to_be_bytes(),
                ],
            );
        }
        maker
    }

    fn record(&mut self, kind: u8, fields: &[&[u8]]) {
        self.bytes.push(kind);
        for field in fields {
            self.bytes.extend_from_slice(field);
        }
        self.records += 1;
    }

    fn leak(&mut self) {
        let frequency = 1_000_000 + self.random.below(1_000_000_000_000);
        let number = self.scenarios.to_be_bytes();
        self.record(record::LEAK, &[&number, &frequency.to_be_bytes()]);
        self.scenarios += 1;
        self.leaks += frequency;
    }

    fn branching(&mut self) {
        match self.branchings {
            Branchings::Chances => {
                let chance = self.random.below(1_000_001) as u32;
                self.record(record::BRANCHING, &[&chance.to_be_bytes()]);
            }
            Branchings::Curves => {
                let curve = self.random.below(Study::MAX_CURVE.into()) as u8 + 1;
                let rate = self.release_rate().to_be_bytes();
                self.record(record::CURVE_BRANCHING, &[&[curve], &rate]);
            }
        }
    }

    /// A release rate that takes the chance at each tabulated one as often.
    fn release_rate(&mut self) -> u32 {
        let tabulated = RATES[self.random.below(RATES.len() as u64) as usize];
        tabulated - self.random.below(u64::from(tabulated / 2)) as u32
    }

    /// An outcome with effects on so many targets from the first on.
    fn outcome(&mut self, kind: u8, effects: u16) {
        self.record(record::OUTCOME, &[&[kind], &effects.to_be_bytes()]);
        let last = self.targets - effects;
        let from = self.random.below(u64::from(last) + 1) as u16;
        let outcome = match self.timing {
            Timing::ByOutcome => Some(self.random.below(8) > 0),
            _ => None,
        };
        for target in from..from + effects {
            let unit = match self.timing {
                Timing::ByEffect => [None, Some(false), Some(true)][self.random.below(3) as usize],
                _ => outcome,
            };
            self.effect(kind, target, unit);
        }
    }

    /// An effect of kind 8, in tenths or not, or one of kind 6.
    fn effect(&mut self, kind: u8, target: u16, unit: Option<bool>) {
        let tenths = unit == Some(true);
        let longest = if tenths { 20_000 } else { 2_000 };
        let (intensity, duration) = match kind {
            1..=3 => (self.random.below(50_000), self.random.below(longest) + 1),
            4 => (self.random.below(2), 0),
            _ => (self.random.below(200_000), 0),
        };
        let (target, intensity) = (target.to_be_bytes(), (intensity as u32).to_be_bytes());
        let duration = (duration as u16).to_be_bytes();
        if unit.is_some() {
            let last = [u8::from(tenths)];
            self.record(
                record::TIMED_EFFECT,
                &[&target, &intensity, &duration, &last],
            );
        } else {
            self.record(record::EFFECT, &[&target, &intensity, &duration]);
        }
    }

    /// Scenarios with many effects, up to about a million records.
    fn effects(&mut self) {
        while self.records < 998_000 {
            self.leak();
            self.branching();
            self.outcome(0, 0);
            self.branching();
            for _ in 0..2 {
                let kind = self.any_kind();
                let effects = 100 + self.random.below(157) as u16;
                self.outcome(kind, effects);
            }
        }
    }

    /// Scenarios with a branching at every place down to the last level, up to
    /// about a million records.
    fn deep_trees(&mut self) {
        while self.records < 999_000 {
            self.leak();
            self.deep_tree(0);
        }
    }

    fn deep_tree(&mut self, above: u32) {
        if above < 8 {
            self.branching();
            self.deep_tree(above + 1);
            self.deep_tree(above + 1);
        } else {
            let kind = self.random.below(6) as u8;
            let effects = u16::from(kind > 0 && self.random.below(16) == 0);
            self.outcome(kind, effects);
        }
    }

    fn any_kind(&mut self) -> u8 {
        self.random.below(5) as u8 + 1
    }

    fn closed(mut self, name: &'static str) -> Input {
        let (count, sum) = (self.records + 1, self.leaks);
        self.record(record::CLOSING, &[&count.to_be_bytes(), &sum.to_be_bytes()]);
        Input {
            name,
            bytes: self.bytes,
            records: self.records,
            targets: self.targets,
        }
    }
}

/// About a million records, nearly all of them effects on 256 targets.
fn effects(seed: u64) -> Input {
    let mut maker = Maker::new(seed, 256);
    maker.effects();
    maker.closed("effects")
}

/// The same with effects of kind 8, most outcomes in tenths.
fn timed_effects(seed: u64) -> Input {
    let mut maker = Maker::new(seed, 256);
    maker.timing = Timing::ByOutcome;
    maker.effects();
    maker.closed("timed effects")
}

/// The same with effects timed in one of the three ways, each by itself.
fn mixed_timings(seed: u64) -> Input {
    let mut maker = Maker::new(seed, 256);
    maker.timing = Timing::ByEffect;
    maker.effects();
    maker.closed("mixed timings")
}

/// About a million records of trees in which every branching has two branches
/// down to the last level, and few effects.
fn deep_trees(seed: u64) -> Input {
    let mut maker = Maker::new(seed, 32);
    maker.deep_trees();
    maker.closed("deep trees")
}

/// The same with branchings by ignition curves.
fn ignition_curves(seed: u64) -> Input {
    let mut maker = Maker::new(seed, 32);
    maker.branchings = Branchings::Curves;
    maker.deep_trees();
    maker.closed("ignition curves")
}

/// 65,536 scenarios of one or two outcomes with one or two effects each.
fn small_scenarios(seed: u64) -> Input {
    let mut maker = Maker::new(seed, 64);
    while maker.scenarios < 65_536 {
        maker.leak();
        if maker.random.below(2) == 0 {
            maker.branching();
            maker.outcome(0, 0);
        }
        let kind = maker.any_kind();
        let effects = 1 + maker.random.below(2) as u16;
        maker.outcome(kind, effects);
    }
    maker.closed("small scenarios")
}
