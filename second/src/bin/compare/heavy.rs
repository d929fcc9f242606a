//! A few large studies at the bounds and one beyond.

use crate::branchings;
use crate::lists::{domino, one_target, piece};
use crate::random::Random;
use crate::studies::{self, Facts, Record};
use crate::timing::{self, Timing};

/// A large study's name and its list of calls.
pub struct Heavy {
    pub name: &'static str,
    pub calls: Vec<u8>,
}

/// The large studies, one made when it is asked for.
pub const COUNT: u64 = 10;

pub fn heavy(seed: u64, index: u64) -> Heavy {
    let random = &mut Random::new(!seed, index);
    let most = 1_000_000;
    let (name, bytes) = match index {
        0 => ("1,000,000 records", effects(random, most).closed()),
        1 => ("1,000,001 records", effects(random, most + 1).closed()),
        2 => (
            "1,000,000 records and an unknown kind",
            effects(random, most + 1).with(vec![11]),
        ),
        3 => (
            "1,000,000 records and one out of order",
            effects(random, most + 1).with(studies::branching(0)),
        ),
        4 => (
            "an effect beyond 1,000,000 records",
            effects(random, most - 2).cut_outcome(),
        ),
        5 => ("65,536 scenarios", scenarios(random, 65_536).closed()),
        6 => ("65,537 scenarios", scenarios(random, 65_537).closed()),
        7 => (
            "65,537 scenarios, the last one faulty",
            scenarios(random, 65_536).with(studies::leak(0, 0)),
        ),
        8 => ("256 targets", targets(256).closed()),
        _ => ("257 targets", targets(257).closed()),
    };
    let calls = calls(random, &bytes);
    Heavy { name, calls }
}

/// An open study being built.
struct Open {
    bytes: Vec<u8>,
    records: u32,
    leaks: u64,
}

impl Open {
    fn push(&mut self, record: Record) {
        self.bytes.extend(record);
        self.records += 1;
    }

    fn leak(&mut self, scenario: u32, frequency: u64) {
        self.leaks += frequency;
        self.push(studies::leak(scenario, frequency));
    }

    fn closed(mut self) -> Vec<u8> {
        self.push(studies::closing(self.records + 1, self.leaks));
        self.bytes
    }

    fn with(mut self, record: Record) -> Vec<u8> {
        self.push(record);
        self.bytes
    }

    /// A scenario whose outcome has more effects than records are left.
    fn cut_outcome(mut self) -> Vec<u8> {
        self.leak(u32::MAX, 5);
        self.push(studies::outcome(5, 9));
        for (target, timing) in (0..9).zip(Timing::ALL.into_iter().cycle()) {
            self.push(timing.effect(target, 80_000, 0));
        }
        self.bytes
    }
}

fn facts(number: u16) -> Facts {
    let class = (number % 6) as u8;
    let setting = match class {
        0 => (number / 6 % 3) as u8,
        _ => 0,
    };
    // Of class 2 from 0 to 10,000, and two above.
    let volume = match class {
        2 => u32::from(number / 6) * 250,
        _ => u32::from(number) * 300,
    };
    Facts {
        class,
        setting,
        volume,
        edge_heat: 0,
    }
}

fn targets(count: u16) -> Open {
    let mut open = Open {
        bytes: Vec::new(),
        records: 0,
        leaks: 0,
    };
    open.push(studies::opening(2));
    for number in 0..count {
        let facts = facts(number);
        let record = studies::target(number, facts.class, facts.setting, facts.volume);
        open.push(record);
    }
    open
}

/// A study that has this many records with one more, its closing.
fn effects(random: &mut Random, records: u32) -> Open {
    let mut open = targets(256);
    let mut scenario = 0;
    loop {
        let left = records - 1 - open.records;
        if left == 0 {
            return open;
        }
        let kind = random.between(1, 5) as u8;
        let count = left.saturating_sub(2).min(256);
        // No less than two records must be left for the next scenario.
        let count = if left - 2 - count == 1 {
            count - 1
        } else {
            count
        };
        open.leak(scenario, studies::frequency(random));
        open.push(studies::outcome(kind, count as u16));
        let timing = timing::of_outcome(random);
        for target in 0..count as u16 {
            let facts = facts(target);
            let effect = studies::valid_effect(random, kind, timing, target, facts);
            open.push(effect);
        }
        scenario += 1;
    }
}

fn scenarios(random: &mut Random, count: u32) -> Open {
    let mut open = targets(3);
    for number in 0..count {
        open.leak(number, studies::frequency(random));
        open.push(branchings::valid(random, None));
        open.push(studies::outcome(0, 0));
        open.push(studies::outcome(5, 1));
        open.push(studies::effect(1, 70_000, 0));
    }
    open
}

/// The study in large pieces of odd sizes, and reports.
fn calls(random: &mut Random, bytes: &[u8]) -> Vec<u8> {
    let mut calls = Vec::with_capacity(bytes.len() + 10_000);
    let mut rest = bytes;
    while !rest.is_empty() {
        let size = random.between(0, 65_535) as usize;
        let (front, back) = rest.split_at(size.min(rest.len()));
        piece(&mut calls, front);
        rest = back;
    }
    calls.push(b't');
    for target in 0..257 {
        one_target(&mut calls, target);
    }
    domino(&mut calls, 300);
    domino(&mut calls, 0);
    calls
}
