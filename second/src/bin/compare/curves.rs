//! How often each case of the branchings comes up.

use crate::branchings::Form;
use crate::coverage::{Group, Set, count_cuts};
use crate::studies::number;
use second_desk::Study;
use second_desk::ignition::{RATES, column};
use second_desk::record::{self, number as answer};

/// The kinds of a tree's branchings.
const TREES: [&str; 4] = [
    "kind 4 alone",
    "kind 10 alone",
    "both, on up to seven levels",
    "both, on eight levels",
];

/// Release rates.
const ENDS: [&str; 3] = ["below 0.1 kg/s", "0.1 to 1000 kg/s", "above 1000 kg/s"];

/// Why a branching of kind 10 is refused.
const REFUSED: [&str; 7] = [
    "curve 0",
    "a curve above 13",
    "rate 0",
    "curve and rate",
    "a ninth level (5)",
    "a ninth level, and curve or rate (5)",
    "out of order (2)",
];

const CURVES: usize = Study::MAX_CURVE as usize;

/// Cases and how often they came up.
#[derive(Clone, Copy)]
pub struct Curves {
    /// Trees with branchings, by `TREES`.
    trees: [u64; TREES.len()],
    /// Branchings of kind 10, by `ENDS`.
    ends: [u64; ENDS.len()],
    /// Refused branchings of kind 10, by `REFUSED`.
    refused: [u64; REFUSED.len()],
    /// Branchings of kind 10, by curve and tabulated rate.
    chances: [u64; CURVES * RATES.len()],
    /// Branchings of kind 10 with a rate one below a tabulated one, equal to it,
    /// or one above.
    around: [u64; RATES.len() * 3],
    /// Records of kind 10 that a piece's end cuts, by the place of the cut.
    cuts: [u64; 5],
}

impl Default for Curves {
    fn default() -> Self {
        Curves {
            trees: [0; TREES.len()],
            ends: [0; ENDS.len()],
            refused: [0; REFUSED.len()],
            chances: [0; CURVES * RATES.len()],
            around: [0; RATES.len() * 3],
            cuts: [0; 5],
        }
    }
}

impl Curves {
    pub fn all(&self) -> [&[u64]; 6] {
        [
            &self.trees,
            &self.ends,
            &self.refused,
            &self.chances,
            &self.around,
            &self.cuts,
        ]
    }

    pub fn all_mut(&mut self) -> [&mut [u64]; 6] {
        [
            &mut self.trees,
            &mut self.ends,
            &mut self.refused,
            &mut self.chances,
            &mut self.around,
            &mut self.cuts,
        ]
    }

    /// The cases that have names.
    pub fn groups(&self) -> [Group<'_>; 3] {
        [
            Group::new("tree's branchings", &TREES, &self.trees),
            Group::new("rate of kind 10", &ENDS, &self.ends),
            Group::new("kind 10 refused", &REFUSED, &self.refused),
        ]
    }

    /// The cases that are only counted.
    pub fn sets(&self) -> [Set<'_>; 3] {
        [
            Set::new("chances of the curves", "parted a frequency", &self.chances),
            Set::new(
                "rates at and around those tabulated",
                "came up",
                &self.around,
            ),
            Set::new(
                "places inside a record of kind 10",
                "were a piece's end",
                &self.cuts,
            ),
        ]
    }

    /// A branching of kind 10 at a place, and the ends of the pieces.
    fn branching(&mut self, record: &[u8], place: usize, ends: &[usize]) {
        let (curve, rate) = (usize::from(record[1]), number(record, 2, 4) as u32);
        let [first, .., last] = RATES;
        self.ends[usize::from(rate >= first) + usize::from(rate > last)] += 1;
        self.chances[(curve - 1) * RATES.len() + column(rate)] += 1;
        for (tabulated, around) in RATES.iter().zip(self.around.chunks_mut(3)) {
            let neighbours = [tabulated - 1, *tabulated, tabulated + 1];
            for (neighbour, count) in neighbours.iter().zip(around) {
                *count += u64::from(*neighbour == rate);
            }
        }
        count_cuts(&mut self.cuts, place, ends);
    }

    /// A branching of kind 10 that is refused with a number.
    pub fn refusal(&mut self, record: &[u8], refusal: u8) {
        let curve = (1..=Study::MAX_CURVE).contains(&record[1]);
        let rate = number(record, 2, 4) > 0;
        let case = match (refusal, curve, rate) {
            (answer::ORDER, ..) => 6,
            (answer::TOO_MANY, true, true) => 4,
            (answer::TOO_MANY, ..) => 5,
            (_, false, false) => 3,
            (_, true, _) => 2,
            (_, false, _) => usize::from(record[1] > 0),
        };
        self.refused[case] += 1;
    }
}

/// The branchings of a closed study's tree, as far as it was read.
#[derive(Default)]
pub struct Tree {
    level: usize,
    deepest: usize,
    /// The levels of second branches that were not read yet.
    waiting: Vec<usize>,
    /// The forms of its branchings, one bit each.
    forms: u8,
}

impl Tree {
    /// The next record of the study, its place, and the ends of the pieces.
    pub fn record(&mut self, curves: &mut Curves, record: &[u8], place: usize, ends: &[usize]) {
        if let Some(form) = Form::of(record) {
            self.level += 1;
            self.deepest = self.deepest.max(self.level);
            self.waiting.push(self.level);
            self.forms |= 1 << form as u8;
            if form == Form::Curve {
                curves.branching(record, place, ends);
            }
        }
        if record[0] == record::OUTCOME {
            match self.waiting.pop() {
                Some(level) => self.level = level,
                None => self.end(curves),
            }
        }
    }

    fn end(&mut self, curves: &mut Curves) {
        match (self.forms, self.deepest) {
            (0b01, _) => curves.trees[0] += 1,
            (0b10, _) => curves.trees[1] += 1,
            (0b11, 8) => curves.trees[3] += 1,
            (0b11, _) => curves.trees[2] += 1,
            _ => {}
        }
        *self = Tree::default();
    }
}
