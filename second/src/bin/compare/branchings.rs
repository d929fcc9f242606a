//! The forms of a branching: kind 4 with its chance, kind 10 with an ignition
//! curve and a release rate.

use crate::random::Random;
use crate::studies::{self, Record, set};
use second_desk::{Study, ignition, record};

/// How a branching's record gives the chance of the first branch.
#[derive(Clone, Copy, Debug, PartialEq, Eq)]
pub enum Form {
    /// Kind 4.
    Chance,
    /// Kind 10.
    Curve,
}

impl Form {
    /// The form of a record; none where it is no branching.
    pub fn of(record: &[u8]) -> Option<Form> {
        match record[0] {
            record::BRANCHING => Some(Form::Chance),
            record::CURVE_BRANCHING => Some(Form::Curve),
            _ => None,
        }
    }
}

/// The form of all branchings of a tree; none where each has its own.
pub fn of_tree(random: &mut Random) -> Option<Form> {
    random.pick(&[Some(Form::Chance), Some(Form::Curve), None, None])
}

/// A valid branching of a tree whose branchings have this form, or each one its
/// own.
pub fn valid(random: &mut Random, form: Option<Form>) -> Record {
    match form.unwrap_or_else(|| random.pick(&[Form::Chance, Form::Curve])) {
        Form::Chance => studies::branching(chance_of_branch(random)),
        Form::Curve => {
            let curve = random.between(1, Study::MAX_CURVE.into()) as u8;
            studies::curve_branching(curve, release_rate(random))
        }
    }
}

fn chance_of_branch(random: &mut Random) -> u32 {
    match random.below(3) {
        0 => random.pick(&[0, 1, 2, 500_000, 333_333, 999_998, 999_999, 1_000_000]),
        1 => random.between(0, 1_000_000) as u32,
        _ => random.any_size(19) as u32,
    }
}

/// A release rate: a tabulated one or a neighbour, one at either end, or any.
fn release_rate(random: &mut Random) -> u32 {
    match random.below(5) {
        0..=2 => random.pick(&ignition::RATES) + random.below(3) as u32 - 1,
        3 => random.pick(&[1, 2, 10_000_002, 20_000_000, u32::MAX - 1, u32::MAX]),
        _ => random.any_size(32).max(1) as u32,
    }
}

/// Puts a branching's fields outside their bounds.
pub fn spoil(random: &mut Random, branching: &mut [u8]) {
    if Form::of(branching) != Some(Form::Curve) {
        let chance = random.pick(&[1_000_001, 1_000_002, u64::from(u32::MAX)]);
        set(branching, 1, 4, chance);
        return;
    }
    let fault = random.below(4);
    if fault != 0 {
        branching[1] = random.pick(&[0, 0, 0, 14, 14, 15, 128, 255]);
    }
    if fault < 2 {
        set(branching, 2, 4, 0);
    }
}
