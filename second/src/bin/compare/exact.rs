//! Demand 3 on generated studies: the kinds' totals add up to the leaks, and
//! each reported sum differs from the exact one by less than its margin.
//!
//! The exact sum is counted in parts of 10^-54 of a unit: a leak weighs its
//! frequency times 10^48, an effect adds weight times chance.

use crate::branchings::Form;
use crate::coverage;
use crate::random::Random;
use crate::studies::{self, Record, number};
use crate::timing::Timing;
use second_desk::{Study, ignition, record};

const MILLION: u64 = 1_000_000;

/// A whole number of 320 bits, the least significant part first.
#[derive(Clone, Copy, PartialEq, Eq, Debug)]
struct Large([u64; 5]);

impl Large {
    fn from(number: u64) -> Large {
        Large([number, 0, 0, 0, 0])
    }

    fn times(self, factor: u64) -> Large {
        let mut carry = 0u128;
        let product = Large(self.0.map(|part| {
            carry += u128::from(part) * u128::from(factor);
            let low = carry as u64;
            carry >>= 64;
            low
        }));
        assert_eq!(carry, 0, "the product fits");
        product
    }

    /// The quotient, which must leave no rest.
    fn divided(self, divisor: u64) -> Large {
        let mut quotient = self.0;
        let mut rest = 0u128;
        for part in quotient.iter_mut().rev() {
            rest = rest << 64 | u128::from(*part);
            *part = (rest / u128::from(divisor)) as u64;
            rest %= u128::from(divisor);
        }
        assert_eq!(rest, 0, "the quotient is whole");
        Large(quotient)
    }

    fn plus(self, other: Large) -> Large {
        let mut sum = self.0;
        let mut carry = false;
        for (part, more) in sum.iter_mut().zip(other.0) {
            let (low, first) = part.overflowing_add(more);
            let (low, second) = low.overflowing_add(u64::from(carry));
            *part = low;
            carry = first || second;
        }
        assert!(!carry, "the sum fits");
        Large(sum)
    }

    fn minus(self, other: Large) -> Large {
        let mut difference = self.0;
        let mut borrow = false;
        for (part, less) in difference.iter_mut().zip(other.0) {
            let (low, first) = part.overflowing_sub(less);
            let (low, second) = low.overflowing_sub(u64::from(borrow));
            *part = low;
            borrow = first || second;
        }
        assert!(!borrow, "the difference is not below 0");
        Large(difference)
    }

    fn less(self, other: Large) -> bool {
        self.0.iter().rev().lt(other.0.iter().rev())
    }

    /// Times 10 to the power 6 × `sixes`.
    fn millions(self, sixes: u32) -> Large {
        (0..sixes).fold(self, |number, _| number.times(MILLION))
    }
}

/// The exact sums, and the margins, of a valid study's targets.
struct Exact<'a> {
    rest: std::slice::Iter<'a, Record>,
    targets: Vec<&'a Record>,
    sums: Vec<Large>,
    margins: Vec<u64>,
}

fn exact(records: &[Record]) -> Exact<'_> {
    let targets: Vec<&Record> = records
        .iter()
        .filter(|record| record[0] == record::TARGET)
        .collect();
    let mut exact = Exact {
        rest: records.iter(),
        sums: vec![Large::from(0); targets.len()],
        margins: vec![0; targets.len()],
        targets,
    };
    while let Some(record) = exact.rest.next() {
        if record[0] == record::LEAK {
            let weight = Large::from(number(record, 5, 8)).millions(8);
            exact.tree(weight, 0);
        }
    }
    exact
}

impl Exact<'_> {
    fn tree(&mut self, weight: Large, above: u64) {
        let record = self.rest.next().expect("a tree");
        if let Some(chance) = chance_of_branch(record) {
            let first = weight.times(chance).divided(MILLION);
            self.tree(first, above + 1);
            self.tree(weight.minus(first), above + 1);
            return;
        }
        for _ in 0..number(record, 2, 2) {
            let effect = self.rest.next().expect("an effect");
            let target = number(effect, 1, 2) as usize;
            let clock = Timing::of(effect).expect("an effect").clock();
            let chance = coverage::chance(record[1], self.targets[target], effect, clock);
            let part = weight.times(chance.unwrap_or(0).into());
            self.sums[target] = self.sums[target].plus(part);
            self.margins[target] += above + 1;
        }
    }
}

/// The chance of a branching's first branch; none where a record is none.
fn chance_of_branch(record: &[u8]) -> Option<u64> {
    match Form::of(record)? {
        Form::Chance => Some(number(record, 1, 4)),
        Form::Curve => ignition::chance(record[1], number(record, 2, 4) as u32).map(u64::from),
    }
}

#[test]
fn sums_within_their_margins_and_totals_of_the_kinds() {
    let mut apart = 0;
    for index in 0..3_000 {
        let records = studies::valid(&mut Random::new(3, index));
        let mut study = Study::new();
        assert_eq!(study.piece(&records.concat()).number, 0);
        let totals = study.totals().figures.expect("a closed study");
        assert_eq!(totals.kinds.iter().sum::<u64>(), totals.leaks);
        let exact = exact(&records);
        for (target, (&sum, &margin)) in exact.sums.iter().zip(&exact.margins).enumerate() {
            let figures = study.target(target as u16).figures.expect("a target");
            assert_eq!(u64::from(figures.margin), margin);
            let reported = Large::from(figures.sum).millions(9);
            if margin == 0 {
                assert_eq!((reported, sum), (Large::from(0), Large::from(0)));
                continue;
            }
            let (low, high) = if reported.less(sum) {
                (reported, sum)
            } else {
                (sum, reported)
            };
            let bound = Large::from(margin).millions(9);
            assert!(high.minus(low).less(bound), "study {index} target {target}");
            apart += u32::from(reported != sum);
        }
    }
    assert!(apart > 1_000, "rounding was seen often");
}
