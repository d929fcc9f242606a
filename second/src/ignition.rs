//! Chances of ignition by request P3 of document 02: tables E.3.2-1 to E.3.2-13
//! of source document 004, the curves 1 to 13.

use crate::study::Study;

/// The tabulated release rates, from 0.1 to 1000 kg/s, in tenths of a gram per
/// second.
pub const RATES: [u32; 13] = [
    1_000, 2_000, 5_000, 10_000, 20_000, 50_000, 100_000, 200_000, 500_000, 1_000_000, 2_000_000,
    5_000_000, 10_000_000,
];

/// Curves 1 to 13: the chances at the tabulated rates, in ten-thousandths, as they
/// are printed but for curve 8 at 500 kg/s, which P3 sets to 0.1200 (printed 0.160).
#[rustfmt::skip]
pub const CURVES: [[u16; RATES.len()]; Study::MAX_CURVE as usize] = [
    [10, 13, 19, 25, 74, 204, 339, 564, 1107, 1842, 3065, 6000, 6000],
    [10, 13, 18, 24, 42, 88, 155, 272, 570, 1000, 1000, 1000, 1000],
    [10, 13, 18, 24, 42, 88, 130, 130, 130, 130, 130, 130, 130],
    [10, 13, 19, 25, 50, 125, 250, 500, 1250, 2500, 5000, 6500, 6500],
    [10, 13, 19, 25, 45, 97, 173, 310, 670, 1200, 1300, 1300, 1300],
    [10, 13, 18, 24, 42, 88, 155, 272, 500, 500, 500, 500, 500],
    [10, 13, 19, 25, 58, 176, 407, 942, 2860, 4815, 6000, 7000, 7000],
    [10, 11, 12, 12, 16, 24, 37, 68, 153, 281, 517, 1200, 1200],
    [10, 11, 12, 12, 16, 24, 37, 68, 150, 150, 150, 150, 150],
    [10, 10, 10, 10, 11, 11, 14, 21, 24, 24, 24, 24, 24],
    [10, 10, 11, 12, 32, 121, 334, 917, 3492, 9600, 10000, 10000, 10000],
    [10, 10, 11, 12, 26, 73, 162, 359, 1026, 2270, 3555, 6434, 10000],
    [10, 10, 11, 12, 25, 71, 154, 204, 296, 392, 520, 755, 1000],
];

/// Millionths in a ten-thousandth.
const TEN_THOUSANDTH: u32 = 100;

/// The chance of ignition, in millionths, by a curve at a release rate: that at
/// the least tabulated rate not below it, above 1000 kg/s the last. None for a
/// curve that there is not, and for rate 0.
#[inline]
pub fn chance(curve: u8, rate: u32) -> Option<u32> {
    let row = CURVES.get(usize::from(curve).checked_sub(1)?)?;
    match rate {
        0 => None,
        _ => Some(u32::from(row[column(rate)]) * TEN_THOUSANDTH),
    }
}

/// The place of a release rate among the tabulated ones: how many of them, but
/// for the last, are below it.
#[inline]
pub fn column(rate: u32) -> usize {
    let least = usize::from(BELOW[rate.leading_zeros() as usize]);
    (least + usize::from(RATES[least] < rate)).min(RATES.len() - 1)
}

/// How many of the tabulated rates, but for the last, are below every rate with
/// so many leading zeros. Each tabulated rate is at least twice the one before:
/// among the rates with as many zeros there is at most one of them.
static BELOW: [u8; 33] = below();

const fn below() -> [u8; 33] {
    let mut below = [0; 33];
    let mut zeros = 0;
    while zeros < 32 {
        let least = 1 << (31 - zeros);
        while below[zeros] < RATES.len() as u8 - 1 && RATES[below[zeros] as usize] < least {
            below[zeros] += 1;
        }
        zeros += 1;
    }
    below
}

#[cfg(test)]
mod tests {
    use super::*;

    /// The figures as they are printed, in millionths: a line of rates, then one
    /// line a curve.
    const PRINTED: &str = include_str!("../tests/ignition-curves.csv");

    fn numbers(line: &str) -> Vec<u32> {
        let words = line.split(',').skip(1);
        words.map(|word| word.parse().expect("a number")).collect()
    }

    /// The rates, and curve by curve the chances printed.
    fn printed() -> (Vec<u32>, Vec<Vec<u32>>) {
        let mut lines = PRINTED.lines();
        let rates = numbers(lines.next().expect("the rates"));
        let curves = lines.zip(1..).map(|(line, curve)| {
            assert!(line.starts_with(&format!("{curve},")), "{line}");
            numbers(line)
        });
        (rates, curves.collect())
    }

    /// The printed chances with the one that P3 sets.
    fn ruled() -> (Vec<u32>, Vec<Vec<u32>>) {
        let (rates, mut curves) = printed();
        assert_eq!((rates[11], curves[7][11]), (5_000_000, 160_000));
        curves[7][11] = 120_000;
        (rates, curves)
    }

    #[test]
    fn every_printed_figure_but_one() {
        let (rates, curves) = printed();
        assert_eq!(rates, RATES);
        let mut figures = 0;
        let mut others = Vec::new();
        for (curve, chances) in (1..).zip(curves) {
            for (&rate, printed) in rates.iter().zip(chances) {
                figures += 1;
                let given = chance(curve, rate).expect("a chance");
                if given != printed {
                    others.push((curve, rate, printed, given));
                }
            }
        }
        assert_eq!(figures, 169);
        assert_eq!(others, [(8, 5_000_000, 160_000, 120_000)]);
    }

    #[test]
    fn each_rate_at_one_below_and_one_above() {
        let (rates, curves) = ruled();
        for (curve, chances) in (1..).zip(curves) {
            for (i, &rate) in rates.iter().enumerate() {
                let above = chances[(i + 1).min(12)];
                let around = [rate - 1, rate, rate + 1].map(|rate| chance(curve, rate));
                let expected = [chances[i], chances[i], above].map(Some);
                assert_eq!(around, expected, "curve {curve} at {rate}");
            }
        }
    }

    #[test]
    fn columns_at_and_around_rates_and_powers_of_two() {
        let powers = (1..32).map(|power| 1 << power);
        for rate in RATES.into_iter().chain(powers).chain([u32::MAX - 1]) {
            for rate in [rate - 1, rate, rate + 1] {
                let below = RATES[..12].iter().filter(|&&tabulated| tabulated < rate);
                assert_eq!(column(rate), below.count(), "at {rate}");
            }
        }
    }

    #[test]
    fn the_ends() {
        let (_, curves) = ruled();
        for (curve, chances) in (1..).zip(curves) {
            let ends = [1, 10_000_001, 20_000_000, u32::MAX].map(|rate| chance(curve, rate));
            let expected = [chances[0], chances[12], chances[12], chances[12]].map(Some);
            assert_eq!(ends, expected, "curve {curve}");
            assert_eq!(chance(curve, 0), None, "curve {curve}");
        }
        for curve in [0, 14, 15, 26, 128, 255] {
            for rate in [0, 1, 1_000, 10_000_000, u32::MAX] {
                assert_eq!(chance(curve, rate), None, "curve {curve} at {rate}");
            }
        }
    }

    #[test]
    fn no_curve_falls() {
        for (row, curve) in CURVES.iter().zip(1..) {
            assert!(row.is_sorted(), "curve {curve}");
            assert!(row[12] <= 10_000, "curve {curve}");
        }
        assert!(RATES.is_sorted_by(|a, b| 2 * a <= *b));
    }
}
