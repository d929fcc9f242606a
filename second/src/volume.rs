//! K of a volume, by request P1 of document 02: the greatest whole number whose
//! 125th power is at most the volume to the fourth times 1000 to the 125th.
//!
//! For volumes from 1 to 10,000 it runs from 1000 to 1342. A table has the
//! least volume of each.

/// The least K, and how many there are.
const FIRST: u32 = 1_000;
const COUNT: usize = 343;

/// The greatest volume whose K is in the table.
pub const MOST: u32 = 10_000;

/// Fractional bits of the fixed-point numbers used to make the table.
const FRACTION: u32 = 56;

/// `LEAST[i]` is the least volume whose K is at least 1000 + i.
pub const LEAST: [u16; COUNT] = least_volumes();

/// K of a volume from 1 to 10,000; none for others.
pub fn root(volume: u32) -> Option<u32> {
    if volume == 0 || volume > MOST {
        return None;
    }
    let reached = LEAST.partition_point(|&least| u32::from(least) <= volume);
    Some(FIRST - 1 + reached as u32)
}

/// The least volume of each K: K / 1000 to the power 125/4, rounded up.
///
/// The power is the product of the fourth root and 31 factors. Each step is
/// rounded down to 56 fractional bits, so the product is low by less than
/// 2^-36. That this never changes an entry is tested with exact arithmetic for
/// every entry.
const fn least_volumes() -> [u16; COUNT] {
    let mut table = [1; COUNT];
    let mut i = 1;
    while i < COUNT {
        let ratio = ((FIRST as u128 + i as u128) << FRACTION) / FIRST as u128;
        let half = (ratio << FRACTION).isqrt();
        let mut power = (half << FRACTION).isqrt();
        let mut factors = 0;
        while factors < 31 {
            power = (power * ratio) >> FRACTION;
            factors += 1;
        }
        // Past K = 1000 the power is never whole, so rounding up is the whole
        // part plus one.
        table[i] = (power >> FRACTION) as u16 + 1;
        i += 1;
    }
    table
}

#[cfg(test)]
mod tests {
    use super::*;
    use std::cmp::Ordering;

    /// Multiplies a number, given as limbs with the lowest first.
    fn multiply(limbs: &mut Vec<u32>, factor: u32) {
        let mut carry = 0;
        for limb in limbs.iter_mut() {
            carry += u64::from(*limb) * u64::from(factor);
            *limb = carry as u32;
            carry >>= 32;
        }
        limbs.push(carry as u32);
    }

    fn power(base: u32, exponent: u32) -> Vec<u32> {
        let mut limbs = vec![1];
        for _ in 0..exponent {
            multiply(&mut limbs, base);
        }
        limbs
    }

    /// Whether K to the 125th is at most the volume to the fourth times 1000 to
    /// the 125th, by exact multiplication. Both have as many limbs.
    fn reaches(volume: u32, k: u32) -> bool {
        let mut limit = power(FIRST, 125);
        for _ in 0..4 {
            multiply(&mut limit, volume);
        }
        let mut power = power(k, 125);
        power.resize(limit.len(), 0);
        power.iter().rev().cmp(limit.iter().rev()) != Ordering::Greater
    }

    #[test]
    fn every_entry_is_the_least_volume_of_its_k() {
        for (&least, k) in LEAST.iter().zip(FIRST..) {
            assert!(reaches(least.into(), k), "at {k}");
            assert!(!reaches(u32::from(least) - 1, k), "at {k}");
        }
        assert!(!reaches(MOST, FIRST + COUNT as u32));
    }

    #[test]
    fn every_root_is_the_greatest() {
        for volume in (1..100).chain((100..=MOST).step_by(99)) {
            let k = root(volume).unwrap();
            assert!(reaches(volume, k) && !reaches(volume, k + 1), "at {volume}");
        }
    }

    #[test]
    fn the_ends_and_some_steps() {
        for (volume, k) in [
            (1, 1_000),
            (2, 1_022),
            (3, 1_035),
            (100, 1_158),
            (9_823, 1_341),
            (9_824, 1_342),
            (10_000, 1_342),
        ] {
            assert_eq!(root(volume), Some(k), "at {volume}");
        }
        for volume in [0, 10_001, 100_000, u32::MAX] {
            assert_eq!(root(volume), None, "at {volume}");
        }
    }
}
