//! The logarithm of document 01: for n from 1 on, L(n) is the greatest m for
//! which 2 to the power m is at most n to the power 256.
//!
//! n is shifted left until its top bit is set (the mantissa). The octave comes
//! from the shift, the step within the octave from a table.

/// Steps in one octave.
pub const STEPS: usize = 256;

/// Fractional bits of the fixed-point numbers used to make the table.
const FRACTION: u32 = 62;

/// Buckets over the mantissas, each narrower than the narrowest step.
const BUCKETS: usize = 512;
const BUCKET_SHIFT: u32 = 22;

/// `THRESHOLDS[k]` is the least mantissa that reaches step k.
pub const THRESHOLDS: [u32; STEPS] = thresholds();

/// `LAST[k]` is the greatest mantissa of step k.
static LAST: [u32; STEPS] = last_mantissas();

/// `FIRST_STEP[b]` is the step of the least mantissa of bucket b.
static FIRST_STEP: [u8; BUCKETS] = first_steps();

/// L(n). `n` is at least 1; for 0 the result is L(1).
#[inline]
pub const fn log(n: u32) -> u32 {
    let n = if n == 0 { 1 } else { n };
    let shift = n.leading_zeros();
    let mantissa = n << shift;
    let bucket = (mantissa >> BUCKET_SHIFT) as usize & (BUCKETS - 1);
    let step = FIRST_STEP[bucket];
    let past = (mantissa > LAST[step as usize]) as u32;
    (31 - shift) * STEPS as u32 + step as u32 + past
}

/// The least mantissa of each step k: 2 to the power 31 + k/256, rounded up.
///
/// 2^(k/256) is the product of the roots 2^(1/2), 2^(1/4), ... 2^(1/256) that
/// the bits of k choose. Each is rounded down to 62 fractional bits, so the
/// product is low by less than 2^-56. That this never changes a threshold is
/// tested with exact arithmetic for every entry.
const fn thresholds() -> [u32; STEPS] {
    let mut roots = [0u128; 8];
    let mut root = 2u128 << FRACTION;
    let mut i = 0;
    while i < 8 {
        root = (root << FRACTION).isqrt();
        roots[i] = root;
        i += 1;
    }
    let mut table = [1u32 << 31; STEPS];
    let mut k = 1;
    while k < STEPS {
        let mut power = 1u128 << FRACTION;
        let mut i = 0;
        while i < 8 {
            if k & (128 >> i) != 0 {
                power = (power * roots[i]) >> FRACTION;
            }
            i += 1;
        }
        // The power is irrational, so rounding up is the whole part plus one.
        table[k] = (power >> (FRACTION - 31)) as u32 + 1;
        k += 1;
    }
    table
}

const fn last_mantissas() -> [u32; STEPS] {
    let mut table = [u32::MAX; STEPS];
    let mut k = 0;
    while k + 1 < STEPS {
        table[k] = THRESHOLDS[k + 1] - 1;
        k += 1;
    }
    table
}

const fn first_steps() -> [u8; BUCKETS] {
    let mut table = [0u8; BUCKETS];
    let mut step = 0;
    let mut bucket = 0;
    while bucket < BUCKETS {
        let least = (1u32 << 31) | ((bucket as u32) << BUCKET_SHIFT);
        while step + 1 < STEPS && THRESHOLDS[step + 1] <= least {
            step += 1;
        }
        table[bucket] = step as u8;
        bucket += 1;
    }
    table
}

#[cfg(test)]
mod tests {
    use super::*;

    /// The number of bits of n to the power 256, by exact multiplication.
    fn bits_of_power(n: u32) -> u32 {
        let mut limbs = vec![n];
        for _ in 0..8 {
            limbs = square(&limbs);
        }
        let top = limbs.iter().rposition(|&limb| limb != 0).unwrap();
        top as u32 * 32 + 32 - limbs[top].leading_zeros()
    }

    fn square(limbs: &[u32]) -> Vec<u32> {
        let mut product = vec![0u32; 2 * limbs.len()];
        for (i, &a) in limbs.iter().enumerate() {
            let mut carry = 0u64;
            for (j, &b) in limbs.iter().enumerate() {
                let sum = u64::from(product[i + j]) + u64::from(a) * u64::from(b) + carry;
                product[i + j] = sum as u32;
                carry = sum >> 32;
            }
            product[i + limbs.len()] = carry as u32;
        }
        product
    }

    /// L(n) by its definition.
    fn exact(n: u32) -> u32 {
        bits_of_power(n) - 1
    }

    #[test]
    fn figures_of_the_rules() {
        assert_eq!([log(1), log(2), log(3)], [0, 256, 405]);
        assert_eq!(log(u32::MAX), exact(u32::MAX));
    }

    #[test]
    fn every_threshold_is_the_least_mantissa_of_its_step() {
        assert_eq!(THRESHOLDS[0], 1 << 31);
        for (k, &threshold) in THRESHOLDS.iter().enumerate().skip(1) {
            assert_eq!(exact(threshold), 31 * 256 + k as u32);
            assert_eq!(exact(threshold - 1), 31 * 256 + k as u32 - 1);
        }
    }

    #[test]
    fn every_step_of_every_octave_on_both_sides() {
        for octave in 0..32u32 {
            for &threshold in &THRESHOLDS {
                let shift = 31 - octave;
                let n = (u64::from(threshold)).div_ceil(1 << shift);
                let Ok(n) = u32::try_from(n) else { continue };
                assert_eq!(log(n), exact(n), "at {n}");
                if n > 1 {
                    assert_eq!(log(n - 1), exact(n - 1), "at {}", n - 1);
                }
            }
        }
    }

    #[test]
    fn small_numbers() {
        for n in 1..5000 {
            assert_eq!(log(n), exact(n), "at {n}");
        }
    }

    #[test]
    fn no_bucket_holds_two_thresholds() {
        for pair in THRESHOLDS.windows(2) {
            assert!(pair[1] - pair[0] > 1 << BUCKET_SHIFT);
        }
    }
}
