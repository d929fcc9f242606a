//! From probit to chance, by table D.3 of source document 000 with the two
//! entries of request P2 of document 02.

/// Table D.3 in hundredths, from 1 % to 99 % by 1 %.
const WHOLE: [u16; 99] = [
    267, 295, 312, 325, 336, 345, 352, 359, 366, // 1 to 9
    372, 377, 382, 387, 392, 396, 401, 405, 408, 412, // from 10
    416, 419, 423, 426, 429, 433, 436, 439, 442, 445, // from 20
    448, 450, 453, 456, 459, 461, 464, 467, 469, 472, // from 30
    475, 477, 480, 482, 485, 487, 490, 492, 495, 497, // from 40
    500, 503, 505, 508, 510, 513, 515, 518, 520, 523, // from 50
    525, 528, 531, 533, 536, 539, 541, 544, 547, 550, // from 60
    552, 555, 558, 561, 564, 567, 571, 574, 577, 581, // from 70
    584, 588, 592, 595, 599, 604, 608, 613, 618, 623, // from 80
    628, 634, 641, 648, 655, 664, 675, 688, 705, 733, // from 90
];

/// Table D.3 in hundredths, from 99.1 % to 99.9 % by 0.1 %; 99.6 % and 99.7 % are
/// those of request P2.
const TENTHS: [u16; 9] = [737, 741, 746, 751, 758, 765, 775, 788, 809];

const FIRST: usize = WHOLE[0] as usize;
const LAST: usize = TENTHS[8] as usize;

/// The chance, in millionths, at each hundredth from the first entry to the last.
static CHANCES: [u32; LAST - FIRST + 1] = chances();

/// The chance in millionths of a probit given in millionths.
#[inline]
pub fn chance(probit: i64) -> u32 {
    const HUNDREDTH: u64 = 10_000;
    match u64::try_from(probit - FIRST as i64 * HUNDREDTH as i64) {
        Ok(above) => CHANCES[((above / HUNDREDTH) as usize).min(CHANCES.len() - 1)],
        Err(_) => 0,
    }
}

const fn chances() -> [u32; LAST - FIRST + 1] {
    let mut table = [0; LAST - FIRST + 1];
    let mut i = 0;
    while i < table.len() {
        table[i] = chance_at((FIRST + i) as u16);
        i += 1;
    }
    table
}

/// The greatest percentage whose entry is at or below the given hundredths.
const fn chance_at(hundredths: u16) -> u32 {
    let mut chance = 0;
    let mut i = 0;
    while i < WHOLE.len() {
        if WHOLE[i] <= hundredths {
            chance = (i as u32 + 1) * 10_000;
        }
        i += 1;
    }
    let mut i = 0;
    while i < TENTHS.len() {
        if TENTHS[i] <= hundredths {
            chance = 990_000 + (i as u32 + 1) * 1_000;
        }
        i += 1;
    }
    chance
}

#[cfg(test)]
mod tests {
    use super::*;

    #[test]
    fn every_entry_on_both_sides() {
        let entries = WHOLE
            .iter()
            .enumerate()
            .map(|(i, &y)| (y, (i as u32 + 1) * 10_000))
            .chain(
                TENTHS
                    .iter()
                    .enumerate()
                    .map(|(i, &y)| (y, 990_000 + (i as u32 + 1) * 1_000)),
            )
            .collect::<Vec<_>>();
        assert_eq!(entries.len(), 108);
        for (i, &(y, percentage)) in entries.iter().enumerate() {
            let probit = i64::from(y) * 10_000;
            assert_eq!(chance(probit), percentage);
            assert_eq!(chance(probit + 9_999), percentage);
            if i > 0 {
                assert_eq!(chance(probit - 1), entries[i - 1].1);
            }
        }
    }

    #[test]
    fn the_ends_and_the_entries_of_p2() {
        assert_eq!(chance(i64::from(i32::MIN)), 0);
        assert_eq!(chance(0), 0);
        assert_eq!(chance(2_669_999), 0);
        assert_eq!(chance(2_670_000), 10_000);
        assert_eq!(chance(7_579_999), 994_000);
        assert_eq!(chance(7_580_000), 995_000);
        assert_eq!(chance(7_649_999), 995_000);
        assert_eq!(chance(7_650_000), 996_000);
        assert_eq!(chance(7_749_999), 996_000);
        assert_eq!(chance(7_750_000), 997_000);
        assert_eq!(chance(7_879_999), 997_000);
        assert_eq!(chance(7_880_000), 998_000);
        assert_eq!(chance(8_089_999), 998_000);
        assert_eq!(chance(8_090_000), 999_000);
        assert_eq!(chance(50_000_000), 999_000);
    }
}
