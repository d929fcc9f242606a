//! Chances of death and damage, in millionths.

use crate::logarithm::log;
use crate::probit;
use crate::volume;

/// A chance of one.
pub const CERTAIN: u32 = 1_000_000;

/// Classes of target.
pub mod class {
    pub const PEOPLE: u8 = 0;
    pub const ATMOSPHERIC_VESSEL: u8 = 1;
    pub const PRESSURISED_VESSEL: u8 = 2;
    pub const TOWER: u8 = 3;
    pub const PUMP: u8 = 4;
    pub const PIPE: u8 = 5;
}

/// Settings of a place of people.
pub mod setting {
    pub const INDIVIDUAL: u8 = 0;
    pub const OUTDOORS: u8 = 1;
    pub const INDOORS: u8 = 2;
}

/// The natural logarithm of 2, in millionths.
const LN_2: u64 = 693_147;

/// A duration's unit: what the rules for fires take from it.
#[derive(Clone, Copy, Debug, PartialEq, Eq)]
pub struct Clock {
    /// The longest time a person stays in the heat.
    pub longest: u16,
    /// The constant of the probit of death.
    pub constant: i64,
    /// Equipment fails by fire for longer than this time.
    pub limit: u16,
}

impl Clock {
    pub const SECONDS: Clock = Clock {
        longest: 20,
        constant: -36_380_000,
        limit: 600,
    };

    pub const TENTHS: Clock = Clock {
        longest: 200,
        constant: -42_274_618,
        limit: 6_000,
    };

    /// The clock that an effect's last byte names.
    #[inline(always)]
    pub fn named(last: u8) -> Option<&'static Clock> {
        static CLOCKS: [Clock; 2] = [Clock::SECONDS, Clock::TENTHS];
        CLOCKS.get(usize::from(last))
    }
}

/// Heat from which death is certain.
const DEADLY_HEAT: u32 = 35_000;
/// Overpressure from which death is certain.
const DEADLY_BLAST: u32 = 30_000;
/// Overpressure from which people indoors are at risk, and their chance.
const INDOOR_BLAST: u32 = 10_000;
const INDOOR_BLAST_CHANCE: u32 = 25_000;

/// Probit of death by fire: heat of at least 1 W/m², duration of at least 1 by
/// its clock.
#[inline]
pub fn fire_death_probit(clock: &Clock, heat: u32, duration: u16) -> i64 {
    let exposure = u32::from(duration.min(clock.longest));
    let steps = u64::from(4 * log(heat) + 3 * log(exposure));
    (steps * LN_2 / 300) as i64 + clock.constant
}

/// Chance of death by pool fire, jet fire or fireball.
#[inline]
pub fn fire_death(clock: &Clock, setting: u8, heat: u32, duration: u16) -> u32 {
    if heat >= DEADLY_HEAT {
        return CERTAIN;
    }
    if setting == setting::INDOORS || heat == 0 {
        return 0;
    }
    let chance = probit::chance(fire_death_probit(clock, heat, duration));
    if setting == setting::OUTDOORS {
        chance * 14 / 100
    } else {
        chance
    }
}

/// Chance of death by flash fire: intensity 1 is inside the lower flammable limit.
#[inline]
pub fn flash_death(intensity: u32) -> u32 {
    if intensity == 1 { CERTAIN } else { 0 }
}

/// Chance of death by explosion.
#[inline]
pub fn blast_death(setting: u8, overpressure: u32) -> u32 {
    if overpressure >= DEADLY_BLAST {
        CERTAIN
    } else if setting == setting::INDOORS && overpressure >= INDOOR_BLAST {
        INDOOR_BLAST_CHANCE
    } else {
        0
    }
}

/// A row of table D.2 for overpressure.
struct Blast {
    a: i64,
    b: u64,
    threshold: u32,
}

const VESSEL_OR_PIPE_BLAST: Blast = Blast {
    a: -14_440_000,
    b: 182,
    threshold: 30_000,
};

/// Rows by class, from class 1 on.
static BLAST: [Blast; 5] = [
    Blast {
        a: -9_360_000,
        b: 134,
        threshold: 5_170,
    },
    VESSEL_OR_PIPE_BLAST,
    Blast {
        a: -12_220_000,
        b: 165,
        threshold: 17_000,
    },
    Blast {
        a: -12_420_000,
        b: 164,
        threshold: 18_700,
    },
    VESSEL_OR_PIPE_BLAST,
];

/// Probit of damage by explosion at or above the class's threshold, for
/// classes 1 to 5; none below it or for other classes.
#[inline]
pub fn blast_damage_probit(class: u8, overpressure: u32) -> Option<i64> {
    let row = BLAST.get(usize::from(class).checked_sub(1)?)?;
    if overpressure < row.threshold {
        return None;
    }
    let rise = row.b * u64::from(log(overpressure)) * LN_2 / 25_600;
    Some(row.a + rise as i64)
}

/// Chance of damage by explosion for classes 1 to 5.
#[inline]
pub fn blast_damage(class: u8, overpressure: u32) -> u32 {
    blast_damage_probit(class, overpressure).map_or(0, probit::chance)
}

/// A row of table D.2 for heat. Damage needs more than the threshold.
struct Fire {
    a: i64,
    b: u64,
    threshold: u32,
}

const ATMOSPHERIC_OR_PIPE_FIRE: Fire = Fire {
    a: -20_094_547,
    b: 2_083_416,
    threshold: 15_000,
};

const PRESSURISED_FIRE: Fire = Fire {
    a: 457_583,
    b: 1_749_109,
    threshold: 40_000,
};

/// The row of a class whose fires are judged.
#[inline]
const fn fire_row(class: u8) -> Fire {
    match class {
        class::PRESSURISED_VESSEL => PRESSURISED_FIRE,
        _ => ATMOSPHERIC_OR_PIPE_FIRE,
    }
}

/// What a target's volume adds to the probit of damage by fire; none where
/// every fire on it is left unjudged. No rule uses that of places of people.
pub fn volume_term(class: u8, volume: u32) -> Option<i32> {
    match class {
        class::PRESSURISED_VESSEL => {
            let root = u64::from(volume::root(volume)?);
            Some(-((16_336_715 * root / 1_000) as i32))
        }
        class::TOWER | class::PUMP => None,
        _ => Some((4_925_949 * u64::from(volume) / 100_000) as i32),
    }
}

/// Probit of damage by fire for classes 1, 2 and 5.
#[inline]
pub fn fire_damage_probit(class: u8, heat: u32, volume_term: i32) -> i64 {
    let row = fire_row(class);
    let rise = row.b * u64::from(log(heat)) * LN_2 / 256_000_000;
    row.a + rise as i64 + i64::from(volume_term)
}

/// Chance of damage by fire for classes 1, 2 and 5.
#[inline]
pub fn fire_damage(clock: &Clock, class: u8, volume_term: i32, heat: u32, duration: u16) -> u32 {
    if heat > fire_row(class).threshold && duration > clock.limit {
        probit::chance(fire_damage_probit(class, heat, volume_term))
    } else {
        0
    }
}

#[cfg(test)]
mod tests {
    use super::*;

    const SECONDS: Clock = Clock::SECONDS;
    const TENTHS: Clock = Clock::TENTHS;

    #[test]
    fn fire_and_people() {
        assert_eq!(fire_death_probit(&SECONDS, 12_500, 20), 3_485_194);
        assert_eq!(
            fire_death(&SECONDS, setting::INDIVIDUAL, 12_500, 20),
            60_000
        );
        assert_eq!(
            fire_death(&SECONDS, setting::INDIVIDUAL, 12_500, 65_535),
            60_000
        );
        assert_eq!(fire_death(&SECONDS, setting::OUTDOORS, 12_500, 20), 8_400);
        assert_eq!(fire_death(&SECONDS, setting::INDOORS, 12_500, 20), 0);
        assert_eq!(fire_death_probit(&SECONDS, 34_999, 20), 6_997_139);
        assert_eq!(
            fire_death(&SECONDS, setting::INDIVIDUAL, 34_999, 20),
            970_000
        );
        assert_eq!(fire_death(&SECONDS, setting::INDOORS, 34_999, 20), 0);
        for setting in 0..3 {
            assert_eq!(fire_death(&SECONDS, setting, 35_000, 1), CERTAIN);
            assert_eq!(fire_death(&SECONDS, setting, u32::MAX, 1), CERTAIN);
            assert_eq!(fire_death(&SECONDS, setting, 0, 20), 0);
            assert_eq!(fire_death(&SECONDS, setting, 1, 1), 0);
        }
    }

    #[test]
    fn fire_in_tenths_and_people() {
        let individual = |heat, tenths| fire_death(&TENTHS, setting::INDIVIDUAL, heat, tenths);
        // L is 1,956 at 200, 1,106 at 20.
        assert_eq!(fire_death_probit(&TENTHS, 12_500, 200), 3_482_325);
        assert_eq!(fire_death_probit(&TENTHS, 12_500, 20), -2_409_424);
        assert_eq!(individual(12_500, 200), 60_000);
        assert_eq!(individual(12_500, u16::MAX), 60_000);
        assert_eq!(individual(12_500, 20), 0);
        assert_eq!(fire_death(&TENTHS, setting::OUTDOORS, 12_500, 200), 8_400);
        assert_eq!(fire_death(&TENTHS, setting::INDOORS, 12_500, 200), 0);
        assert_eq!(fire_death_probit(&TENTHS, 34_999, 200), 6_994_270);
        assert_eq!(individual(34_999, 200), 970_000);
        assert_eq!(individual(34_999, 1), 0);
        assert_eq!(individual(35_000, 1), CERTAIN);
        assert_eq!(individual(0, 200), 0);
        // At 16,789 W/m² Y is 4,475,836, 4,489,699 and, if 201 were counted,
        // 4,503,562.
        let around = [199, 200, 201].map(|tenths| individual(16_789, tenths));
        assert_eq!(around, [290_000, 300_000, 300_000]);
    }

    #[test]
    fn clocks_by_last_byte() {
        assert_eq!(Clock::named(0), Some(&SECONDS));
        assert_eq!(Clock::named(1), Some(&TENTHS));
        for last in 2..=255 {
            assert_eq!(Clock::named(last), None);
        }
    }

    #[test]
    fn blast_and_people() {
        for setting in 0..3 {
            assert_eq!(blast_death(setting, 9_999), 0);
            assert_eq!(blast_death(setting, 30_000), CERTAIN);
        }
        assert_eq!(blast_death(setting::INDOORS, 10_000), 25_000);
        assert_eq!(blast_death(setting::INDOORS, 29_999), 25_000);
        assert_eq!(blast_death(setting::OUTDOORS, 29_999), 0);
        assert_eq!(blast_death(setting::INDIVIDUAL, 29_999), 0);
    }

    #[test]
    fn blast_and_equipment() {
        assert_eq!(blast_damage_probit(1, 67_000), Some(5_530_097));
        assert_eq!(blast_damage(1, 67_000), 700_000);
        assert_eq!(blast_damage_probit(1, 70_000), Some(5_588_148));
        assert_eq!(blast_damage(1, 70_000), 720_000);
        assert_eq!(blast_damage(2, 29_999), 0);
        assert_eq!(blast_damage_probit(2, 30_000), Some(4_320_294));
        assert_eq!(blast_damage(2, 30_000), 240_000);
        for (class, threshold) in [
            (1, 5_170),
            (2, 30_000),
            (3, 17_000),
            (4, 18_700),
            (5, 30_000),
        ] {
            assert_eq!(blast_damage_probit(class, threshold - 1), None);
            assert!(blast_damage_probit(class, threshold).is_some());
        }
        assert_eq!(blast_damage(5, 30_000), 240_000);
        assert_eq!(blast_damage_probit(0, 70_000), None);
        assert_eq!(blast_damage_probit(6, 70_000), None);
    }

    #[test]
    fn fire_and_equipment() {
        for class in [1, 5] {
            let term = |volume| volume_term(class, volume).unwrap();
            assert_eq!([term(0), term(1), term(100_000)], [0, 49, 4_925_949]);
            assert_eq!(
                fire_damage(&SECONDS, class, term(100_000), 15_000, u16::MAX),
                0
            );
            assert_eq!(fire_damage(&SECONDS, class, 0, u32::MAX, 600), 0);
            assert_eq!(fire_damage(&SECONDS, class, 0, u32::MAX, 601), 999_000);
            // 15,001 W/m²: L is 3,551.
            assert_eq!(log(15_001), 3_551);
            assert_eq!(fire_damage_probit(class, 15_001, 0), -63_113);
            assert_eq!(
                fire_damage(&SECONDS, class, term(100_000), 15_001, 601),
                440_000
            );
        }
    }

    #[test]
    fn fire_and_pressurised_vessels() {
        let term = |volume| volume_term(2, volume).unwrap();
        assert_eq!([term(1), term(2)], [-16_336_715, -16_696_122]);
        assert_eq!([term(9_823), term(9_824)], [-21_907_534, -21_923_871]);
        assert_eq!(term(10_000), -21_923_871);
        // 40,001 W/m²: L is 3,913, and no volume has a chance. The threshold is
        // seen only without what a volume takes off.
        assert_eq!(log(40_001), 3_913);
        assert_eq!(fire_damage_probit(2, 40_001, term(1)), 2_652_433);
        assert_eq!(fire_damage(&SECONDS, 2, term(1), 40_001, u16::MAX), 0);
        assert_eq!(fire_damage(&SECONDS, 2, 0, 40_000, u16::MAX), 0);
        assert_eq!(fire_damage(&SECONDS, 2, 0, u32::MAX, 600), 0);
        assert_eq!(fire_damage(&SECONDS, 2, 0, 40_001, 601), 999_000);
        assert_eq!(fire_damage_probit(2, 60_000, term(1)), 3_362_817);
        assert_eq!(fire_damage(&SECONDS, 2, term(1), 60_000, 601), 50_000);
        assert_eq!(fire_damage_probit(2, u32::MAX, term(10_000)), 17_325_445);
        assert_eq!(
            fire_damage(&SECONDS, 2, term(10_000), u32::MAX, 601),
            999_000
        );
        // Each bracket is rounded down by itself: 331 m³ has K 1204, 1,768,269
        // W/m² has L 5,313, and rounding the difference once gives 5,949,999.
        assert_eq!(fire_damage_probit(2, 1_768_269, term(331)), 5_950_000);
        assert_eq!(fire_damage(&SECONDS, 2, term(331), 1_768_269, 601), 830_000);
    }

    #[test]
    fn fire_in_tenths_and_equipment() {
        for (class, volume, heat, chance) in [
            (1, 100_000, 15_001, 440_000),
            (5, 100_000, 15_001, 440_000),
            (2, 1, 60_000, 50_000),
        ] {
            let term = volume_term(class, volume).unwrap();
            let damage = |tenths| fire_damage(&TENTHS, class, term, heat, tenths);
            assert_eq!([601, 5_999, 6_000].map(damage), [0; 3]);
            assert_eq!([6_001, u16::MAX].map(damage), [chance; 2]);
        }
        assert_eq!(fire_damage(&TENTHS, 1, 0, 15_000, 6_001), 0);
        assert_eq!(fire_damage(&TENTHS, 2, 0, 40_000, 6_001), 0);
    }

    #[test]
    fn fires_left_unjudged() {
        for volume in [0, 1, 10_000, 10_001, 100_000] {
            let unjudged = (0..6).filter(|&class| volume_term(class, volume).is_none());
            let unjudged: Vec<u8> = unjudged.collect();
            match volume {
                1..=10_000 => assert_eq!(unjudged, [3, 4]),
                _ => assert_eq!(unjudged, [2, 3, 4]),
            }
        }
    }

    #[test]
    fn flash_fire() {
        assert_eq!([flash_death(0), flash_death(1)], [0, CERTAIN]);
    }
}
