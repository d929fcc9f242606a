//! Faults put into valid studies, aimed at each refusal, and fuzzed bytes.

use crate::branchings;
use crate::random::Random;
use crate::studies::{self, Record, set};
use second_desk::record::{self, outcome};

/// Puts one to three faults into a valid study, often into the same record.
pub fn damage(random: &mut Random, records: &mut Vec<Record>) {
    let count = random.pick(&[1, 1, 1, 2, 2, 3]);
    let mut place = random.index(records.len());
    for _ in 0..count {
        if random.percent(40) {
            place = random.index(records.len());
        }
        place = place.min(records.len() - 1);
        fault(random, records, place);
    }
}

fn fault(random: &mut Random, records: &mut Vec<Record>, place: usize) {
    match random.below(12) {
        0 => unknown_kind(random, records, place),
        1 | 2 => order(random, records, place),
        3 | 4 => field_near(random, records, place),
        5 | 6 => number_near(random, records, place),
        7 => level(random, records),
        8 | 9 => closing(random, records),
        10 => after_closing(random, records),
        _ => {
            let record = &mut records[place];
            let byte = random.index(record.len());
            record[byte] ^= 1 << random.below(8);
        }
    }
}

fn unknown_kind(random: &mut Random, records: &mut Vec<Record>, place: usize) {
    let kind = random.pick(&[0, 9, 11, 15, 16, 127, 128, 134, 136, 138, 255]);
    if random.percent(50) {
        records[place][0] = kind;
    } else {
        records.insert(place, vec![kind; random.between(1, 13) as usize]);
    }
}

/// A record dropped, repeated, moved, or one of another kind put in.
fn order(random: &mut Random, records: &mut Vec<Record>, place: usize) {
    match random.below(5) {
        0 if records.len() > 1 => {
            records.remove(place);
        }
        1 => records.insert(place, records[place].clone()),
        2 => {
            let other = random.index(records.len());
            records.swap(place, other);
        }
        3 => {
            let any = any_record(random);
            records.insert(place, any);
        }
        _ => records[place] = any_record(random),
    }
}

/// A record of any kind with fields of all sizes.
fn any_record(random: &mut Random) -> Record {
    match random.pick(&[1, 2, 3, 4, 5, 6, 7, 8, 10]) {
        record::OPENING => studies::opening(random.any_size(32) as u32),
        record::TARGET => studies::target(
            random.below(4) as u16,
            random.below(7) as u8,
            random.below(4) as u8,
            random.any_size(18) as u32,
        ),
        record::LEAK => studies::leak(random.any_size(32) as u32, random.any_size(46)),
        record::BRANCHING => studies::branching(random.any_size(21) as u32),
        record::CURVE_BRANCHING => {
            studies::curve_branching(random.below(15) as u8, random.any_size(32) as u32)
        }
        record::OUTCOME => studies::outcome(random.below(7) as u8, random.any_size(9) as u16),
        record::EFFECT => studies::effect(
            random.below(4) as u16,
            random.any_size(32) as u32,
            random.any_size(16) as u16,
        ),
        record::TIMED_EFFECT => studies::timed(
            random.below(4) as u16,
            random.any_size(32) as u32,
            random.any_size(16) as u16,
            random.below(3) as u8,
        ),
        _ => studies::closing(random.any_size(8) as u32, random.any_size(46)),
    }
}

/// The first record of one of these kinds at or after `place`, going around.
fn find(records: &[Record], place: usize, kinds: &[u8]) -> Option<usize> {
    let places = (place..records.len()).chain(0..place);
    places
        .into_iter()
        .find(|&place| kinds.contains(&records[place][0]) && whole(&records[place]))
}

fn whole(record: &Record) -> bool {
    record::length(record[0]) == Some(record.len())
}

/// The outcome kind that a record at `place` stands under.
fn outcome_before(records: &[Record], place: usize) -> u8 {
    let outcome = records[..place]
        .iter()
        .rfind(|record| record[0] == record::OUTCOME && whole(record));
    outcome.map_or(outcome::NO_EFFECT, |record| record[1])
}

/// A field just outside its bounds, or far outside, or at a limit.
fn field_near(random: &mut Random, records: &mut [Record], place: usize) {
    let kinds = [2, 3, 4, 5, 6, 8, 10];
    let kind = random.pick(&kinds);
    let Some(place) = find(records, place, &[kind]).or_else(|| find(records, place, &kinds)) else {
        return;
    };
    let above = outcome_before(records, place);
    let bytes = &mut records[place];
    match bytes[0] {
        record::TARGET => match random.below(4) {
            0 => bytes[3] = random.pick(&[6, 7, 255]),
            1 => bytes[4] = random.pick(&[1, 2, 3, 4, 255]),
            2 => set(bytes, 5, 4, random.pick(&[100_001, 100_002, 1 << 31])),
            _ => {
                let limits = [0, 10_000, 10_001, 99_999, 100_000, 100_001];
                set(bytes, 5, 4, random.pick(&limits));
            }
        },
        record::LEAK => {
            let most = 10_000_000_000_000;
            let frequency = random.pick(&[0, 0, most + 1, most + 2, 1 << 63, u64::MAX, 1, most]);
            set(bytes, 5, 8, frequency);
        }
        record::BRANCHING if random.percent(25) => set(bytes, 1, 4, 1_000_000),
        record::BRANCHING | record::CURVE_BRANCHING => branchings::spoil(random, bytes),
        record::OUTCOME => match random.below(3) {
            0 => bytes[1] = random.pick(&[6, 7, 255]),
            1 => set(bytes, 2, 2, random.pick(&[257, 258, 65_535, 512])),
            _ => {
                bytes[1] = outcome::NO_EFFECT;
                set(bytes, 2, 2, random.pick(&[1, 2, 256, 257]));
            }
        },
        _ => effect_field(random, bytes, above),
    }
}

fn effect_field(random: &mut Random, bytes: &mut [u8], above: u8) {
    match above {
        _ if bytes[0] == record::TIMED_EFFECT && random.percent(60) => {
            bytes[9] = random.pick(&[2, 2, 3, 16, 127, 128, 255]);
            // A target too that is not declared, or seldom may stand here.
            if random.percent(25) {
                set(bytes, 1, 2, random.pick(&[0, 256, 65_535]));
            }
        }
        outcome::FLASH_FIRE if random.percent(50) => {
            set(bytes, 3, 4, random.pick(&[2, 3, 256, 1 << 24, 1 << 31]));
        }
        outcome::FLASH_FIRE | outcome::EXPLOSION => {
            set(bytes, 7, 2, random.pick(&[1, 2, 20, 256, 65_535]));
        }
        _ => set(bytes, 7, 2, 0),
    }
}

/// A target's, scenario's or effect's number that breaks its rule, or nearly.
fn number_near(random: &mut Random, records: &mut [Record], place: usize) {
    let kinds = [2, 3, 6, 8];
    let kind = random.pick(&kinds);
    let Some(place) = find(records, place, &[kind]).or_else(|| find(records, place, &kinds)) else {
        return;
    };
    let targets = records
        .iter()
        .filter(|record| record[0] == record::TARGET)
        .count() as u64;
    let bytes = &mut records[place];
    let (width, bits) = if bytes[0] == record::LEAK {
        (4, 32)
    } else {
        (2, 16)
    };
    let old = studies::number(bytes, 1, width);
    let new = match random.below(6) {
        0 => old.wrapping_sub(1),
        1 => old + 1,
        2 => 0,
        3 => targets,
        4 => old.wrapping_sub(2),
        _ => random.any_size(bits),
    };
    set(bytes, 1, width, new);
}

/// Branchings before an outcome, so that the tree gets too deep, or nearly.
fn level(random: &mut Random, records: &mut Vec<Record>) {
    let place = random.index(records.len());
    let kinds = [record::OUTCOME, record::BRANCHING, record::CURVE_BRANCHING];
    let Some(place) = find(records, place, &kinds) else {
        return;
    };
    // With `complete` the second branches end with the tree that was here.
    let complete = random.percent(30);
    let deepest_faulty = random.percent(30);
    for added in 0..random.pick(&[1, 2, 4, 7, 8, 9, 9, 9, 10]) {
        let mut branching = branchings::valid(random, None);
        if added == 0 && deepest_faulty {
            branchings::spoil(random, &mut branching);
        }
        if complete {
            records.insert(place, studies::outcome(0, 0));
        }
        records.insert(place, branching);
    }
}

/// The closing with another count or sum, or the right ones after damage.
fn closing(random: &mut Random, records: &mut [Record]) {
    let Some(place) = find(records, records.len() - 1, &[record::CLOSING]) else {
        return;
    };
    let bytes = &mut records[place];
    match random.below(4) {
        0 => set(bytes, 1, 4, random.any_size(32)),
        1 => set(bytes, 5, 8, random.any_size(64)),
        2 => bytes[4] = bytes[4].wrapping_add(random.pick(&[1, 255])),
        _ => bytes[12] = bytes[12].wrapping_add(random.pick(&[1, 255])),
    }
}

fn after_closing(random: &mut Random, records: &mut Vec<Record>) {
    let more = match random.below(3) {
        0 => any_record(random),
        1 => vec![0],
        _ => (0..random.between(1, 20))
            .map(|_| random.next() as u8)
            .collect(),
    };
    records.push(more);
}

/// The closing made right for the records as they are.
pub fn repair_closing(records: &mut [Record]) {
    let count = records.len() as u32;
    let sum = records
        .iter()
        .filter(|record| record[0] == record::LEAK && whole(record))
        .map(|record| u64::from_be_bytes(record[5..13].try_into().unwrap_or_default()))
        .fold(0u64, u64::wrapping_add);
    if let Some(last) = records.last_mut()
        && last[0] == record::CLOSING
    {
        *last = studies::closing(count, sum);
    }
}

/// Changes bytes without regard to records.
pub fn fuzz(random: &mut Random, bytes: &mut Vec<u8>) {
    for _ in 0..random.between(1, 4) {
        if bytes.is_empty() {
            bytes.push(random.next() as u8);
        }
        let place = random.index(bytes.len());
        match random.below(7) {
            0 => bytes[place] ^= 1 << random.below(8),
            1 => bytes[place] = random.next() as u8,
            2 => bytes[place] = random.below(12) as u8,
            3 => bytes.insert(place, random.next() as u8),
            4 => {
                bytes.remove(place);
            }
            5 => bytes.truncate(place),
            _ => {
                let end = bytes.len().min(place + random.between(1, 30) as usize);
                let part = bytes[place..end].to_vec();
                let to = random.index(bytes.len());
                bytes.splice(to..to, part);
            }
        }
    }
}

/// Bytes that are no study, kind bytes among them.
pub fn noise(random: &mut Random) -> Vec<u8> {
    let mut bytes = Vec::new();
    if random.percent(60) {
        bytes.extend(studies::opening(random.any_size(32) as u32));
    }
    for _ in 0..random.below(60) {
        bytes.push(if random.percent(50) {
            random.below(12) as u8
        } else {
            random.next() as u8
        });
    }
    bytes
}
