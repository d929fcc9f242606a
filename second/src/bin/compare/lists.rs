//! Lists of calls: a study cut into pieces, with reports between them.

use crate::damage;
use crate::random::Random;
use crate::studies::{self, Record};

/// The longest piece a call can carry.
const LONGEST_PIECE: usize = 65_535;

/// The list of calls number `index` of a run.
pub fn list(seed: u64, index: u64) -> Vec<u8> {
    let mut random = Random::new(seed, index);
    let random = &mut random;
    let (bytes, edges) = study(random);
    let mut calls = cut_up(random, &bytes, &edges);
    if random.percent(1) {
        spoil(random, &mut calls);
    }
    calls
}

/// The bytes of a study, valid or not, and the places where records end.
fn study(random: &mut Random) -> (Vec<u8>, Vec<usize>) {
    let kind = random.below(100);
    if kind >= 96 {
        return (damage::noise(random), Vec::new());
    }
    let mut records = studies::valid(random);
    if (40..84).contains(&kind) {
        damage::damage(random, &mut records);
        if random.percent(30) {
            damage::repair_closing(&mut records);
        }
    }
    if kind == 40 {
        too_many_targets(random, &mut records);
    }
    let mut bytes = records.concat();
    if kind >= 84 {
        damage::fuzz(random, &mut bytes);
    }
    let edges = records.iter().scan(0, |end, record| {
        *end += record.len();
        Some(*end)
    });
    (bytes, edges.collect())
}

/// One target more than the bound, sometimes with other faults.
fn too_many_targets(random: &mut Random, records: &mut Vec<Record>) {
    let opening = studies::opening(random.any_size(32) as u32);
    let mut all = vec![opening];
    for number in 0..256 {
        all.push(studies::target(number, (number % 6) as u8, 0, 0));
    }
    let number = random.pick(&[256, 256, 255, 0]);
    let class = random.pick(&[0, 5, 6]);
    all.push(studies::target(number, class, 0, 0));
    all.append(records);
    *records = all;
}

fn cut_up(random: &mut Random, bytes: &[u8], edges: &[usize]) -> Vec<u8> {
    let mut calls = Vec::new();
    let style = random.below(6);
    let most = random.pick(&[2, 5, 14, 30, 200]);
    let reports = random.pick(&[0, 0, 5, 20]);
    let mut rest = bytes;
    while !rest.is_empty() {
        if random.percent(reports) {
            report(random, &mut calls);
        }
        if random.percent(6) {
            piece(&mut calls, &[]);
        }
        let size = match style {
            0 | 1 => rest.len(),
            2 if bytes.len() < 600 => 1,
            3 => to_edge(random, bytes.len() - rest.len(), edges),
            4 => random.index(rest.len() + 1),
            _ => random.below(most + 1) as usize,
        };
        let (front, back) = rest.split_at(size.min(rest.len()).min(LONGEST_PIECE));
        piece(&mut calls, front);
        rest = back;
    }
    end(random, &mut calls);
    calls
}

/// The bytes from `place` to the next edge of a record, or near it.
fn to_edge(random: &mut Random, place: usize, edges: &[usize]) -> usize {
    let next = edges.partition_point(|&edge| edge <= place);
    let edge = edges.get(next).map_or(place + 1, |&edge| edge);
    (edge - place).saturating_add_signed(random.pick(&[0, 0, 0, 1, -1]))
}

/// Reports after the bytes, and sometimes more bytes and reports again.
fn end(random: &mut Random, calls: &mut Vec<u8>) {
    calls.push(b't');
    for target in 0..random.pick(&[1, 3, 9, 31, 257]) {
        one_target(calls, target);
    }
    domino(calls, 300);
    domino(calls, random.pick(&[0, 1, 2, 3, 30, 256]));
    for _ in 0..random.pick(&[0, 0, 1, 2, 4, 10]) {
        match random.below(6) {
            0 => piece(calls, &[]),
            1 | 2 => {
                let more: Vec<u8> = (0..random.below(20)).map(|_| random.next() as u8).collect();
                piece(calls, &more);
            }
            _ => report(random, calls),
        }
    }
}

fn report(random: &mut Random, calls: &mut Vec<u8>) {
    match random.below(4) {
        0 => calls.push(b't'),
        1 => {
            let target = match random.below(4) {
                0 => random.any_size(16) as u16,
                1 => random.between(250, 260) as u16,
                _ => random.below(10) as u16,
            };
            one_target(calls, target);
        }
        _ => {
            let count = match random.below(3) {
                0 => random.below(301) as u16,
                _ => random.below(5) as u16,
            };
            domino(calls, count);
        }
    }
}

/// Cuts the list short or puts in a call that is none.
fn spoil(random: &mut Random, calls: &mut Vec<u8>) {
    match random.below(4) {
        0 => calls.truncate(random.index(calls.len() + 1)),
        1 => calls.push(random.pick(b"xPT\0\xff")),
        2 => domino(calls, random.pick(&[301, 302, 65_535])),
        _ => calls.extend_from_slice(b"p\0\x05abc"),
    }
}

pub fn piece(calls: &mut Vec<u8>, bytes: &[u8]) {
    calls.push(b'p');
    calls.extend_from_slice(&(bytes.len() as u16).to_be_bytes());
    calls.extend_from_slice(bytes);
}

pub fn one_target(calls: &mut Vec<u8>, target: u16) {
    calls.push(b'g');
    calls.extend_from_slice(&target.to_be_bytes());
}

pub fn domino(calls: &mut Vec<u8>, count: u16) {
    calls.push(b'd');
    calls.extend_from_slice(&count.to_be_bytes());
}
