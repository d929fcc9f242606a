//! What the rules say of the effects and branchings in a list of calls: how often
//! each case comes up.

use crate::curves::{Curves, Tree};
use crate::studies::number;
use crate::timing::Timing;
use second_desk::chance::{self, Clock, class};
use second_desk::record::{self, number as answer, outcome};
use second_desk::{Answer, Study};

/// What the rule says of a fire on a pressurised vessel.
const SPHERES: [&str; 4] = [
    "unjudged",
    "chance 0",
    "chance up to 700,000",
    "chance above 700,000",
];

/// How many entries the probit table has.
const ENTRIES: usize = 108;

/// The entries that request P2 changed, and the one before them.
pub const CHANGED: [(&str, usize); 3] = [
    ("99.5 %", entry(995_000)),
    ("99.6 %", entry(996_000)),
    ("99.7 %", entry(997_000)),
];

/// The form of an effect, and whether its outcome is a fire.
const FORMS: [&str; 6] = [
    "kind 6, a fire",
    "kind 8 in seconds, a fire",
    "kind 8 in tenths, a fire",
    "kind 6, no fire",
    "kind 8 in seconds, no fire",
    "kind 8 in tenths, no fire",
];

/// The forms of the effects of one outcome, where they are not all the same.
const MIXED: [&str; 4] = [
    "kind 6 and kind 8 in seconds",
    "kind 6 and kind 8 in tenths",
    "kind 8 in seconds and in tenths",
    "all three",
];

/// A number of the clock that is one less or one more, by which the fire would
/// have another chance.
const EDGES: [&str; 12] = [
    "people, 19 s for 20",
    "people, 21 s for 20",
    "classes 1 and 5, 599 s for 600",
    "classes 1 and 5, 601 s for 600",
    "class 2, 599 s for 600",
    "class 2, 601 s for 600",
    "people, 199 tenths for 200",
    "people, 201 tenths for 200",
    "classes 1 and 5, 5999 tenths for 6000",
    "classes 1 and 5, 6001 tenths for 6000",
    "class 2, 5999 tenths for 6000",
    "class 2, 6001 tenths for 6000",
];

/// The places inside a record of kind 8.
const CUTS: usize = 9;

/// What else is wrong with an effect whose last byte names no clock.
const LAST_BYTES: [&str; 3] = ["nothing else", "another field", "the target (4)"];

/// Cases and how often they came up.
#[derive(Clone, Copy)]
pub struct Seen {
    /// Fires on pressurised vessels, by `SPHERES`.
    spheres: [u64; SPHERES.len()],
    /// Effects on equipment, by the entry of the probit table that their chance
    /// has.
    pub entries: [u64; ENTRIES],
    /// Effects, by `FORMS`.
    forms: [u64; FORMS.len()],
    /// Outcomes, by `MIXED`.
    mixed: [u64; MIXED.len()],
    /// Fires, by `EDGES`.
    edges: [u64; EDGES.len()],
    /// Records of kind 8 that a piece's end cuts, by the place of the cut.
    cuts: [u64; CUTS],
    /// Refused effects of kind 8, by `LAST_BYTES`.
    last_bytes: [u64; LAST_BYTES.len()],
    branchings: Curves,
}

impl Default for Seen {
    fn default() -> Self {
        Seen {
            spheres: [0; SPHERES.len()],
            entries: [0; ENTRIES],
            forms: [0; FORMS.len()],
            mixed: [0; MIXED.len()],
            edges: [0; EDGES.len()],
            cuts: [0; CUTS],
            last_bytes: [0; LAST_BYTES.len()],
            branchings: Curves::default(),
        }
    }
}

/// Cases that belong together: their heading, names and counts.
pub struct Group<'a> {
    pub heading: &'static str,
    pub names: &'static [&'static str],
    pub counts: &'a [u64],
}

impl Group<'_> {
    pub fn new<'a>(
        heading: &'static str,
        names: &'static [&'static str],
        counts: &'a [u64],
    ) -> Group<'a> {
        Group {
            heading,
            names,
            counts,
        }
    }
}

/// Cases without names, each of which is to come up: what they are, what happens
/// to them, and their counts.
pub struct Set<'a> {
    pub heading: &'static str,
    pub happened: &'static str,
    pub counts: &'a [u64],
}

impl Set<'_> {
    pub fn new<'a>(heading: &'static str, happened: &'static str, counts: &'a [u64]) -> Set<'a> {
        Set {
            heading,
            happened,
            counts,
        }
    }
}

impl Seen {
    /// Adds another's counts by what becomes of each of them.
    pub fn add(&mut self, other: &Seen, counted: impl Fn(u64) -> u64) {
        for (sums, counts) in self.all_mut().zip(other.all()) {
            for (sum, &count) in sums.iter_mut().zip(counts) {
                *sum += counted(count);
            }
        }
    }

    fn all(&self) -> impl Iterator<Item = &[u64]> {
        let effects: [&[u64]; 7] = [
            &self.spheres,
            &self.entries,
            &self.forms,
            &self.mixed,
            &self.edges,
            &self.cuts,
            &self.last_bytes,
        ];
        effects.into_iter().chain(self.branchings.all())
    }

    fn all_mut(&mut self) -> impl Iterator<Item = &mut [u64]> {
        let effects: [&mut [u64]; 7] = [
            &mut self.spheres,
            &mut self.entries,
            &mut self.forms,
            &mut self.mixed,
            &mut self.edges,
            &mut self.cuts,
            &mut self.last_bytes,
        ];
        effects.into_iter().chain(self.branchings.all_mut())
    }

    /// The cases that have names.
    pub fn groups(&self) -> Vec<Group<'_>> {
        let mut groups = vec![
            Group::new("class 2 in a fire", &SPHERES, &self.spheres),
            Group::new("effect", &FORMS, &self.forms),
            Group::new("mixed outcome", &MIXED, &self.mixed),
            Group::new("chance by the clock", &EDGES, &self.edges),
            Group::new("last byte refused", &LAST_BYTES, &self.last_bytes),
        ];
        groups.extend(self.branchings.groups());
        groups
    }

    /// The cases that have none.
    pub fn sets(&self) -> Vec<Set<'_>> {
        let mut sets = vec![
            Set::new(
                "entries of the probit table",
                "gave a chance",
                &self.entries,
            ),
            Set::new(
                "places inside a record of kind 8",
                "were a piece's end",
                &self.cuts,
            ),
        ];
        sets.extend(self.branchings.sets());
        sets
    }

    /// One effect of an outcome on a target.
    fn effect(&mut self, kind: u8, timing: Timing, target: &[u8], effect: &[u8]) {
        let class = target[3];
        let fire = is_fire(kind);
        self.forms[timing as usize + if fire { 0 } else { 3 }] += 1;
        if fire {
            self.edges(kind, timing, target, effect);
        }
        let damage = match class {
            class::PEOPLE => return,
            _ => chance(kind, target, effect, timing.clock()),
        };
        if class == class::PRESSURISED_VESSEL && fire {
            self.spheres[match damage {
                None => 0,
                Some(0) => 1,
                Some(1..=Study::DOMINO_CHANCE) => 2,
                Some(_) => 3,
            }] += 1;
        }
        if let Some(chance @ 1..) = damage {
            self.entries[entry(chance)] += 1;
        }
    }

    /// One fire on a target, with each number of its clock one less and one
    /// more. Of people the longest time decides, of equipment the limit.
    fn edges(&mut self, kind: u8, timing: Timing, target: &[u8], effect: &[u8]) {
        let first = match target[3] {
            class::PEOPLE => 0,
            class::ATMOSPHERIC_VESSEL | class::PIPE => 2,
            class::PRESSURISED_VESSEL => 4,
            _ => return,
        };
        let first = first + if timing == Timing::Tenths { 6 } else { 0 };
        let clock = timing.clock();
        let known = chance(kind, target, effect, clock);
        for (side, by) in [-1, 1].into_iter().enumerate() {
            let moved = Clock {
                longest: clock.longest.saturating_add_signed(by),
                limit: clock.limit.saturating_add_signed(by),
                ..*clock
            };
            let other = chance(kind, target, effect, &moved) != known;
            self.edges[first + side] += u64::from(other);
        }
    }

    /// The forms of an outcome's effects, one bit each.
    fn outcome(&mut self, forms: u8) {
        match forms {
            0b011 => self.mixed[0] += 1,
            0b101 => self.mixed[1] += 1,
            0b110 => self.mixed[2] += 1,
            0b111 => self.mixed[3] += 1,
            _ => {}
        }
    }
}

/// Counts the places inside a record at which a piece ends.
pub fn count_cuts(cuts: &mut [u64], place: usize, ends: &[usize]) {
    for (inside, cuts) in (place + 1..).zip(cuts) {
        *cuts += u64::from(ends.binary_search(&inside).is_ok());
    }
}

fn is_fire(kind: u8) -> bool {
    (outcome::POOL_FIRE..=outcome::FIREBALL).contains(&kind)
}

/// The chance of an effect by a clock; none where it is left unjudged.
pub fn chance(kind: u8, target: &[u8], effect: &[u8], clock: &Clock) -> Option<u32> {
    let (class, setting) = (target[3], target[4]);
    let volume = number(target, 5, 4) as u32;
    let intensity = number(effect, 3, 4) as u32;
    let duration = number(effect, 7, 2) as u16;
    match (kind, class) {
        (_, class::PEOPLE) if is_fire(kind) => {
            Some(chance::fire_death(clock, setting, intensity, duration))
        }
        _ if is_fire(kind) => chance::volume_term(class, volume)
            .map(|term| chance::fire_damage(clock, class, term, intensity, duration)),
        (outcome::FLASH_FIRE, class::PEOPLE) => Some(chance::flash_death(intensity)),
        (outcome::EXPLOSION, class::PEOPLE) => Some(chance::blast_death(setting, intensity)),
        (outcome::EXPLOSION, _) => Some(chance::blast_damage(class, intensity)),
        _ => Some(0),
    }
}

/// The place in the probit table of a chance that is not 0: 1 % to 99 %, then
/// 99.1 % to 99.9 %.
const fn entry(chance: u32) -> usize {
    let place = if chance > 990_000 {
        (chance - 990_000) / 1_000 + 98
    } else {
        chance / 10_000 - 1
    };
    place as usize
}

/// The effects and branchings of the study that a list of calls closes, or the
/// refusal of a last byte or of a branching. A study that is not closed has no
/// others.
pub fn count(calls: &[u8]) -> Seen {
    let (bytes, ends) = pieces(calls);
    let mut seen = Seen::default();
    let mut study = Study::new();
    let last = study.piece(&bytes);
    if study.totals().figures.is_some() {
        closed(&mut seen, &bytes, &ends);
    } else if let Some(record) = refused_record(&bytes, last) {
        if let Some(case) = last_byte(&bytes, last) {
            seen.last_bytes[case] += 1;
        }
        if record[0] == record::CURVE_BRANCHING {
            seen.branchings.refusal(record, last.number);
        }
    }
    seen
}

/// The whole record that a study was refused for.
fn refused_record(bytes: &[u8], refusal: Answer) -> Option<&[u8]> {
    let place = usize::try_from(refusal.place).ok()?;
    first_record(bytes.get(place..)?)
}

/// The effects and branchings of a closed study.
fn closed(seen: &mut Seen, bytes: &[u8], ends: &[usize]) {
    let mut targets = Vec::new();
    let mut tree = Tree::default();
    let (mut kind, mut forms) = (outcome::NO_EFFECT, 0);
    let mut place = 0;
    while let Some(record) = first_record(&bytes[place..]) {
        match record[0] {
            record::TARGET => targets.push(record),
            // The effects since the last outcome are all of that outcome's.
            record::OUTCOME | record::CLOSING => {
                seen.outcome(forms);
                (kind, forms) = (record[1], 0);
            }
            _ => {}
        }
        if let Some(timing) = Timing::of(record) {
            let target = targets[number(record, 1, 2) as usize];
            seen.effect(kind, timing, target, record);
            forms |= 1 << timing as u8;
        }
        if record[0] == record::TIMED_EFFECT {
            count_cuts(&mut seen.cuts, place, ends);
        }
        tree.record(&mut seen.branchings, record, place, ends);
        if record[0] == record::CLOSING {
            break;
        }
        place += record.len();
    }
}

/// Which of `LAST_BYTES` a study was refused for; none where it was refused for
/// something else, or not at all.
fn last_byte(bytes: &[u8], refusal: Answer) -> Option<usize> {
    let record = refused_record(bytes, refusal)?;
    let timed = record[0] == record::TIMED_EFFECT && Timing::of(record).is_none();
    if refusal.number != answer::FIELD || !timed {
        return None;
    }
    // What else is wrong is answered where the last byte is 0.
    let place = refusal.place as usize;
    let mut study = Study::new();
    study.piece(&bytes[..place + CUTS]);
    match study.piece(&[0]).number {
        answer::TAKEN => Some(0),
        answer::FIELD => Some(1),
        _ => Some(2),
    }
}

/// The pieces of a list of calls, joined, and where each one ends.
fn pieces(mut calls: &[u8]) -> (Vec<u8>, Vec<usize>) {
    let mut bytes = Vec::new();
    let mut ends = Vec::new();
    loop {
        calls = match calls {
            [b'p', high, low, rest @ ..] => {
                let length = u16::from_be_bytes([*high, *low]);
                let Some((piece, after)) = rest.split_at_checked(length.into()) else {
                    return (bytes, ends);
                };
                bytes.extend_from_slice(piece);
                ends.push(bytes.len());
                after
            }
            [b't', rest @ ..] | [b'g' | b'd', _, _, rest @ ..] => rest,
            _ => return (bytes, ends),
        }
    }
}

/// The first record; none where none is whole.
fn first_record(bytes: &[u8]) -> Option<&[u8]> {
    bytes.get(..record::length(*bytes.first()?)?)
}

#[cfg(test)]
mod tests {
    use super::*;
    use crate::lists::{self, piece};
    use crate::studies::{self, Record};

    /// The list of calls of a study whose records are given up to the closing,
    /// with a report before each record. Nothing is seen before the last.
    fn calls(mut records: Vec<Record>, leaks: u64) -> Vec<u8> {
        records.push(studies::closing(records.len() as u32 + 1, leaks));
        let mut calls = Vec::new();
        for record in &records {
            assert_eq!(count(&calls).all().flatten().sum::<u64>(), 0);
            lists::one_target(&mut calls, 1);
            piece(&mut calls, record);
        }
        calls
    }

    #[test]
    fn fires_of_one_study() {
        let mut records = vec![studies::opening(1)];
        for (number, volume) in [(0, 0), (1, 10_000), (2, 1), (3, 1), (4, 10_001)] {
            records.push(studies::target(number, 2, 0, volume));
        }
        records.push(studies::target(5, 1, 0, 1));
        records.push(studies::leak(1, 1));
        records.push(studies::branching(1));
        for kind in [outcome::JET_FIRE, outcome::EXPLOSION] {
            let fire = kind == outcome::JET_FIRE;
            records.push(studies::outcome(kind, 6));
            for (target, heat) in [
                (0, 1),
                (1, 60_000),
                (2, 60_000),
                (3, 1 << 31),
                (4, 1),
                (5, 1),
            ] {
                records.push(studies::effect(target, heat, if fire { 601 } else { 0 }));
            }
        }
        assert_eq!(count(&calls(records, 1)).spheres, [2, 1, 1, 1]);
    }

    #[test]
    fn entries_of_one_study() {
        let mut records = vec![studies::opening(1), studies::target(0, 0, 0, 0)];
        let pressures = [
            29_999, 30_000, 179_924, 179_925, 186_875, 186_876, 197_274, 197_275, 212_236, 212_237,
        ];
        for number in 1..=pressures.len() as u16 {
            records.push(studies::target(number, 2, 0, 0));
        }
        records.push(studies::leak(1, 1));
        records.push(studies::outcome(
            outcome::EXPLOSION,
            pressures.len() as u16 + 1,
        ));
        records.push(studies::effect(0, 30_000, 0));
        for (number, pressure) in (1..).zip(pressures) {
            records.push(studies::effect(number, pressure, 0));
        }
        let seen = count(&calls(records, 1));
        let expected = [
            (240_000, 1),
            (994_000, 1),
            (995_000, 2),
            (996_000, 2),
            (997_000, 2),
            (998_000, 1),
        ];
        for (chance, count) in expected {
            assert_eq!(seen.entries[entry(chance)], count, "{chance}");
        }
        assert_eq!(seen.entries.iter().sum::<u64>(), 9);
        assert_eq!([entry(10_000), entry(990_000)], [0, 98]);
        assert_eq!([entry(991_000), entry(999_000)], [99, ENTRIES - 1]);
    }

    /// An opening, so many targets of one class and volume, a leak of 1.
    fn front(class: u8, volume: u32, targets: u16) -> Vec<Record> {
        let mut records = vec![studies::opening(1)];
        for number in 0..targets {
            records.push(studies::target(number, class, 0, volume));
        }
        records.push(studies::leak(1, 1));
        records
    }

    #[test]
    fn forms_and_mixtures_of_one_study() {
        use Timing::{Seconds, Tenths, Untimed};
        let outcomes: [(u8, &[Timing]); 8] = [
            (outcome::POOL_FIRE, &[Untimed, Seconds]),
            (outcome::FIREBALL, &[Tenths, Untimed, Untimed]),
            (outcome::EXPLOSION, &[Seconds, Tenths]),
            (outcome::FLASH_FIRE, &[Untimed, Seconds, Tenths]),
            (outcome::JET_FIRE, &[Tenths, Tenths]),
            (outcome::JET_FIRE, &[Seconds]),
            (outcome::JET_FIRE, &[]),
            (outcome::EXPLOSION, &[Tenths, Seconds]),
        ];
        let mut records = front(3, 0, 3);
        for (i, (kind, timings)) in outcomes.into_iter().enumerate() {
            if i < 7 {
                records.push(studies::branching(1));
            }
            records.push(studies::outcome(kind, timings.len() as u16));
            for (target, timing) in (0..).zip(timings) {
                records.push(timing.effect(target, 1, u16::from(is_fire(kind))));
            }
        }
        let seen = count(&calls(records, 1));
        assert_eq!(seen.forms, [3, 2, 3, 1, 3, 3]);
        assert_eq!(seen.mixed, [1, 1, 2, 1]);
    }

    #[test]
    fn numbers_of_the_clocks() {
        // Targets, heat, a form, durations; and fires whose chance changes with
        // the number one less and one more.
        let people = (0, 0, 16_789);
        let vessel = (1, 100_000, 15_001);
        let sphere = (2, 1, 60_000);
        for (targets, timing, durations, first, expected) in [
            (people, Timing::Untimed, [19, 20, 21], 0, [2, 1]),
            (people, Timing::Seconds, [19, 20, 21], 0, [2, 1]),
            (people, Timing::Tenths, [199, 200, 201], 6, [2, 1]),
            (people, Timing::Tenths, [19, 20, 21], 6, [0, 0]),
            (vessel, Timing::Untimed, [599, 600, 601], 2, [1, 1]),
            (vessel, Timing::Tenths, [6_000, 6_000, 6_001], 8, [2, 1]),
            (sphere, Timing::Seconds, [600, 601, 601], 4, [1, 2]),
            (sphere, Timing::Tenths, [5_999, 6_001, 6_002], 10, [0, 1]),
            (sphere, Timing::Tenths, [599, 600, 601], 10, [0, 0]),
        ] {
            let (class, volume, heat) = targets;
            let mut records = front(class, volume, 3);
            records.push(studies::outcome(outcome::FIREBALL, 3));
            for (target, duration) in (0..).zip(durations) {
                records.push(timing.effect(target, heat, duration));
            }
            let seen = count(&calls(records, 1));
            assert_eq!(seen.edges[first..first + 2], expected, "{durations:?}");
            let all: u64 = seen.edges.iter().sum();
            assert_eq!(all, expected.iter().sum::<u64>(), "{durations:?}");
        }
    }

    /// A study of three fires, the second and third of kind 8.
    fn three_fires() -> Vec<Record> {
        let mut records = front(0, 0, 3);
        records.push(studies::outcome(outcome::FIREBALL, 3));
        records.extend(Timing::ALL.map(|timing| timing.effect(timing as u16, 1, 1)));
        records
    }

    #[test]
    fn cuts_of_one_study() {
        let mut records = three_fires();
        records.push(studies::closing(records.len() as u32 + 1, 1));
        let bytes = records.concat();
        let of = |size: usize| {
            let mut calls = Vec::new();
            for part in bytes.chunks(size) {
                piece(&mut calls, part);
                piece(&mut calls, &[]);
            }
            count(&calls).cuts
        };
        assert_eq!(of(1), [2; CUTS]);
        assert_eq!(of(bytes.len()), [0; CUTS]);
        // The effects of kind 8 stand from 58 to 67 and from 68 to 77.
        assert_eq!(of(30), [0, 1, 0, 0, 0, 0, 0, 0, 0]);
        assert_eq!(of(11), [0, 0, 0, 0, 0, 0, 0, 1, 1]);
    }

    #[test]
    fn last_bytes_refused() {
        let of = |effect: Record| {
            let mut records = three_fires();
            records[5 + 2] = effect;
            let mut calls = Vec::new();
            piece(&mut calls, &records.concat());
            count(&calls).last_bytes
        };
        assert_eq!(of(studies::timed(1, 1, 1, 2)), [1, 0, 0]);
        assert_eq!(of(studies::timed(2, 1, 1, 255)), [1, 0, 0]);
        assert_eq!(of(studies::timed(1, 1, 0, 2)), [0, 1, 0]);
        assert_eq!(of(studies::timed(0, 1, 1, 2)), [0, 0, 1]);
        assert_eq!(of(studies::timed(3, 1, 1, 2)), [0, 0, 1]);
        // Refused for another reason, or taken.
        for last in [0, 1] {
            assert_eq!(of(studies::timed(1, 1, 0, last)), [0; 3]);
            assert_eq!(of(studies::timed(0, 1, 1, last)), [0; 3]);
            assert_eq!(of(studies::timed(1, 1, 1, last)), [0; 3]);
        }
        assert_eq!(of(studies::effect(0, 1, 0)), [0; 3]);
    }

    /// The counts of `Curves`, in its order.
    fn branchings(seen: &Seen) -> [&[u64]; 6] {
        seen.branchings.all()
    }

    /// A tree with branchings of these kinds, each in the second branch of the one
    /// before, after an opening and a leak of 1.
    fn tree(kinds: &[u8]) -> Vec<Record> {
        let mut records = front(0, 0, 0);
        for kind in kinds {
            records.push(match kind {
                4 => studies::branching(1),
                _ => studies::curve_branching(1, 1),
            });
            records.push(studies::outcome(0, 0));
        }
        records.push(studies::outcome(0, 0));
        records
    }

    #[test]
    fn trees_of_one_study() {
        let of = |kinds: &[u8]| branchings(&count(&calls(tree(kinds), 1)))[0].to_vec();
        assert_eq!(of(&[]), [0, 0, 0, 0]);
        assert_eq!(of(&[4]), [1, 0, 0, 0]);
        assert_eq!(of(&[4; 8]), [1, 0, 0, 0]);
        assert_eq!(of(&[10; 8]), [0, 1, 0, 0]);
        assert_eq!(of(&[4, 10]), [0, 0, 1, 0]);
        assert_eq!(of(&[10, 4, 4, 4, 4, 4, 4]), [0, 0, 1, 0]);
        assert_eq!(of(&[4, 4, 4, 4, 4, 4, 4, 10]), [0, 0, 0, 1]);
        // Eight branchings that are not one below the other, in two trees.
        let mut records = tree(&[4, 10, 10]);
        records.push(studies::leak(2, 1));
        for _ in 0..4 {
            records.push(studies::branching(1));
        }
        records.extend((0..2).map(|_| studies::outcome(0, 0)));
        for _ in 0..4 {
            records.push(studies::curve_branching(1, 1));
        }
        records.extend((0..7).map(|_| studies::outcome(0, 0)));
        assert_eq!(branchings(&count(&calls(records, 2)))[0], [0, 0, 2, 0]);
    }

    #[test]
    fn curves_and_rates_of_one_study() {
        let mut records = front(0, 0, 0);
        for (curve, rate) in [
            (1, 1),
            (2, 999),
            (2, 1_000),
            (13, 1_001),
            (8, 5_000_000),
            (8, 10_000_001),
            (13, u32::MAX),
        ] {
            records.push(studies::curve_branching(curve, rate));
            records.push(studies::outcome(0, 0));
        }
        records.push(studies::outcome(0, 0));
        let seen = count(&calls(records, 1));
        let [_, ends, _, chances, around, _] = branchings(&seen);
        assert_eq!(ends, [2, 3, 2]);
        let met = |counts: &[u64]| -> Vec<(usize, u64)> {
            let counts = counts.iter().copied().enumerate();
            counts.filter(|&(_, count)| count > 0).collect()
        };
        let of_curve = |curve: usize, column: usize| (curve - 1) * 13 + column;
        let expected = [
            (of_curve(1, 0), 1),
            (of_curve(2, 0), 2),
            (of_curve(8, 11), 1),
            (of_curve(8, 12), 1),
            (of_curve(13, 1), 1),
            (of_curve(13, 12), 1),
        ];
        assert_eq!(met(chances), expected);
        assert_eq!(chances.len(), of_curve(13, 12) + 1);
        assert_eq!(met(around), [(0, 1), (1, 1), (2, 1), (34, 1), (38, 1)]);
    }

    #[test]
    fn cuts_of_branchings() {
        let mut records = tree(&[10, 4]);
        records.push(studies::closing(records.len() as u32 + 1, 1));
        let bytes = records.concat();
        // The branching of kind 10 stands from 18 to 23.
        for (size, expected) in [(1, [1; 5]), (20, [0, 1, 0, 0, 0]), (23, [0, 0, 0, 0, 1])] {
            let mut calls = Vec::new();
            for part in bytes.chunks(size) {
                piece(&mut calls, part);
            }
            assert_eq!(branchings(&count(&calls))[5], expected, "{size}");
        }
    }

    #[test]
    fn branchings_refused() {
        let of = |levels: usize, last: Record| {
            let mut records = front(0, 0, 0);
            records.extend((0..levels).map(|_| studies::branching(1)));
            records.push(last);
            let mut calls = Vec::new();
            piece(&mut calls, &records.concat());
            let seen = count(&calls);
            let cases = branchings(&seen)[2].iter().zip(0..);
            cases
                .filter(|&(&count, _)| count == 1)
                .map(|(_, case)| case)
                .last()
        };
        let branching = studies::curve_branching;
        assert_eq!(of(7, branching(0, 1)), Some(0));
        assert_eq!(of(0, branching(14, 1)), Some(1));
        assert_eq!(of(0, branching(255, 1)), Some(1));
        assert_eq!(of(0, branching(13, 0)), Some(2));
        assert_eq!(of(0, branching(0, 0)), Some(3));
        assert_eq!(of(7, branching(14, 0)), Some(3));
        assert_eq!(of(8, branching(13, 1)), Some(4));
        assert_eq!(of(8, branching(0, 1)), Some(5));
        assert_eq!(of(8, branching(1, 0)), Some(5));
        let out_of_order = [studies::outcome(0, 0), branching(1, 1)].concat();
        assert_eq!(of(0, out_of_order), Some(6));
        // Taken, cut short, or of kind 4.
        assert_eq!(of(7, branching(13, 1)), None::<usize>);
        assert_eq!(of(8, branching(0, 0)[..5].to_vec()), None);
        assert_eq!(of(8, studies::branching(1)), None);
        assert_eq!(of(0, studies::branching(1_000_001)), None);
    }

    #[test]
    fn the_lists_have_cases_of_every_sort() {
        let mut lists = Seen::default();
        for index in 0..2_000 {
            lists.add(&count(&lists::list(3, index)), |count| count.min(1));
        }
        let sets = lists.sets();
        let sets = sets.iter().map(|set| (set.heading, set.counts));
        let groups = lists.groups();
        let groups = groups.iter().map(|group| (group.heading, group.counts));
        let least = [4, 80, 4, 20, 60, 80, 200, 60, 7, 4, 60, 150, 2];
        assert_eq!(sets.len() + groups.len(), least.len());
        for ((heading, counts), least) in sets.chain(groups).zip(least) {
            let enough = counts.iter().all(|&lists| lists > least);
            assert!(enough, "{heading}: {counts:?}");
        }
    }
}
