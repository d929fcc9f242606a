//! The streaming reader of one study.
//!
//! A record that lies whole in a piece is read straight from it. Only a record
//! cut by the end of a piece is held, in one number, until it is complete.

use crate::chance::{self, Clock};
use crate::ignition;
use crate::record::{self, number, outcome};
use crate::report::{Report, Standing, TargetFigures, Totals};

/// What a piece is answered with: a number of document 01 and a place.
#[derive(Clone, Copy, Debug, PartialEq, Eq)]
pub struct Answer {
    pub number: u8,
    pub place: u64,
}

/// What the reader expects next.
#[derive(Clone, Copy, Debug, PartialEq, Eq)]
enum Stage {
    /// The opening.
    Opening,
    /// A target, a leak or the closing.
    Targets,
    /// A branching or an outcome.
    Tree,
    /// An effect.
    Effects,
    /// A leak or the closing.
    Scenarios,
    /// Nothing: the study is closed.
    Closed,
    /// Nothing: a refusal is kept.
    Refused,
}

impl Stage {
    /// Whether the order allows a record of this kind here.
    #[inline(always)]
    const fn allows(self, kind: u8) -> bool {
        let kinds: u16 = match self {
            Stage::Opening => 1 << record::OPENING,
            Stage::Targets => 1 << record::TARGET | 1 << record::LEAK | 1 << record::CLOSING,
            Stage::Tree => {
                1 << record::BRANCHING | 1 << record::CURVE_BRANCHING | 1 << record::OUTCOME
            }
            Stage::Effects => 1 << record::EFFECT | 1 << record::TIMED_EFFECT,
            Stage::Scenarios => 1 << record::LEAK | 1 << record::CLOSING,
            Stage::Closed | Stage::Refused => 0,
        };
        kinds >> kind & 1 == 1
    }
}

/// A declared target and what its effects have added up to.
#[derive(Clone, Copy, Debug)]
struct Target {
    sum: u64,
    margin: u32,
    volume_term: i32,
    class: u8,
    setting: u8,
    unjudged_in_fire: bool,
    listed: bool,
}

impl Target {
    const NONE: Target = Target {
        sum: 0,
        margin: 0,
        volume_term: 0,
        class: 0,
        setting: 0,
        unjudged_in_fire: false,
        listed: false,
    };
}

/// A second branch whose tree has not been read yet.
#[derive(Clone, Copy, Debug)]
struct Branch {
    frequency: u64,
    above: u8,
}

/// An effect of either kind.
struct Effect {
    target: u16,
    intensity: u32,
    duration: u16,
    clock: &'static Clock,
}

impl Effect {
    /// The effect of these fields, whose duration is by this clock.
    #[inline(always)]
    fn new(body: &[u8; 8], clock: &'static Clock) -> Effect {
        let [t1, t0, i3, i2, i1, i0, d1, d0] = *body;
        Effect {
            target: u16::from_be_bytes([t1, t0]),
            intensity: u32::from_be_bytes([i3, i2, i1, i0]),
            duration: u16::from_be_bytes([d1, d0]),
            clock,
        }
    }

    #[inline(always)]
    fn in_bounds(&self, form: u8) -> bool {
        match form {
            form::FIRE => self.duration >= 1,
            form::FLASH => self.duration == 0 && self.intensity <= 1,
            _ => self.duration == 0,
        }
    }

    /// The chance of death or damage on a target.
    #[inline(always)]
    fn chance(&self, form: u8, target: &Target) -> u32 {
        use chance::class;
        let Effect {
            intensity,
            duration,
            clock,
            ..
        } = *self;
        match (form, target.class) {
            (form::FIRE, class::PEOPLE) => {
                chance::fire_death(clock, target.setting, intensity, duration)
            }
            (form::FIRE, _) if target.unjudged_in_fire => 0,
            (form::FIRE, class) => {
                chance::fire_damage(clock, class, target.volume_term, intensity, duration)
            }
            (form::FLASH, class::PEOPLE) => chance::flash_death(intensity),
            (form::BLAST, class::PEOPLE) => chance::blast_death(target.setting, intensity),
            (form::BLAST, class) => chance::blast_damage(class, intensity),
            _ => 0,
        }
    }
}

/// Why no record was read.
enum Stop {
    /// The piece ends before the record, whose length this is.
    Cut(usize),
    Refused,
    /// The study is closed.
    Closed,
}

/// How an outcome works on its targets; the rules for effects depend on it.
mod form {
    pub const FIRE: u8 = 0;
    pub const FLASH: u8 = 1;
    pub const BLAST: u8 = 2;
}

/// One study, as far as it has been read.
#[derive(Clone, Debug)]
pub struct Study {
    /// Bytes in the records taken; also the place of the next record, or of
    /// the one refused.
    taken: u64,
    /// Frequency of the tree or outcome being read.
    frequency: u64,
    leaks: u64,
    kinds: [u64; 6],
    /// The least number the next scenario may have.
    next_scenario: u64,
    branches: [Branch; Study::MAX_ABOVE as usize + 1],
    records: u32,
    scenarios: u32,
    number: u32,
    unjudged: u32,
    target_count: u16,
    effects_left: u16,
    /// The least target the next effect may name.
    next_target: u16,
    stage: Stage,
    /// The number kept in stage `Refused`.
    refusal: u8,
    /// Bytes held in `cut`, and those missing to the whole record; both are 0
    /// where no record is held.
    held: u8,
    missing: u8,
    /// Branchings above the tree or outcome being read.
    above: u8,
    /// Entries used in `branches`.
    waiting: u8,
    outcome: u8,
    /// Whether the leak is frequent enough for the domino list.
    frequent: bool,
    /// The held bytes, the last one in the lowest place; above them anything.
    cut: u128,
    targets: [Target; Study::MAX_TARGETS as usize],
}

impl Default for Study {
    fn default() -> Study {
        Study::new()
    }
}

impl Study {
    pub const MAX_TARGETS: u16 = 256;
    pub const MAX_SCENARIOS: u32 = 65_536;
    pub const MAX_RECORDS: u32 = 1_000_000;
    /// Branchings above a branching.
    pub const MAX_ABOVE: u8 = 7;
    pub const MAX_VOLUME: u32 = 100_000;
    pub const MIN_FREQUENCY: u64 = 1;
    pub const MAX_FREQUENCY: u64 = 10_000_000_000_000;
    pub const MAX_CHANCE: u32 = 1_000_000;
    /// Ignition curves; the first is 1.
    pub const MAX_CURVE: u8 = 13;
    /// Effects of one outcome.
    pub const MAX_EFFECTS: u16 = 256;
    pub const MAX_CLASS: u8 = 5;
    pub const MAX_SETTING: u8 = 2;
    pub const MAX_OUTCOME: u8 = 5;
    /// A chance above this puts equipment on the domino list,
    pub const DOMINO_CHANCE: u32 = 700_000;
    /// under a leak of at least this frequency.
    pub const DOMINO_LEAK: u64 = 10_000_000;

    /// A fresh study.
    pub const fn new() -> Study {
        Study {
            taken: 0,
            frequency: 0,
            leaks: 0,
            kinds: [0; 6],
            next_scenario: 0,
            branches: [Branch {
                frequency: 0,
                above: 0,
            }; Study::MAX_ABOVE as usize + 1],
            records: 0,
            scenarios: 0,
            number: 0,
            unjudged: 0,
            target_count: 0,
            effects_left: 0,
            next_target: 0,
            stage: Stage::Opening,
            refusal: number::TAKEN,
            held: 0,
            missing: 0,
            above: 0,
            waiting: 0,
            outcome: 0,
            frequent: false,
            cut: 0,
            targets: [Target::NONE; Study::MAX_TARGETS as usize],
        }
    }

    /// Reads the next piece of the study.
    #[inline]
    pub fn piece(&mut self, bytes: &[u8]) -> Answer {
        if bytes.len() < usize::from(self.missing) {
            // The held record stays cut.
            self.cut = append(self.cut, bytes);
            self.held += bytes.len() as u8;
            self.missing -= bytes.len() as u8;
            return self.answer(number::TAKEN);
        }
        self.read(bytes)
    }

    /// Reads a piece that completes the held record, if there is one.
    #[inline(never)]
    fn read(&mut self, bytes: &[u8]) -> Answer {
        let mut rest = bytes;
        if self.held > 0 {
            match self.complete(rest) {
                Ok(after) => rest = after,
                Err(_) => return self.answer(self.refusal),
            }
        }
        while let Some(&kind) = rest.first() {
            match self.next(kind, rest) {
                Ok(after) => rest = after,
                Err(Stop::Cut(length)) => {
                    self.hold(bytes, rest.len(), length);
                    break;
                }
                Err(Stop::Refused) => break,
                Err(Stop::Closed) => return self.answer(number::AFTER_CLOSING),
            }
        }
        self.answer(self.refusal)
    }

    /// Completes the held record and reads it. Gives the bytes after it.
    #[inline(always)]
    fn complete<'a>(&mut self, bytes: &'a [u8]) -> Result<&'a [u8], Stop> {
        let missing = usize::from(self.missing);
        let length = usize::from(self.held) + missing;
        let (more, after) = bytes.split_at(missing);
        let cut = match bytes.first_chunk() {
            Some(front) => {
                self.cut << (8 * missing) | u128::from_be_bytes(*front) >> (8 * (16 - missing))
            }
            None => append(self.cut, more),
        };
        self.held = 0;
        self.missing = 0;
        let record = (cut << (8 * (16 - length))).to_be_bytes();
        self.next(record[0], &record[..length])?;
        Ok(after)
    }

    /// Holds the last `held` bytes of a piece, the front part of a record of
    /// this length.
    #[inline(always)]
    fn hold(&mut self, bytes: &[u8], held: usize, length: usize) {
        self.cut = match bytes.last_chunk() {
            Some(back) => u128::from_be_bytes(*back),
            None => append(0, &bytes[bytes.len() - held..]),
        };
        self.held = held as u8;
        self.missing = (length - held) as u8;
    }

    /// Reads the record at the front of `rest`, and with an effect those that
    /// follow it. Gives the bytes after.
    #[inline(always)]
    fn next<'a>(&mut self, kind: u8, rest: &'a [u8]) -> Result<&'a [u8], Stop> {
        match self.stage {
            Stage::Closed => return Err(Stop::Closed),
            Stage::Refused => return Err(Stop::Refused),
            Stage::Effects => {
                let after = self.effects(rest);
                if after.len() < rest.len() {
                    return Ok(after);
                }
            }
            _ => {}
        }
        match kind {
            record::OPENING => self.take(rest, Study::opening),
            record::TARGET => self.take(rest, Study::declare),
            record::LEAK => self.take(rest, Study::leak),
            record::BRANCHING => self.take(rest, Study::branching),
            record::CURVE_BRANCHING => self.take(rest, Study::curve_branching),
            record::OUTCOME => self.take(rest, Study::outcome),
            record::EFFECT => self.take(rest, Study::refused_effect),
            record::TIMED_EFFECT => self.take(rest, Study::refused_timed_effect),
            record::CLOSING => self.take(rest, Study::closing),
            _ => self.refuse(number::UNKNOWN_KIND),
        }
    }

    /// Reads one record with a body of N bytes by its rule.
    #[inline(always)]
    fn take<'a, const N: usize>(
        &mut self,
        rest: &'a [u8],
        rule: impl FnOnce(&mut Study, &[u8; N]) -> Result<(), u8>,
    ) -> Result<&'a [u8], Stop> {
        let Some((body, after)) = rest[1..].split_first_chunk::<N>() else {
            return Err(Stop::Cut(1 + N));
        };
        if !self.stage.allows(rest[0]) {
            return self.refuse(number::ORDER);
        }
        if self.records == Study::MAX_RECORDS {
            return self.refuse(number::TOO_MANY);
        }
        if let Err(refusal) = rule(self, body) {
            return self.refuse(refusal);
        }
        self.records += 1;
        self.taken += 1 + N as u64;
        Ok(after)
    }

    #[cold]
    fn refuse<'a>(&mut self, refusal: u8) -> Result<&'a [u8], Stop> {
        self.stage = Stage::Refused;
        self.refusal = refusal;
        Err(Stop::Refused)
    }

    /// An answer at the bytes read so far. After a refusal these are the bytes
    /// before the refused record.
    #[inline(always)]
    fn answer(&self, number: u8) -> Answer {
        Answer {
            number,
            place: self.taken + u64::from(self.held),
        }
    }

    fn opening(&mut self, body: &[u8; 4]) -> Result<(), u8> {
        self.number = u32::from_be_bytes(*body);
        self.stage = Stage::Targets;
        Ok(())
    }

    fn declare(&mut self, body: &[u8; 8]) -> Result<(), u8> {
        let [n1, n0, class, setting, v3, v2, v1, v0] = *body;
        let volume = u32::from_be_bytes([v3, v2, v1, v0]);
        if self.target_count == Study::MAX_TARGETS {
            return Err(number::TOO_MANY);
        }
        if class > Study::MAX_CLASS
            || setting > Study::MAX_SETTING
            || (class != chance::class::PEOPLE && setting != 0)
            || volume > Study::MAX_VOLUME
        {
            return Err(number::FIELD);
        }
        if u16::from_be_bytes([n1, n0]) != self.target_count {
            return Err(number::NUMBERING);
        }
        let volume_term = chance::volume_term(class, volume);
        self.targets[usize::from(self.target_count)] = Target {
            volume_term: volume_term.unwrap_or(0),
            class,
            setting,
            unjudged_in_fire: volume_term.is_none(),
            ..Target::NONE
        };
        self.target_count += 1;
        Ok(())
    }

    #[inline(always)]
    fn leak(&mut self, body: &[u8; 12]) -> Result<(), u8> {
        let [s3, s2, s1, s0, frequency @ ..] = *body;
        let scenario = u64::from(u32::from_be_bytes([s3, s2, s1, s0]));
        let frequency = u64::from_be_bytes(frequency);
        if self.scenarios == Study::MAX_SCENARIOS {
            return Err(number::TOO_MANY);
        }
        if !(Study::MIN_FREQUENCY..=Study::MAX_FREQUENCY).contains(&frequency) {
            return Err(number::FIELD);
        }
        if scenario < self.next_scenario {
            return Err(number::NUMBERING);
        }
        self.next_scenario = scenario + 1;
        self.scenarios += 1;
        self.leaks += frequency;
        self.frequency = frequency;
        self.frequent = frequency >= Study::DOMINO_LEAK;
        self.above = 0;
        self.stage = Stage::Tree;
        Ok(())
    }

    #[inline(always)]
    fn branching(&mut self, body: &[u8; 4]) -> Result<(), u8> {
        let chance = u32::from_be_bytes(*body);
        self.branch(Some(chance).filter(|&chance| chance <= Study::MAX_CHANCE))
    }

    #[inline(always)]
    fn curve_branching(&mut self, body: &[u8; 5]) -> Result<(), u8> {
        let [curve, rate @ ..] = *body;
        self.branch(ignition::chance(curve, u32::from_be_bytes(rate)))
    }

    /// Goes on to the first branch. There is no chance where a field is outside
    /// its bounds.
    #[inline(always)]
    fn branch(&mut self, chance: Option<u32>) -> Result<(), u8> {
        if self.above > Study::MAX_ABOVE {
            return Err(number::TOO_MANY);
        }
        let chance = chance.ok_or(number::FIELD)?;
        let first = share(self.frequency, chance);
        self.above += 1;
        self.branches[usize::from(self.waiting)] = Branch {
            frequency: self.frequency - first,
            above: self.above,
        };
        self.waiting += 1;
        self.frequency = first;
        Ok(())
    }

    #[inline(always)]
    fn outcome(&mut self, body: &[u8; 3]) -> Result<(), u8> {
        let [kind, e1, e0] = *body;
        let effects = u16::from_be_bytes([e1, e0]);
        if kind > Study::MAX_OUTCOME
            || effects > Study::MAX_EFFECTS
            || (kind == outcome::NO_EFFECT && effects > 0)
        {
            return Err(number::FIELD);
        }
        self.kinds[usize::from(kind)] += self.frequency;
        self.outcome = kind;
        self.effects_left = effects;
        self.next_target = 0;
        if effects > 0 {
            self.stage = Stage::Effects;
        } else {
            self.end_outcome();
        }
        Ok(())
    }

    /// Goes on to the second branch read next, or ends the scenario.
    #[inline(always)]
    fn end_outcome(&mut self) {
        if self.waiting == 0 {
            self.stage = Stage::Scenarios;
            return;
        }
        self.waiting -= 1;
        let branch = self.branches[usize::from(self.waiting)];
        self.frequency = branch.frequency;
        self.above = branch.above;
        self.stage = Stage::Tree;
    }

    /// Reads effects at the front of `rest`, as many as are whole and without
    /// fault, and gives the bytes after them.
    #[inline(always)]
    fn effects<'a>(&mut self, rest: &'a [u8]) -> &'a [u8] {
        match self.outcome {
            outcome::FLASH_FIRE => self.effects_of::<{ form::FLASH }>(rest),
            outcome::EXPLOSION => self.effects_of::<{ form::BLAST }>(rest),
            _ => self.effects_of::<{ form::FIRE }>(rest),
        }
    }

    fn effects_of<'a, const FORM: u8>(&mut self, mut rest: &'a [u8]) -> &'a [u8] {
        let limit = u32::from(self.effects_left).min(Study::MAX_RECORDS - self.records);
        let margin = u32::from(self.above) + 1;
        let targets = &mut self.targets[..usize::from(self.target_count)];
        let mut next_target = self.next_target;
        let mut done = 0;
        let length = rest.len();
        while done < limit {
            let Some((effect, after)) = first_effect(rest) else {
                break;
            };
            if effect.target < next_target || !effect.in_bounds(FORM) {
                break;
            }
            let Some(target) = targets.get_mut(usize::from(effect.target)) else {
                break;
            };
            let chance = effect.chance(FORM, target);
            if FORM == form::FIRE && target.unjudged_in_fire {
                self.unjudged += 1;
            }
            target.sum += share(self.frequency, chance);
            target.margin += margin;
            target.listed |= self.frequent && chance > Study::DOMINO_CHANCE;
            next_target = effect.target + 1;
            rest = after;
            done += 1;
        }
        self.next_target = next_target;
        self.records += done;
        self.taken += (length - rest.len()) as u64;
        self.effects_left -= done as u16;
        if self.effects_left == 0 {
            self.end_outcome();
        }
        rest
    }

    /// The rule for an effect that `effects` left: it has a fault.
    #[cold]
    fn refused_effect(&mut self, body: &[u8; 8]) -> Result<(), u8> {
        let form = match self.outcome {
            outcome::FLASH_FIRE => form::FLASH,
            outcome::EXPLOSION => form::BLAST,
            _ => form::FIRE,
        };
        if Effect::new(body, &Clock::SECONDS).in_bounds(form) {
            Err(number::NUMBERING)
        } else {
            Err(number::FIELD)
        }
    }

    /// The same for an effect whose last byte names its clock.
    #[cold]
    fn refused_timed_effect(&mut self, body: &[u8; 9]) -> Result<(), u8> {
        let [fields @ .., last] = body;
        match Clock::named(*last) {
            Some(_) => self.refused_effect(fields),
            None => Err(number::FIELD),
        }
    }

    fn closing(&mut self, body: &[u8; 12]) -> Result<(), u8> {
        let [c3, c2, c1, c0, sum @ ..] = *body;
        let count = u32::from_be_bytes([c3, c2, c1, c0]);
        if count != self.records + 1 || u64::from_be_bytes(sum) != self.leaks {
            return Err(number::CLOSING_DIFFERS);
        }
        self.stage = Stage::Closed;
        Ok(())
    }

    /// Whether the order allows a record of this kind next.
    pub fn allows(&self, kind: u8) -> bool {
        record::length(kind).is_some() && self.stage.allows(kind)
    }

    /// The number a report is refused with before it is looked at closer.
    fn report_refusal(&self) -> Option<u8> {
        match self.stage {
            Stage::Closed => None,
            Stage::Refused => Some(self.refusal),
            _ => Some(number::NOT_CLOSED),
        }
    }

    fn report<T>(&self, figures: Result<T, u8>) -> Report<T> {
        let (number, figures) = match figures {
            Ok(figures) => (number::TAKEN, Some(figures)),
            Err(refusal) => (refusal, None),
        };
        let Answer { number, place } = self.answer(number);
        Report {
            number,
            place,
            figures,
        }
    }

    /// The study's totals.
    pub fn totals(&self) -> Report<Totals> {
        self.report(match self.report_refusal() {
            Some(refusal) => Err(refusal),
            None => Ok(Totals {
                study: self.number,
                records: self.records,
                leaks: self.leaks,
                kinds: self.kinds,
                unjudged: self.unjudged,
            }),
        })
    }

    /// The figures of one target.
    pub fn target(&self, target: u16) -> Report<TargetFigures> {
        self.report(self.target_figures(target))
    }

    fn target_figures(&self, target: u16) -> Result<TargetFigures, u8> {
        if let Some(refusal) = self.report_refusal() {
            return Err(refusal);
        }
        let target = self
            .declared()
            .get(usize::from(target))
            .ok_or(number::NO_SUCH_TARGET)?;
        let standing = match (target.class, target.listed) {
            (chance::class::PEOPLE, _) => Standing::Grade(grade(target.sum)),
            (_, true) => Standing::Listed,
            (_, false) => Standing::NotListed,
        };
        Ok(TargetFigures {
            sum: target.sum,
            margin: target.margin,
            standing,
        })
    }

    /// Writes the domino list into the front of the lent numbers and gives its
    /// length. A refused call writes nothing.
    pub fn domino(&self, lent: &mut [u16]) -> Report<u16> {
        self.report(self.fill_domino(lent))
    }

    fn fill_domino(&self, lent: &mut [u16]) -> Result<u16, u8> {
        if let Some(refusal) = self.report_refusal() {
            return Err(refusal);
        }
        let listed = || {
            let targets = self.declared().iter().zip(0u16..);
            targets
                .filter(|(target, _)| target.class != chance::class::PEOPLE && target.listed)
                .map(|(_, number)| number)
        };
        let count = listed().count();
        if lent.len() < count {
            return Err(number::LIST_TOO_SHORT);
        }
        for (to, number) in lent.iter_mut().zip(listed()) {
            *to = number;
        }
        Ok(count as u16)
    }

    fn declared(&self) -> &[Target] {
        &self.targets[..usize::from(self.target_count)]
    }
}

/// Appends a few bytes to those of a number.
#[inline(always)]
fn append(number: u128, bytes: &[u8]) -> u128 {
    bytes
        .iter()
        .fold(number, |number, &byte| number << 8 | u128::from(byte))
}

/// Frequency times chance in millionths, rounded down. The product fits: a
/// frequency is at most 10^13 and a chance at most 10^6.
#[inline(always)]
fn share(frequency: u64, chance: u32) -> u64 {
    frequency * u64::from(chance) / 1_000_000
}

/// The effect at the front of some bytes, and the bytes after it. None where no
/// whole effect stands there, or its last byte names no clock.
#[inline(always)]
fn first_effect(bytes: &[u8]) -> Option<(Effect, &[u8])> {
    let ([kind, body @ ..], rest) = bytes.split_first_chunk::<9>()?;
    let (last, after) = match *kind {
        record::EFFECT => (0, rest),
        record::TIMED_EFFECT => {
            let (&last, after) = rest.split_first()?;
            (last, after)
        }
        _ => return None,
    };
    Some((Effect::new(body, Clock::named(last)?), after))
}

/// The grade of a place of people.
fn grade(sum: u64) -> u8 {
    let powers = [
        100_000,
        1_000_000,
        10_000_000,
        100_000_000,
        1_000_000_000,
        10_000_000_000,
    ];
    powers.iter().filter(|&&power| sum >= power).count() as u8
}
