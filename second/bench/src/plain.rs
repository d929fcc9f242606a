//! A straightforward reader of document 01's studies, with requests P1, P2, P3
//! and P6 of document 02, to time the others by: the rules as they are written,
//! nothing prepared for speed.

use second_desk::chance::{class, setting};
use second_desk::ignition;
use second_desk::logarithm::THRESHOLDS;
use second_desk::record::{self, number, outcome};
use second_desk::volume::LEAST;
use second_desk::{Answer, Report, Standing, TargetFigures, Totals};

const MAX_TARGETS: usize = 256;
const MAX_SCENARIOS: u32 = 65_536;
const MAX_RECORDS: u32 = 1_000_000;
const MAX_ABOVE: u32 = 7;
const MAX_VOLUME: u32 = 100_000;
const MAX_FREQUENCY: u64 = 10_000_000_000_000;
const MAX_EFFECTS: u16 = 256;
const LONGEST_RECORD: usize = 13;

/// A chance of one, in millionths.
const CERTAIN: u32 = 1_000_000;
/// The natural logarithm of 2, in millionths.
const LN_2: i64 = 693_147;

/// What the rules for fires take from a duration's unit.
struct Clock {
    /// The longest time a person stays in the heat.
    longest: u16,
    /// The constant of the probit of death.
    constant: i64,
    /// Equipment fails by fire for longer than this time.
    limit: u16,
}

static SECONDS: Clock = Clock {
    longest: 20,
    constant: -36_380_000,
    limit: 600,
};

static TENTHS: Clock = Clock {
    longest: 200,
    constant: -42_274_618,
    limit: 6_000,
};

/// Steps of one octave of the logarithm.
static STEPS: [u32; 256] = THRESHOLDS;

/// The least volume of each K from 1000 to 1342.
static VOLUMES: [u16; 343] = LEAST;

/// Table D.3 in hundredths, with P2's two entries: 1 % to 99 % by 1 %, then
/// 99.1 % to 99.9 % by 0.1 %.
#[rustfmt::skip]
static PROBITS: [i64; 108] = [
    267, 295, 312, 325, 336, 345, 352, 359, 366,
    372, 377, 382, 387, 392, 396, 401, 405, 408, 412,
    416, 419, 423, 426, 429, 433, 436, 439, 442, 445,
    448, 450, 453, 456, 459, 461, 464, 467, 469, 472,
    475, 477, 480, 482, 485, 487, 490, 492, 495, 497,
    500, 503, 505, 508, 510, 513, 515, 518, 520, 523,
    525, 528, 531, 533, 536, 539, 541, 544, 547, 550,
    552, 555, 558, 561, 564, 567, 571, 574, 577, 581,
    584, 588, 592, 595, 599, 604, 608, 613, 618, 623,
    628, 634, 641, 648, 655, 664, 675, 688, 705, 733,
    737, 741, 746, 751, 758, 765, 775, 788, 809,
];

/// The tabulated release rates, in tenths of a gram per second.
static RATES: [u32; 13] = ignition::RATES;

/// The ignition curves: their chances at these rates, in ten-thousandths.
static CURVES: [[u16; 13]; 13] = ignition::CURVES;

/// What may come next.
#[derive(Clone, Copy, PartialEq, Eq)]
enum Expected {
    Opening,
    TargetOrScenario,
    Scenario,
    Tree,
    Effect,
    Nothing,
}

struct Target {
    class: u8,
    setting: u8,
    volume: u32,
    sum: u64,
    margin: u32,
    listed: bool,
}

/// A tree that is still to be read.
struct Tree {
    frequency: u64,
    /// Branchings above it.
    above: u32,
}

/// The outcome whose effects are being read.
struct Outcome {
    kind: u8,
    tree: Tree,
    effects_left: u16,
    /// The least target the next effect may name.
    next_target: u16,
}

pub struct Reader {
    expected: Expected,
    refusal: Option<Answer>,
    /// Bytes of the records taken so far.
    place: u64,
    /// The record that the end of a piece has cut, and how much of it is there.
    pending: [u8; LONGEST_RECORD],
    held: usize,
    study: u32,
    records: u32,
    scenarios: u32,
    last_scenario: Option<u32>,
    leaks: u64,
    /// Frequency of the scenario's leak.
    leak: u64,
    /// The scenario's trees still to be read, the next one last.
    trees: Vec<Tree>,
    outcome: Option<Outcome>,
    targets: Vec<Target>,
    kinds: [u64; 6],
    unjudged: u32,
}

impl Reader {
    pub fn new() -> Reader {
        Reader {
            expected: Expected::Opening,
            refusal: None,
            place: 0,
            pending: [0; LONGEST_RECORD],
            held: 0,
            study: 0,
            records: 0,
            scenarios: 0,
            last_scenario: None,
            leaks: 0,
            leak: 0,
            trees: Vec::new(),
            outcome: None,
            targets: Vec::new(),
            kinds: [0; 6],
            unjudged: 0,
        }
    }

    /// Reads one piece of the study.
    pub fn piece(&mut self, bytes: &[u8]) -> Answer {
        if let Some(refusal) = self.refusal {
            return refusal;
        }
        match self.read(bytes) {
            Ok(()) => Answer {
                number: number::TAKEN,
                place: self.bytes_read(),
            },
            Err(number) => {
                let place = self.place;
                let refusal = Answer { number, place };
                if number != number::AFTER_CLOSING {
                    self.refusal = Some(refusal);
                }
                refusal
            }
        }
    }

    fn bytes_read(&self) -> u64 {
        self.place + self.held as u64
    }

    fn read(&mut self, mut bytes: &[u8]) -> Result<(), u8> {
        if self.held > 0 {
            let length = record_length(self.pending[0])?;
            let missing = length - self.held;
            let (head, rest) = bytes.split_at(missing.min(bytes.len()));
            self.hold(head);
            if self.held < length {
                return Ok(());
            }
            let pending = self.pending;
            self.held = 0;
            self.record(&pending[..length])?;
            bytes = rest;
        }
        while let Some(&kind) = bytes.first() {
            if self.expected == Expected::Nothing {
                return Err(number::AFTER_CLOSING);
            }
            let length = record_length(kind)?;
            if bytes.len() < length {
                self.hold(bytes);
                break;
            }
            let (record, rest) = bytes.split_at(length);
            self.record(record)?;
            bytes = rest;
        }
        Ok(())
    }

    /// Appends bytes to the record that the end of a piece cuts.
    fn hold(&mut self, bytes: &[u8]) {
        let end = self.held + bytes.len();
        self.pending[self.held..end].copy_from_slice(bytes);
        self.held = end;
    }

    /// Reads one whole record.
    fn record(&mut self, record: &[u8]) -> Result<(), u8> {
        let (kind, body) = (record[0], &record[1..]);
        if !self.allows(kind) {
            return Err(number::ORDER);
        }
        if self.records == MAX_RECORDS {
            return Err(number::TOO_MANY);
        }
        match kind {
            record::OPENING => self.opening(body),
            record::TARGET => self.target_record(body)?,
            record::LEAK => self.leak(body)?,
            record::BRANCHING => self.branching(chance_of_branch(body))?,
            record::CURVE_BRANCHING => self.branching(chance_of_ignition(body))?,
            record::OUTCOME => self.outcome(body)?,
            record::EFFECT | record::TIMED_EFFECT => self.effect(body)?,
            _ => self.closing(body)?,
        }
        self.records += 1;
        self.place += record.len() as u64;
        Ok(())
    }

    fn allows(&self, kind: u8) -> bool {
        match self.expected {
            Expected::Opening => kind == record::OPENING,
            Expected::TargetOrScenario => {
                matches!(kind, record::TARGET | record::LEAK | record::CLOSING)
            }
            Expected::Scenario => matches!(kind, record::LEAK | record::CLOSING),
            Expected::Tree => matches!(
                kind,
                record::BRANCHING | record::CURVE_BRANCHING | record::OUTCOME
            ),
            Expected::Effect => matches!(kind, record::EFFECT | record::TIMED_EFFECT),
            Expected::Nothing => false,
        }
    }

    fn opening(&mut self, body: &[u8]) {
        self.study = u32::from_be_bytes(field(body, 0));
        self.expected = Expected::TargetOrScenario;
    }

    fn target_record(&mut self, body: &[u8]) -> Result<(), u8> {
        let number = u16::from_be_bytes(field(body, 0));
        let [class, setting] = field(body, 2);
        let volume = u32::from_be_bytes(field(body, 4));
        if self.targets.len() == MAX_TARGETS {
            return Err(number::TOO_MANY);
        }
        let greatest_setting = match class {
            class::PEOPLE => setting::INDOORS,
            _ => 0,
        };
        if class > class::PIPE || setting > greatest_setting || volume > MAX_VOLUME {
            return Err(number::FIELD);
        }
        if usize::from(number) != self.targets.len() {
            return Err(number::NUMBERING);
        }
        self.targets.push(Target {
            class,
            setting,
            volume,
            sum: 0,
            margin: 0,
            listed: false,
        });
        Ok(())
    }

    fn leak(&mut self, body: &[u8]) -> Result<(), u8> {
        let scenario = u32::from_be_bytes(field(body, 0));
        let frequency = u64::from_be_bytes(field(body, 4));
        if self.scenarios == MAX_SCENARIOS {
            return Err(number::TOO_MANY);
        }
        if frequency == 0 || frequency > MAX_FREQUENCY {
            return Err(number::FIELD);
        }
        if self.last_scenario.is_some_and(|last| scenario <= last) {
            return Err(number::NUMBERING);
        }
        self.scenarios += 1;
        self.last_scenario = Some(scenario);
        self.leaks += frequency;
        self.leak = frequency;
        self.trees.push(Tree {
            frequency,
            above: 0,
        });
        self.expected = Expected::Tree;
        Ok(())
    }

    /// A branching with this chance of its first branch; none where a field is
    /// outside its bounds.
    fn branching(&mut self, chance: Option<u32>) -> Result<(), u8> {
        let Tree { frequency, above } = self.trees.pop().ok_or(number::ORDER)?;
        if above > MAX_ABOVE {
            return Err(number::TOO_MANY);
        }
        let first = share(frequency, chance.ok_or(number::FIELD)?);
        for frequency in [frequency - first, first] {
            self.trees.push(Tree {
                frequency,
                above: above + 1,
            });
        }
        Ok(())
    }

    fn outcome(&mut self, body: &[u8]) -> Result<(), u8> {
        let [kind] = field(body, 0);
        let effects = u16::from_be_bytes(field(body, 1));
        let most = match kind {
            outcome::NO_EFFECT => 0,
            _ => MAX_EFFECTS,
        };
        if kind > outcome::EXPLOSION || effects > most {
            return Err(number::FIELD);
        }
        let tree = self.trees.pop().ok_or(number::ORDER)?;
        self.kinds[usize::from(kind)] += tree.frequency;
        if effects > 0 {
            self.outcome = Some(Outcome {
                kind,
                tree,
                effects_left: effects,
                next_target: 0,
            });
            self.expected = Expected::Effect;
        } else {
            self.tree_ends();
        }
        Ok(())
    }

    fn effect(&mut self, body: &[u8]) -> Result<(), u8> {
        let clock = clock(body)?;
        let number = u16::from_be_bytes(field(body, 0));
        let intensity = u32::from_be_bytes(field(body, 2));
        let duration = u16::from_be_bytes(field(body, 6));
        let outcome = self.outcome.as_mut().ok_or(number::ORDER)?;
        let within_bounds = match outcome.kind {
            outcome::FLASH_FIRE => duration == 0 && intensity <= 1,
            outcome::EXPLOSION => duration == 0,
            _ => duration > 0,
        };
        if !within_bounds {
            return Err(number::FIELD);
        }
        if number < outcome.next_target {
            return Err(number::NUMBERING);
        }
        let target = self
            .targets
            .get_mut(usize::from(number))
            .ok_or(number::NUMBERING)?;
        let chance = if target.class == class::PEOPLE {
            death(target.setting, outcome.kind, intensity, duration, clock)
        } else {
            damage(target, outcome.kind, intensity, duration, clock)
        };
        target.sum += share(outcome.tree.frequency, chance);
        target.margin += outcome.tree.above + 1;
        target.listed |= chance > 700_000 && self.leak >= 10_000_000;
        if is_fire(outcome.kind) && unjudged_in_fire(target) {
            self.unjudged += 1;
        }
        outcome.next_target = number + 1;
        outcome.effects_left -= 1;
        if outcome.effects_left == 0 {
            self.tree_ends();
        }
        Ok(())
    }

    fn tree_ends(&mut self) {
        self.expected = if self.trees.is_empty() {
            Expected::Scenario
        } else {
            Expected::Tree
        };
    }

    fn closing(&mut self, body: &[u8]) -> Result<(), u8> {
        let records = u32::from_be_bytes(field(body, 0));
        let leaks = u64::from_be_bytes(field(body, 4));
        if records != self.records + 1 || leaks != self.leaks {
            return Err(number::CLOSING_DIFFERS);
        }
        self.expected = Expected::Nothing;
        Ok(())
    }

    /// The study's totals.
    pub fn totals(&self) -> Report<Totals> {
        self.report(Ok(Totals {
            study: self.study,
            records: self.records,
            leaks: self.leaks,
            kinds: self.kinds,
            unjudged: self.unjudged,
        }))
    }

    /// The figures of one target.
    pub fn target(&self, number: u16) -> Report<TargetFigures> {
        let target = self.targets.get(usize::from(number));
        self.report(target.map(figures).ok_or(number::NO_SUCH_TARGET))
    }

    /// The figures if the study is closed, else why there are none.
    fn report<T>(&self, figures: Result<T, u8>) -> Report<T> {
        let (number, place, figures) = match (self.refusal, figures) {
            (Some(refusal), _) => (refusal.number, refusal.place, None),
            (None, _) if self.expected != Expected::Nothing => {
                (number::NOT_CLOSED, self.bytes_read(), None)
            }
            (None, Err(number)) => (number, self.bytes_read(), None),
            (None, Ok(figures)) => (number::TAKEN, self.bytes_read(), Some(figures)),
        };
        Report {
            number,
            place,
            figures,
        }
    }
}

fn figures(target: &Target) -> TargetFigures {
    let standing = if target.class == class::PEOPLE {
        let grade = (5..=10).filter(|&power| target.sum >= 10u64.pow(power));
        Standing::Grade(grade.count() as u8)
    } else if target.listed {
        Standing::Listed
    } else {
        Standing::NotListed
    };
    TargetFigures {
        sum: target.sum,
        margin: target.margin,
        standing,
    }
}

/// The length of a record, its kind byte included.
fn record_length(kind: u8) -> Result<usize, u8> {
    match kind {
        record::OPENING | record::BRANCHING => Ok(5),
        record::TARGET | record::EFFECT => Ok(9),
        record::TIMED_EFFECT => Ok(10),
        record::CURVE_BRANCHING => Ok(6),
        record::LEAK | record::CLOSING => Ok(13),
        record::OUTCOME => Ok(4),
        _ => Err(number::UNKNOWN_KIND),
    }
}

/// The bytes of a field that starts at this place of the body.
fn field<const N: usize>(body: &[u8], at: usize) -> [u8; N] {
    body[at..at + N].try_into().unwrap()
}

/// The clock that an effect's last byte names; kind 6 has none.
fn clock(effect: &[u8]) -> Result<&'static Clock, u8> {
    match effect.get(8) {
        None | Some(0) => Ok(&SECONDS),
        Some(1) => Ok(&TENTHS),
        Some(_) => Err(number::FIELD),
    }
}

/// The chance of a branching of kind 4.
fn chance_of_branch(branching: &[u8]) -> Option<u32> {
    let chance = u32::from_be_bytes(field(branching, 0));
    Some(chance).filter(|&chance| chance <= CERTAIN)
}

/// The chance of a branching of kind 10: that of its curve at the least tabulated
/// rate not below its own, or at the last.
fn chance_of_ignition(branching: &[u8]) -> Option<u32> {
    let [curve] = field(branching, 0);
    let rate = u32::from_be_bytes(field(branching, 1));
    let row = CURVES.get(usize::from(curve).checked_sub(1)?)?;
    if rate == 0 {
        return None;
    }
    let column = RATES.partition_point(|&tabulated| tabulated < rate);
    let chance = row.get(column).or(row.last())?;
    Some(u32::from(*chance) * 100)
}

/// Frequency × chance, rounded down.
fn share(frequency: u64, chance: u32) -> u64 {
    frequency * u64::from(chance) / u64::from(CERTAIN)
}

fn is_fire(kind: u8) -> bool {
    (outcome::POOL_FIRE..=outcome::FIREBALL).contains(&kind)
}

/// Whether every fire on this target is left unjudged.
fn unjudged_in_fire(target: &Target) -> bool {
    match target.class {
        class::PRESSURISED_VESSEL => target.volume == 0 || target.volume > 10_000,
        class::TOWER | class::PUMP => true,
        _ => false,
    }
}

/// L(n) for n from 1 on.
fn log(n: u32) -> i64 {
    let shift = n.leading_zeros();
    let mantissa = n << shift;
    let reached = STEPS.partition_point(|&least| least <= mantissa);
    i64::from(31 - shift) * 256 + reached as i64 - 1
}

/// K of a volume from 1 to 10,000.
fn root(volume: u32) -> i64 {
    let reached = VOLUMES.partition_point(|&least| u32::from(least) <= volume);
    999 + reached as i64
}

/// The chance of a probit.
fn chance(probit: i64) -> u32 {
    let reached = PROBITS.partition_point(|&entry| entry * 10_000 <= probit) as u32;
    if reached <= 99 {
        reached * 10_000
    } else {
        990_000 + (reached - 99) * 1_000
    }
}

/// Chance of death in a place of people.
fn death(setting: u8, kind: u8, intensity: u32, duration: u16, clock: &Clock) -> u32 {
    match kind {
        outcome::FLASH_FIRE => intensity * CERTAIN,
        outcome::EXPLOSION => {
            if intensity >= 30_000 {
                CERTAIN
            } else if setting == setting::INDOORS && intensity >= 10_000 {
                25_000
            } else {
                0
            }
        }
        _ => {
            if intensity >= 35_000 {
                return CERTAIN;
            }
            if setting == setting::INDOORS || intensity == 0 {
                return 0;
            }
            let exposure = u32::from(duration.min(clock.longest));
            let steps = 4 * log(intensity) + 3 * log(exposure);
            let chance = chance(clock.constant + steps * LN_2 / 300);
            if setting == setting::OUTDOORS {
                chance * 14 / 100
            } else {
                chance
            }
        }
    }
}

/// Chance of damage to equipment.
fn damage(target: &Target, kind: u8, intensity: u32, duration: u16, clock: &Clock) -> u32 {
    match kind {
        outcome::FLASH_FIRE => 0,
        outcome::EXPLOSION => blast_damage(target, intensity),
        _ => fire_damage(target, intensity, duration, clock),
    }
}

fn blast_damage(target: &Target, overpressure: u32) -> u32 {
    let (a, b, threshold) = match target.class {
        class::ATMOSPHERIC_VESSEL => (-9_360_000, 134, 5_170),
        class::TOWER => (-12_220_000, 165, 17_000),
        class::PUMP => (-12_420_000, 164, 18_700),
        _ => (-14_440_000, 182, 30_000),
    };
    if overpressure < threshold {
        return 0;
    }
    chance(a + b * log(overpressure) * LN_2 / 25_600)
}

fn fire_damage(target: &Target, heat: u32, duration: u16, clock: &Clock) -> u32 {
    if unjudged_in_fire(target) || duration <= clock.limit {
        return 0;
    }
    if target.class == class::PRESSURISED_VESSEL {
        if heat <= 40_000 {
            return 0;
        }
        let rise = 1_749_109 * log(heat) * LN_2 / 256_000_000;
        let volume = 16_336_715 * root(target.volume) / 1_000;
        return chance(457_583 + rise - volume);
    }
    if heat <= 15_000 {
        return 0;
    }
    let rise = 2_083_416 * log(heat) * LN_2 / 256_000_000;
    let volume = 4_925_949 * i64::from(target.volume) / 100_000;
    chance(-20_094_547 + rise + volume)
}

#[cfg(test)]
mod tests {
    use super::*;
    use second_desk::Study;

    /// Feeds both readers the same pieces; answers and reports must be the
    /// same throughout. Gives the last answer's number.
    fn same(bytes: &[u8], size: usize) -> u8 {
        let (mut plain, mut study) = (Reader::new(), Study::new());
        let mut last = number::TAKEN;
        for piece in bytes.chunks(size).chain([&[][..]]) {
            let answer = plain.piece(piece);
            assert_eq!(answer, study.piece(piece), "pieces of {size}: {bytes:?}");
            if !piece.is_empty() {
                last = answer.number;
            }
        }
        assert_eq!(plain.totals(), study.totals(), "{bytes:?}");
        for target in 0..=256 {
            let figures = plain.target(target);
            assert_eq!(figures, study.target(target), "target {target}: {bytes:?}");
            if figures.figures.is_none() {
                break;
            }
        }
        last
    }

    fn example(name: &str) -> Vec<u8> {
        let folder = concat!(env!("CARGO_MANIFEST_DIR"), "/../../examples/");
        std::fs::read(folder.to_owned() + name).unwrap()
    }

    /// A study with its effects as kind 8, in seconds and tenths in turn.
    fn timed(study: &[u8]) -> Vec<u8> {
        let mut bytes = Vec::new();
        let mut last = 0;
        let mut rest = study;
        while let Some(&kind) = rest.first() {
            let (record, after) = rest.split_at(record_length(kind).unwrap());
            bytes.extend(record);
            if kind == record::EFFECT {
                let start = bytes.len() - record.len();
                bytes[start] = record::TIMED_EFFECT;
                bytes.push(last);
                last = 1 - last;
            }
            rest = after;
        }
        bytes
    }

    /// A study with its branchings by curves.
    fn on_curves(study: &[u8]) -> Vec<u8> {
        let mut bytes = Vec::new();
        let mut rest = study;
        while let Some(&kind) = rest.first() {
            let (record, after) = rest.split_at(record_length(kind).unwrap());
            match kind {
                record::BRANCHING => {
                    bytes.extend([record::CURVE_BRANCHING, 8, 0, 0x4c, 0x4b, 0x40])
                }
                _ => bytes.extend(record),
            }
            rest = after;
        }
        bytes
    }

    #[test]
    fn examples_whole_cut_short_and_damaged() {
        let mut seen = [0; 8];
        let mut compare = |bytes: &[u8]| {
            for size in [usize::MAX, 16, 7, 1] {
                seen[usize::from(same(bytes, size))] += 1;
            }
        };
        let examples = ["specimen.study", "resin-works.study"].map(example);
        let others = [timed(&examples[0]), on_curves(&examples[0])];
        for bytes in examples.into_iter().chain(others) {
            assert!(Reader::new().piece(&bytes).number == number::TAKEN);
            for end in 0..=bytes.len() {
                compare(&bytes[..end]);
            }
            compare(&[&bytes[..], &[0]].concat());
            compare(&[&bytes[..], &bytes[..]].concat());
            for place in 0..bytes.len() {
                let mut damaged = bytes.clone();
                damaged.remove(place);
                compare(&damaged);
                damaged.insert(place, 0);
                for value in 0..=255 {
                    damaged[place] = value;
                    compare(&damaged);
                }
            }
        }
        // Refusal 5 needs more than one damaged byte; see below.
        for (number, &times) in seen.iter().enumerate() {
            assert!(times > 0 || number == 5, "{number} was never answered");
        }
    }

    /// The kind of an effect with this last byte, or with none.
    fn effect_kind(last: &[u8]) -> u8 {
        match last {
            [] => record::EFFECT,
            _ => record::TIMED_EFFECT,
        }
    }

    /// So many targets, then so many scenarios of one pool fire that works on
    /// all of them.
    fn fires(targets: u16, scenarios: u32) -> Vec<u8> {
        let mut bytes = vec![record::OPENING, 0, 0, 0, 7];
        for target in 0..targets {
            let class = (target % 6) as u8;
            bytes.push(record::TARGET);
            bytes.extend(target.to_be_bytes());
            bytes.extend([class, 0, 0, 1, 0, 0]);
        }
        for scenario in 0..scenarios {
            bytes.push(record::LEAK);
            bytes.extend(scenario.to_be_bytes());
            bytes.extend(10_000_000u64.to_be_bytes());
            bytes.extend([record::OUTCOME, outcome::POOL_FIRE]);
            bytes.extend(targets.to_be_bytes());
            for target in 0..targets {
                let last = [&[][..], &[0], &[1]][usize::from(target % 3)];
                bytes.push(effect_kind(last));
                bytes.extend(target.to_be_bytes());
                bytes.extend((scenario * 7 + 1).to_be_bytes());
                bytes.extend([3, 0]);
                bytes.extend(last);
            }
        }
        bytes
    }

    #[test]
    fn bounds_and_one_beyond() {
        // 99 targets and 9,900 scenarios are 1,000,000 records.
        for (targets, scenarios, number) in [
            (256, 1, number::TAKEN),
            (257, 1, number::TOO_MANY),
            (0, 65_536, number::TAKEN),
            (0, 65_537, number::TOO_MANY),
            (99, 9_900, number::TAKEN),
            (99, 9_901, number::TOO_MANY),
        ] {
            assert_eq!(same(&fires(targets, scenarios), 65_536), number);
        }
        for (branchings, number) in [(8, number::TAKEN), (9, number::TOO_MANY)] {
            let mut bytes = fires(1, 0);
            bytes.extend([record::LEAK, 0, 0, 0, 9, 0, 0, 0, 0, 0, 1, 0, 0]);
            let curves = on_curves(&[record::BRANCHING, 0, 7, 0, 0].repeat(branchings));
            assert_eq!(same(&[&bytes[..], &curves].concat(), 3), number);
            for _ in 0..branchings {
                bytes.extend([record::BRANCHING, 0, 7, 0, 0]);
            }
            assert_eq!(same(&bytes, 3), number);
        }
    }

    #[test]
    fn branchings_by_every_curve_at_and_around_every_rate() {
        let front = [
            &fires(0, 0)[..],
            &[record::LEAK, 0, 0, 0, 9, 0, 0, 9, 0, 0, 0, 0, 1],
        ];
        let outcomes = [outcome::POOL_FIRE, outcome::JET_FIRE];
        let back = outcomes.map(|kind| [record::OUTCOME, kind, 0, 0]).concat();
        let closing = [record::CLOSING, 0, 0, 0, 6, 0, 0, 9, 0, 0, 0, 0, 1];
        let around = RATES.iter().flat_map(|rate| [rate - 1, *rate, rate + 1]);
        for rate in around.chain([0, 1, 20_000_000, u32::MAX]) {
            for curve in 0..=255 {
                let branching = [&[record::CURVE_BRANCHING, curve][..], &rate.to_be_bytes()];
                let bytes = [&front.concat()[..], &branching.concat(), &back, &closing].concat();
                let good = (1..=13).contains(&curve) && rate > 0;
                let number = if good { number::TAKEN } else { number::FIELD };
                assert_eq!(same(&bytes, 65_536), number, "curve {curve} at {rate}");
            }
        }
    }

    /// Volumes of class 2 at both ends of those judged and at steps of K.
    const SPHERES: [u32; 10] = [0, 1, 2, 3, 330, 331, 9_823, 9_824, 10_000, 10_001];

    #[test]
    fn effects_of_every_kind_on_every_class() {
        let sums = |kind: u8, intensity: u32, duration: u16, last: &[u8]| {
            let mut bytes = fires(6, 0);
            bytes.extend([record::TARGET, 0, 6, 0, 1, 0, 0, 0, 0]);
            bytes.extend([record::TARGET, 0, 7, 0, 2, 0, 0, 0, 0]);
            for (number, volume) in (8..).zip(SPHERES) {
                bytes.extend([record::TARGET, 0, number, 2, 0]);
                bytes.extend(volume.to_be_bytes());
            }
            bytes.extend([record::LEAK, 0, 0, 0, 9, 0, 0, 0, 1, 0, 0, 0, 0]);
            bytes.extend([record::OUTCOME, kind, 0, 18]);
            for target in 0..18 {
                bytes.extend([effect_kind(last), 0, target]);
                bytes.extend(intensity.to_be_bytes());
                bytes.extend(duration.to_be_bytes());
                bytes.extend(last);
            }
            bytes.extend([record::CLOSING, 0, 0, 0, 40, 0, 0, 0, 1, 0, 0, 0, 0]);
            assert_eq!(same(&bytes, 65_536), number::TAKEN);
        };
        let steps = (0..60_000).step_by(13);
        let steps = steps.chain((60_000..2_000_000).step_by(997));
        let steps = steps.chain((2_000_000..24_000_000).step_by(49_999));
        for intensity in steps.chain([40_000, 1_768_269, u32::MAX - 1, u32::MAX]) {
            sums(outcome::EXPLOSION, intensity, 0, &[]);
            for duration in [1, 19, 20, 21, 600, 601, 65_535] {
                sums(outcome::JET_FIRE, intensity, duration, &[]);
            }
            for duration in [1, 199, 200, 201, 6_000, 6_001, 65_535] {
                sums(outcome::FIREBALL, intensity, duration, &[1]);
            }
            sums(outcome::POOL_FIRE, intensity, 601, &[0]);
        }
        for last in [&[][..], &[0], &[1]] {
            sums(outcome::FLASH_FIRE, 0, 0, last);
            sums(outcome::FLASH_FIRE, 1, 0, last);
            sums(outcome::EXPLOSION, 80_000, 0, last);
        }
    }
}
