//! The risk desk of a chemical park for Rust: the proved desk, linked from
//! `libriskdesk.a` (`tools/build-library`).
//!
//! A [`Study`] is fed its bytes in pieces of any length. When its closing
//! record has been read and agrees, it reports totals, sums, margins, grades
//! and the domino list. Before that, and of a study that was refused, there is
//! no figure at all: a report is then an error with a number and a place.
//!
//! ```
//! use riskdesk::{Standing, Study, number};
//!
//! // Study 7: one place of people, no scenario, two records and the closing one.
//! let bytes = [
//!     1, 0, 0, 0, 7, // opening: study 7
//!     2, 0, 0, 0, 0, 0, 0, 0, 0, // target 0: class 0, setting 0, volume 0
//!     7, 0, 0, 0, 3, 0, 0, 0, 0, 0, 0, 0, 0, // closing: 3 records, leaks 0
//! ];
//! let mut study = Study::fresh();
//! for piece in bytes.chunks(10) {
//!     let answer = study.feed(piece);
//!     assert_eq!(answer.number, number::TAKEN);
//! }
//! let totals = study.totals()?;
//! assert_eq!((totals.study, totals.records, totals.targets), (7, 3, 1));
//! let target = study.target(0)?;
//! assert_eq!((target.sum, target.margin), (0, 0));
//! assert_eq!(target.standing, Standing::People { grade: 0 });
//!
//! // There is no target 1.
//! let refusal = study.target(1).unwrap_err();
//! assert_eq!((refusal.number, refusal.place), (number::NO_SUCH_TARGET, 27));
//! # Ok::<(), riskdesk::Answer>(())
//! ```
//!
//! Frequencies, sums and totals count in units of 10^-13 per year. In the
//! repository docs/FORMAT.md describes the bytes of a study, docs/RULES.md what
//! is refused and what the figures mean, include/riskdesk.h the calls for C.

#![warn(missing_docs)]
#![deny(unsafe_code)]

mod answer;
#[allow(unsafe_code)]
mod archive;
mod terms;

pub use answer::Answer;
pub use terms::{class, number, outcome, record, setting, unit};

/// A study being read.
///
/// A clone goes its own way from then on. A study has a fixed size
/// ([`Study::SIZE`] bytes) and holds no memory besides.
#[derive(Clone)]
pub struct Study(archive::Study);

/// The totals of a closed study.
#[derive(Clone, Copy, Debug, PartialEq, Eq)]
pub struct Totals {
    /// The study's number, from its opening record.
    pub study: u32,
    /// Records, the opening and the closing one included.
    pub records: u32,
    /// The sum of the leak frequencies.
    pub leaks: u64,
    /// The total frequency of each kind of [`outcome`]; they add up to `leaks`.
    pub kinds: [u64; 6],
    /// Effects that no rule judged.
    pub unjudged: u32,
    /// How many targets there are, numbered from 0 on.
    pub targets: u16,
}

/// The report of one target.
#[derive(Clone, Copy, Debug, PartialEq, Eq)]
pub struct Target {
    /// The sum of its frequencies of death or damage.
    pub sum: u64,
    /// The exact sum differs by less than this; 0 where no effect names the
    /// target, whose sums are then both 0.
    pub margin: u32,
    /// What the sum or the effects mean for the target.
    pub standing: Standing,
}

/// What a target is, and what is said of it beside its sum.
#[derive(Clone, Copy, Debug, PartialEq, Eq)]
pub enum Standing {
    /// A place of people.
    People {
        /// From 0 to 6; 6 is the worst.
        grade: u8,
    },
    /// Equipment.
    Equipment {
        /// A number of [`class`] other than [`class::PEOPLE`].
        class: u8,
        /// Whether it is on the domino list.
        listed: bool,
    },
}

impl Study {
    /// The most targets; a domino list of so many numbers is always long enough.
    pub const MOST_TARGETS: u16 = 256;
    /// The most scenarios.
    pub const MOST_SCENARIOS: u32 = 65_536;
    /// The most records.
    pub const MOST_RECORDS: u32 = 1_000_000;
    /// The most branchings above a branching.
    pub const MOST_ABOVE: u8 = 7;
    /// The most effects of an outcome.
    pub const MOST_EFFECTS: u16 = 256;
    /// The greatest volume, in m³.
    pub const MOST_VOLUME: u32 = 100_000;
    /// The greatest chance, in millionths.
    pub const MOST_CHANCE: u32 = 1_000_000;
    /// The last ignition curve; the first is 1.
    pub const MOST_CURVE: u8 = 13;
    /// The least frequency of a leak, in 10^-13 per year.
    pub const LEAST_FREQUENCY: u64 = 1;
    /// The greatest frequency of a leak, in 10^-13 per year.
    pub const MOST_FREQUENCY: u64 = 10_000_000_000_000;
    /// Bytes of memory that a study takes.
    pub const SIZE: usize = size_of::<Study>();

    /// A study of which nothing is read yet.
    ///
    /// # Panics
    ///
    /// If the archive that was linked has another layout than this crate: then
    /// both are to be built from the same version of the repository.
    pub fn fresh() -> Study {
        Study(archive::fresh())
    }

    /// Reads the next piece. Pieces may be cut anywhere and may be empty; where
    /// they are cut changes no report.
    ///
    /// The answer has number 0 and the bytes read so far where the piece is
    /// taken. Numbers 1 to 6 refuse a record, with the place of its first byte,
    /// and are kept: every later call on this study gives the same. Number 7
    /// says that bytes follow the closing record, with the closed study's
    /// length; they are neither read nor counted, the reports stand, and no
    /// other call tells of it.
    #[must_use = "that bytes follow the closing record (7) is said by this answer alone"]
    #[inline]
    pub fn feed(&mut self, bytes: &[u8]) -> Answer {
        archive::feed(&mut self.0, bytes)
    }

    /// The totals.
    ///
    /// # Errors
    ///
    /// A kept refusal (1 to 6), or 8 before the closing record has been read.
    pub fn totals(&self) -> Result<Totals, Answer> {
        let report = archive::totals(&self.0);
        Answer::new(report.number, report.place).result()?;
        Ok(Totals {
            study: report.study,
            records: report.records,
            leaks: report.leaks,
            kinds: report.kinds,
            unjudged: report.unjudged,
            targets: report.targets,
        })
    }

    /// The report of the target of this number.
    ///
    /// # Errors
    ///
    /// A kept refusal (1 to 6), 8 before the closing record has been read, or 9
    /// where the study has no such target.
    pub fn target(&self, number: u16) -> Result<Target, Answer> {
        let report = archive::target(&self.0, number);
        Answer::new(report.number, report.place).result()?;
        let standing = match report.class {
            class::PEOPLE => Standing::People {
                grade: report.grade,
            },
            class => Standing::Equipment {
                class,
                listed: report.listed != 0,
            },
        };
        Ok(Target {
            sum: report.sum,
            margin: report.margin,
            standing,
        })
    }

    /// Writes the domino list to the front of `list`, in rising order, and
    /// gives its length. The numbers after it stay as they were.
    ///
    /// # Errors
    ///
    /// A kept refusal (1 to 6), 8 before the closing record has been read, or
    /// 10 where `list` is shorter than the domino list. Nothing is written then.
    pub fn domino(&self, list: &mut [u16]) -> Result<usize, Answer> {
        let report = archive::domino(&self.0, list);
        Answer::new(report.number, report.place).result()?;
        Ok(report.count)
    }
}

impl Default for Study {
    fn default() -> Study {
        Study::fresh()
    }
}

impl std::fmt::Debug for Study {
    /// Shows no figure: only a report does.
    fn fmt(&self, f: &mut std::fmt::Formatter<'_>) -> std::fmt::Result {
        f.debug_struct("Study").finish_non_exhaustive()
    }
}
