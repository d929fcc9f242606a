//! The three readers, called in the same way: a study is held by the caller
//! and fed in place.

use second_desk::{Answer, TargetFigures, Totals};

use crate::plain;

/// A study being read by one of the readers. Where a report is refused there
/// are no figures, but a number and a place.
pub trait StudyReader {
    fn fresh() -> Self;
    fn feed(&mut self, bytes: &[u8]) -> Answer;
    fn totals(&self) -> Result<Totals, Answer>;
    fn target(&self, number: u16) -> Result<TargetFigures, Answer>;
}

/// The desk, by the crate in bindings/rust. It costs no time beside the archive's
/// own calls: its `feed` becomes the call of `riskdesk_feed` in the loop below.
#[cfg(feature = "desk")]
pub type Desk = riskdesk::Study;

#[cfg(not(feature = "desk"))]
pub type Desk = second_desk::Study;

#[cfg(feature = "desk")]
mod desk {
    use riskdesk::{Standing, Study};
    use second_desk::{Answer, TargetFigures, Totals};

    fn answer(answer: riskdesk::Answer) -> Answer {
        let riskdesk::Answer { number, place } = answer;
        Answer { number, place }
    }

    impl super::StudyReader for Study {
        fn fresh() -> Study {
            Study::fresh()
        }

        #[inline]
        fn feed(&mut self, bytes: &[u8]) -> Answer {
            answer(self.feed(bytes))
        }

        fn totals(&self) -> Result<Totals, Answer> {
            let totals = self.totals().map_err(answer)?;
            Ok(Totals {
                study: totals.study,
                records: totals.records,
                leaks: totals.leaks,
                kinds: totals.kinds,
                unjudged: totals.unjudged,
            })
        }

        fn target(&self, number: u16) -> Result<TargetFigures, Answer> {
            let target = self.target(number).map_err(answer)?;
            let standing = match target.standing {
                Standing::People { grade } => second_desk::Standing::Grade(grade),
                Standing::Equipment { listed: true, .. } => second_desk::Standing::Listed,
                Standing::Equipment { listed: false, .. } => second_desk::Standing::NotListed,
            };
            Ok(TargetFigures {
                sum: target.sum,
                margin: target.margin,
                standing,
            })
        }
    }
}

/// The second implementation and the straightforward reader.
macro_rules! reader_in_rust {
    ($reader:ty) => {
        impl StudyReader for $reader {
            fn fresh() -> $reader {
                <$reader>::new()
            }

            #[inline]
            fn feed(&mut self, bytes: &[u8]) -> Answer {
                self.piece(bytes)
            }

            fn totals(&self) -> Result<Totals, Answer> {
                let report = self.totals();
                report.figures.ok_or(report.answer())
            }

            fn target(&self, number: u16) -> Result<TargetFigures, Answer> {
                let report = self.target(number);
                report.figures.ok_or(report.answer())
            }
        }
    };
}

reader_in_rust!(second_desk::Study);
reader_in_rust!(plain::Reader);

/// A fresh study is fed the bytes in pieces up to the first refusal. Then the
/// totals and one target's figures are asked.
#[inline(never)]
pub fn read<R: StudyReader>(
    bytes: &[u8],
    size: usize,
    target: u16,
) -> Result<(Totals, TargetFigures), Answer> {
    let mut study = R::fresh();
    for piece in bytes.chunks(size) {
        let answer = study.feed(piece);
        if answer.number != 0 {
            return Err(answer);
        }
    }
    Ok((study.totals()?, study.target(target)?))
}
