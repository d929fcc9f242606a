//! The stored vectors, cut in many ways, and what reports say before the end.

use crate::common::{Vector, vectors};
use riskdesk::{Answer, Standing, Study, number};

const BEFORE: u16 = 65_535;

fn refused(answer: Answer) -> String {
    format!("refused {} at {}\n", answer.number, answer.place)
}

/// The text of document 01 for a study in pieces.
fn text<'a>(pieces: impl IntoIterator<Item = &'a [u8]>) -> String {
    let mut study = Study::fresh();
    for piece in pieces {
        if let Err(answer) = study.feed(piece).result() {
            return refused(answer);
        }
    }
    report(&study).unwrap_or_else(refused)
}

fn report(study: &Study) -> Result<String, Answer> {
    let totals = study.totals()?;
    let (number, records, leaks) = (totals.study, totals.records, totals.leaks);
    let mut text = format!("study {number} records {records} leaks {leaks}\n");
    for (kind, total) in totals.kinds.iter().enumerate() {
        text += &format!("kind {kind} {total}\n");
    }
    for number in 0..totals.targets {
        let target = study.target(number)?;
        let standing = match target.standing {
            Standing::People { grade } => format!(" grade {grade}"),
            Standing::Equipment { listed: true, .. } => " domino".into(),
            Standing::Equipment { listed: false, .. } => String::new(),
        };
        let (sum, margin) = (target.sum, target.margin);
        text += &format!("target {number} sum {sum} margin {margin}{standing}\n");
    }
    text += &format!("unjudged {}\n", totals.unjudged);
    Ok(text)
}

/// The number and place of an expected refusal.
fn expected_refusal(vector: &Vector) -> Option<Answer> {
    let words = vector.expected.strip_prefix("refused ")?;
    let (number, place) = words.trim_end().split_once(" at ")?;
    Some(Answer {
        number: number.parse().unwrap(),
        place: place.parse().unwrap(),
    })
}

fn fed(bytes: &[u8]) -> Study {
    let mut study = Study::fresh();
    let _ = study.feed(bytes);
    study
}

/// Every report is refused with this answer and writes nothing.
fn assert_no_figures(study: &Study, answer: Answer, name: &str) {
    let mut list = [BEFORE; 256];
    assert_eq!(study.totals(), Err(answer), "{name}");
    assert_eq!(study.domino(&mut list), Err(answer), "{name}");
    assert_eq!(study.domino(&mut []), Err(answer), "{name}");
    assert_eq!(list, [BEFORE; 256], "{name}");
    for target in [0, 1, 255, 256, 65_535] {
        assert_eq!(study.target(target), Err(answer), "{name}");
    }
}

#[test]
fn whole_and_in_pieces_of_many_lengths() {
    for vector in vectors() {
        for size in (1..=40).chain([4096, usize::MAX]) {
            let text = text(vector.study.chunks(size));
            assert_eq!(text, vector.expected, "{} by {size}", vector.name);
        }
    }
}

#[test]
fn cut_in_two_at_every_place() {
    for vector in vectors() {
        for place in 0..=vector.study.len() {
            let (front, back) = vector.study.split_at(place);
            let text = text([front, back]);
            assert_eq!(text, vector.expected, "{} cut at {place}", vector.name);
        }
    }
}

#[test]
fn byte_by_byte_with_empty_pieces_between() {
    for vector in vectors() {
        let pieces = vector.study.chunks(1).flat_map(|byte| [&[], byte, &[]]);
        assert_eq!(text(pieces), vector.expected, "{}", vector.name);
    }
}

#[test]
fn no_figure_before_the_closing_record() {
    for vector in vectors() {
        if expected_refusal(&vector).is_some() {
            continue;
        }
        for place in 0..vector.study.len() {
            let study = fed(&vector.study[..place]);
            let answer = Answer {
                number: number::NOT_CLOSED,
                place: place as u64,
            };
            assert_no_figures(&study, answer, &vector.name);
        }
    }
}

#[test]
fn a_refused_study_stays_refused() {
    let mut seen = 0;
    for vector in vectors() {
        let Some(answer) = expected_refusal(&vector) else {
            continue;
        };
        if answer.number > number::CLOSING_DIFFERS {
            continue;
        }
        let mut study = fed(&vector.study);
        for piece in [&[], &[1, 0, 0, 0, 7][..], &vector.study] {
            assert_eq!(study.feed(piece), answer, "{}", vector.name);
            assert_no_figures(&study, answer, &vector.name);
        }
        seen += 1;
    }
    assert!(seen >= 18, "only {seen} vectors are refused");
}

#[test]
fn the_domino_list_is_that_of_the_marks() {
    let mut longest = 0;
    for vector in vectors() {
        let marked: Vec<u16> = vector
            .expected
            .lines()
            .filter_map(|line| {
                line.strip_suffix(" domino")?
                    .split(' ')
                    .nth(1)?
                    .parse()
                    .ok()
            })
            .collect();
        if expected_refusal(&vector).is_some() {
            continue;
        }
        let study = fed(&vector.study);
        let mut list = [BEFORE; 256];
        assert_eq!(study.domino(&mut list), Ok(marked.len()), "{}", vector.name);
        let (front, rest) = list.split_at(marked.len());
        assert_eq!(front, marked, "{}", vector.name);
        assert!(rest.iter().all(|&n| n == BEFORE), "{}", vector.name);
        if let Some(short) = marked.len().checked_sub(1) {
            let mut list = vec![BEFORE; short];
            let answer = Answer {
                number: number::LIST_TOO_SHORT,
                place: vector.study.len() as u64,
            };
            assert_eq!(study.domino(&mut list), Err(answer), "{}", vector.name);
            assert_eq!(list, vec![BEFORE; short], "{}", vector.name);
        }
        longest = longest.max(marked.len());
    }
    assert!(longest > 1, "no vector has a domino list of two");
}

#[test]
fn bytes_after_the_closing_record() {
    for vector in vectors() {
        if expected_refusal(&vector).is_some() {
            continue;
        }
        let mut study = Study::default();
        let longer = [&vector.study[..], &[0]].concat();
        let place = vector.study.len() as u64;
        let after = Answer {
            number: number::AFTER_CLOSING,
            place,
        };
        assert_eq!(study.feed(&longer), after, "{}", vector.name);
        assert_eq!(study.feed(&vector.study), after, "{}", vector.name);
        assert_eq!(study.feed(&[]).result(), Ok(place), "{}", vector.name);
        assert_eq!(report(&study), Ok(vector.expected), "{}", vector.name);
    }
}

#[test]
fn a_clone_goes_its_own_way() {
    let vector = &vectors()[0];
    let (front, back) = vector.study.split_at(5);
    let mut study = fed(front);
    let mut clone = study.clone();
    assert_eq!(clone.feed(&[9]).number, number::UNKNOWN_KIND);
    assert_eq!(study.feed(&[]).number, number::TAKEN);
    let _ = study.feed(back);
    assert_eq!(clone.totals().unwrap_err().place, 5);
    assert_ne!(study.totals().map_err(|answer| answer.place), Err(5));
}
