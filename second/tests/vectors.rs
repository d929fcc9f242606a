//! The vectors: whole, cut in two at every place, and byte by byte.

mod common;

use common::vectors;
use second_desk::{report_text, report_text_of_pieces};

#[test]
fn there_are_64() {
    assert!(vectors().len() >= 64);
}

#[test]
fn whole() {
    for vector in vectors() {
        assert_eq!(
            report_text(&vector.study),
            vector.expected,
            "{}",
            vector.name
        );
    }
}

#[test]
fn cut_in_two_at_every_place() {
    for vector in vectors() {
        for place in 0..=vector.study.len() {
            let (front, back) = vector.study.split_at(place);
            let text = report_text_of_pieces([front, back]);
            assert_eq!(text, vector.expected, "{} cut at {place}", vector.name);
        }
    }
}

#[test]
fn byte_by_byte_with_empty_pieces_between() {
    for vector in vectors() {
        let pieces = vector.study.chunks(1).flat_map(|byte| [&[], byte, &[]]);
        let text = report_text_of_pieces(pieces);
        assert_eq!(text, vector.expected, "{}", vector.name);
    }
}

#[test]
fn in_pieces_of_every_small_size() {
    for vector in vectors() {
        for size in 1..40 {
            let text = report_text_of_pieces(vector.study.chunks(size));
            assert_eq!(text, vector.expected, "{} by {size}", vector.name);
        }
    }
}
