//! The archive writes as many bytes for a study as this crate and
//! include/riskdesk.h say, no more and no fewer.

use riskdesk::Study;

const WORDS: usize = Study::SIZE / 8;
const AROUND: usize = 128;
const MARK: u64 = 0xa5a5_a5a5_a5a5_a5a5;

unsafe extern "C" {
    // On x86-64 a function that returns a large struct gets its address first.
    fn riskdesk_fresh(place: *mut u64);
    fn riskdesk_feed(study: *mut u64, bytes: *const u8, length: usize) -> riskdesk::Answer;
}

/// 256 targets and a scenario whose pool fire works on all of them; closed.
fn full_study() -> Vec<u8> {
    let mut bytes = vec![1, 0, 0, 0, 7];
    for target in 0..=255 {
        bytes.extend([2, 0, target, 0, 0, 0, 0, 0, 0]);
    }
    bytes.extend([3, 0, 0, 0, 1, 0, 0, 0, 0, 0, 0, 0, 9]);
    bytes.extend([5, 1, 1, 0]);
    for target in 0..=255 {
        bytes.extend([6, 0, target, 0, 0, 255, 255, 0, 20]);
    }
    bytes.extend([7, 0, 0, 2, 4, 0, 0, 0, 0, 0, 0, 0, 9]);
    bytes
}

#[test]
fn the_archive_writes_a_study_and_nothing_around_it() {
    let mut memory = [MARK; AROUND + WORDS + AROUND];
    let study = memory[AROUND..].as_mut_ptr();
    // SAFETY: there is room for a study of the archive's size, also if it is
    // larger than it should be by less than the words after it.
    unsafe { riskdesk_fresh(study) };
    let written = &memory[AROUND..AROUND + WORDS];
    assert_ne!(written[0], MARK, "the first word is not the study's");
    assert_ne!(written[WORDS - 1], MARK, "the last word is not the study's");

    let bytes = full_study();
    let study = memory[AROUND..].as_mut_ptr();
    // SAFETY: the study comes from riskdesk_fresh and has room as above.
    let answer = unsafe { riskdesk_feed(study, bytes.as_ptr(), bytes.len()) };
    assert_eq!((answer.number, answer.place), (0, bytes.len() as u64));
    let (before, rest) = memory.split_at(AROUND);
    let after = &rest[WORDS..];
    assert!(before.iter().chain(after).all(|&word| word == MARK));
}

#[test]
fn the_header_has_the_same_layout() {
    let path = crate::common::repository().join("include/riskdesk.h");
    let header = std::fs::read_to_string(path).unwrap();
    let size = format!("#define RISKDESK_STUDY_SIZE {}\n", Study::SIZE);
    assert!(header.contains(&size), "the header has not: {size}");
}
