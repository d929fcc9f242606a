//! The calls of libriskdesk.a. All unsafe code of the crate stands here.

use std::mem::MaybeUninit;

use crate::Answer;

/// The layout of the structs below, as RISKDESK_LAYOUT of include/riskdesk.h.
const LAYOUT: u32 = 1;

const STUDY_SIZE: usize = 5352;

/// A study as the archive lays it out. What its bytes mean is the archive's
/// business; those between its fields need not be initialised.
#[derive(Clone, Copy)]
#[repr(C)]
pub struct Study {
    opaque: [MaybeUninit<u64>; STUDY_SIZE / 8],
}

#[repr(C)]
pub struct TotalsReport {
    pub number: u8,
    pub place: u64,
    pub study: u32,
    pub records: u32,
    pub leaks: u64,
    pub kinds: [u64; 6],
    pub unjudged: u32,
    pub targets: u16,
}

#[repr(C)]
pub struct TargetReport {
    pub number: u8,
    pub place: u64,
    pub sum: u64,
    pub margin: u32,
    pub class: u8,
    pub grade: u8,
    /// 0 or 1.
    pub listed: u8,
}

#[repr(C)]
pub struct DominoReport {
    pub number: u8,
    pub place: u64,
    pub count: usize,
}

const _: () = {
    assert!(size_of::<Study>() == STUDY_SIZE && align_of::<Study>() == 8);
    assert!(size_of::<Answer>() == 16);
    assert!(size_of::<TotalsReport>() == 88);
    assert!(size_of::<TargetReport>() == 32);
    assert!(size_of::<DominoReport>() == 24);
};

unsafe extern "C" {
    safe fn riskdesk_layout() -> u32;
    fn riskdesk_fresh() -> Study;
    fn riskdesk_feed(study: *mut Study, bytes: *const u8, length: usize) -> Answer;
    fn riskdesk_totals(study: Study) -> TotalsReport;
    fn riskdesk_target(study: Study, target: u16) -> TargetReport;
    fn riskdesk_domino(study: Study, list: *mut u16, length: usize) -> DominoReport;
}

// What the calls below rest on: the archive's structs have the layout of those
// above, since `fresh` compares its number before there is a study, and no
// other function makes one. The archive's calls are proved to answer on every
// study and every list of bytes, and to write nothing but what is lent them.

pub fn fresh() -> Study {
    let layout = riskdesk_layout();
    assert!(
        layout == LAYOUT,
        "libriskdesk.a has layout {layout}, this crate is for layout {LAYOUT}: build both from the same version"
    );
    // SAFETY: the layouts agree.
    unsafe { riskdesk_fresh() }
}

#[inline]
pub fn feed(study: &mut Study, bytes: &[u8]) -> Answer {
    // SAFETY: the study is borrowed for this call alone; pointer and length are
    // those of one slice, which is only read.
    unsafe { riskdesk_feed(study, bytes.as_ptr(), bytes.len()) }
}

pub fn totals(study: &Study) -> TotalsReport {
    // SAFETY: the call gets a copy of the study.
    unsafe { riskdesk_totals(*study) }
}

pub fn target(study: &Study, number: u16) -> TargetReport {
    // SAFETY: the call gets a copy of the study.
    unsafe { riskdesk_target(*study, number) }
}

pub fn domino(study: &Study, list: &mut [u16]) -> DominoReport {
    // SAFETY: the call gets a copy of the study; pointer and length are those of
    // one slice, which is borrowed for this call alone.
    unsafe { riskdesk_domino(*study, list.as_mut_ptr(), list.len()) }
}
