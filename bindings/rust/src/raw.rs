//! The archive's calls as they are, with flat structs of numbers for answers. `include/cushiedoo.h` says what each of
//! them means; the safe calls of this crate stand above them.

/// The answer of a reading.
#[repr(C)]
#[derive(Clone, Copy, Debug, PartialEq, Eq)]
pub struct Reading {
    pub number: u64,
    pub place: u64,
    pub kind: u64,
    pub n: u64,
    pub m: u64,
    pub count: u64,
}

/// The answer of a writing.
#[repr(C)]
#[derive(Clone, Copy, Debug, PartialEq, Eq)]
pub struct Writing {
    pub number: u64,
    pub place: u64,
    pub written: u64,
}

/// The answer of judging, and one place of a row of verdicts.
#[repr(C)]
#[derive(Clone, Copy, Debug, Default, PartialEq, Eq)]
pub struct Verdict {
    pub number: u64,
    pub place: u64,
    pub record: u64,
    pub outcome: u64,
    pub start: i64,
    pub fall: i64,
    pub grade: u64,
}

/// The answer of a bound: judging's fields, and the bound beside them.
#[repr(C)]
#[derive(Clone, Copy, Debug, PartialEq, Eq)]
pub struct Bounded {
    pub number: u64,
    pub place: u64,
    pub record: u64,
    pub outcome: u64,
    pub start: i64,
    pub fall: i64,
    pub grade: u64,
    pub bound: u64,
}

/// The answer of a batch.
#[repr(C)]
#[derive(Clone, Copy, Debug, PartialEq, Eq)]
pub struct Batch {
    pub number: u64,
    pub place: u64,
    pub record: u64,
    pub count: u64,
}

extern "C" {
    pub fn cushiedoo_read_loop(
        bytes: *const u8,
        bytes_len: usize,
        values: *mut i64,
        values_len: usize,
    ) -> Reading;

    pub fn cushiedoo_read_certificate(
        bytes: *const u8,
        bytes_len: usize,
        n: u64,
        m: u64,
        values: *mut i64,
        values_len: usize,
    ) -> Reading;

    pub fn cushiedoo_write_record(
        kind: u64,
        n: u64,
        m: u64,
        values: *const i64,
        values_len: usize,
        room: *mut u8,
        room_len: usize,
    ) -> Writing;

    pub fn cushiedoo_shorten(
        ranking: *const u8,
        ranking_len: usize,
        n: u64,
        m: u64,
        room: *mut u8,
        room_len: usize,
    ) -> Writing;

    pub fn cushiedoo_lengthen(
        ranking: *const u8,
        ranking_len: usize,
        n: u64,
        m: u64,
        room: *mut u8,
        room_len: usize,
    ) -> Writing;

    pub fn cushiedoo_sheet(
        input: *const u8,
        input_len: usize,
        text: *mut u8,
        text_len: usize,
    ) -> Writing;

    pub fn cushiedoo_judge(
        loop_bytes: *const u8,
        loop_len: usize,
        certificate: *const u8,
        certificate_len: usize,
        rank: *mut i64,
        rank_len: usize,
    ) -> Verdict;

    pub fn cushiedoo_judge_all(
        loop_bytes: *const u8,
        loop_len: usize,
        records: *const u8,
        records_len: usize,
        verdicts: *mut Verdict,
        verdicts_len: usize,
        ranks: *mut i64,
        ranks_len: usize,
    ) -> Batch;

    pub fn cushiedoo_bound(
        loop_bytes: *const u8,
        loop_len: usize,
        certificate: *const u8,
        certificate_len: usize,
        state: *const i64,
        state_len: usize,
    ) -> Bounded;
}
