//! The three implementations that are measured, behind the same calls.

use crate::plain;
use cushiedoo::raw::{self, Batch, Bounded, Verdict, Writing};

extern "C" {
    fn onepass_judge(
        loop_bytes: *const u8,
        loop_len: usize,
        certificate: *const u8,
        certificate_len: usize,
        rank: *mut i64,
        rank_len: usize,
    ) -> Verdict;

    fn onepass_bound(
        loop_bytes: *const u8,
        loop_len: usize,
        certificate: *const u8,
        certificate_len: usize,
        state: *const i64,
        state_len: usize,
    ) -> Bounded;

    fn onepass_judge_all(
        loop_bytes: *const u8,
        loop_len: usize,
        records: *const u8,
        records_len: usize,
        verdicts: *mut Verdict,
        verdicts_len: usize,
        ranks: *mut i64,
        ranks_len: usize,
    ) -> Batch;

    fn onepass_shorten(
        ranking: *const u8,
        ranking_len: usize,
        n: u64,
        m: u64,
        room: *mut u8,
        room_len: usize,
    ) -> Writing;

    fn onepass_lengthen(
        ranking: *const u8,
        ranking_len: usize,
        n: u64,
        m: u64,
        room: *mut u8,
        room_len: usize,
    ) -> Writing;
}

/// Who answers.
#[derive(Clone, Copy, Debug, PartialEq, Eq)]
pub enum Contender {
    /// The proved archive.
    Archive,
    /// Plain Rust: `plain.rs`.
    Plain,
    /// One-pass C: `c/onepass.c`.
    OnePass,
}

pub const CONTENDERS: [Contender; 3] = [Contender::Archive, Contender::Plain, Contender::OnePass];

impl Contender {
    pub fn name(self) -> &'static str {
        match self {
            Contender::Archive => "archive",
            Contender::Plain => "plain",
            Contender::OnePass => "c",
        }
    }

    pub fn judge(self, looped: &[u8], certificate: &[u8], rank: &mut [i64]) -> Verdict {
        let call = match self {
            Contender::Archive => raw::cushiedoo_judge,
            Contender::OnePass => onepass_judge,
            Contender::Plain => return plain::judge(looped, certificate, rank),
        };
        // SAFETY: the slices are valid for their lengths, and `rank` is borrowed alone.
        unsafe {
            call(
                looped.as_ptr(),
                looped.len(),
                certificate.as_ptr(),
                certificate.len(),
                rank.as_mut_ptr(),
                rank.len(),
            )
        }
    }

    pub fn judge_all(
        self,
        looped: &[u8],
        records: &[u8],
        verdicts: &mut [Verdict],
        ranks: &mut [i64],
    ) -> Batch {
        let call = match self {
            Contender::Archive => raw::cushiedoo_judge_all,
            Contender::OnePass => onepass_judge_all,
            Contender::Plain => return plain::judge_all(looped, records, verdicts, ranks),
        };
        // SAFETY: the slices are valid for their lengths, and two of them are borrowed alone.
        unsafe {
            call(
                looped.as_ptr(),
                looped.len(),
                records.as_ptr(),
                records.len(),
                verdicts.as_mut_ptr(),
                verdicts.len(),
                ranks.as_mut_ptr(),
                ranks.len(),
            )
        }
    }

    pub fn shorten(self, ranking: &[u8], n: u64, m: u64, room: &mut [u8]) -> Writing {
        let call = match self {
            Contender::Archive => raw::cushiedoo_shorten,
            Contender::OnePass => onepass_shorten,
            Contender::Plain => return plain::shorten(ranking, n, m, room),
        };
        // SAFETY: the slices are valid for their lengths, and `room` is borrowed alone.
        unsafe {
            call(
                ranking.as_ptr(),
                ranking.len(),
                n,
                m,
                room.as_mut_ptr(),
                room.len(),
            )
        }
    }

    pub fn lengthen(self, ranking: &[u8], n: u64, m: u64, room: &mut [u8]) -> Writing {
        let call = match self {
            Contender::Archive => raw::cushiedoo_lengthen,
            Contender::OnePass => onepass_lengthen,
            Contender::Plain => return plain::lengthen(ranking, n, m, room),
        };
        // SAFETY: the slices are valid for their lengths, and `room` is borrowed alone.
        unsafe {
            call(
                ranking.as_ptr(),
                ranking.len(),
                n,
                m,
                room.as_mut_ptr(),
                room.len(),
            )
        }
    }

    pub fn bound(self, looped: &[u8], certificate: &[u8], state: &[i64]) -> Bounded {
        let call = match self {
            Contender::Archive => raw::cushiedoo_bound,
            Contender::OnePass => onepass_bound,
            Contender::Plain => return plain::bound(looped, certificate, state),
        };
        // SAFETY: the slices are valid for their lengths.
        unsafe {
            call(
                looped.as_ptr(),
                looped.len(),
                certificate.as_ptr(),
                certificate.len(),
                state.as_ptr(),
                state.len(),
            )
        }
    }
}
