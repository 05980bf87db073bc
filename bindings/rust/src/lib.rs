//! Cushiedoo for Rust callers: a proved checker of certificates that loops end.
//!
//! The calls are those of the archive `librip.a`, whose promises hold on every input, so nothing needs to be checked
//! before a call. This crate adds types and words, and needs the standard library only. A slice is never null, and one
//! that is lent to be filled overlaps no other, so what the archive asks of its callers holds by Rust's own rules.
//!
//! ```
//! use cushiedoo::{bound, judge, write_record, Outcome, Verdict};
//!
//! // Loop P over (p, q): -p + q <= -2; -p + p' <= -1; q - q' <= 0. Each row: A, then A', then b.
//! let rows = [-1, 1, 0, 0, -2, -1, 0, 1, 0, -1, 0, 1, 0, -1, 0];
//! let mut looped = [0; 46];
//! write_record(1, 2, 3, &rows, &mut looped)?;
//!
//! // A ranking with Y = (1, 0, 0), Z = (0, 1, 1).
//! let mut certificate = [0; 18];
//! write_record(2, 2, 3, &[1, 0, 0, 0, 1, 1], &mut certificate)?;
//!
//! let mut rank = [0; 2];
//! let verdict = judge(&looped, &certificate, &mut rank);
//! assert_eq!(verdict, Verdict::Accepted(Outcome::Ranking { start: 2, fall: 1 }));
//! assert_eq!(rank, [1, -1]);
//! assert_eq!(verdict.to_string(), "accepted: rank from 2 down 1");
//!
//! let bounded = bound(&looped, &certificate, &[5, 1])?;
//! assert_eq!(bounded.to_string(), "rank from 2 down 1, at most 3 steps");
//!
//! // A refusal says what is wrong, and where.
//! let cut = judge(&looped, &certificate[..17], &mut rank);
//! assert_eq!(
//!     cut.to_string(),
//!     "refused 1, place 17 (number of bytes), in the certificate: bytes end early"
//! );
//!
//! // So does one of a certificate that fails a condition: here Z leaves out the last row.
//! write_record(2, 2, 3, &[1, 0, 0, 0, 1, 0], &mut certificate)?;
//! let failing = judge(&looped, &certificate, &mut rank);
//! assert_eq!(
//!     failing.to_string(),
//!     "refused 22, place 1 (column, from 0), in the certificate: (Y - Z)A is not 0 in column 1"
//! );
//! # Ok::<(), cushiedoo::Refusal>(())
//! ```

mod answers;
mod batch;
pub mod raw;

pub use answers::{Bounded, Fails, Grade, Judged, Outcome, Reading, Record, Refusal, Verdict};
pub use batch::{judge_all, judge_list, MOST_RECORDS};

/// Reads a loop record (kind 1) into the first places of `values`: its rows, each of n entries of A, n of A' and b.
pub fn read_loop(bytes: &[u8], values: &mut [i64]) -> Result<Reading, Refusal> {
    // SAFETY: both slices are valid for their lengths, and `values` is borrowed alone.
    unsafe {
        raw::cushiedoo_read_loop(
            bytes.as_ptr(),
            bytes.len(),
            values.as_mut_ptr(),
            values.len(),
        )
    }
    .into()
}

/// Reads a certificate record (kinds 2 to 4) of a loop with `n` variables and `m` rows into the first places of
/// `values`: its body in layout order.
pub fn read_certificate(
    bytes: &[u8],
    n: u64,
    m: u64,
    values: &mut [i64],
) -> Result<Reading, Refusal> {
    // SAFETY: both slices are valid for their lengths, and `values` is borrowed alone.
    unsafe {
        raw::cushiedoo_read_certificate(
            bytes.as_ptr(),
            bytes.len(),
            n,
            m,
            values.as_mut_ptr(),
            values.len(),
        )
    }
    .into()
}

/// Writes a record from its values, which are those that a reading gives, into the first places of `room`, and tells
/// the bytes written.
pub fn write_record(
    kind: u64,
    n: u64,
    m: u64,
    values: &[i64],
    room: &mut [u8],
) -> Result<usize, Refusal> {
    // SAFETY: both slices are valid for their lengths, and `room` is borrowed alone.
    unsafe {
        raw::cushiedoo_write_record(
            kind,
            n,
            m,
            values.as_ptr(),
            values.len(),
            room.as_mut_ptr(),
            room.len(),
        )
    }
    .into()
}

/// Writes a ranking (kind 2) of a loop with `n` variables and `m` rows as a short one (kind 7), which names the rows that have
/// weight only, into the first places of `room`, and tells the bytes written: 8 + 6c for c such rows. [`judge`], [`bound`] and
/// [`sheet`] take either. It is shorter exactly when 6c + 2 is below 4m.
///
/// ```
/// use cushiedoo::{lengthen, shorten, write_record};
///
/// // Y = (1, 0, 0), Z = (0, 1, 1): every row has weight.
/// let mut ranking = [0; 18];
/// write_record(2, 2, 3, &[1, 0, 0, 0, 1, 1], &mut ranking)?;
/// let mut short = [0; 26];
/// assert_eq!(shorten(&ranking, 2, 3, &mut short)?, 26);
/// let triples = [0, 0, 1, 0, 0, 0, 1, 0, 0, 0, 1, 0, 2, 0, 0, 0, 1, 0]; // each a row, its Y, its Z
/// assert_eq!((&short[..8], &short[8..]), (&[22, 0, 0, 0, 7, 0, 3, 0][..], &triples[..]));
///
/// // The way back gives the first bytes again.
/// let mut back = [0; 18];
/// assert_eq!(lengthen(&short, 2, 3, &mut back)?, 18);
/// assert_eq!(back, ranking);
/// # Ok::<(), cushiedoo::Refusal>(())
/// ```
pub fn shorten(ranking: &[u8], n: u64, m: u64, room: &mut [u8]) -> Result<usize, Refusal> {
    // SAFETY: both slices are valid for their lengths, and `room` is borrowed alone.
    unsafe {
        raw::cushiedoo_shorten(
            ranking.as_ptr(),
            ranking.len(),
            n,
            m,
            room.as_mut_ptr(),
            room.len(),
        )
    }
    .into()
}

/// Writes a short ranking (kind 7) of a loop with `n` variables and `m` rows as the ranking (kind 2) that it stands for into
/// the first places of `room`, and tells the bytes written: 6 + 4m.
pub fn lengthen(ranking: &[u8], n: u64, m: u64, room: &mut [u8]) -> Result<usize, Refusal> {
    // SAFETY: both slices are valid for their lengths, and `room` is borrowed alone.
    unsafe {
        raw::cushiedoo_lengthen(
            ranking.as_ptr(),
            ranking.len(),
            n,
            m,
            room.as_mut_ptr(),
            room.len(),
        )
    }
    .into()
}

/// Writes the text that the program "sheet" prints for `input` into the first places of `text`, and tells its bytes.
/// The only refusal is 7; the room that it tells, 47 * min(bytes, 65,536) + 306, is enough for every input of that length.
pub fn sheet(input: &[u8], text: &mut [u8]) -> Result<usize, Refusal> {
    // SAFETY: both slices are valid for their lengths, and `text` is borrowed alone.
    unsafe { raw::cushiedoo_sheet(input.as_ptr(), input.len(), text.as_mut_ptr(), text.len()) }
        .into()
}

/// The text that the program "sheet" prints for `input`, in a buffer of its own.
///
/// ```
/// assert_eq!(cushiedoo::sheet_text(&[]), "loop refused 1 0\n");
/// ```
#[must_use]
pub fn sheet_text(input: &[u8]) -> String {
    let mut text = Vec::new();
    let written = loop {
        match sheet(input, &mut text) {
            Ok(written) => break written,
            Err(refusal) => text.resize(refusal.place as usize, 0),
        }
    };
    text.truncate(written);
    String::from_utf8(text).expect("a sheet is plain ASCII")
}

/// Judges a certificate for a loop. On acceptance of a ranking, a lasso or a settling (kind 8) the first n numbers of `rank`
/// are r; an exclusion touches none. A short ranking (kind 7) has the verdict of the ranking that it stands for. A loop of several
/// paths (kind 5) and a lexicographic argument (kind 6) are judged only together and touch none.
///
/// ```
/// use cushiedoo::{judge, Outcome};
///
/// // Two paths over x: while x >= 1 it falls by 1; while x >= 3 it falls by 2. r·x = x is at least 1 and falls by 1.
/// let looped = [
///     42, 0, 0, 0, 5, 0, 1, 0, 2, 0, 2, 0, 2, 0, // L, kind, n, paths, m of each
///     255, 255, 0, 0, 255, 255, 255, 255, 255, 255, 1, 0, 255, 255, 255, 255, // -x <= -1; -x + x' <= -1
///     255, 255, 0, 0, 253, 255, 255, 255, 255, 255, 1, 0, 254, 255, 255, 255, // -x <= -3; -x + x' <= -2
/// ];
/// let argument = [
///     36, 0, 0, 0, 6, 0, 1, 0, 0, 0, 0, 0, // L, kind, components, the component of each path
///     1, 0, 0, 0, 1, 0, 0, 0, 1, 0, 0, 0, // r, δ0, δ
///     1, 0, 0, 0, 0, 0, 1, 0, // the first path's multipliers: bounded, ranking
///     1, 0, 0, 0, 0, 0, 1, 0, // the second's
/// ];
/// assert_eq!(judge(&looped, &argument, &mut []).outcome(), Some(Outcome::Lexicographic));
/// ```
pub fn judge(loop_record: &[u8], certificate: &[u8], rank: &mut [i64]) -> Verdict {
    // SAFETY: the slices are valid for their lengths, and `rank` is borrowed alone.
    unsafe {
        raw::cushiedoo_judge(
            loop_record.as_ptr(),
            loop_record.len(),
            certificate.as_ptr(),
            certificate.len(),
            rank.as_mut_ptr(),
            rank.len(),
        )
    }
    .into()
}

/// Judges a ranking, long or short, or a lasso and tells how many steps a run from `state` can take at most; of a settling, how many it can
/// take before g·x has reached t. An exclusion is refused with 4, and so is a loop of several paths or an argument for one.
///
/// ```
/// use cushiedoo::{bound, judge, write_record, Outcome};
///
/// // While x >= 0: x' = x + y and y' = y - 1. x climbs while y is above 0.
/// let rows = [
///     -1, 0, 0, 0, 0, -1, -1, 1, 0, 0, 1, 1, -1, 0, 0, 0, -1, 0, 1, -1, 0, 1, 0, -1, 1,
/// ];
/// let mut looped = [0; 70];
/// write_record(1, 2, 5, &rows, &mut looped)?;
///
/// // -y rises by 1 in every step; once it is 1 or more, x falls by 1 at least.
/// let settling = [
///     46, 0, 0, 0, 8, 0, // L, kind
///     0, 0, 255, 255, 1, 0, 0, 0, 1, 0, // g = (0, -1), t = 1, k = 1
///     0, 0, 0, 0, 0, 0, 1, 0, 0, 0, // E = (0, 0, 0, 1, 0)
///     1, 0, 0, 0, 0, 0, 0, 0, 0, 0, 0, 0, // Y = (1, 0, 0, 0, 0, 0)
///     0, 0, 1, 0, 0, 0, 0, 0, 0, 0, 1, 0, // Z = (0, 1, 0, 0, 0, 1)
/// ];
/// let mut rank = [0; 2];
/// let outcome = judge(&looped, &settling, &mut rank).outcome();
/// assert_eq!(outcome, Some(Outcome::Settling { start: 0, fall: 1 }));
/// assert_eq!(rank, [1, 0]);
///
/// // From (0, 5) at most 6 steps are taken before y is -1.
/// let bounded = bound(&looped, &settling, &[0, 5])?;
/// assert_eq!(bounded.to_string(), "settling from 0 down 1, at most 6 steps before it settles");
/// # Ok::<(), cushiedoo::Refusal>(())
/// ```
pub fn bound(loop_record: &[u8], certificate: &[u8], state: &[i64]) -> Result<Bounded, Refusal> {
    // SAFETY: the slices are valid for their lengths.
    unsafe {
        raw::cushiedoo_bound(
            loop_record.as_ptr(),
            loop_record.len(),
            certificate.as_ptr(),
            certificate.len(),
            state.as_ptr(),
            state.len(),
        )
    }
    .into()
}
