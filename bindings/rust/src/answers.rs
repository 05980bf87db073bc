//! What the calls answer, as types that hold what the numbers mean and print it for people.

use crate::raw;
use std::error::Error;
use std::fmt;

/// The record that a refusal speaks of.
#[derive(Clone, Copy, Debug, PartialEq, Eq, Hash)]
pub enum Record {
    /// Neither: the fault is in the room, the state or the values that the caller gave.
    Neither,
    /// The loop record.
    Loop,
    /// The certificate record.
    Certificate,
}

/// Where a certificate fails a condition first. Columns, rows and paths count from 0; a column stands for a variable.
#[derive(Clone, Copy, Debug, PartialEq, Eq, Hash)]
pub enum Fails {
    /// An equation of weighted sums, in this column.
    InColumn(u64),
    /// An inequality that every row of the loop must meet, at this row.
    AtRow(u64),
    /// An inequality of right sides, of which there is one.
    OnRightSides,
    /// A sum of weighted rows, or its right sides, of this path.
    OnPath(u64),
}

/// A refusal: its number, its place, and the record that it speaks of.
///
/// A refused call changed nothing that it was lent.
///
/// ```
/// use cushiedoo::{Fails, Record, Refusal};
/// let refusal = Refusal { number: 6, place: 12, record: Record::Certificate };
/// assert_eq!(refusal.meaning(), "value out of range, the first in layout order");
/// assert_eq!(
///     refusal.to_string(),
///     "refused 6, place 12 (its first byte), in the certificate: value out of range, the first in layout order"
/// );
///
/// // A condition that fails is told by its number, with the first column or row where it does.
/// let refusal = Refusal { number: 22, place: 1, record: Record::Certificate };
/// assert_eq!(refusal.fails(), Some(Fails::InColumn(1)));
/// assert_eq!(
///     refusal.to_string(),
///     "refused 22, place 1 (column, from 0), in the certificate: (Y - Z)A is not 0 in column 1"
/// );
/// ```
#[must_use]
#[derive(Clone, Copy, Debug, PartialEq, Eq, Hash)]
pub struct Refusal {
    /// The number of the refusal: 1 to 16 without 8, which is no longer given, or that of a condition that fails, 21 to 24,
    /// 31, 32, 41 to 46, 51 to 53, 61 to 63.
    pub number: u64,
    /// Its place; [`Refusal::place_meaning`] says of what.
    pub place: u64,
    /// The record that it speaks of.
    pub record: Record,
}

/// What the places of conditions tell.
const COLUMN: &str = "column, from 0";
const ROW: &str = "row, from 0";
const PATH: &str = "path, from 0";

impl Refusal {
    /// What the number means, in words.
    #[must_use]
    pub fn meaning(&self) -> &'static str {
        self.words().0
    }

    /// What the place tells, in words.
    #[must_use]
    pub fn place_meaning(&self) -> &'static str {
        self.words().1
    }

    /// Where a condition fails, if that is what the refusal tells.
    #[must_use]
    pub fn fails(&self) -> Option<Fails> {
        match self.number {
            21..=23 | 41 | 42 | 44 | 45 | 61 | 62 => Some(Fails::InColumn(self.place)),
            31 | 32 => Some(Fails::AtRow(self.place)),
            24 | 43 | 46 | 63 => Some(Fails::OnRightSides),
            51..=53 => Some(Fails::OnPath(self.place)),
            _ => None,
        }
    }

    /// The line of the refusal tables that has this number.
    fn words(&self) -> (&'static str, &'static str) {
        match self.number {
            1 => ("bytes end early", "number of bytes"),
            2 => ("bytes after the record", "bytes of the record"),
            3 => (
                "the stated length is below 2, too small for the counts, or not that of the counts",
                "always 0",
            ),
            4 => ("kind not wanted here", "the kind's first byte"),
            5 => ("count out of range", "its first byte, or 0 for an argument"),
            6 => (
                "value out of range, the first in layout order",
                "its first byte",
            ),
            7 => ("room too small", "room needed"),
            9 => ("state entry out of range, the first", "its index, from 0"),
            10 => ("state doesn't have n entries", "number of entries"),
            11 => ("lasso state outside the invariant", "always 0"),
            12 => ("value list of the wrong length", "length needed"),
            13 => ("more than 32 records", "number of records"),
            14 => (
                "component number that doesn't exist, the first",
                "its first byte",
            ),
            15 => (
                "row of a short ranking not below m, or not above the row before it",
                "the triple's first byte",
            ),
            16 => (
                "Y and Z of a short ranking's row are both zero",
                "the triple's first byte",
            ),
            21 => ("YA' is not 0", COLUMN),
            22 => ("(Y - Z)A is not 0", COLUMN),
            23 => ("Z(A + A') is not 0", COLUMN),
            24 => ("Zb is not below 0", "always 0"),
            31 => ("A·V + A'·U is above 0", ROW),
            32 => ("A·(W - V) + A'·W is above q b", ROW),
            41 => ("TB is not 0", COLUMN),
            42 => ("TB' is not -k s", COLUMN),
            43 => ("Td is above k s0", "always 0"),
            44 => ("HA - h0 s is not 0", COLUMN),
            45 => ("HA' is not -k2 s", COLUMN),
            46 => ("Hb + h0 s0 is above k2 s0", "always 0"),
            51 => (
                "the bounded rows do not sum to -r·x, or their right sides to more than -δ0",
                PATH,
            ),
            52 => (
                "the ranking rows do not sum to -r·x + r·x', or their right sides to more than -δ",
                PATH,
            ),
            53 => (
                "the unaffecting rows do not sum to -r·x + r·x' of an earlier component, or their right sides to more than 0",
                PATH,
            ),
            61 => ("EA is not k g", COLUMN),
            62 => ("EA' is not -k g", COLUMN),
            63 => ("Eb is above -k", "always 0"),
            _ => ("a number that this version doesn't know", "unknown"),
        }
    }
}

impl fmt::Display for Refusal {
    fn fmt(&self, out: &mut fmt::Formatter<'_>) -> fmt::Result {
        let place = self.place_meaning();
        write!(
            out,
            "refused {}, place {} ({place})",
            self.number, self.place
        )?;
        match self.record {
            Record::Neither => {}
            Record::Loop => write!(out, ", in the loop")?,
            Record::Certificate => write!(out, ", in the certificate")?,
        }
        let meaning = self.meaning();
        match self.fails() {
            Some(Fails::InColumn(column)) => write!(out, ": {meaning} in column {column}"),
            Some(Fails::AtRow(row)) => write!(out, ": at row {row} {meaning}"),
            Some(Fails::OnPath(path)) => write!(out, ": path {path}: {meaning}"),
            _ => write!(out, ": {meaning}"),
        }
    }
}

impl Error for Refusal {}

/// Over which numbers an accepted exclusion shows that no linear ranking function exists: whole exactly when q divides every
/// entry of V and W. Its step, from (W - V)/q to W/q, is then one between whole numbers.
#[derive(Clone, Copy, Debug, PartialEq, Eq, Hash)]
pub enum Grade {
    /// Neither over fractions nor over whole numbers.
    Whole,
    /// Not over fractions.
    Fractions,
}

impl fmt::Display for Grade {
    fn fmt(&self, out: &mut fmt::Formatter<'_>) -> fmt::Result {
        out.write_str(match self {
            Grade::Whole => "whole",
            Grade::Fractions => "fractions",
        })
    }
}

/// What an accepted certificate shows of its loop.
#[must_use]
#[derive(Clone, Copy, Debug, PartialEq, Eq, Hash)]
pub enum Outcome {
    /// The loop ends: before each step r·x is at least `start`, and the step takes at least `fall` from it. A short ranking
    /// shows it too.
    Ranking { start: i64, fall: i64 },
    /// No linear ranking function exists. The loop may end all the same.
    Exclusion { grade: Grade },
    /// The loop ends after one step of the stem, by a ranking that leans on an invariant.
    Lasso { start: i64, fall: i64 },
    /// The loop ends through whichever of its paths each step goes: no run goes on for ever. How many steps one takes is not
    /// told.
    Lexicographic,
    /// No run goes on for ever: g·x rises in every step, and once it has reached t, r·x is at least `start` before each step,
    /// which takes at least `fall` from it. No linear rank need hold before.
    Settling { start: i64, fall: i64 },
}

impl fmt::Display for Outcome {
    fn fmt(&self, out: &mut fmt::Formatter<'_>) -> fmt::Result {
        match self {
            Outcome::Ranking { start, fall } => write!(out, "rank from {start} down {fall}"),
            Outcome::Exclusion { grade } => write!(out, "excluded {grade}"),
            Outcome::Lasso { start, fall } => write!(out, "lasso from {start} down {fall}"),
            Outcome::Lexicographic => out.write_str("lexicographic"),
            Outcome::Settling { start, fall } => write!(out, "settling from {start} down {fall}"),
        }
    }
}

/// The verdict on a certificate. One that is dropped unread gets a warning from the compiler:
///
/// ```compile_fail
/// #![deny(unused_must_use)]
/// cushiedoo::judge(&[], &[], &mut []);
/// ```
///
/// Looked at, or set aside by name, it gets none:
///
/// ```
/// #![deny(unused_must_use)]
/// assert!(cushiedoo::judge(&[], &[], &mut []).outcome().is_none());
/// let _ = cushiedoo::judge(&[], &[], &mut []);
/// ```
#[must_use = "the certificate may have been refused"]
#[derive(Clone, Copy, Debug, PartialEq, Eq, Hash)]
pub enum Verdict {
    /// The certificate meets the conditions of its kind.
    Accepted(Outcome),
    /// It doesn't, or it could not be judged.
    Refused(Refusal),
}

impl Verdict {
    /// What the certificate shows, if it was accepted.
    pub fn outcome(self) -> Option<Outcome> {
        self.into_result().ok()
    }

    /// The verdict as a result, for `?`.
    pub fn into_result(self) -> Result<Outcome, Refusal> {
        match self {
            Verdict::Accepted(outcome) => Ok(outcome),
            Verdict::Refused(refusal) => Err(refusal),
        }
    }
}

impl fmt::Display for Verdict {
    fn fmt(&self, out: &mut fmt::Formatter<'_>) -> fmt::Result {
        match self {
            Verdict::Accepted(outcome) => write!(out, "accepted: {outcome}"),
            Verdict::Refused(refusal) => refusal.fmt(out),
        }
    }
}

/// The verdict on one record of several, with its rank.
#[must_use = "the certificate may have been refused"]
#[derive(Clone, Debug, PartialEq, Eq, Hash)]
pub struct Judged {
    /// The verdict that [`judge`](crate::judge) gives for the record.
    pub verdict: Verdict,
    /// r of a ranking, a lasso or a settling that is accepted; every other verdict has none.
    pub rank: Option<Vec<i64>>,
}

impl Judged {
    /// A verdict with the n numbers that were its rank list.
    pub(crate) fn new(verdict: Verdict, rank: &[i64]) -> Judged {
        let has_rank = matches!(
            verdict.outcome(),
            Some(Outcome::Ranking { .. } | Outcome::Lasso { .. } | Outcome::Settling { .. })
        );
        let rank = has_rank.then(|| rank.to_vec());
        Judged { verdict, rank }
    }
}

/// An accepted ranking, lasso or settling with the bound at a state.
#[must_use]
#[derive(Clone, Copy, Debug, PartialEq, Eq, Hash)]
pub struct Bounded {
    /// What judging says of the certificate.
    pub outcome: Outcome,
    /// No run from the state takes more steps than this; for a lasso, no run whose first state follows a step of the
    /// stem; for a settling, no run takes more steps than this from states where g·x is below t.
    pub bound: u64,
}

impl fmt::Display for Bounded {
    fn fmt(&self, out: &mut fmt::Formatter<'_>) -> fmt::Result {
        let steps = if self.bound == 1 { "step" } else { "steps" };
        let of_which = match self.outcome {
            Outcome::Settling { .. } => " before it settles",
            _ => "",
        };
        write!(
            out,
            "{}, at most {} {steps}{of_which}",
            self.outcome, self.bound
        )
    }
}

/// A record that was read: its values fill the first places of the lent list.
#[must_use]
#[derive(Clone, Copy, Debug, PartialEq, Eq, Hash)]
pub struct Reading {
    /// The kind of the record, 1 to 4.
    pub kind: u64,
    /// The loop's number of variables; 0 for a certificate.
    pub n: u64,
    /// The loop's number of rows; 0 for a certificate.
    pub m: u64,
    /// How many values were filled.
    pub count: usize,
}

/// The refusal of an answer, if its number is one.
fn refusal(number: u64, place: u64, record: u64) -> Option<Refusal> {
    let record = match record {
        1 => Record::Loop,
        2 => Record::Certificate,
        _ => Record::Neither,
    };
    (number != 0).then_some(Refusal {
        number,
        place,
        record,
    })
}

/// The outcome of an accepted answer. The archive gives no outcome but 2, 3, 4, 6 and 8 there, and no grade but 1 and 2.
fn outcome(outcome: u64, start: i64, fall: i64, grade: u64) -> Outcome {
    match (outcome, grade) {
        (2, _) => Outcome::Ranking { start, fall },
        (4, _) => Outcome::Lasso { start, fall },
        (6, _) => Outcome::Lexicographic,
        (8, _) => Outcome::Settling { start, fall },
        (3, 1) => Outcome::Exclusion {
            grade: Grade::Whole,
        },
        (3, 2) => Outcome::Exclusion {
            grade: Grade::Fractions,
        },
        _ => unreachable!("the archive answered outcome {outcome} with grade {grade}"),
    }
}

impl From<raw::Verdict> for Verdict {
    fn from(raw: raw::Verdict) -> Verdict {
        match refusal(raw.number, raw.place, raw.record) {
            Some(refusal) => Verdict::Refused(refusal),
            None => Verdict::Accepted(outcome(raw.outcome, raw.start, raw.fall, raw.grade)),
        }
    }
}

impl From<raw::Bounded> for Result<Bounded, Refusal> {
    fn from(raw: raw::Bounded) -> Result<Bounded, Refusal> {
        match refusal(raw.number, raw.place, raw.record) {
            Some(refusal) => Err(refusal),
            None => Ok(Bounded {
                outcome: outcome(raw.outcome, raw.start, raw.fall, raw.grade),
                bound: raw.bound,
            }),
        }
    }
}

impl From<raw::Batch> for Result<usize, Refusal> {
    fn from(raw: raw::Batch) -> Result<usize, Refusal> {
        match refusal(raw.number, raw.place, raw.record) {
            Some(refusal) => Err(refusal),
            None => Ok(raw.count as usize),
        }
    }
}

impl From<raw::Reading> for Result<Reading, Refusal> {
    fn from(raw: raw::Reading) -> Result<Reading, Refusal> {
        match refusal(raw.number, raw.place, 0) {
            Some(refusal) => Err(refusal),
            None => Ok(Reading {
                kind: raw.kind,
                n: raw.n,
                m: raw.m,
                count: raw.count as usize,
            }),
        }
    }
}

impl From<raw::Writing> for Result<usize, Refusal> {
    fn from(raw: raw::Writing) -> Result<usize, Refusal> {
        match refusal(raw.number, raw.place, 0) {
            Some(refusal) => Err(refusal),
            None => Ok(raw.written as usize),
        }
    }
}
