//! One case, answered by the oracle and by the archive, and compared: every number told, and every entry of every list
//! lent, which is filled with a pattern first and stands between guards.

use crate::cases::{Case, Move, SheetRoom};
use crate::oracle::batch::{self, Batch};
use crate::oracle::judging::{self, Bounded, Verdict};
use crate::oracle::record::{self, Reading, Writing};
use crate::oracle::{sheet, short, Refusal};
use cushiedoo::raw;
use std::ops::Deref;

/// What a call told.
#[derive(Clone, Copy, Debug, PartialEq, Eq)]
pub enum Told {
    Reading(Reading),
    Writing(Writing),
    Writings([Writing; 2]),
    Verdict(Verdict),
    Verdicts([Verdict; 2]),
    Bounded(Bounded),
    Batch(Batch),
}

impl Told {
    /// The refusal number and its place; of two verdicts those of the first, of two writings those of the first refused.
    pub fn refusal(&self) -> Refusal {
        let (number, place) = match self {
            Told::Reading(reading) => (reading.number, reading.place),
            Told::Writing(writing) => (writing.number, writing.place),
            Told::Writings(writings) => {
                let told = first_refused(writings);
                (told.number, told.place)
            }
            Told::Verdict(verdict) | Told::Verdicts([verdict, _]) => {
                (verdict.number, verdict.place)
            }
            Told::Bounded(bounded) => (bounded.verdict.number, bounded.verdict.place),
            Told::Batch(batch) => (batch.number, batch.place),
        };
        Refusal { number, place }
    }

    /// The refusal number, and the record that it speaks of (0 where a call tells none).
    pub fn number_and_record(&self) -> (u64, u64) {
        match self {
            Told::Reading(reading) => (reading.number, 0),
            Told::Writing(writing) => (writing.number, 0),
            Told::Writings(writings) => (first_refused(writings).number, 0),
            Told::Verdict(verdict) | Told::Verdicts([verdict, _]) => {
                (verdict.number, verdict.record)
            }
            Told::Bounded(bounded) => (bounded.verdict.number, bounded.verdict.record),
            Told::Batch(batch) => (batch.number, batch.record),
        }
    }
}

fn first_refused([first, second]: &[Writing; 2]) -> &Writing {
    match first.number {
        0 => second,
        _ => first,
    }
}

/// What a call was lent, as it is after the call.
#[derive(Clone, PartialEq, Eq)]
pub enum Lent {
    Numbers(Lending<i64>),
    Bytes(Lending<u8>),
    /// A row of verdicts, number by number, and the rank numbers.
    Row(Lending<i64>, Lending<i64>),
    Nothing,
}

/// The numbers of a verdict in a row.
const FIELDS: usize = 7;

/// What a call told and what it did to the list that it was lent.
#[derive(Clone, PartialEq, Eq)]
pub struct Answer {
    pub told: Told,
    pub lent: Lent,
}

const GUARD: usize = 8;

/// A list to lend, filled with a pattern, with guards on both sides that belong to nobody.
#[derive(Clone, PartialEq, Eq)]
pub struct Lending<T> {
    cells: Vec<T>,
}

impl<T: From<u8>> Lending<T> {
    fn new(room: usize) -> Lending<T> {
        let pattern = |cell: usize| T::from((cell as u8).wrapping_mul(37) ^ 0xA5);
        Lending {
            cells: (0..room + 2 * GUARD).map(pattern).collect(),
        }
    }

    fn list(&mut self) -> &mut [T] {
        let end = self.cells.len() - GUARD;
        &mut self.cells[GUARD..end]
    }

    /// The first places of the list, as far as it goes.
    pub fn first(&self, count: usize) -> &[T] {
        let room = self.cells.len() - 2 * GUARD;
        &self.cells[GUARD..GUARD + count.min(room)]
    }

    /// The first cell, counted from the list's own first place, in which two lendings differ.
    pub fn first_difference(&self, other: &Lending<T>) -> Option<i64>
    where
        T: PartialEq,
    {
        let differs = |(left, right)| left != right;
        let cell = self.cells.iter().zip(&other.cells).position(differs);
        cell.map(|cell| cell as i64 - GUARD as i64)
    }
}

/// A copy of bytes that ends where its allocation ends and starts at any address, so that a look past its end can be
/// seen by a memory checker and nothing rests on alignment.
struct Unaligned {
    cells: Box<[u8]>,
    shift: usize,
}

impl Unaligned {
    fn new(bytes: &[u8], shift: usize) -> Unaligned {
        let mut cells = vec![0; shift + bytes.len()];
        cells[shift..].copy_from_slice(bytes);
        Unaligned {
            cells: cells.into_boxed_slice(),
            shift,
        }
    }
}

impl Deref for Unaligned {
    type Target = [u8];

    fn deref(&self) -> &[u8] {
        &self.cells[self.shift..]
    }
}

/// Two records at addresses that are aligned differently.
fn unaligned_pair(looped: &[u8], certificate: &[u8], shift: usize) -> [Unaligned; 2] {
    [
        Unaligned::new(looped, shift),
        Unaligned::new(certificate, 7 - shift),
    ]
}

/// What the paper says.
pub fn expected(case: &Case) -> Answer {
    match case {
        Case::ReadLoop { bytes, room } => {
            numbers(*room, |list| Told::Reading(record::read_loop(bytes, list)))
        }
        Case::ReadCertificate { bytes, n, m, room } => numbers(*room, |list| {
            Told::Reading(record::read_certificate(bytes, *n, *m, list))
        }),
        Case::WriteRecord {
            kind,
            n,
            m,
            values,
            room,
        } => bytes_lent(*room, |list| {
            Told::Writing(record::write_record(*kind, *n, *m, values, list))
        }),
        Case::Move {
            to,
            bytes,
            n,
            m,
            room,
        } => bytes_lent(*room, |list| {
            Told::Writing(paper_moves(*to, bytes, *n, *m, list))
        }),
        Case::ThereAndBack {
            to,
            bytes,
            n,
            m,
            room,
        } => bytes_lent(*room, |list| {
            expected_back(
                paper_moves(*to, bytes, *n, *m, &mut [0; LONGEST]),
                bytes,
                list,
            )
        }),
        Case::Sheet { input, room } => expected_sheet(input, *room),
        Case::Judge {
            loop_bytes,
            certificate,
            room,
        } => numbers(*room, |list| {
            Told::Verdict(judging::judge(loop_bytes, certificate, list))
        }),
        Case::JudgeBoth {
            loop_bytes,
            certificates,
            room,
        } => numbers(*room, |list| {
            let mut judge = |certificate: &[u8]| judging::judge(loop_bytes, certificate, list);
            let [first, second] = certificates;
            Told::Verdicts([judge(first), judge(second)])
        }),
        Case::Bound {
            loop_bytes,
            certificate,
            state,
        } => Answer {
            told: Told::Bounded(judging::bound(loop_bytes, certificate, state)),
            lent: Lent::Nothing,
        },
        Case::JudgeAll {
            loop_bytes,
            records,
            places,
            numbers,
        } => row_lent(*places, *numbers, |row, ranks| {
            let mut verdicts: Vec<Verdict> = row.chunks(FIELDS).map(verdict_of).collect();
            let told = batch::judge_all(loop_bytes, records, &mut verdicts, ranks);
            for (fields, verdict) in row.chunks_mut(FIELDS).zip(&verdicts) {
                fields.copy_from_slice(&fields_of(verdict));
            }
            Told::Batch(told)
        }),
    }
}

/// What the archive says. Bytes are passed at an address that is `shift` past an aligned one.
pub fn archive(case: &Case, shift: usize) -> Answer {
    match case {
        Case::ReadLoop { bytes, room } => {
            let bytes = Unaligned::new(bytes, shift);
            numbers(*room, |list| archive_reads_loop(&bytes, list))
        }
        Case::ReadCertificate { bytes, n, m, room } => {
            let bytes = Unaligned::new(bytes, shift);
            numbers(*room, |list| {
                archive_reads_certificate(&bytes, *n, *m, list)
            })
        }
        Case::WriteRecord {
            kind,
            n,
            m,
            values,
            room,
        } => bytes_lent(*room, |list| archive_writes(*kind, *n, *m, values, list)),
        Case::Move {
            to,
            bytes,
            n,
            m,
            room,
        } => {
            let bytes = Unaligned::new(bytes, shift);
            bytes_lent(*room, |list| {
                Told::Writing(archive_moves(*to, &bytes, *n, *m, list))
            })
        }
        Case::ThereAndBack {
            to,
            bytes,
            n,
            m,
            room,
        } => {
            let bytes = Unaligned::new(bytes, shift);
            let mut there = [0; LONGEST];
            let first = archive_moves(*to, &bytes, *n, *m, &mut there);
            bytes_lent(*room, |list| {
                if first.number != 0 {
                    return Told::Writings([first, Writing::default()]);
                }
                let there = Unaligned::new(&there[..first.written as usize], 7 - shift);
                let second = archive_moves(to.back(), &there, *n, *m, list);
                Told::Writings([first, second])
            })
        }
        Case::Sheet { input, room } => {
            let input = Unaligned::new(input, shift);
            let places = sheet_places(&input, *room);
            bytes_lent(places, |list| Told::Writing(archive_sheet(&input, list)))
        }
        Case::Judge {
            loop_bytes,
            certificate,
            room,
        } => numbers(*room, |list| {
            let [looped, certificate] = unaligned_pair(loop_bytes, certificate, shift);
            Told::Verdict(archive_judges(&looped, &certificate, list))
        }),
        Case::JudgeBoth {
            loop_bytes,
            certificates,
            room,
        } => numbers(*room, |list| {
            let mut judge = |certificate: &[u8]| {
                let [looped, certificate] = unaligned_pair(loop_bytes, certificate, shift);
                archive_judges(&looped, &certificate, list)
            };
            let [first, second] = certificates;
            Told::Verdicts([judge(first), judge(second)])
        }),
        Case::Bound {
            loop_bytes,
            certificate,
            state,
        } => {
            let [looped, certificate] = unaligned_pair(loop_bytes, certificate, shift);
            let told = archive_bounds(&looped, &certificate, state);
            let lent = Lent::Nothing;
            Answer { told, lent }
        }
        Case::JudgeAll {
            loop_bytes,
            records,
            places,
            numbers,
        } => row_lent(*places, *numbers, |row, ranks| {
            let [looped, records] = unaligned_pair(loop_bytes, records, shift);
            archive_judges_all(&looped, &records, row, ranks)
        }),
    }
}

fn numbers(room: usize, call: impl FnOnce(&mut [i64]) -> Told) -> Answer {
    let mut lending = Lending::new(room);
    let told = call(lending.list());
    Answer {
        told,
        lent: Lent::Numbers(lending),
    }
}

fn bytes_lent(room: usize, call: impl FnOnce(&mut [u8]) -> Told) -> Answer {
    let mut lending = Lending::new(room);
    let told = call(lending.list());
    Answer {
        told,
        lent: Lent::Bytes(lending),
    }
}

/// A row of so many verdicts and so many rank numbers.
fn row_lent(
    places: usize,
    numbers: usize,
    call: impl FnOnce(&mut [i64], &mut [i64]) -> Told,
) -> Answer {
    let (mut row, mut ranks) = (Lending::new(FIELDS * places), Lending::new(numbers));
    let told = call(row.list(), ranks.list());
    Answer {
        told,
        lent: Lent::Row(row, ranks),
    }
}

/// The verdict that stands in a row, and its numbers there.
pub fn verdict_of(fields: &[i64]) -> Verdict {
    Verdict {
        number: fields[0] as u64,
        place: fields[1] as u64,
        record: fields[2] as u64,
        outcome: fields[3] as u64,
        start: fields[4],
        fall: fields[5],
        grade: fields[6] as u64,
    }
}

fn fields_of(verdict: &Verdict) -> [i64; FIELDS] {
    [
        verdict.number as i64,
        verdict.place as i64,
        verdict.record as i64,
        verdict.outcome as i64,
        verdict.start,
        verdict.fall,
        verdict.grade as i64,
    ]
}

/// The first verdicts of a row, as far as it goes.
pub fn verdicts_in(row: &Lending<i64>, count: usize) -> Vec<Verdict> {
    let fields = row.first(FIELDS * count);
    fields.chunks(FIELDS).map(verdict_of).collect()
}

/// Bytes enough for every ranking, long or short.
const LONGEST: usize = 512;

fn paper_moves(to: Move, bytes: &[u8], n: u64, m: u64, room: &mut [u8]) -> Writing {
    match to {
        Move::Short => short::shorten(bytes, n, m, room),
        Move::Long => short::lengthen(bytes, n, m, room),
    }
}

/// What the paper says of a way back, after a way there: the first bytes come again, if they have room.
fn expected_back(first: Writing, bytes: &[u8], list: &mut [u8]) -> Told {
    let mut second = Writing::default();
    if first.number == 0 && list.len() < bytes.len() {
        (second.number, second.place) = (7, bytes.len() as u64);
    } else if first.number == 0 {
        list[..bytes.len()].copy_from_slice(bytes);
        second.written = bytes.len() as u64;
    }
    Told::Writings([first, second])
}

/// The room that the archive wants for a sheet, as a call with an empty room tells it.
fn sheet_needs(input: &[u8]) -> usize {
    archive_sheet(input, &mut []).place as usize
}

fn sheet_places(input: &[u8], room: SheetRoom) -> usize {
    match room {
        SheetRoom::Empty => 0,
        SheetRoom::OneShort => sheet_needs(input).saturating_sub(1),
        SheetRoom::Enough(more) => sheet_needs(input) + more,
    }
}

/// A sheet's text, or 7 with the room that the archive told for an empty one. The paper has no word on that number, so
/// it is only held to be the same again, and to be enough.
fn expected_sheet(input: &[u8], room: SheetRoom) -> Answer {
    let needs = sheet_needs(input);
    bytes_lent(sheet_places(input, room), |list| {
        if list.len() < needs.max(1) {
            return Told::Writing(Writing {
                number: 7,
                place: needs as u64,
                written: 0,
            });
        }
        let text = sheet::sheet(input);
        let fits = text.len().min(list.len());
        list[..fits].copy_from_slice(&text.as_bytes()[..fits]);
        Told::Writing(Writing {
            number: 0,
            place: 0,
            written: text.len() as u64,
        })
    })
}

fn reading(raw: raw::Reading) -> Told {
    Told::Reading(Reading {
        number: raw.number,
        place: raw.place,
        kind: raw.kind,
        n: raw.n,
        m: raw.m,
        count: raw.count,
    })
}

fn writing(raw: raw::Writing) -> Writing {
    Writing {
        number: raw.number,
        place: raw.place,
        written: raw.written,
    }
}

fn archive_reads_loop(bytes: &[u8], list: &mut [i64]) -> Told {
    // SAFETY: both slices are valid for their lengths and stand apart.
    reading(unsafe {
        raw::cushiedoo_read_loop(bytes.as_ptr(), bytes.len(), list.as_mut_ptr(), list.len())
    })
}

fn archive_reads_certificate(bytes: &[u8], n: u64, m: u64, list: &mut [i64]) -> Told {
    // SAFETY: both slices are valid for their lengths and stand apart.
    reading(unsafe {
        raw::cushiedoo_read_certificate(
            bytes.as_ptr(),
            bytes.len(),
            n,
            m,
            list.as_mut_ptr(),
            list.len(),
        )
    })
}

fn archive_writes(kind: u64, n: u64, m: u64, values: &[i64], room: &mut [u8]) -> Told {
    // SAFETY: both slices are valid for their lengths and stand apart.
    Told::Writing(writing(unsafe {
        raw::cushiedoo_write_record(
            kind,
            n,
            m,
            values.as_ptr(),
            values.len(),
            room.as_mut_ptr(),
            room.len(),
        )
    }))
}

fn archive_moves(to: Move, bytes: &[u8], n: u64, m: u64, room: &mut [u8]) -> Writing {
    let call = match to {
        Move::Short => raw::cushiedoo_shorten,
        Move::Long => raw::cushiedoo_lengthen,
    };
    // SAFETY: both slices are valid for their lengths and stand apart.
    writing(unsafe {
        call(
            bytes.as_ptr(),
            bytes.len(),
            n,
            m,
            room.as_mut_ptr(),
            room.len(),
        )
    })
}

fn archive_sheet(input: &[u8], text: &mut [u8]) -> Writing {
    // SAFETY: both slices are valid for their lengths and stand apart.
    writing(unsafe {
        raw::cushiedoo_sheet(input.as_ptr(), input.len(), text.as_mut_ptr(), text.len())
    })
}

fn archive_judges(looped: &[u8], certificate: &[u8], rank: &mut [i64]) -> Verdict {
    // SAFETY: the slices are valid for their lengths and stand apart.
    let raw = unsafe {
        raw::cushiedoo_judge(
            looped.as_ptr(),
            looped.len(),
            certificate.as_ptr(),
            certificate.len(),
            rank.as_mut_ptr(),
            rank.len(),
        )
    };
    Verdict {
        number: raw.number,
        place: raw.place,
        record: raw.record,
        outcome: raw.outcome,
        start: raw.start,
        fall: raw.fall,
        grade: raw.grade,
    }
}

fn archive_judges_all(looped: &[u8], records: &[u8], row: &mut [i64], ranks: &mut [i64]) -> Told {
    // SAFETY: the slices are valid for their lengths and stand apart, and a verdict is as large as seven numbers.
    let raw = unsafe {
        raw::cushiedoo_judge_all(
            looped.as_ptr(),
            looped.len(),
            records.as_ptr(),
            records.len(),
            row.as_mut_ptr().cast(),
            row.len() / FIELDS,
            ranks.as_mut_ptr(),
            ranks.len(),
        )
    };
    Told::Batch(Batch {
        number: raw.number,
        place: raw.place,
        record: raw.record,
        count: raw.count,
    })
}

fn archive_bounds(looped: &[u8], certificate: &[u8], state: &[i64]) -> Told {
    // SAFETY: the slices are valid for their lengths.
    let raw = unsafe {
        raw::cushiedoo_bound(
            looped.as_ptr(),
            looped.len(),
            certificate.as_ptr(),
            certificate.len(),
            state.as_ptr(),
            state.len(),
        )
    };
    Told::Bounded(Bounded {
        verdict: Verdict {
            number: raw.number,
            place: raw.place,
            record: raw.record,
            outcome: raw.outcome,
            start: raw.start,
            fall: raw.fall,
            grade: raw.grade,
        },
        bound: raw.bound,
    })
}

/// Says where two answers differ.
pub fn difference(expected: &Answer, archive: &Answer) -> String {
    if expected.told != archive.told {
        return format!(
            "the paper says {:?}, the archive {:?}",
            expected.told, archive.told
        );
    }
    let place = match (&expected.lent, &archive.lent) {
        (Lent::Numbers(left), Lent::Numbers(right)) => left.first_difference(right),
        (Lent::Bytes(left), Lent::Bytes(right)) => left.first_difference(right),
        (Lent::Row(left, ranks), Lent::Row(right, others)) => match left.first_difference(right) {
            None => ranks.first_difference(others),
            Some(place) => return format!("the row of verdicts differs first at number {place}"),
        },
        _ => None,
    };
    format!(
        "both say {:?}, but the lent list differs first at place {place:?}",
        expected.told
    )
}
