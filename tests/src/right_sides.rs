//! The right sides b, d and s0 of a case, and the threshold t, which has their range: whether one lies near an end of it, and
//! which one is refused right past it.

use crate::cases::Case;
use crate::compare::Told;
use crate::construct::NEAR;
use crate::oracle::layout::{Form, Kind, Shape, RIGHT};
use crate::oracle::record::{loop_record, stated_length};
use crate::oracle::Refusal;
use crate::path_ways;

/// Which of a record's values are right sides: b, or d and then s0, or t.
pub fn indices(shape: Shape) -> Vec<usize> {
    let fields = shape.fields();
    let is_right = |&i: &usize| fields[i].range == RIGHT;
    (0..fields.len()).filter(is_right).collect()
}

/// A right side: its name in the paper, where it stands in its record, and what it is.
struct RightSide {
    name: &'static str,
    place: usize,
    value: i64,
}

/// Those of a record of this shape, whose values are told one by one.
fn of_shape(shape: Shape, value: impl Fn(usize, usize) -> i64) -> Vec<RightSide> {
    let rights = indices(shape);
    let places = shape.places();
    let last = rights.last().copied();
    let right_side = |&i: &usize| RightSide {
        name: match shape.kind {
            Kind::Loop => "b",
            Kind::Settling => "t",
            _ if Some(i) == last => "s0",
            _ => "d",
        },
        place: places[i],
        value: value(i, places[i]),
    };
    rights.iter().map(right_side).collect()
}

/// Those of a record whose length is that of its counts; n and m are a certificate's.
fn of_record(bytes: &[u8], n: usize, m: usize) -> Vec<RightSide> {
    let count = |place: usize| Form::U16.read(bytes, place) as usize;
    let kind = match bytes.len() {
        0..=9 => None,
        _ => Kind::of(count(4) as u64),
    };
    let shape = match kind {
        Some(kind @ Kind::Loop) => Shape {
            kind,
            n: count(6),
            m: count(8),
            ms: 0,
        },
        Some(kind @ Kind::Lasso) => Shape {
            kind,
            n,
            m,
            ms: count(6),
        },
        Some(kind @ Kind::Settling) => Shape { kind, n, m, ms: 0 },
        _ => return Vec::new(),
    };
    if bytes.len() != 4 + shape.length() || stated_length(bytes) != shape.length() {
        return Vec::new();
    }
    of_shape(shape, |_, place| Form::I32.read(bytes, place))
}

/// Those of a list of values that has the length of a record.
fn of_values(kind: u64, n: u64, m: u64, values: &[i64]) -> Vec<RightSide> {
    let (kind, ms) = match (Kind::of(kind), values) {
        (Some(kind @ Kind::Loop), _) => (kind, 0),
        (Some(kind @ Kind::Lasso), [ms @ 0..=64, ..]) => (kind, *ms as usize),
        _ => return Vec::new(),
    };
    if n > 16 || m > 64 {
        return Vec::new();
    }
    let (n, m) = (n as usize, m as usize);
    let shape = Shape { kind, n, m, ms };
    if values.len() != shape.fields().len() {
        return Vec::new();
    }
    of_shape(shape, |i, _| values[i])
}

/// n and m of a loop record that is sound; none otherwise.
fn size_of(loop_bytes: &[u8]) -> (usize, usize) {
    match loop_record(loop_bytes) {
        Ok(record) => (record.shape.n, record.shape.m),
        Err(_) => (0, 0),
    }
}

/// The right sides of the record that a refusal of the case speaks of: 1 and 2 in judging and bound, 0 elsewhere.
fn of_case(case: &Case, record: u64) -> Vec<RightSide> {
    match (case, record) {
        (Case::ReadLoop { bytes, .. }, 0) => of_record(bytes, 0, 0),
        (Case::ReadCertificate { bytes, n, m, .. }, 0) if *n <= 16 && *m <= 64 => {
            of_record(bytes, *n as usize, *m as usize)
        }
        (
            Case::WriteRecord {
                kind, n, m, values, ..
            },
            0,
        ) => of_values(*kind, *n, *m, values),
        (
            Case::Judge { loop_bytes, .. }
            | Case::Bound { loop_bytes, .. }
            | Case::JudgeAll { loop_bytes, .. },
            1,
        ) => of_record(loop_bytes, 0, 0),
        (
            Case::Judge {
                loop_bytes,
                certificate,
                ..
            }
            | Case::Bound {
                loop_bytes,
                certificate,
                ..
            },
            2,
        ) => {
            let (n, m) = size_of(loop_bytes);
            of_record(certificate, n, m)
        }
        _ => Vec::new(),
    }
}

/// The ends of the range near which a right side of the case lies, or a start where a loop has several paths. Of a sheet and of
/// a batch the loop alone is looked at.
pub fn ends_near(case: &Case) -> Vec<i64> {
    let mut values: Vec<i64> = all_of(case).iter().map(|side| side.value).collect();
    if let Case::Judge {
        loop_bytes,
        certificate,
        ..
    } = case
    {
        values.extend(path_ways::right_sides(loop_bytes, certificate));
    }
    let near = |end: i64, value: i64| RIGHT.holds(value) && (value - end).abs() <= NEAR;
    let has = |end: &i64| values.iter().any(|value| near(*end, *value));
    [RIGHT.low, RIGHT.high].into_iter().filter(has).collect()
}

fn all_of(case: &Case) -> Vec<RightSide> {
    if let Case::Sheet { input, .. } = case {
        let length = match input.len() {
            0..=3 => 0,
            _ => 4 + stated_length(input),
        };
        let looped = &input[..length.min(input.len())];
        return of_record(looped, 0, 0);
    }
    (0..=2).flat_map(|record| of_case(case, record)).collect()
}

/// The right side that is refused, if it is one past an end of its range.
pub fn one_past(case: &Case, told: &Told) -> Option<String> {
    let (number, record) = told.number_and_record();
    let Refusal { place, .. } = told.refusal();
    if number != 6 {
        return None;
    }
    let refused = of_case(case, record)
        .into_iter()
        .find(|side| side.place as u64 == place)?;
    [(RIGHT.low, -1), (RIGHT.high, 1)]
        .into_iter()
        .find(|(end, past)| refused.value == end + past)
        .map(|(end, _)| past_name(refused.name, end))
}

/// One past an end of the range.
pub fn past_name(field: &str, end: i64) -> String {
    format!("6 for {field} one past {end}")
}
