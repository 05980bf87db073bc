//! Records on file: reading and writing, with the paper's order of refusals.

use super::layout::{Field, Form, Kind, Shape, ROWS, VARIABLES};
use super::{refuse, Refusal};

/// A record that was read: its shape and its values in layout order.
#[derive(Clone, Debug)]
pub struct Record {
    pub shape: Shape,
    pub values: Vec<i64>,
}

/// The length L that the first four bytes state.
pub fn stated_length(bytes: &[u8]) -> usize {
    u32::from_le_bytes([bytes[0], bytes[1], bytes[2], bytes[3]]) as usize
}

pub fn count_at(bytes: &[u8], place: usize) -> i64 {
    Form::U16.read(bytes, place)
}

/// The first tests of a record: its bytes against the length that it states. Tells the number of its kind.
pub fn framed(bytes: &[u8]) -> Result<u64, Refusal> {
    if bytes.len() < 4 {
        return refuse(1, bytes.len());
    }
    let length = stated_length(bytes);
    if length < 2 {
        return refuse(3, 0);
    }
    if bytes.len() < 4 + length {
        return refuse(1, bytes.len());
    }
    if bytes.len() > 4 + length {
        return refuse(2, 4 + length);
    }
    Ok(count_at(bytes, 4) as u64)
}

/// The same, and the kind against those wanted.
fn frame(bytes: &[u8], wanted: &[Kind]) -> Result<Kind, Refusal> {
    match Kind::of(framed(bytes)?) {
        Some(kind) if wanted.contains(&kind) => Ok(kind),
        _ => refuse(4, 4),
    }
}

/// The values of these fields, the first of them at a place; one that is out of range is told.
pub fn values_from(
    bytes: &[u8],
    mut place: usize,
    fields: Vec<Field>,
) -> Result<Vec<i64>, Refusal> {
    let mut values = Vec::new();
    for field in fields {
        let value = field.form.read(bytes, place);
        if !field.range.holds(value) {
            return refuse(6, place);
        }
        values.push(value);
        place += field.form.width();
    }
    Ok(values)
}

/// The tests after the counts: L against its formula, then the values.
fn body(bytes: &[u8], shape: Shape) -> Result<Record, Refusal> {
    if stated_length(bytes) != shape.length() {
        return refuse(3, 0);
    }
    let values = values_from(bytes, shape.kind.values_place(), shape.fields())?;
    Ok(Record { shape, values })
}

/// A loop record, or why it is none.
pub fn loop_record(bytes: &[u8]) -> Result<Record, Refusal> {
    let kind = frame(bytes, &[Kind::Loop])?;
    if stated_length(bytes) < kind.counts_length() {
        return refuse(3, 0);
    }
    let (n, m) = (count_at(bytes, 6), count_at(bytes, 8));
    if !VARIABLES.holds(n) {
        return refuse(5, 6);
    }
    if !ROWS.holds(m) {
        return refuse(5, 8);
    }
    let (n, m) = (n as usize, m as usize);
    body(bytes, Shape { kind, n, m, ms: 0 })
}

/// A certificate record of one of the kinds wanted, for a loop with n variables and m rows, or why it is none.
pub fn certificate_record(
    bytes: &[u8],
    wanted: &[Kind],
    n: u64,
    m: u64,
) -> Result<Record, Refusal> {
    let kind = frame(bytes, wanted)?;
    if !(1..=16).contains(&n) || m > 64 {
        return refuse(5, 0);
    }
    if stated_length(bytes) < kind.counts_length() {
        return refuse(3, 0);
    }
    let ms = match kind {
        Kind::Lasso => count_at(bytes, 6),
        _ => 0,
    };
    if !ROWS.holds(ms) {
        return refuse(5, 6);
    }
    let (n, m, ms) = (n as usize, m as usize, ms as usize);
    body(bytes, Shape { kind, n, m, ms })
}

/// The kinds of certificate that are read.
pub const CERTIFICATES: [Kind; 3] = [Kind::Ranking, Kind::Exclusion, Kind::Lasso];

/// What a reading answers.
#[derive(Clone, Copy, Debug, Default, PartialEq, Eq)]
pub struct Reading {
    pub number: u64,
    pub place: u64,
    pub kind: u64,
    pub n: u64,
    pub m: u64,
    pub count: u64,
}

/// Fills the first places of the list; room is the last test of a reading.
fn filled(record: Result<Record, Refusal>, list: &mut [i64]) -> Result<Record, Refusal> {
    let record = record?;
    let count = record.values.len();
    if list.len() < count {
        return refuse(7, count);
    }
    list[..count].copy_from_slice(&record.values);
    Ok(record)
}

fn reading(record: Result<Record, Refusal>) -> Reading {
    match record {
        Err(Refusal { number, place }) => Reading {
            number,
            place,
            ..Reading::default()
        },
        Ok(Record { shape, values }) => {
            let is_loop = shape.kind == Kind::Loop;
            Reading {
                number: 0,
                place: 0,
                kind: shape.kind.number(),
                n: if is_loop { shape.n as u64 } else { 0 },
                m: if is_loop { shape.m as u64 } else { 0 },
                count: values.len() as u64,
            }
        }
    }
}

pub fn read_loop(bytes: &[u8], list: &mut [i64]) -> Reading {
    reading(filled(loop_record(bytes), list))
}

pub fn read_certificate(bytes: &[u8], n: u64, m: u64, list: &mut [i64]) -> Reading {
    reading(filled(certificate_record(bytes, &CERTIFICATES, n, m), list))
}

/// The kinds that are written.
const WRITTEN: [Kind; 4] = [Kind::Loop, Kind::Ranking, Kind::Exclusion, Kind::Lasso];

/// What a writing answers.
#[derive(Clone, Copy, Debug, Default, PartialEq, Eq)]
pub struct Writing {
    pub number: u64,
    pub place: u64,
    pub written: u64,
}

/// The shape of the record that would be written: 4, 5 for n and m, 12 if ms is absent, 5 for ms.
fn shape_to_write(kind: u64, n: u64, m: u64, values: &[i64]) -> Result<Shape, Refusal> {
    let Some(kind) = Kind::of(kind).filter(|kind| WRITTEN.contains(kind)) else {
        return refuse(4, 4);
    };
    let (place_of_n, place_of_m) = match kind {
        Kind::Loop => (6, 8),
        _ => (0, 0),
    };
    if !(1..=16).contains(&n) {
        return refuse(5, place_of_n);
    }
    if m > 64 {
        return refuse(5, place_of_m);
    }
    let ms = match (kind, values) {
        (Kind::Lasso, []) => return refuse(12, 1),
        (Kind::Lasso, [ms, ..]) => *ms,
        _ => 0,
    };
    if !ROWS.holds(ms) {
        return refuse(5, 6);
    }
    let (n, m, ms) = (n as usize, m as usize, ms as usize);
    Ok(Shape { kind, n, m, ms })
}

/// The bytes of the record that the values make: 12, then 6.
fn bytes_to_write(shape: Shape, values: &[i64]) -> Result<Vec<u8>, Refusal> {
    let fields = shape.fields();
    if values.len() != fields.len() {
        return refuse(12, fields.len());
    }
    let mut bytes = vec![0; 4 + shape.length()];
    bytes[..4].copy_from_slice(&(shape.length() as u32).to_le_bytes());
    Form::U16.put(shape.kind.number() as i64, &mut bytes, 4);
    if shape.kind == Kind::Loop {
        Form::U16.put(shape.n as i64, &mut bytes, 6);
        Form::U16.put(shape.m as i64, &mut bytes, 8);
    }
    let mut place = shape.kind.values_place();
    for (field, &value) in fields.iter().zip(values) {
        if !field.range.holds(value) {
            return refuse(6, place);
        }
        field.form.put(value, &mut bytes, place);
        place += field.form.width();
    }
    Ok(bytes)
}

fn written(kind: u64, n: u64, m: u64, values: &[i64], room: &mut [u8]) -> Result<usize, Refusal> {
    let shape = shape_to_write(kind, n, m, values)?;
    let bytes = bytes_to_write(shape, values)?;
    if room.len() < bytes.len() {
        return refuse(7, bytes.len());
    }
    room[..bytes.len()].copy_from_slice(&bytes);
    Ok(bytes.len())
}

pub fn write_record(kind: u64, n: u64, m: u64, values: &[i64], room: &mut [u8]) -> Writing {
    match written(kind, n, m, values, room) {
        Err(Refusal { number, place }) => Writing {
            number,
            place,
            written: 0,
        },
        Ok(bytes) => Writing {
            number: 0,
            place: 0,
            written: bytes as u64,
        },
    }
}
