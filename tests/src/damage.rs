//! Damage to the bytes of a record: each way in which a record can be malformed, and its limits.

use crate::forms::{bytes_of, put_length};
use crate::oracle::layout::{Field, Form, Kind, Range, Shape, RIGHT, ROWS, VARIABLES};
use crate::random::Random;
use crate::right_sides;

/// Numbers at and past the ends of a range, and at the ends of what a form holds.
pub fn limits(range: Range, form: Range) -> [i64; 6] {
    [
        range.low,
        range.high,
        (range.low - 1).max(form.low),
        (range.high + 1).min(form.high),
        form.low,
        form.high,
    ]
}

fn field_limit(random: &mut Random, field: Field) -> i64 {
    random.pick(&limits(field.range, field.form.holds()))
}

/// Damages a record in a way that needs no layout: its bytes, its length or its kind.
pub fn damage_frame(random: &mut Random, bytes: &mut Vec<u8>) {
    match random.below(6) {
        0 => truncate(random, bytes),
        1 => extend(random, bytes),
        2 => restate_length(random, bytes),
        3 => resize(random, bytes),
        4 => change_kind(random, bytes),
        _ => change_bytes(random, bytes),
    }
}

/// Damages a record of this shape in one way. Now and then the damage is none, since limits are in range too.
pub fn damage(random: &mut Random, shape: Shape, bytes: &mut Vec<u8>) {
    match random.below(13) {
        0 => truncate(random, bytes),
        1 => extend(random, bytes),
        2 => restate_length(random, bytes),
        3 => resize(random, bytes),
        4 | 5 => change_kind(random, bytes),
        6..=10 if shape.kind == Kind::Settling => change_part(random, shape, bytes),
        6 | 7 => change_count(random, shape, bytes),
        8 | 9 if shape.kind == Kind::Lasso => change_count(random, shape, bytes),
        10 if shape.kind == Kind::Lasso => change_right_side(random, shape, bytes),
        8..=10 => change_value(random, shape, bytes),
        11 => change_right_side(random, shape, bytes),
        _ => change_bytes(random, bytes),
    }
}

fn truncate(random: &mut Random, bytes: &mut Vec<u8>) {
    let length = match random.below(3) {
        0 => random.below(11),
        1 => bytes.len().saturating_sub(1 + random.below(4)),
        _ => random.below(bytes.len() + 1),
    };
    bytes.truncate(length);
}

fn extend(random: &mut Random, bytes: &mut Vec<u8>) {
    for _ in 0..1 + random.below(6) {
        bytes.push(random.word() as u8);
    }
}

/// Another L over the same bytes.
fn restate_length(random: &mut Random, bytes: &mut [u8]) {
    if bytes.len() < 4 {
        return;
    }
    let honest = bytes.len() - 4;
    let any = random.word() as u32 as usize;
    let stated = [
        0,
        1,
        2,
        3,
        5,
        honest + 1,
        honest.wrapping_sub(1),
        any,
        u32::MAX as usize,
    ];
    put_length(bytes, random.pick(&stated));
}

/// Another number of bytes with an L that says so.
fn resize(random: &mut Random, bytes: &mut Vec<u8>) {
    let length = match random.below(4) {
        0 => 6 + random.below(6),
        1 => bytes.len() + 1 + random.below(4),
        2 => bytes.len().saturating_sub(1 + random.below(4)),
        _ => random.below(bytes.len() + 8),
    };
    let length = length.max(6);
    bytes.resize(length, 0);
    put_length(bytes, length - 4);
}

fn change_kind(random: &mut Random, bytes: &mut [u8]) {
    if bytes.len() >= 6 {
        let kind = random.pick(&[0, 1, 2, 3, 4, 5, 6, 7, 8, 9, 257, 258, 259, 260, 65_535]);
        Form::U16.put(kind, bytes, 4);
    }
}

/// Another n, m or ms; half of the time in a record that has the length of the new count, where one exists.
fn change_count(random: &mut Random, shape: Shape, bytes: &mut Vec<u8>) {
    let (place, range) = match shape.kind {
        Kind::Loop => random.pick(&[(6, VARIABLES), (8, ROWS)]),
        Kind::Lasso => (6, ROWS),
        _ => return change_value(random, shape, bytes),
    };
    if bytes.len() < place + 2 {
        return;
    }
    let old = Form::U16.read(bytes, place);
    let near = [(old - 1).max(0), old + 1, 0, 1, 15, 17, 63, 65];
    let past = [range.high + 1, range.high + 2, 65_535, range.low - 1];
    let past = if range.low == 0 { &past[..3] } else { &past };
    let count = match random.below(6) {
        0 => random.pick(&near),
        1 => random.pick(&limits(range, Form::U16.holds())),
        _ => random.pick(past),
    };
    if random.one_in(2) && count <= 65 {
        refit(shape, place, count as usize, bytes);
    }
    Form::U16.put(count, bytes, place);
}

/// Gives the bytes the length that the formula has for the new count.
fn refit(shape: Shape, place: usize, count: usize, bytes: &mut Vec<u8>) {
    let fitting = match (shape.kind, place) {
        (Kind::Loop, 6) => Shape { n: count, ..shape },
        (Kind::Loop, _) => Shape { m: count, ..shape },
        _ => Shape { ms: count, ..shape },
    };
    bytes.resize(4 + fitting.length(), 0);
    put_length(bytes, fitting.length());
}

/// A value at or past a limit of its range.
fn change_value(random: &mut Random, shape: Shape, bytes: &mut [u8]) {
    let fields = shape.fields();
    if fields.is_empty() || bytes.len() != 4 + shape.length() {
        return;
    }
    let starts_part = |&i: &usize| i == 0 || fields[i].range != fields[i - 1].range;
    let part_starts: Vec<usize> = (0..fields.len()).filter(starts_part).collect();
    let chosen = match random.below(4) {
        0 => fields.len() - 1,
        1 | 2 => random.pick(&part_starts),
        _ => random.below(fields.len()),
    };
    let place = shape.places()[chosen];
    let value = field_limit(random, fields[chosen]);
    fields[chosen].form.put(value, bytes, place);
}

/// A value of any part of a settling, mostly the part's first or last, and mostly one past an end of its range.
fn change_part(random: &mut Random, shape: Shape, bytes: &mut [u8]) {
    let fields = shape.fields();
    if bytes.len() != 4 + shape.length() {
        return;
    }
    let parts = shape.settling_parts();
    let part = parts[random.below(parts.len())].clone();
    if part.is_empty() {
        return;
    }
    let chosen = match random.below(3) {
        0 => part.start,
        1 => part.end - 1,
        _ => part.start + random.below(part.len()),
    };
    let Range { low, high } = fields[chosen].range;
    let past = [(low - 1).max(fields[chosen].form.holds().low), high + 1];
    let value = match random.one_in(5) {
        true => field_limit(random, fields[chosen]),
        false => random.pick(&past),
    };
    fields[chosen]
        .form
        .put(value, bytes, shape.places()[chosen]);
}

/// A right side one past an end of its range; of a lasso's, one time in three s0, the last of them.
fn change_right_side(random: &mut Random, shape: Shape, bytes: &mut [u8]) {
    let rights = right_sides::indices(shape);
    if rights.is_empty() || bytes.len() != 4 + shape.length() {
        return;
    }
    let last = rights.len() - 1;
    let chosen = match shape.kind {
        Kind::Lasso if last == 0 || random.one_in(3) => last,
        Kind::Lasso => random.below(last),
        _ => random.below(last + 1),
    };
    let value = random.pick(&[RIGHT.low - 1, RIGHT.high + 1]);
    Form::I32.put(value, bytes, shape.places()[rights[chosen]]);
}

fn change_bytes(random: &mut Random, bytes: &mut [u8]) {
    for _ in 0..1 + random.below(3) {
        if !bytes.is_empty() {
            let place = random.below(bytes.len());
            bytes[place] = random.word() as u8;
        }
    }
}

/// A record whose values are drawn from their ranges, limits among them; it is well formed.
pub fn any_values(random: &mut Random, shape: Shape) -> Vec<i64> {
    let size = random.pick(&[1, 3, 100, RIGHT.high]);
    let mut values: Vec<i64> = Vec::new();
    for field in shape.fields() {
        let Range { low, high } = field.range;
        let value = match random.below(8) {
            0 => 0,
            1 => random.pick(&[low, high]),
            _ => random.between(low.max(-size), high.min(size)),
        };
        values.push(value.clamp(low, high));
    }
    if shape.kind == Kind::Lasso {
        values[0] = shape.ms as i64;
    }
    values
}

pub fn any_record(random: &mut Random, shape: Shape) -> Vec<u8> {
    bytes_of(shape, &any_values(random, shape))
}
