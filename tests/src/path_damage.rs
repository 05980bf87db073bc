//! Damage to the bytes of loops with several paths and of arguments for them (kinds 5 and 6).

use crate::damage::{damage_frame, limits};
use crate::forms::put_length;
use crate::oracle::layout::{Field, Form, Range, COMPONENTS, PATHS, RIGHT, ROWS, VARIABLES};
use crate::oracle::paths::{CertificateShape, LoopShape};
use crate::random::Random;

/// Damages a loop of this shape in one way. Now and then the damage is none, since limits are in range too.
pub fn damage_loop(random: &mut Random, shape: &LoopShape, bytes: &mut Vec<u8>) {
    match random.below(12) {
        0..=3 => damage_frame(random, bytes),
        4 | 5 => {
            let past = [VARIABLES.high + 1, PATHS.high + 1, ROWS.high + 1];
            cut_at_counts(random, shape.values_place(), &past, bytes);
        }
        6..=8 => change_loop_count(random, shape, bytes),
        _ => change_value(random, shape.values_place(), &shape.fields(), bytes),
    }
}

/// Damages an argument of this shape in one way.
pub fn damage_argument(random: &mut Random, shape: &CertificateShape, bytes: &mut Vec<u8>) {
    match random.below(12) {
        0..=3 => damage_frame(random, bytes),
        4 | 5 => {
            let past = [COMPONENTS.high + 1, shape.components as i64];
            cut_at_counts(random, shape.values_place(), &past, bytes);
        }
        6 => change_component_count(random, shape, bytes),
        7 | 8 => change_component_number(random, shape, bytes),
        _ => change_value(random, shape.values_place(), &shape.fields(), bytes),
    }
}

/// A record that ends among its counts or right behind them, with an L that says so. Half of the time a count before the end
/// is past its range: of these numbers the first counts have the first, and all that follow the last.
fn cut_at_counts(random: &mut Random, values_place: usize, past: &[i64], bytes: &mut Vec<u8>) {
    let length = 6 + random.below(values_place - 5 + 4);
    bytes.resize(length, 0);
    put_length(bytes, length - 4);
    let counts = (length.min(values_place) - 6) / 2;
    if counts > 0 && random.one_in(2) {
        let chosen = match random.one_in(3) {
            true => random.below(counts),
            false => counts - 1,
        };
        let count = past[chosen.min(past.len() - 1)];
        Form::U16.put(count, bytes, 6 + 2 * chosen);
    }
}

/// Another count for one of this range: near, at a limit, or mostly past one.
fn other_count(random: &mut Random, old: i64, range: Range) -> i64 {
    let near = [(old - 1).max(0), old + 1, 0, 1];
    let past = [
        range.high + 1,
        range.high + 2,
        65_535,
        (range.low - 1).max(0),
    ];
    match random.below(6) {
        0 => random.pick(&near),
        1 => random.pick(&limits(range, Form::U16.holds())),
        _ => random.pick(&past),
    }
}

/// Puts a count at a place; half of the time in a record that has the length of the new count, where one exists.
fn put_count(random: &mut Random, place: usize, count: i64, length: usize, bytes: &mut Vec<u8>) {
    if bytes.len() < place + 2 {
        return;
    }
    if random.one_in(2) && count <= 65 {
        bytes.resize((4 + length).max(place + 2), 0);
        let length = bytes.len() - 4;
        put_length(bytes, length);
    }
    Form::U16.put(count, bytes, place);
}

/// Another n, count of paths, or m of a path.
fn change_loop_count(random: &mut Random, shape: &LoopShape, bytes: &mut Vec<u8>) {
    let mut fitting = shape.clone();
    match random.below(4) {
        0 => {
            let count = other_count(random, shape.n as i64, VARIABLES);
            fitting.n = count as usize;
            put_count(random, 6, count, fitting.length(), bytes);
        }
        1 => {
            let count = other_count(random, shape.rows.len() as i64, PATHS);
            fitting.rows.resize(count.min(65) as usize, 0);
            put_count(random, 8, count, fitting.length(), bytes);
        }
        _ => {
            let path = first_last_or_any(random, shape.rows.len());
            let count = other_count(random, shape.rows[path] as i64, ROWS);
            fitting.rows[path] = count as usize;
            put_count(random, 10 + 2 * path, count, fitting.length(), bytes);
            if random.one_in(3) {
                let other = 10 + 2 * random.below(shape.rows.len());
                put_count(random, other, ROWS.high + 1, fitting.length(), bytes);
            }
        }
    }
}

fn change_component_count(random: &mut Random, shape: &CertificateShape, bytes: &mut Vec<u8>) {
    let count = other_count(random, shape.components as i64, COMPONENTS);
    let fitting = CertificateShape {
        components: count as usize,
        ..shape.clone()
    };
    put_count(random, 6, count, fitting.length(), bytes);
}

/// Another component number for a path, or for two: mostly one that doesn't exist.
fn change_component_number(random: &mut Random, shape: &CertificateShape, bytes: &mut Vec<u8>) {
    let components = shape.components as i64;
    let mut fitting = shape.clone();
    for _ in 0..random.pick(&[1, 1, 2]) {
        let path = first_last_or_any(random, shape.numbers.len());
        let number = match random.below(5) {
            0 => random.between(0, components - 1),
            1 => random.pick(&[components + 1, COMPONENTS.high, 65_535, 256]),
            _ => components,
        };
        fitting.numbers[path] = number as usize;
        put_count(random, 8 + 2 * path, number, fitting.length(), bytes);
    }
}

fn first_last_or_any(random: &mut Random, count: usize) -> usize {
    match random.below(3) {
        0 => 0,
        1 => count - 1,
        _ => random.below(count),
    }
}

/// A value at or past a limit of its range; each range of the record has the same chance, and right sides a better one.
fn change_value(random: &mut Random, place: usize, fields: &[Field], bytes: &mut [u8]) {
    let width: usize = fields.iter().map(|field| field.form.width()).sum();
    if fields.is_empty() || bytes.len() != place + width {
        return;
    }
    let mut ranges: Vec<Range> = Vec::new();
    for field in fields {
        if !ranges.contains(&field.range) {
            ranges.push(field.range);
        }
    }
    let range = match random.one_in(4) {
        true => RIGHT,
        false => random.pick(&ranges),
    };
    let among: Vec<usize> = (0..fields.len())
        .filter(|&i| fields[i].range == range)
        .collect();
    if among.is_empty() {
        return;
    }
    let chosen = among[first_last_or_any(random, among.len())];
    let form = fields[chosen].form;
    let value = match random.below(4) {
        0 => random.pick(&limits(range, form.holds())),
        _ => random.pick(&[
            (range.low - 1).max(form.holds().low),
            (range.high + 1).min(form.holds().high),
        ]),
    };
    let before: usize = fields[..chosen].iter().map(|f| f.form.width()).sum();
    form.put(value, bytes, place + before);
}
