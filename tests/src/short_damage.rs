//! Damage to the bytes of a short ranking (kind 7): its count and its triples, one by one and together.

use crate::damage::damage_frame;
use crate::forms::put_length;
use crate::oracle::layout::{Form, MULTIPLIER, ROWS};
use crate::oracle::record::count_at;
use crate::oracle::short::{place_of, short_length, TRIPLES_PLACE};
use crate::random::Random;

/// Damages a short ranking for m rows in one way or in several. Now and then the damage is none.
pub fn damage_short(random: &mut Random, m: usize, bytes: &mut Vec<u8>) {
    for _ in 0..random.pick(&[1, 1, 2, 2, 3]) {
        match random.below(20) {
            0..=2 => damage_frame(random, bytes),
            3 | 4 => change_count(random, bytes),
            5 => cut_count(random, bytes),
            _ => change_triple(random, m, bytes),
        }
    }
}

/// Ends the record in its count, or before it, with an L that says so.
fn cut_count(random: &mut Random, bytes: &mut Vec<u8>) {
    if bytes.len() >= TRIPLES_PLACE {
        bytes.truncate(random.pick(&[6, 7]));
        let length = bytes.len() - 4;
        put_length(bytes, length);
    }
}

/// Another count; half of the time in a record that has the length of the new count.
fn change_count(random: &mut Random, bytes: &mut Vec<u8>) {
    if bytes.len() < TRIPLES_PLACE {
        return;
    }
    let old = count_at(bytes, 6);
    let high = ROWS.high;
    let count = match random.below(3) {
        0 => random.pick(&[(old - 1).max(0), old + 1, 0, high]),
        _ => random.pick(&[high + 1, high + 1, high + 2, 256, 65_535]),
    };
    if random.one_in(2) && count <= high + 1 {
        let length = short_length(count as usize);
        bytes.resize(4 + length, 0);
        put_length(bytes, length);
    }
    Form::U16.put(count, bytes, 6);
}

/// The first triple, the last, or any.
fn some_triple(random: &mut Random, count: usize) -> usize {
    match random.below(3) {
        0 => 0,
        1 => count - 1,
        _ => random.below(count),
    }
}

/// A triple whose row is not below m, or not above the one before; that has no weight; or one of whose multipliers is at or
/// past the end of its range. Now and then one before it has such a multiplier too.
fn change_triple(random: &mut Random, m: usize, bytes: &mut [u8]) {
    let count = bytes.len().saturating_sub(TRIPLES_PLACE) / 6;
    if count == 0 {
        return;
    }
    let chosen = some_triple(random, count);
    let place = place_of(chosen);
    let before = match chosen {
        0 => 0,
        _ => count_at(bytes, place - 6),
    };
    let high = MULTIPLIER.high;
    if chosen > 0 && random.one_in(3) {
        let earlier = place_of(random.below(chosen));
        Form::U16.put(high + 1, bytes, earlier + random.pick(&[2, 4]));
    }
    match random.below(8) {
        0 => {
            let row = random.pick(&[m as i64, m as i64, m as i64 + 1, 256, 65_535]);
            Form::U16.put(row, bytes, place);
        }
        1 => Form::U16.put(before, bytes, place),
        2 => {
            let row = random.pick(&[(before - 1).max(0), 0, before + 1]);
            Form::U16.put(row, bytes, place);
        }
        3 | 4 => bytes[place + 2..place + 6].fill(0),
        5 => {
            let row = random.pick(&[m as i64, before]);
            Form::U16.put(row, bytes, place);
            bytes[place + 2..place + 6].fill(0);
        }
        _ => {
            let value = random.pick(&[high, high + 1, high + 1, 65_535]);
            Form::U16.put(value, bytes, place + random.pick(&[2, 4]));
        }
    }
}
