//! Loops with an accepted exclusion.

use super::{near_an_end, no_step, opposite, Built, Pivots, Style};
use crate::forms::Pair;
use crate::oracle::conditions::{dot, Exclusion, Row};
use crate::oracle::judging::Certificate;
use crate::oracle::layout::{DIRECTION, ENTRY, RIGHT};
use crate::random::Random;

pub(super) fn ceiling(value: i128, divisor: i128) -> i64 {
    -((-value).div_euclid(divisor)) as i64
}

/// The left side of an exclusion's second condition.
pub(super) fn step_of(row: &Row, exclusion: &Exclusion) -> i128 {
    let Exclusion { v, w, .. } = exclusion;
    let before: Vec<i64> = w.iter().zip(v).map(|(w, v)| w - v).collect();
    dot(&row.now, &before) + dot(&row.next, w)
}

/// Changes a row until the direction (V, U) never leaves it and the step has room for a right side in range.
pub(super) fn allow(row: &mut Row, exclusion: &Exclusion, tight: bool) {
    if tight {
        flatten(row, exclusion);
    }
    if dot(&row.now, &exclusion.v) + dot(&row.next, &exclusion.u) > 0 {
        *row = opposite(row);
    }
    row.right = ceiling(step_of(row, exclusion), exclusion.q.into()).max(RIGHT.low);
    if !RIGHT.holds(row.right) {
        *row = no_step(row.now.len(), 0);
    }
}

/// Keeps two entries at most, so that the direction runs along the row: A·V + A'·U = 0.
fn flatten(row: &mut Row, exclusion: &Exclusion) {
    let (first, last) = (exclusion.v[0], exclusion.u[exclusion.u.len() - 1]);
    row.now.fill(0);
    row.next.fill(0);
    let shrink = (first.abs().max(last.abs()) / ENTRY.high) + 1;
    if first % shrink == 0 && last % shrink == 0 {
        row.now[0] = last / shrink;
        *row.next.last_mut().expect("n is at least 1") = -first / shrink;
    }
}

/// An entry that q divides: 0, or one of either sign, up to the ends of the range.
fn multiple(random: &mut Random, q: i64) -> i64 {
    let most = DIRECTION.high / q;
    let size = random.pick(&[0, 1, most.min(3), most]);
    q * random.signed(size)
}

/// Moves an entry, mostly the last, off the multiples of q, often by one.
fn miss(random: &mut Random, q: i64, entries: &mut [i64]) {
    let place = match random.one_in(3) {
        true => random.below(entries.len()),
        false => entries.len() - 1,
    };
    let by = match random.one_in(2) {
        true => 1,
        false => random.between(1, q - 1),
    };
    // towards 0, so that the entry stays in its range
    entries[place] += if entries[place] > 0 { -by } else { by };
}

/// Sets V and W to multiples of q, which is above 1, and mostly lets one of the two, or both, miss it.
fn grade(random: &mut Random, exclusion: &mut Exclusion) {
    let Exclusion { q, v, w, .. } = exclusion;
    for entry in v.iter_mut().chain(w.iter_mut()) {
        *entry = multiple(random, *q);
    }
    let missed = random.below(8);
    if [0, 1, 2].contains(&missed) {
        miss(random, *q, v);
    }
    if [2, 3, 4].contains(&missed) {
        miss(random, *q, w);
    }
}

/// A loop with an accepted exclusion.
pub fn exclusion(random: &mut Random, n: usize, m: usize, style: Style) -> Built {
    let size = random.pick(&[0, 1, 9, style.entry.min(60_000), 60_000]);
    let q = match random.below(4) {
        0 | 1 => 1,
        2 => random.between(2, 60_000),
        _ => random.pick(&[2, 3, 60_000]),
    };
    let mut list = || -> Vec<i64> { (0..n).map(|_| random.signed(size)).collect() };
    let (u, v, w) = (list(), list(), list());
    let mut exclusion = Exclusion { q, u, v, w };
    if q > 1 && !random.one_in(3) {
        grade(random, &mut exclusion);
    }
    let mut rows = style.rows(random, n, m);
    for row in &mut rows {
        allow(row, &exclusion, style.mirrored && random.one_in(2));
        if style.ends && !random.one_in(3) {
            row.right = row.right.max(near_an_end(random));
        } else if random.one_in(3) {
            row.right = (row.right + random.between(0, 1000)).min(RIGHT.high);
        }
    }
    let certificate = Certificate::Exclusion(exclusion);
    Built {
        pair: Pair {
            n,
            rows,
            certificate,
        },
        pivots: Pivots::default(),
    }
}
