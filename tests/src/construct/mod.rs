//! Loops built around certificates, so that these are accepted.
//!
//! Multipliers and most rows are drawn first. The rows that are left, the pivots, have weight 1 in one sum each and 0
//! in the others, and are then set so that every sum comes out as its condition asks. Where a pivot would leave its
//! range, weights are dropped until it fits.

mod edges;
mod exclusion;
mod failing;
mod lasso;
mod lexicographic;
mod ranking;
mod settling;

pub use edges::{bring_to_edge, scale, slacken, Inequality};
pub use exclusion::exclusion;
pub use failing::{breakable, fail, places};
pub use lasso::lasso;
pub use lexicographic::{
    bring_paths_to_edge, conditions_of, lexicographic, scale_argument, spoil, BuiltPaths,
    Condition, PathSizes, Wrong,
};
pub use ranking::{ranking, steep_ranking};
pub use settling::{curve, settling};

use crate::forms::Pair;
use crate::oracle::conditions::Row;
use crate::oracle::layout::{ENTRY, RIGHT};
use crate::random::Random;

/// How large and how full the numbers of a loop are.
#[derive(Clone, Copy, Debug)]
pub struct Style {
    /// The largest entry.
    pub entry: i64,
    /// The largest right side.
    pub right: i64,
    /// Whether most right sides lie near an end of their range, whatever the largest one is.
    pub ends: bool,
    /// The largest multiplier.
    pub weight: i64,
    /// How many in ten entries are 0.
    pub zeros: usize,
    /// Whether rows stand in pairs of opposites with the same weights, so that large weights of large rows cancel.
    pub mirrored: bool,
}

/// A loop with an accepted certificate, and the rows by which its sums were closed.
#[derive(Clone, Debug)]
pub struct Built {
    pub pair: Pair,
    pub pivots: Pivots,
}

/// The rows of weight 1 in one sum and 0 in the others.
#[derive(Clone, Copy, Debug, Default)]
pub struct Pivots {
    /// The row that closes YA' = 0 and (Y - Z)A = 0.
    pub start: Option<usize>,
    /// The row that closes Z(A + A') = 0 and Zb < 0.
    pub fall: Option<usize>,
    /// The row that closes the lasso's "kept" part, or a settling's rise.
    pub kept: Option<usize>,
    /// The stem row that closes the lasso's "start" part.
    pub stem: Option<usize>,
}

impl Style {
    fn entry(&self, random: &mut Random) -> i64 {
        if random.below(10) < self.zeros {
            0
        } else {
            random.signed(self.entry)
        }
    }

    fn entries(&self, random: &mut Random, count: usize) -> Vec<i64> {
        (0..count).map(|_| self.entry(random)).collect()
    }

    fn right_side(&self, random: &mut Random) -> i64 {
        if self.ends && !random.one_in(4) {
            near_an_end(random)
        } else {
            random.between(-self.right, self.right)
        }
    }

    /// Rows of any kind; mirrored, each second one is the opposite of the one before it.
    pub fn rows(&self, random: &mut Random, n: usize, count: usize) -> Vec<Row> {
        let mut rows: Vec<Row> = Vec::with_capacity(count);
        for i in 0..count {
            let row = match rows.last() {
                Some(before) if self.mirrored && i % 2 == 1 => opposite(before),
                _ => Row {
                    now: self.entries(random, n),
                    next: self.entries(random, n),
                    right: self.right_side(random),
                },
            };
            rows.push(row);
        }
        rows
    }

    /// Multipliers; mirrored, each second one is the one before it.
    pub fn weights(&self, random: &mut Random, count: usize) -> Vec<i64> {
        let mut weights: Vec<i64> = Vec::with_capacity(count);
        for i in 0..count {
            let weight = match weights.last() {
                Some(&before) if self.mirrored && i % 2 == 1 => before,
                _ => random.between(self.weight.min(1), self.weight),
            };
            weights.push(weight);
        }
        weights
    }
}

/// So far from an end of its range a right side still lies near it.
pub const NEAR: i64 = 1_000;

/// A right side near an end of its range, and often at it.
fn near_an_end(random: &mut Random) -> i64 {
    let off = random.pick(&[0, 1, NEAR]);
    let off = random.between(0, off);
    random.pick(&[RIGHT.low + off, RIGHT.high - off])
}

/// The row whose left side is the opposite and whose right side lets some states through.
fn opposite(row: &Row) -> Row {
    Row {
        now: row.now.iter().map(|entry| -entry).collect(),
        next: row.next.iter().map(|entry| -entry).collect(),
        right: (-row.right + 1).min(RIGHT.high),
    }
}

fn in_range(row: &Row) -> bool {
    let entries = row.now.iter().chain(&row.next);
    entries.into_iter().all(|&entry| ENTRY.holds(entry)) && RIGHT.holds(row.right)
}

/// The sum over all rows but some of weight times a number of the row.
fn total(rows: &[Row], but: &[usize], of: impl Fn(usize, &Row) -> i64) -> i64 {
    let others = rows.iter().enumerate().filter(|(i, _)| !but.contains(i));
    others.map(|(i, row)| of(i, row)).sum()
}

/// Drops the weights of half of the rows that still have any, so that sums get smaller. False if there were none.
fn drop_half(weights: &mut [&mut Vec<i64>], but: &[usize], rows: usize) -> bool {
    let weighty: Vec<usize> = (0..rows)
        .filter(|i| !but.contains(i) && weights.iter().any(|list| list[*i] != 0))
        .collect();
    for &i in &weighty[..weighty.len().div_ceil(2)] {
        weights.iter_mut().for_each(|list| list[i] = 0);
    }
    !weighty.is_empty()
}

/// Two different places below a count of at least 2.
fn two_places(random: &mut Random, count: usize) -> (usize, usize) {
    let first = random.below(count);
    let second = (first + 1 + random.below(count - 1)) % count;
    (first, second)
}

fn some_fall(random: &mut Random) -> i64 {
    if random.one_in(2) {
        1
    } else {
        random.between(1, 1000)
    }
}

/// The row 0 <= -amount, which no step meets if the amount is above 0.
fn no_step(n: usize, amount: i64) -> Row {
    Row {
        now: vec![0; n],
        next: vec![0; n],
        right: -amount,
    }
}
