//! The published conditions: ranking, exclusion and lasso over lists of rows, and the bound formula. No byte in sight. Those of
//! a settling stand in `settling`, those of a loop with several paths in `lexicographic`.
//!
//! A condition that fails is told by its number, with the column or the row in which it fails, counted from 0, or 0 for
//! right sides. All columns, or rows, of one condition come before the next condition.

use super::Refusal;

/// Row i reads: A_i·x + A'_i·x' <= b_i.
#[derive(Clone, Debug, PartialEq, Eq)]
pub struct Row {
    /// A_i, for the state before the step.
    pub now: Vec<i64>,
    /// A'_i, for the state after it.
    pub next: Vec<i64>,
    /// b_i, the right side.
    pub right: i64,
}

/// Y and Z, one multiplier each for every row.
#[derive(Clone, Debug, PartialEq, Eq)]
pub struct Ranking {
    pub y: Vec<i64>,
    pub z: Vec<i64>,
}

/// The denominator q, and U, V, W.
#[derive(Clone, Debug, PartialEq, Eq)]
pub struct Exclusion {
    pub q: i64,
    pub u: Vec<i64>,
    pub v: Vec<i64>,
    pub w: Vec<i64>,
}

/// A stem, an invariant s·x + s0 >= 0, and the multipliers of its three parts. The multipliers of the ranking have one
/// entry more than the loop has rows.
#[derive(Clone, Debug, PartialEq, Eq)]
pub struct Lasso {
    pub stem: Vec<Row>,
    pub s: Vec<i64>,
    pub s0: i64,
    pub k: i64,
    pub t: Vec<i64>,
    pub k2: i64,
    pub h: Vec<i64>,
    pub h0: i64,
    pub ranking: Ranking,
}

/// What an accepted ranking gives: r = ZA', start δ0 = -Yb, fall δ = -Zb.
#[derive(Clone, Debug, PartialEq, Eq)]
pub struct Rank {
    pub r: Vec<i128>,
    pub start: i128,
    pub fall: i128,
}

pub fn dot(left: &[i64], right: &[i64]) -> i128 {
    left.iter()
        .zip(right)
        .map(|(&x, &y)| i128::from(x) * i128::from(y))
        .sum()
}

/// The sum over the rows of multiplier times a number of the row.
pub fn weighted(multipliers: &[i64], rows: &[Row], of: impl Fn(&Row) -> i64) -> i128 {
    multipliers
        .iter()
        .zip(rows)
        .map(|(&multiplier, row)| i128::from(multiplier) * i128::from(of(row)))
        .sum()
}

/// The tests that fail, in the order in which they are told.
#[derive(Default)]
pub(super) struct Failing {
    pub told: Vec<Refusal>,
}

impl Failing {
    /// A condition in each of so many columns or rows.
    pub fn each(&mut self, number: u64, count: usize, holds: impl Fn(usize) -> bool) {
        let fails = (0..count).filter(|&place| !holds(place));
        self.told.extend(fails.map(|place| Refusal {
            number,
            place: place as u64,
        }));
    }

    /// A condition on right sides.
    pub fn right_sides(&mut self, number: u64, holds: bool) {
        self.each(number, 1, |_| holds);
    }
}

/// The first test that fails is told.
pub fn first_of(failing: Vec<Refusal>) -> Result<(), Refusal> {
    match failing.first() {
        Some(refusal) => Err(*refusal),
        None => Ok(()),
    }
}

impl Ranking {
    /// 21: YA' = 0; 22: (Y - Z)A = 0; 23: Z(A + A') = 0; 24: Zb < 0.
    pub fn failing(&self, n: usize, rows: &[Row]) -> Vec<Refusal> {
        let Ranking { y, z } = self;
        let mut failing = Failing::default();
        failing.each(21, n, |j| weighted(y, rows, |row| row.next[j]) == 0);
        failing.each(22, n, |j| {
            weighted(y, rows, |row| row.now[j]) == weighted(z, rows, |row| row.now[j])
        });
        failing.each(23, n, |j| {
            weighted(z, rows, |row| row.now[j] + row.next[j]) == 0
        });
        failing.right_sides(24, weighted(z, rows, |row| row.right) < 0);
        failing.told
    }

    pub(super) fn rank(&self, n: usize, rows: &[Row]) -> Rank {
        let Ranking { y, z } = self;
        Rank {
            r: (0..n)
                .map(|j| weighted(z, rows, |row| row.next[j]))
                .collect(),
            start: -weighted(y, rows, |row| row.right),
            fall: -weighted(z, rows, |row| row.right),
        }
    }

    pub fn judged(&self, n: usize, rows: &[Row]) -> Result<Rank, Refusal> {
        first_of(self.failing(n, rows))?;
        Ok(self.rank(n, rows))
    }
}

impl Exclusion {
    /// 31: A_i·V + A'_i·U <= 0, for every row i; then 32: A_i·(W - V) + A'_i·W <= q b_i, for every row i.
    pub fn failing(&self, rows: &[Row]) -> Vec<Refusal> {
        let Exclusion { q, u, v, w } = self;
        let before: Vec<i64> = w.iter().zip(v).map(|(w, v)| w - v).collect();
        let mut failing = Failing::default();
        failing.each(31, rows.len(), |i| {
            dot(&rows[i].now, v) + dot(&rows[i].next, u) <= 0
        });
        failing.each(32, rows.len(), |i| {
            let step = dot(&rows[i].now, &before) + dot(&rows[i].next, w);
            step <= i128::from(*q) * i128::from(rows[i].right)
        });
        failing.told
    }

    pub fn judged(&self, rows: &[Row]) -> Result<(), Refusal> {
        first_of(self.failing(rows))
    }

    /// Whether q divides every entry of a list. 0 is divisible by every q.
    pub fn divides(&self, entries: &[i64]) -> bool {
        entries.iter().all(|entry| entry % self.q == 0)
    }

    /// Whole exactly when q divides every entry of W and of V; U does not matter.
    pub fn whole(&self) -> bool {
        self.divides(&self.w) && self.divides(&self.v)
    }
}

impl Lasso {
    /// Start. 41: TB = 0; 42: TB' = -k s; 43: Td <= k s0.
    fn start_failing(&self, n: usize) -> Vec<Refusal> {
        let Lasso { stem, s, k, t, .. } = self;
        let mut failing = Failing::default();
        failing.each(41, n, |j| weighted(t, stem, |row| row.now[j]) == 0);
        failing.each(42, n, |j| {
            weighted(t, stem, |row| row.next[j]) == -i128::from(k * s[j])
        });
        let right = weighted(t, stem, |row| row.right);
        failing.right_sides(43, right <= i128::from(k * self.s0));
        failing.told
    }

    /// Kept. 44: HA - h0 s = 0; 45: HA' = -k2 s; 46: Hb + h0 s0 <= k2 s0.
    fn kept_failing(&self, n: usize, rows: &[Row]) -> Vec<Refusal> {
        let Lasso {
            s, s0, k2, h, h0, ..
        } = self;
        let mut failing = Failing::default();
        failing.each(44, n, |j| {
            weighted(h, rows, |row| row.now[j]) - i128::from(h0 * s[j]) == 0
        });
        failing.each(45, n, |j| {
            weighted(h, rows, |row| row.next[j]) == -i128::from(k2 * s[j])
        });
        let right = weighted(h, rows, |row| row.right);
        failing.right_sides(46, right + i128::from(h0 * s0) <= i128::from(k2 * s0));
        failing.told
    }

    /// The row -s·x <= s0, which the ranking may lean on.
    pub fn added_row(&self) -> Row {
        Row {
            now: self.s.iter().map(|entry| -entry).collect(),
            next: vec![0; self.s.len()],
            right: self.s0,
        }
    }

    /// The loop with the added row at the end.
    fn longer(&self, rows: &[Row]) -> Vec<Row> {
        let mut longer = rows.to_vec();
        longer.push(self.added_row());
        longer
    }

    /// Start, kept, and then a ranking's four conditions over the longer loop.
    pub fn failing(&self, n: usize, rows: &[Row]) -> Vec<Refusal> {
        let ranking = self.ranking.failing(n, &self.longer(rows));
        [self.start_failing(n), self.kept_failing(n, rows), ranking].concat()
    }

    pub fn judged(&self, n: usize, rows: &[Row]) -> Result<Rank, Refusal> {
        first_of(self.failing(n, rows))?;
        Ok(self.ranking.rank(n, &self.longer(rows)))
    }

    pub fn invariant_holds(&self, state: &[i64]) -> bool {
        dot(&self.s, state) + i128::from(self.s0) >= 0
    }
}

impl Rank {
    /// 0 if r·x < δ0, otherwise the whole part of (r·x - δ0)/δ, plus 1.
    pub fn bound(&self, state: &[i64]) -> i128 {
        let value: i128 = self
            .r
            .iter()
            .zip(state)
            .map(|(r, &x)| r * i128::from(x))
            .sum();
        if value < self.start {
            return 0;
        }
        (value - self.start) / self.fall + 1
    }
}
