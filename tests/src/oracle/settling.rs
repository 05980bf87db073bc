//! Settlings (02, Q-8): g·x rises by 1 at least in every step, and once it has reached the threshold t a ranking holds. No byte
//! in sight.

use super::conditions::{dot, first_of, weighted, Failing, Rank, Ranking, Row};
use super::Refusal;

/// g and its threshold t, the scale k and the multipliers E of the rise, and a ranking that has one multiplier of each list more
/// than the loop has rows.
#[derive(Clone, Debug, PartialEq, Eq)]
pub struct Settling {
    pub g: Vec<i64>,
    pub t: i64,
    pub k: i64,
    pub e: Vec<i64>,
    pub ranking: Ranking,
}

impl Settling {
    /// 61: EA = k g; 62: EA' = -k g; 63: Eb <= -k.
    fn rise_failing(&self, n: usize, rows: &[Row]) -> Vec<Refusal> {
        let Settling { g, k, e, .. } = self;
        let mut failing = Failing::default();
        failing.each(61, n, |j| {
            weighted(e, rows, |row| row.now[j]) == i128::from(k * g[j])
        });
        failing.each(62, n, |j| {
            weighted(e, rows, |row| row.next[j]) == -i128::from(k * g[j])
        });
        failing.right_sides(63, weighted(e, rows, |row| row.right) <= -i128::from(*k));
        failing.told
    }

    /// The loop with the row -g·x <= -t added last.
    fn longer(&self, rows: &[Row]) -> Vec<Row> {
        let added = Row {
            now: self.g.iter().map(|entry| -entry).collect(),
            next: vec![0; self.g.len()],
            right: -self.t,
        };
        [rows, &[added]].concat()
    }

    /// The rise, and then a ranking's four conditions over the longer loop.
    pub fn failing(&self, n: usize, rows: &[Row]) -> Vec<Refusal> {
        let ranking = self.ranking.failing(n, &self.longer(rows));
        [self.rise_failing(n, rows), ranking].concat()
    }

    pub fn judged(&self, n: usize, rows: &[Row]) -> Result<Rank, Refusal> {
        first_of(self.failing(n, rows))?;
        Ok(self.ranking.rank(n, &self.longer(rows)))
    }

    /// So many steps at most are taken from states where g·x < t: t - g·x, or 0 if that is negative.
    pub fn bound(&self, state: &[i64]) -> i128 {
        (i128::from(self.t) - dot(&self.g, state)).max(0)
    }
}
