//! Loops with an accepted ranking.

use super::{drop_half, in_range, no_step, some_fall, total, two_places, Built, Pivots, Style};
use crate::forms::Pair;
use crate::oracle::conditions::{Ranking, Row};
use crate::oracle::judging::Certificate;
use crate::oracle::layout::RIGHT;
use crate::random::Random;

/// The added row -s·x <= s0 with its two weights. A plain ranking has one of zeros.
pub(super) struct Added {
    pub s: Vec<i64>,
    pub s0: i64,
    pub y: i64,
    pub z: i64,
}

/// Sets the pivots so that the four conditions hold over the rows and the added row with this fall.
fn close_ranking(
    rows: &mut [Row],
    ranking: &Ranking,
    added: &Added,
    start: Option<usize>,
    fall: (usize, i64),
) -> bool {
    let (y, z) = (&ranking.y, &ranking.z);
    let (fall, amount) = fall;
    let pivots = [fall, start.unwrap_or(fall)];
    for j in 0..added.s.len() {
        let ya_next = total(rows, &pivots, |i, row| y[i] * row.next[j]);
        let difference = total(rows, &pivots, |i, row| (y[i] - z[i]) * row.now[j])
            - (added.y - added.z) * added.s[j];
        let both =
            total(rows, &pivots, |i, row| z[i] * (row.now[j] + row.next[j])) - added.z * added.s[j];
        match start {
            Some(start) => {
                rows[fall].now[j] = -rows[fall].next[j] - both;
                rows[start].now[j] = rows[fall].now[j] - difference;
                rows[start].next[j] = -ya_next;
            }
            None => {
                rows[fall].now[j] = difference;
                rows[fall].next[j] = -difference - both;
            }
        }
    }
    rows[fall].right =
        -amount - added.z * added.s0 - total(rows, &pivots, |i, row| z[i] * row.right);
    pivots.iter().all(|&pivot| in_range(&rows[pivot]))
}

/// Gives the pivots their weights and closes the four conditions, dropping weights as far as it must.
pub(super) fn settle_ranking(
    rows: &mut [Row],
    ranking: &mut Ranking,
    added: &mut Added,
    start: Option<usize>,
    fall: (usize, i64),
) {
    let spare: Vec<i64> = rows[fall.0].next.clone();
    let pivots = [fall.0, start.unwrap_or(fall.0)];
    (ranking.y[fall.0], ranking.z[fall.0]) = (0, 1);
    match start {
        Some(start) => (ranking.y[start], ranking.z[start]) = (1, 0),
        None => ranking.y.fill(0),
    }
    while !close_ranking(rows, ranking, added, start, fall) {
        rows[fall.0].next = spare.clone();
        let Ranking { y, z } = ranking;
        if !drop_half(&mut [y, z], &pivots, rows.len()) {
            (added.y, added.z) = (if start.is_none() { 1 } else { 0 }, 0);
        }
    }
}

/// Chooses the loop's pivots, of which `kept` has no weight, and closes a ranking that leans on the added row -s·x <= s0.
pub(super) fn leaning_ranking(
    random: &mut Random,
    (s, s0): (&[i64], i64),
    rows: &mut [Row],
    style: Style,
    pivots: &mut Pivots,
) -> Ranking {
    let m = rows.len();
    let (kept, fall) = two_places(random, m);
    let start = (0..m).find(|i| ![kept, fall].contains(i) && !random.one_in(4));
    (pivots.kept, pivots.fall, pivots.start) = (Some(kept), Some(fall), start);
    let mut ranking = Ranking {
        y: style.weights(random, m),
        z: style.weights(random, m),
    };
    (ranking.y[kept], ranking.z[kept]) = (0, 0);
    let mut added = Added {
        s: s.to_vec(),
        s0,
        y: random.between(0, 2),
        z: random.between(0, 2),
    };
    let amount = some_fall(random);
    settle_ranking(rows, &mut ranking, &mut added, start, (fall, amount));
    ranking.y.push(added.y);
    ranking.z.push(added.z);
    ranking
}

/// A loop with an accepted ranking. With one row only a loop without a step has one, without rows none has.
pub fn ranking(random: &mut Random, n: usize, m: usize, style: Style) -> Built {
    let mut rows = style.rows(random, n, m.max(1));
    let m = rows.len();
    let mut ranking = Ranking {
        y: style.weights(random, m),
        z: style.weights(random, m),
    };
    let amount = some_fall(random);
    let mut pivots = Pivots::default();
    if m == 1 {
        rows[0] = no_step(n, amount);
        ranking.z[0] = 1;
        pivots.fall = Some(0);
    } else {
        let (start, fall) = two_places(random, m);
        (pivots.start, pivots.fall) = (Some(start), Some(fall));
        let mut nothing = Added {
            s: vec![0; n],
            s0: 0,
            y: 0,
            z: 0,
        };
        settle_ranking(
            &mut rows,
            &mut ranking,
            &mut nothing,
            Some(start),
            (fall, amount),
        );
    }
    let certificate = Certificate::Ranking(ranking);
    Built {
        pair: Pair {
            n,
            rows,
            certificate,
        },
        pivots,
    }
}

/// A ranking whose rank, start and fall are as large as the ranges let them be, or nearly. Rows stand in pairs, one in
/// Y and one in Z; an odd row has no entries and moves the start only.
pub fn steep_ranking(random: &mut Random, n: usize, m: usize) -> Built {
    let mut entry = || random.pick(&[-30_000, -29_999, 0, 1, 30_000]);
    let entries: Vec<i64> = (0..n).map(|_| entry()).collect();
    let weight = random.pick(&[60_000, 59_999, 1]);
    let fall = random.pick(&[RIGHT.high, RIGHT.high - 1, 1]);
    let (mut rows, mut y, mut z) = (Vec::new(), Vec::new(), Vec::new());
    for _pair in 0..m / 2 {
        rows.push(Row {
            now: entries.clone(),
            next: vec![0; n],
            right: random.pick(&[RIGHT.high, RIGHT.low, 0]),
        });
        rows.push(Row {
            now: entries.clone(),
            next: entries.iter().map(|entry| -entry).collect(),
            right: -fall,
        });
        y.extend([weight, 0]);
        z.extend([0, weight]);
    }
    let mut pivots = Pivots::default();
    if m % 2 == 1 {
        pivots.start = Some(rows.len());
        rows.push(no_step(n, random.between(-1, 1)));
        y.push(1);
        z.push(0);
    }
    let certificate = Certificate::Ranking(Ranking { y, z });
    Built {
        pair: Pair {
            n,
            rows,
            certificate,
        },
        pivots,
    }
}
