//! Loops with an accepted lasso.

use super::ranking::{leaning_ranking, ranking, steep_ranking};
use super::{drop_half, in_range, total, Built, Pivots, Style, NEAR};
use crate::forms::Pair;
use crate::oracle::conditions::{Lasso, Ranking, Row};
use crate::oracle::judging::Certificate;
use crate::oracle::layout::{ENTRY, RIGHT};
use crate::random::Random;

/// The invariant with the scales of its parts, small enough that the pivots can carry it.
struct Invariant {
    s: Vec<i64>,
    s0: i64,
    k: i64,
    k2: i64,
    h0: i64,
}

fn some_invariant(random: &mut Random, n: usize, style: Style) -> Invariant {
    let scale = random.pick(&[1, 1, 2, 3]);
    let size = style.entry.min(ENTRY.high / scale);
    let right = style.right.min(RIGHT.high / scale);
    let sparse = Style {
        entry: size,
        ..style
    };
    Invariant {
        s: sparse.entries(random, n),
        s0: style.right_side(random).clamp(-right, right),
        k: random.between(1, scale),
        k2: random.between(1, scale),
        h0: random.between(0, scale),
    }
}

/// Sets one row so that the weighted sums of all rows are the targets: Σ weight·A = now, Σ weight·A' = next, and
/// Σ weight·b = right.
fn close_sums(
    rows: &mut [Row],
    weights: &[i64],
    pivot: usize,
    targets: (&[i64], &[i64], i64),
) -> bool {
    let (now, next, right) = targets;
    for j in 0..now.len() {
        rows[pivot].now[j] = now[j] - total(rows, &[pivot], |i, row| weights[i] * row.now[j]);
        rows[pivot].next[j] = next[j] - total(rows, &[pivot], |i, row| weights[i] * row.next[j]);
    }
    rows[pivot].right = right - total(rows, &[pivot], |i, row| weights[i] * row.right);
    in_range(&rows[pivot])
}

/// Gives the pivot weight 1 and closes the sums, dropping weights as far as it must.
pub(super) fn settle_sums(
    rows: &mut [Row],
    weights: &mut Vec<i64>,
    pivot: usize,
    targets: (&[i64], &[i64], i64),
) {
    weights[pivot] = 1;
    while !close_sums(rows, weights, pivot, targets) {
        drop_half(&mut [weights], &[pivot], rows.len());
    }
}

pub(super) fn times(scale: i64, list: &[i64]) -> Vec<i64> {
    list.iter().map(|entry| scale * entry).collect()
}

/// A loop with an accepted lasso. It needs a stem row, or two rows and a trivial invariant.
pub fn lasso(random: &mut Random, n: usize, m: usize, ms: usize, style: Style) -> Built {
    if m >= 2 && ms >= 1 && !random.one_in(5) {
        return lasso_with_invariant(random, n, m, ms, style);
    }
    if m >= 1 && random.one_in(2) {
        return lasso_of_ranking(random, n, m, ms, style);
    }
    lasso_without_start(random, n, m, ms.max(1), style)
}

/// A lasso whose invariant s·x + s0 >= 0 has entries of its own.
fn lasso_with_invariant(random: &mut Random, n: usize, m: usize, ms: usize, style: Style) -> Built {
    let invariant = some_invariant(random, n, style);
    let mut pivots = Pivots {
        stem: Some(random.below(ms)),
        ..Pivots::default()
    };
    let (stem, t) = closed_stem(random, &invariant, ms, style, &pivots);
    let mut rows = style.rows(random, n, m);
    let row = (&invariant.s[..], invariant.s0);
    let ranking = leaning_ranking(random, row, &mut rows, style, &mut pivots);
    let h = closed_kept(random, &invariant, &mut rows, style, &pivots);
    let Invariant { s, s0, k, k2, h0 } = invariant;
    let lasso = Lasso {
        stem,
        s,
        s0,
        k,
        t,
        k2,
        h,
        h0,
        ranking,
    };
    let certificate = Certificate::Lasso(lasso);
    Built {
        pair: Pair {
            n,
            rows,
            certificate,
        },
        pivots,
    }
}

/// A stem with its multipliers T, so that the invariant starts.
fn closed_stem(
    random: &mut Random,
    invariant: &Invariant,
    ms: usize,
    style: Style,
    pivots: &Pivots,
) -> (Vec<Row>, Vec<i64>) {
    let Invariant { s, s0, k, .. } = invariant;
    let mut stem = style.rows(random, s.len(), ms);
    let mut t = style.weights(random, ms);
    let (now, next) = (vec![0; s.len()], times(-k, s));
    let pivot = pivots.stem.expect("a stem has a row");
    settle_sums(&mut stem, &mut t, pivot, (&now, &next, k * s0));
    (stem, t)
}

/// The multipliers H, with the rows set so that the invariant is kept.
fn closed_kept(
    random: &mut Random,
    invariant: &Invariant,
    rows: &mut [Row],
    style: Style,
    pivots: &Pivots,
) -> Vec<i64> {
    let Invariant { s, s0, k2, h0, .. } = invariant;
    let mut h = style.weights(random, rows.len());
    for pivot in [pivots.start, pivots.fall].into_iter().flatten() {
        h[pivot] = 0;
    }
    let (now, next) = (times(*h0, s), times(-k2, s));
    let pivot = pivots.kept.expect("the kept part has a pivot");
    settle_sums(rows, &mut h, pivot, (&now, &next, (k2 - h0) * s0));
    h
}

/// A lasso whose invariant says nothing (s = 0, s0 >= 0), over a loop with a ranking.
fn lasso_of_ranking(random: &mut Random, n: usize, m: usize, ms: usize, style: Style) -> Built {
    let mut built = match m >= 2 && random.one_in(4) {
        true => steep_ranking(random, n, m),
        false => ranking(random, n, m, style),
    };
    let Certificate::Ranking(mut ranking) = built.pair.certificate else {
        unreachable!("a ranking was built");
    };
    ranking.y.push(random.between(0, style.weight));
    ranking.z.push(0);
    let k2 = random.between(1, style.weight.max(1));
    built.pair.certificate = Certificate::Lasso(Lasso {
        stem: style.rows(random, n, ms),
        s: vec![0; n],
        s0: random.pick(&[0, 1, style.right, RIGHT.high]),
        k: random.between(1, style.weight.max(1)),
        t: vec![0; ms],
        k2,
        h: vec![0; m],
        h0: random.between(0, k2),
        ranking,
    });
    built
}

/// A lasso whose stem no step meets: then even 0·x - 1 >= 0 is an invariant, and every loop ends.
fn lasso_without_start(random: &mut Random, n: usize, m: usize, ms: usize, style: Style) -> Built {
    let mut stem = style.rows(random, n, ms);
    let mut t = style.weights(random, ms);
    let pivot = random.below(ms);
    let (k, s0) = match random.one_in(3) {
        true => (1, RIGHT.low + random.between(0, NEAR)),
        false => (random.between(1, 9), -random.between(1, 1000)),
    };
    let zeros = vec![0; n];
    settle_sums(&mut stem, &mut t, pivot, (&zeros, &zeros, k * s0));
    let k2 = random.between(1, 9);
    let weights = |random: &mut Random, last: i64| {
        let mut weights = vec![0; m];
        weights.push(random.between(last, 9));
        weights
    };
    let lasso = Lasso {
        stem,
        s: zeros,
        s0,
        k,
        t,
        k2,
        h: vec![0; m],
        h0: random.between(k2, 9),
        ranking: Ranking {
            y: weights(random, 0),
            z: weights(random, 1),
        },
    };
    Built {
        pair: Pair {
            n,
            rows: style.rows(random, n, m),
            certificate: Certificate::Lasso(lasso),
        },
        pivots: Pivots {
            stem: Some(pivot),
            ..Pivots::default()
        },
    }
}
