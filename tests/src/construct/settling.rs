//! Loops with an accepted settling, and curves, which have an accepted exclusion as well.

use super::exclusion::allow;
use super::lasso::{settle_sums, times};
use super::ranking::leaning_ranking;
use super::{no_step, Built, Pivots, Style};
use crate::forms::Pair;
use crate::oracle::conditions::{Exclusion, Ranking, Row};
use crate::oracle::judging::Certificate;
use crate::oracle::layout::{DIRECTION, ENTRY, MULTIPLIER, RIGHT};
use crate::oracle::settling::Settling;
use crate::random::Random;

fn built(n: usize, rows: Vec<Row>, settling: Settling, pivots: Pivots) -> Built {
    let certificate = Certificate::Settling(settling);
    Built {
        pair: Pair {
            n,
            rows,
            certificate,
        },
        pivots,
    }
}

/// A loop with an accepted settling. With one row only a loop without a step has one, without rows none has.
pub fn settling(random: &mut Random, n: usize, m: usize, style: Style) -> Built {
    match m >= 2 && !random.one_in(8) {
        true => settling_with_rise(random, n, m, style),
        false => settling_without_step(random, n, m.max(1), style),
    }
}

/// A settling whose g has entries of its own.
fn settling_with_rise(random: &mut Random, n: usize, m: usize, style: Style) -> Built {
    let scale = random.pick(&[1, 1, 2, 3]);
    let sparse = Style {
        entry: style.entry.min(ENTRY.high / scale),
        ..style
    };
    let g = sparse.entries(random, n);
    let (t, k) = (style.right_side(random), random.between(1, scale));
    let mut rows = style.rows(random, n, m);
    let mut pivots = Pivots::default();
    let ranking = leaning_ranking(random, (&g, -t), &mut rows, style, &mut pivots);
    let mut e = style.weights(random, m);
    for pivot in [pivots.start, pivots.fall].into_iter().flatten() {
        e[pivot] = 0;
    }
    let pivot = pivots.kept.expect("the rise has a pivot");
    settle_sums(
        &mut rows,
        &mut e,
        pivot,
        (&times(k, &g), &times(-k, &g), -k),
    );
    let settling = Settling {
        g,
        t,
        k,
        e,
        ranking,
    };
    built(n, rows, settling, pivots)
}

/// A loop that no step meets: even 0·x rises and falls in it.
fn settling_without_step(random: &mut Random, n: usize, m: usize, style: Style) -> Built {
    let mut rows = style.rows(random, n, m);
    let only = random.below(m);
    rows[only] = no_step(n, random.between(1, 9));
    let alone = |weight: i64, last: &[i64]| {
        let mut weights = vec![0; m];
        weights[only] = weight;
        weights.extend(last);
        weights
    };
    let weight = random.between(1, 9);
    let settling = Settling {
        g: vec![0; n],
        t: style.right_side(random),
        k: random.between(1, weight),
        e: alone(weight, &[]),
        ranking: Ranking {
            y: alone(random.between(0, 9), &[random.between(0, 9)]),
            z: alone(random.between(1, 9), &[0]),
        },
    };
    built(n, rows, settling, Pivots::default())
}

/// The largest c and d of a curve.
const MOST: i64 = 60;

/// A curve over two of the variables, x and y, either of which may count the other way: while x >= c, x' <= x + y and
/// y' <= y - d, and mostly both with equality. It climbs while y is above 0. Here g·x is y times a number below 0, and once that
/// has reached t, which is above 0, x falls. The direction in which y falls and x falls with it leaves no row.
pub fn curve(random: &mut Random, n: usize, m: usize, style: Style) -> (Built, Exclusion) {
    let (at_x, at_y) = super::two_places(random, n);
    let (x_sign, y_sign) = (random.pick(&[1, -1]), random.pick(&[1, -1]));
    let factor = random.pick(&[1, 1, 2, 3, style.entry]);
    let (any_d, any_c) = (random.between(1, MOST), random.between(-MOST, MOST));
    let (d, c) = (
        random.pick(&[1, 1, 2, any_d]),
        random.pick(&[0, 1, -1, any_c]),
    );
    let placed = |x: i64, y: i64| {
        let mut entries = vec![0; n];
        (entries[at_x], entries[at_y]) = (x_sign * x, y_sign * y);
        entries
    };
    let row = |now: (i64, i64), next: (i64, i64), right: i64| Row {
        now: placed(now.0, now.1),
        next: placed(next.0, next.1),
        right,
    };
    let any_q = random.between(1, DIRECTION.high / MOST);
    let q = random.pick(&[1, 2, any_q]);
    let exclusion = Exclusion {
        q,
        u: placed(-q * d, -q * d),
        v: placed(0, -q * d),
        w: placed(q * c, -q * d),
    };
    let needed = [
        row((-1, 0), (0, 0), -c),
        row((-1, -1), (1, 0), 0),
        row((0, -1), (0, 1), -d),
    ];
    let equalities = [row((1, 1), (-1, 0), 0), row((0, 1), (0, -1), d)];
    let mut rows = style.rows(random, n, m.saturating_sub(5));
    for row in &mut rows {
        allow(row, &exclusion, random.one_in(3));
    }
    rows.extend(equalities.into_iter().filter(|_| !random.one_in(4)));
    for row in &needed {
        rows.insert(random.below(rows.len() + 1), row.clone());
    }
    let k = random.between(1, (MULTIPLIER.high / factor).min(9));
    let alone = |row: &Row, weight: i64, last: &[i64]| {
        let mut weights = vec![0; rows.len()];
        let place = rows.iter().position(|other| other == row);
        weights[place.expect("the row was put there")] = weight;
        weights.extend(last);
        weights
    };
    let settling = Settling {
        g: placed(0, -factor),
        t: random.pick(&[1, 2, 100, RIGHT.high]),
        k,
        e: alone(&needed[2], k * factor, &[]),
        ranking: Ranking {
            y: alone(&needed[0], factor, &[0]),
            z: alone(&needed[1], factor, &[1]),
        },
    };
    (built(n, rows, settling, Pivots::default()), exclusion)
}

#[cfg(test)]
mod tests {
    use super::*;

    #[test]
    fn settlings_are_accepted_and_curves_have_an_exclusion_too() {
        for seed in 0..2000 {
            let mut random = Random::new(seed);
            let style = Style {
                entry: random.pick(&[1, 9, 30_000]),
                right: random.pick(&[0, 20, RIGHT.high]),
                ends: random.one_in(3),
                weight: random.pick(&[0, 9, 60_000]),
                zeros: random.pick(&[0, 9]),
                mirrored: random.one_in(2),
            };
            let (n, m) = (2 + random.below(15), random.below(65));
            let (curve, exclusion) = curve(&mut random, n, m, style);
            assert_eq!(exclusion.judged(&curve.pair.rows), Ok(()), "{curve:?}");
            for built in [curve, settling(&mut random, n, m, style)] {
                let Certificate::Settling(settling) = &built.pair.certificate else {
                    unreachable!("a settling was built");
                };
                let rank = settling.judged(n, &built.pair.rows);
                assert!(rank.is_ok(), "{rank:?} {built:?}");
            }
        }
    }
}
