//! Certificates at the edge: conditions that hold with nothing to spare, or just fail; and common factors.

use super::exclusion::{ceiling, step_of};
use super::{total, Built, Pivots};
use crate::oracle::conditions::{dot, Exclusion, Lasso, Row};
use crate::oracle::judging::Certificate;
use crate::oracle::layout::{ENTRY, MULTIPLIER, RIGHT};
use crate::oracle::settling::Settling;
use crate::random::Random;

/// A condition that is an inequality, and so can hold or fail by one.
#[derive(Clone, Copy, Debug, PartialEq, Eq)]
pub enum Inequality {
    /// Zb < 0.
    Fall,
    /// Hb + h0 s0 <= k2 s0.
    Kept,
    /// Eb <= -k.
    Rise,
    /// Td <= k s0.
    Start,
    /// A_i·(W - V) + A'_i·W <= q b_i, of the last row.
    Step,
    /// A_i·V + A'_i·U <= 0, of the last row.
    Direction,
}

/// Sets a right side so that the inequality holds with nothing to spare (`over` 0) or just fails (`over` 1). Leaves the
/// pair as it is where it has no such condition or the right side would leave its range.
pub fn bring_to_edge(built: &mut Built, inequality: Inequality, over: i64) {
    let Built { pair, pivots } = built;
    let rows = &mut pair.rows;
    let found = match &mut pair.certificate {
        Certificate::Ranking(ranking) => {
            let all = sum_of_rights(&ranking.z, rows);
            fall_edge(rows, pivots, inequality, over - 1 - all)
        }
        Certificate::Exclusion(exclusion) => exclusion_edge(rows, exclusion, inequality, over),
        Certificate::Lasso(lasso) => lasso_edge(rows, lasso, pivots, inequality, over),
        Certificate::Settling(settling) => settling_edge(rows, settling, pivots, inequality, over),
    };
    if let Some((row, right)) = found.filter(|(_, right)| RIGHT.holds(*right)) {
        row.right = right;
    }
}

/// A row and the right side that it needs.
type Needed<'a> = Option<(&'a mut Row, i64)>;

fn sum_of_rights(weights: &[i64], rows: &[Row]) -> i64 {
    total(rows, &[], |i, row| weights[i] * row.right)
}

/// The row with this right side more.
fn raised(rows: &mut [Row], pivot: Option<usize>, by: i64) -> Needed<'_> {
    let row = &mut rows[pivot?];
    let right = row.right + by;
    Some((row, right))
}

fn fall_edge<'a>(
    rows: &'a mut [Row],
    pivots: &Pivots,
    inequality: Inequality,
    by: i64,
) -> Needed<'a> {
    match inequality {
        Inequality::Fall => raised(rows, pivots.fall, by),
        _ => None,
    }
}

fn exclusion_edge<'a>(
    rows: &'a mut [Row],
    exclusion: &Exclusion,
    inequality: Inequality,
    over: i64,
) -> Needed<'a> {
    let row = rows.last_mut()?;
    let below = match inequality {
        Inequality::Step => over,
        Inequality::Direction => {
            lead(row, exclusion, over);
            0
        }
        _ => return None,
    };
    let least = ceiling(step_of(row, exclusion), exclusion.q.into());
    Some((row, least - below))
}

fn lasso_edge<'a>(
    rows: &'a mut [Row],
    lasso: &'a mut Lasso,
    pivots: &Pivots,
    inequality: Inequality,
    over: i64,
) -> Needed<'a> {
    let Lasso { s0, k, k2, h0, .. } = *lasso;
    match inequality {
        Inequality::Start => {
            let most = k * s0 - sum_of_rights(&lasso.t, &lasso.stem);
            raised(&mut lasso.stem, pivots.stem, most + over)
        }
        Inequality::Kept => {
            let most = (k2 - h0) * s0 - sum_of_rights(&lasso.h, rows);
            raised(rows, pivots.kept, most + over)
        }
        _ => {
            let z = &lasso.ranking.z;
            let all = sum_of_rights(z, rows) + z[rows.len()] * s0;
            fall_edge(rows, pivots, inequality, over - 1 - all)
        }
    }
}

fn settling_edge<'a>(
    rows: &'a mut [Row],
    settling: &Settling,
    pivots: &Pivots,
    inequality: Inequality,
    over: i64,
) -> Needed<'a> {
    match inequality {
        Inequality::Rise => {
            let most = -settling.k - sum_of_rights(&settling.e, rows);
            raised(rows, pivots.kept, most + over)
        }
        _ => {
            let z = &settling.ranking.z;
            let all = sum_of_rights(z, rows) - z[rows.len()] * settling.t;
            fall_edge(rows, pivots, inequality, over - 1 - all)
        }
    }
}

/// Changes an entry so that A·V + A'·U is `over`, if one has the coefficient 1 or -1 and the range for it.
fn lead(row: &mut Row, exclusion: &Exclusion, over: i64) {
    let missing = over - (dot(&row.now, &exclusion.v) + dot(&row.next, &exclusion.u)) as i64;
    let coefficients = exclusion.v.iter().chain(&exclusion.u);
    let entries = row.now.iter_mut().chain(&mut row.next);
    for (entry, coefficient) in entries.zip(coefficients) {
        let changed = *entry + missing * coefficient;
        if coefficient.abs() == 1 && ENTRY.holds(changed) {
            *entry = changed;
            return;
        }
    }
}

/// Gives Kept, Start and Rise something to spare, where the built pair holds them with equality.
pub fn slacken(built: &mut Built, random: &mut Random) {
    for inequality in [Inequality::Kept, Inequality::Start, Inequality::Rise] {
        if random.one_in(2) {
            bring_to_edge(built, inequality, -random.between(1, 1000));
        }
    }
}

fn scale_lists(random: &mut Random, lists: &mut [&mut [i64]]) {
    let largest = lists
        .iter()
        .flat_map(|list| list.iter())
        .map(|entry| entry.abs())
        .max();
    let most = MULTIPLIER.high / largest.unwrap_or(1).max(1);
    let factor = if random.one_in(4) {
        most
    } else {
        let modest = random.between(1, 1000);
        random.between(1, most.min(modest))
    };
    for entry in lists.iter_mut().flat_map(|list| list.iter_mut()) {
        *entry *= factor;
    }
}

/// Multiplies the parts of a certificate by common factors, which its conditions survive.
pub fn scale(certificate: &mut Certificate, random: &mut Random) {
    match certificate {
        Certificate::Ranking(ranking) => {
            scale_lists(random, &mut [&mut ranking.y, &mut ranking.z]);
        }
        Certificate::Exclusion(exclusion) => {
            let Exclusion { q, u, v, w } = exclusion;
            scale_lists(random, &mut [std::slice::from_mut(q), u, v, w]);
        }
        Certificate::Lasso(lasso) => {
            let Lasso {
                k,
                t,
                k2,
                h,
                h0,
                ranking,
                ..
            } = lasso;
            scale_lists(random, &mut [std::slice::from_mut(k), t]);
            let scales = std::slice::from_mut(k2);
            scale_lists(random, &mut [scales, h, std::slice::from_mut(h0)]);
            scale_lists(random, &mut [&mut ranking.y, &mut ranking.z]);
        }
        Certificate::Settling(Settling { k, e, ranking, .. }) => {
            scale_lists(random, &mut [std::slice::from_mut(k), e]);
            scale_lists(random, &mut [&mut ranking.y, &mut ranking.z]);
        }
    }
}

#[cfg(test)]
mod tests {
    use super::super::{exclusion, lasso, ranking, settling, Style};
    use super::*;

    fn accepted(built: &Built) -> bool {
        let (n, rows) = (built.pair.n, &built.pair.rows);
        match &built.pair.certificate {
            Certificate::Ranking(ranking) => ranking.judged(n, rows).is_ok(),
            Certificate::Exclusion(exclusion) => exclusion.judged(rows).is_ok(),
            Certificate::Lasso(lasso) => lasso.judged(n, rows).is_ok(),
            Certificate::Settling(settling) => settling.judged(n, rows).is_ok(),
        }
    }

    fn check(built: Built, inequalities: &[Inequality], random: &mut Random) {
        assert!(accepted(&built), "{built:?}");
        let mut scaled = built.clone();
        scale(&mut scaled.pair.certificate, random);
        assert!(accepted(&scaled), "{scaled:?}");
        for &inequality in inequalities {
            let mut edge = built.clone();
            bring_to_edge(&mut edge, inequality, 0);
            assert!(accepted(&edge), "{inequality:?} should just hold: {edge:?}");
            let before = edge.pair.loop_bytes();
            let stem = edge.pair.certificate_bytes();
            bring_to_edge(&mut edge, inequality, 1);
            let changed = edge.pair.loop_bytes() != before || edge.pair.certificate_bytes() != stem;
            assert!(
                !changed || !accepted(&edge),
                "{inequality:?} should just fail: {edge:?}"
            );
        }
    }

    #[test]
    fn built_certificates_are_accepted_and_their_edges_are_sharp() {
        for seed in 0..3000 {
            let mut random = Random::new(seed);
            let style = Style {
                entry: random.pick(&[1, 9, 30_000]),
                right: random.pick(&[0, 20, RIGHT.high]),
                ends: random.one_in(3),
                weight: random.pick(&[0, 9, 60_000]),
                zeros: random.pick(&[0, 9]),
                mirrored: random.one_in(2),
            };
            let (n, m) = (1 + random.below(16), random.below(65));
            let built = ranking(&mut random, n, m, style);
            check(built, &[Inequality::Fall], &mut random);
            let built = exclusion(&mut random, n, m, style);
            check(
                built,
                &[Inequality::Step, Inequality::Direction],
                &mut random,
            );
            let ms = random.below(6);
            let built = lasso(&mut random, n, m, ms, style);
            let parts = [Inequality::Fall, Inequality::Kept, Inequality::Start];
            check(built, &parts, &mut random);
            let built = settling(&mut random, n, m, style);
            check(built, &[Inequality::Rise, Inequality::Fall], &mut random);
        }
    }
}
