//! Certificates that fail a chosen condition at a chosen place.

use super::exclusion::{ceiling, step_of};
use super::{bring_to_edge, Built, Inequality, Pivots};
use crate::forms::Pair;
use crate::oracle::conditions::{dot, Exclusion, Row};
use crate::oracle::judging::Certificate;
use crate::oracle::layout::{ENTRY, RIGHT};

/// The numbers of the conditions that `fail` has a row for, in the order in which they are told.
pub fn breakable(built: &Built) -> Vec<u64> {
    let Built { pair, pivots } = built;
    let mut numbers = match pair.certificate {
        Certificate::Ranking(_) => vec![21, 22, 23, 24],
        Certificate::Exclusion(_) => vec![31, 32],
        Certificate::Lasso(_) => vec![41, 42, 43, 44, 45, 46, 21, 22, 23, 24],
        Certificate::Settling(_) => vec![61, 62, 63, 21, 22, 23, 24],
    };
    numbers.retain(|&number| match number {
        31 | 32 => !pair.rows.is_empty(),
        _ => pivot_of(number, pair, pivots).is_some(),
    });
    numbers
}

/// The row that closes the condition's sum, of the loop or of the stem.
fn pivot_of(number: u64, pair: &Pair, pivots: &Pivots) -> Option<usize> {
    match number {
        21 | 22 => pivots.start,
        23 => pivots.fall.filter(|&row| !weighs_in_y(pair, row)),
        24 => pivots.fall,
        41..=43 => pivots.stem,
        _ => pivots.kept,
    }
}

/// The only row of a loop may have weight in both sums.
fn weighs_in_y(pair: &Pair, row: usize) -> bool {
    match &pair.certificate {
        Certificate::Ranking(ranking) => ranking.y[row] != 0,
        Certificate::Exclusion(_) => false,
        Certificate::Lasso(lasso) => lasso.ranking.y[row] != 0,
        Certificate::Settling(settling) => settling.ranking.y[row] != 0,
    }
}

/// In how many places a condition can fail: n columns, m rows, or the one of right sides.
pub fn places(number: u64, n: usize, m: usize) -> usize {
    match number {
        24 | 43 | 46 | 63 => 1,
        31 | 32 => m,
        _ => n,
    }
}

/// Lets a condition fail at a place, an equation by this much and an inequality by as much at least. The conditions
/// before it hold as they did. Leaves the pair as it is where no row is there to be changed, or a number would leave its
/// range.
pub fn fail(built: &mut Built, number: u64, place: usize, by: i64) {
    match number {
        24 => bring_to_edge(built, Inequality::Fall, by.abs()),
        43 => bring_to_edge(built, Inequality::Start, by.abs()),
        46 => bring_to_edge(built, Inequality::Kept, by.abs()),
        63 => bring_to_edge(built, Inequality::Rise, by.abs()),
        31 | 32 => fail_row(built, number, place, by.abs()),
        _ => fail_column(built, number, place, by),
    }
}

/// Changes one entry of the row that closes the condition's sum.
fn fail_column(built: &mut Built, number: u64, column: usize, by: i64) {
    let Built { pair, pivots } = built;
    let Some(pivot) = pivot_of(number, pair, pivots) else {
        return;
    };
    let rows = match &mut pair.certificate {
        Certificate::Lasso(lasso) if matches!(number, 41 | 42) => &mut lasso.stem,
        _ => &mut pair.rows,
    };
    let entries = match number {
        22 | 41 | 44 | 61 => &mut rows[pivot].now,
        _ => &mut rows[pivot].next,
    };
    let changed = entries[column] + by;
    if ENTRY.holds(changed) {
        entries[column] = changed;
    }
}

fn fail_row(built: &mut Built, number: u64, row: usize, by: i64) {
    let Pair {
        rows, certificate, ..
    } = &mut built.pair;
    let Certificate::Exclusion(exclusion) = certificate else {
        return;
    };
    let Some(row) = rows.get_mut(row) else { return };
    let mut changed = row.clone();
    let below = match number {
        31 if !lead_out(&mut changed, exclusion, by) => return,
        31 => 0,
        _ => by,
    };
    changed.right = ceiling(step_of(&changed, exclusion), exclusion.q.into()) - below;
    if RIGHT.holds(changed.right) {
        *row = changed;
    }
}

/// Changes an entry so that A·V + A'·U is at least `by`. False if no entry has a coefficient and the range for it.
fn lead_out(row: &mut Row, exclusion: &Exclusion, by: i64) -> bool {
    let missing = by - (dot(&row.now, &exclusion.v) + dot(&row.next, &exclusion.u)) as i64;
    let coefficients = exclusion.v.iter().chain(&exclusion.u);
    let entries = row.now.iter_mut().chain(&mut row.next);
    for (entry, &coefficient) in entries.zip(coefficients) {
        if coefficient == 0 {
            continue;
        }
        let more = ceiling(missing.into(), coefficient.abs().into());
        let changed = *entry + more * coefficient.signum();
        if ENTRY.holds(changed) {
            *entry = changed;
            return true;
        }
    }
    false
}

#[cfg(test)]
mod tests {
    use super::super::{exclusion, lasso, ranking, settling, Style};
    use super::*;
    use crate::oracle::Refusal;
    use crate::random::Random;
    use std::collections::BTreeMap;

    /// The first test that fails: number and place.
    fn told(built: &Built) -> Option<(u64, usize)> {
        let (n, rows) = (built.pair.n, &built.pair.rows);
        let failing = match &built.pair.certificate {
            Certificate::Ranking(ranking) => ranking.failing(n, rows),
            Certificate::Exclusion(exclusion) => exclusion.failing(rows),
            Certificate::Lasso(lasso) => lasso.failing(n, rows),
            Certificate::Settling(settling) => settling.failing(n, rows),
        };
        let number_and_place = |refusal: &Refusal| (refusal.number, refusal.place as usize);
        failing.first().map(number_and_place)
    }

    fn bytes(built: &Built) -> (Vec<u8>, Vec<u8>) {
        (built.pair.loop_bytes(), built.pair.certificate_bytes())
    }

    /// Each condition fails alone at its first and its last place, and before every later one.
    fn check(built: Built, counts: &mut BTreeMap<(u64, u64), u64>) {
        assert_eq!(told(&built), None, "{built:?}");
        let numbers = breakable(&built);
        let (n, m) = (built.pair.n, built.pair.rows.len());
        for (i, &number) in numbers.iter().enumerate() {
            for place in [0, places(number, n, m).saturating_sub(1)] {
                let mut failed = built.clone();
                fail(&mut failed, number, place, 1);
                if bytes(&failed) == bytes(&built) {
                    continue;
                }
                assert_eq!(told(&failed), Some((number, place)), "{failed:?}");
                *counts.entry((number, number)).or_insert(0) += 1;
                for &later in &numbers[i + 1..] {
                    let mut both = failed.clone();
                    fail(&mut both, later, 0, 1);
                    if bytes(&both) != bytes(&failed) {
                        assert_eq!(told(&both), Some((number, place)), "{both:?}");
                        *counts.entry((number, later)).or_insert(0) += 1;
                    }
                }
            }
        }
    }

    #[test]
    fn conditions_fail_where_they_are_made_to_and_in_their_order() {
        let mut counts = BTreeMap::new();
        for seed in 0..400 {
            let mut random = Random::new(seed);
            let style = Style {
                entry: random.pick(&[1, 9, 30_000]),
                right: random.pick(&[0, 20, RIGHT.high]),
                ends: random.one_in(3),
                weight: random.pick(&[0, 9, 60_000]),
                zeros: random.pick(&[0, 9]),
                mirrored: random.one_in(2),
            };
            let (n, m) = (1 + random.below(16), random.below(20));
            check(ranking(&mut random, n, m, style), &mut counts);
            check(exclusion(&mut random, n, m, style), &mut counts);
            let ms = random.below(6);
            check(lasso(&mut random, n, m, ms, style), &mut counts);
            check(settling(&mut random, n, m, style), &mut counts);
        }
        let ranking = 4 * 5 / 2;
        let pairs = 3 + 10 * 11 / 2 + 7 * 8 / 2 - ranking;
        assert_eq!(counts.len(), pairs, "{counts:?}");
        assert!(counts.values().all(|&count| count >= 20), "{counts:?}");
    }
}
