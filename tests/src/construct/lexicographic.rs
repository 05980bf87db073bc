//! Loops of several paths with an accepted argument. Each condition of a path has a row of its own that closes its sums.

use super::lasso::settle_sums;
use super::{in_range, some_fall, total, Style};
use crate::forms::PathPair;
use crate::oracle::conditions::Row;
use crate::oracle::layout::{DIRECTION, FALL, MULTIPLIER, RIGHT};
use crate::oracle::lexicographic::{Branches, Component, Lexicographic, Part};
use crate::random::Random;

/// A condition of a path: on its own component, or on an earlier one.
#[derive(Clone, Copy, Debug, PartialEq, Eq)]
pub enum Condition {
    Bounded,
    Ranking,
    Unaffecting(usize),
}

/// Those of a path whose own component has this number, in their order.
pub fn conditions_of(number: usize) -> Vec<Condition> {
    let own = [Condition::Bounded, Condition::Ranking];
    let earlier = (0..number).map(Condition::Unaffecting);
    own.into_iter().chain(earlier).collect()
}

/// How large a loop and its argument are. A path has more rows where its conditions need them.
#[derive(Clone, Debug)]
pub struct PathSizes {
    pub n: usize,
    pub components: usize,
    /// Of each path its rows and the number of its component.
    pub paths: Vec<(usize, usize)>,
}

/// A loop of several paths with an accepted argument.
#[derive(Clone, Debug)]
pub struct BuiltPaths {
    pub pair: PathPair,
    /// Of each path the conditions with the row that closes each: it has weight 1 there and 0 in the others. A condition
    /// without one has no weights.
    pub pivots: Vec<Vec<(Condition, usize)>>,
}

impl BuiltPaths {
    /// The row that closes a condition of a path.
    fn pivot(&self, path: usize, condition: Condition) -> Option<usize> {
        let found = self.pivots[path].iter().find(|(of, _)| *of == condition);
        found.map(|(_, row)| *row)
    }
}

fn is_zero(list: &[i64]) -> bool {
    list.iter().all(|entry| *entry == 0)
}

fn some_component(random: &mut Random, n: usize, style: Style) -> Component {
    Component {
        r: match random.one_in(6) {
            true => vec![0; n],
            false => style.entries(random, n),
        },
        start: style.right_side(random),
        fall: match random.one_in(5) {
            true => random.between(1, FALL.high),
            false => some_fall(random),
        },
    }
}

/// What the sums of a condition must be: of A, of A', and at most of the right sides.
fn targets(
    condition: Condition,
    components: &[Component],
    number: usize,
) -> (Vec<i64>, Vec<i64>, i64) {
    let opposite = |r: &[i64]| r.iter().map(|entry| -entry).collect();
    let own = &components[number];
    match condition {
        Condition::Bounded => (opposite(&own.r), vec![0; own.r.len()], -own.start),
        Condition::Ranking => (opposite(&own.r), own.r.clone(), -own.fall),
        Condition::Unaffecting(i) => (opposite(&components[i].r), components[i].r.clone(), 0),
    }
}

/// Whether rows without weight do not meet a condition.
fn needs_a_row(condition: Condition, components: &[Component], number: usize) -> bool {
    let (now, next, limit) = targets(condition, components, number);
    !is_zero(&now) || !is_zero(&next) || limit < 0
}

/// The numbers below a count in any order.
fn shuffled(random: &mut Random, count: usize) -> Vec<usize> {
    let mut places: Vec<usize> = (0..count).collect();
    for i in (1..count).rev() {
        places.swap(i, random.below(i + 1));
    }
    places
}

fn list_of(part: &mut Part, condition: Condition) -> &mut Vec<i64> {
    match condition {
        Condition::Bounded => &mut part.bounded,
        Condition::Ranking => &mut part.ranking,
        Condition::Unaffecting(i) => &mut part.unaffecting[i],
    }
}

/// Chooses a row of its own for each condition that needs one, and for some of the others; tells how many rows there are.
fn some_pivots(
    random: &mut Random,
    components: &[Component],
    (m, number): (usize, usize),
) -> (usize, Vec<(Condition, usize)>) {
    let conditions = conditions_of(number);
    let needs = |condition: &Condition| needs_a_row(*condition, components, number);
    let needed = conditions.iter().filter(|c| needs(c)).count();
    let m = m.max(needed);
    let mut places = shuffled(random, m);
    let mut spare = m - needed;
    let mut pivots = Vec::new();
    for condition in conditions {
        let chosen = needs(&condition) || (spare > 0 && random.one_in(2));
        if chosen {
            spare -= usize::from(!needs(&condition));
            pivots.push((condition, places.pop().expect("a row is left")));
        }
    }
    (m, pivots)
}

/// The rows of a path and what the argument holds for it.
fn some_path(
    random: &mut Random,
    components: &[Component],
    (m, number): (usize, usize),
    style: Style,
) -> (Vec<Row>, Part, Vec<(Condition, usize)>) {
    let (m, pivots) = some_pivots(random, components, (m, number));
    let mut rows = style.rows(random, components[0].r.len(), m);
    let mut part = Part {
        component: number,
        bounded: vec![0; m],
        ranking: vec![0; m],
        unaffecting: vec![vec![0; m]; number],
    };
    for &(condition, pivot) in &pivots {
        let (now, next, limit) = targets(condition, components, number);
        let spare = match random.one_in(2) {
            true => random.between(0, 1000),
            false => 0,
        };
        let mut weights = style.weights(random, m);
        for &(_, other) in &pivots {
            weights[other] = 0;
        }
        let right = (limit - spare).max(RIGHT.low);
        settle_sums(&mut rows, &mut weights, pivot, (&now, &next, right));
        *list_of(&mut part, condition) = weights;
    }
    (rows, part, pivots)
}

/// A loop of several paths with an accepted argument.
pub fn lexicographic(random: &mut Random, sizes: &PathSizes, style: Style) -> BuiltPaths {
    let component = |_| some_component(random, sizes.n, style);
    let components: Vec<Component> = (0..sizes.components).map(component).collect();
    let (mut paths, mut parts, mut pivots) = (Vec::new(), Vec::new(), Vec::new());
    for &path in &sizes.paths {
        let (rows, part, of_path) = some_path(random, &components, path, style);
        paths.push(rows);
        parts.push(part);
        pivots.push(of_path);
    }
    let n = sizes.n;
    let pair = PathPair {
        branches: Branches { n, paths },
        argument: Lexicographic { components, parts },
    };
    BuiltPaths { pair, pivots }
}

/// What is wrong in the sums of a condition.
#[derive(Clone, Copy, Debug, PartialEq, Eq)]
pub enum Wrong {
    /// The sum in a column of A, by so much.
    Now(usize, i64),
    /// The sum in a column of A', by so much.
    Next(usize, i64),
    /// The sums of A', which are 0 where r is due and r where 0 is: the rows show another condition.
    Other,
    /// The right sides, which are so much over the limit; 0 leaves nothing to spare and nothing wrong.
    Right(i64),
}

/// Lets a condition of a path fail, and no other. Leaves the loop as it is where no row is there to be changed, or a number
/// would leave its range.
pub fn spoil(built: &mut BuiltPaths, path: usize, condition: Condition, wrong: Wrong) {
    let Some(pivot) = built.pivot(path, condition) else {
        return;
    };
    let PathPair { branches, argument } = &mut built.pair;
    let part = &mut argument.parts[path];
    let (now, next, limit) = targets(condition, &argument.components, part.component);
    let weights = list_of(part, condition);
    let rows = &mut branches.paths[path];
    let sum = total(rows, &[], |i, row| weights[i] * row.right);
    let mut row = rows[pivot].clone();
    match wrong {
        Wrong::Now(column, by) => row.now[column] += by,
        Wrong::Next(column, by) => row.next[column] += by,
        Wrong::Other => {
            let sign = if is_zero(&next) { -1 } else { 1 };
            let raised = row.next.iter_mut().zip(&now);
            raised.for_each(|(entry, minus_r)| *entry += sign * minus_r);
        }
        Wrong::Right(over) => row.right += limit - sum + over,
    }
    if in_range(&row) {
        rows[pivot] = row;
    }
}

/// Brings every condition to its edge: nothing is left to spare.
pub fn bring_paths_to_edge(built: &mut BuiltPaths) {
    for path in 0..built.pivots.len() {
        for (condition, _) in built.pivots[path].clone() {
            spoil(built, path, condition, Wrong::Right(0));
        }
    }
}

/// Multiplies each component, with the multipliers that go with it, by a factor of its own, which the conditions survive.
pub fn scale_argument(argument: &mut Lexicographic, random: &mut Random) {
    for i in 0..argument.components.len() {
        let component = &mut argument.components[i];
        let mut lists: Vec<&mut Vec<i64>> = Vec::new();
        for part in &mut argument.parts {
            let of_part = match part.component {
                own if own == i => vec![&mut part.bounded, &mut part.ranking],
                own if own > i => vec![&mut part.unaffecting[i]],
                _ => Vec::new(),
            };
            lists.extend(of_part);
        }
        let largest = |list: &[i64]| list.iter().map(|entry| entry.abs()).max().unwrap_or(0);
        let multiplier = lists.iter().map(|list| largest(list)).max().unwrap_or(0);
        let most = [
            DIRECTION.high / largest(&component.r).max(1),
            RIGHT.high / component.start.abs().max(1),
            FALL.high / component.fall,
            MULTIPLIER.high / multiplier.max(1),
        ];
        let most = most.into_iter().min().expect("there are four");
        let factor = match random.one_in(4) {
            true => most,
            false => random.between(1, most.min(1000)),
        };
        let own = [&mut component.start, &mut component.fall];
        let numbers = component.r.iter_mut().chain(own);
        numbers.for_each(|number| *number *= factor);
        for multiplier in lists.into_iter().flatten() {
            *multiplier *= factor;
        }
    }
}

#[cfg(test)]
mod tests {
    use super::*;
    use crate::oracle::Refusal;

    fn told(built: &BuiltPaths) -> Option<(u64, usize)> {
        let PathPair { branches, argument } = &built.pair;
        let number_and_place = |refusal: &Refusal| (refusal.number, refusal.place as usize);
        argument.failing(branches).first().map(number_and_place)
    }

    fn number(condition: Condition) -> u64 {
        match condition {
            Condition::Bounded => 51,
            Condition::Ranking => 52,
            Condition::Unaffecting(_) => 53,
        }
    }

    fn some_sizes(random: &mut Random) -> PathSizes {
        let components = 1 + random.below(8);
        let mut path = || (random.below(20), random.below(components));
        let paths: Vec<_> = (0..8).map(|_| path()).collect();
        let count = 1 + random.below(8);
        PathSizes {
            n: 1 + random.below(16),
            components,
            paths: paths[..count].to_vec(),
        }
    }

    #[test]
    fn built_arguments_are_accepted_and_each_condition_fails_alone_in_its_path() {
        let mut failed = 0;
        for seed in 0..600 {
            let random = &mut Random::new(seed);
            let style = Style {
                entry: random.pick(&[1, 9, 30_000]),
                right: random.pick(&[0, 20, RIGHT.high]),
                ends: random.one_in(3),
                weight: random.pick(&[0, 9, 60_000]),
                zeros: random.pick(&[0, 9]),
                mirrored: random.one_in(2),
            };
            let sizes = some_sizes(random);
            let mut built = lexicographic(random, &sizes, style);
            assert_eq!(told(&built), None, "{built:?}");
            if random.one_in(2) {
                bring_paths_to_edge(&mut built);
                assert_eq!(told(&built), None, "{built:?}");
            }
            let path = random.below(sizes.paths.len());
            for (condition, _) in built.pivots[path].clone() {
                let column = random.below(sizes.n);
                let wrongs = [
                    Wrong::Now(column, 1),
                    Wrong::Next(column, -1),
                    Wrong::Other,
                    Wrong::Right(1),
                ];
                for wrong in wrongs {
                    let mut spoilt = built.clone();
                    spoil(&mut spoilt, path, condition, wrong);
                    if spoilt.pair.branches == built.pair.branches {
                        continue;
                    }
                    scale_argument(&mut spoilt.pair.argument, random);
                    assert_eq!(told(&spoilt), Some((number(condition), path)), "{spoilt:?}");
                    failed += 1;
                }
            }
            scale_argument(&mut built.pair.argument, random);
            assert_eq!(told(&built), None, "{built:?}");
        }
        assert!(failed > 5000, "{failed}");
    }
}
