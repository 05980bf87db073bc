//! Cases with loops of several paths and arguments for them (kinds 5 and 6): judged together, and in every call and beside
//! every record where they are not wanted.

use crate::cases::{
    some_argument, some_certificate_kind, some_pair, some_room, some_state, some_style, Case,
    SheetRoom,
};
use crate::construct::{
    bring_paths_to_edge, conditions_of, lexicographic, scale_argument, spoil, BuiltPaths,
    Condition, PathSizes, Wrong,
};
use crate::forms::PathPair;
use crate::oracle::layout::{DIRECTION, FALL, MULTIPLIER, RIGHT, ROWS, VARIABLES};
use crate::oracle::lexicographic::{Component, Lexicographic, Part};
use crate::path_damage::{damage_argument, damage_loop};
use crate::random::Random;

/// The case that a generator gives.
pub fn case(random: &mut Random) -> Case {
    match random.below(20) {
        0..=15 => judge(random),
        16 => judge_mixed(random),
        17 => bound(random),
        18 => sheet(random),
        _ => read_or_write(random),
    }
}

/// Small loops mostly, all counts of paths and components, and now and then the largest.
fn some_sizes(random: &mut Random) -> PathSizes {
    if random.one_in(200) {
        return PathSizes {
            n: 16,
            components: 8,
            paths: (0..8).map(|number| (64, number)).collect(),
        };
    }
    let count = |random: &mut Random| match random.below(3) {
        0 | 1 => 1 + random.below(4),
        _ => 1 + random.below(8),
    };
    let components = count(random);
    let mut path = || {
        let m = match random.below(12) {
            0..=9 => random.below(9),
            10 if random.one_in(4) => random.pick(&[63, 64]),
            11 if random.one_in(4) => random.below(65),
            _ => random.below(20),
        };
        (m, random.below(components))
    };
    let all: Vec<(usize, usize)> = (0..8).map(|_| path()).collect();
    let paths = all[..count(random)].to_vec();
    let n = match random.below(12) {
        0..=9 => 1 + random.below(4),
        10 => 16,
        _ => 1 + random.below(16),
    };
    PathSizes {
        n,
        components,
        paths,
    }
}

/// A loop of several paths and an argument for it, well formed: accepted, or with conditions that fail, or of any values.
pub(crate) fn some_paths(random: &mut Random) -> PathPair {
    let sizes = some_sizes(random);
    let style = some_style(random);
    let mut built = lexicographic(random, &sizes, style);
    if random.one_in(3) {
        bring_paths_to_edge(&mut built);
    }
    match random.below(40) {
        0..=9 => break_conditions(random, &mut built),
        10 => built.pair.argument = any_argument(random, &built.pair),
        _ => {}
    }
    if random.one_in(2) {
        scale_argument(&mut built.pair.argument, random);
    }
    built.pair
}

/// Lets conditions fail: chosen ones of chosen paths, what some value changed by one breaks, or what an exchange does.
fn break_conditions(random: &mut Random, built: &mut BuiltPaths) {
    match random.below(10) {
        0 => change_any_value_by_one(random, &mut built.pair.argument),
        1 => exchange(random, &mut built.pair.argument),
        2 => empty_a_path(random, &mut built.pair),
        _ => {
            for _ in 0..random.pick(&[1, 1, 2, 3]) {
                fail_a_condition(random, built);
            }
        }
    }
}

/// Mostly in the first or the last path; of the earlier components mostly the first or the last.
fn fail_a_condition(random: &mut Random, built: &mut BuiltPaths) {
    let paths = built.pivots.len();
    let path = match random.below(3) {
        0 => 0,
        1 => paths - 1,
        _ => random.below(paths),
    };
    let number = built.pair.argument.parts[path].component;
    let conditions = conditions_of(number);
    let condition = match random.below(4) {
        0 => Condition::Bounded,
        1 => Condition::Ranking,
        2 => conditions[conditions.len() - 1],
        _ => random.pick(&conditions),
    };
    let n = built.pair.branches.n;
    let column = match random.below(3) {
        0 => 0,
        1 => n - 1,
        _ => random.below(n),
    };
    let by = random.pick(&[1, -1, 1000]);
    let wrong = match random.below(10) {
        0..=2 => Wrong::Now(column, by),
        3..=5 => Wrong::Next(column, by),
        6 => Wrong::Other,
        _ => Wrong::Right(by.abs()),
    };
    spoil(built, path, condition, wrong);
}

/// Changes a multiplier or a number of a component by one, within its range.
pub(crate) fn change_any_value_by_one(random: &mut Random, argument: &mut Lexicographic) {
    let mut numbers: Vec<&mut i64> = Vec::new();
    for Component { r, start, fall } in &mut argument.components {
        numbers.extend(r.iter_mut().chain([start, fall]));
    }
    for part in &mut argument.parts {
        let own = part.bounded.iter_mut().chain(&mut part.ranking);
        numbers.extend(own.chain(part.unaffecting.iter_mut().flatten()));
    }
    let chosen = random.below(numbers.len());
    let number = &mut numbers[chosen];
    **number += if **number > 1 { -1 } else { 1 };
}

/// Exchanges two components, or two lists of multipliers of a path.
fn exchange(random: &mut Random, argument: &mut Lexicographic) {
    let (components, paths) = (argument.components.len(), argument.parts.len());
    if components > 1 && random.one_in(2) {
        let (first, second) = (random.below(components), random.below(components));
        argument.components.swap(first, second);
        return;
    }
    let Part {
        bounded,
        ranking,
        unaffecting,
        ..
    } = &mut argument.parts[random.below(paths)];
    match unaffecting.last_mut() {
        Some(last) if random.one_in(2) => std::mem::swap(ranking, last),
        _ => std::mem::swap(bounded, ranking),
    }
}

/// Leaves a path without rows: every pair of states is a step through it.
fn empty_a_path(random: &mut Random, pair: &mut PathPair) {
    let path = random.below(pair.branches.paths.len());
    pair.branches.paths[path].clear();
    let part = &mut pair.argument.parts[path];
    part.bounded.clear();
    part.ranking.clear();
    part.unaffecting.iter_mut().for_each(Vec::clear);
}

/// An argument of any values in range for the pair's loop.
fn any_argument(random: &mut Random, pair: &PathPair) -> Lexicographic {
    let size = random.pick(&[0, 1, 100, RIGHT.high]);
    let components = 1 + random.below(8);
    let n = pair.branches.n;
    let mut component = || Component {
        r: (0..n)
            .map(|_| random.signed(size.min(DIRECTION.high)))
            .collect(),
        start: random.signed(size),
        fall: random.pick(&[FALL.low, FALL.high]),
    };
    let components: Vec<Component> = (0..components).map(|_| component()).collect();
    let mut part = |rows: usize| {
        let number = random.below(components.len());
        let mut list = || -> Vec<i64> {
            let multiplier = |_| random.between(0, size.min(MULTIPLIER.high));
            (0..rows).map(multiplier).collect()
        };
        Part {
            component: number,
            bounded: list(),
            ranking: list(),
            unaffecting: (0..number).map(|_| list()).collect(),
        }
    };
    let paths = pair.branches.paths.iter();
    let parts = paths.map(|rows| part(rows.len())).collect();
    Lexicographic { components, parts }
}

/// The bytes of both records. One of the two, or both, may be damaged, more than once.
fn some_bytes(random: &mut Random, pair: &PathPair) -> (Vec<u8>, Vec<u8>) {
    let (mut looped, mut certificate) = (pair.loop_bytes(), pair.certificate_bytes());
    if random.below(10) < 3 {
        let which = random.below(9);
        if which <= 3 {
            damage_loop(random, &pair.branches.shape(), &mut looped);
        }
        if which >= 3 {
            damage_argument(random, &pair.certificate_shape(), &mut certificate);
        }
        if random.one_in(4) {
            damage_argument(random, &pair.certificate_shape(), &mut certificate);
        }
    }
    (looped, certificate)
}

/// The records of a loop of several paths and an argument for it.
pub(crate) fn some_records(random: &mut Random) -> (Vec<u8>, Vec<u8>) {
    let pair = some_paths(random);
    some_bytes(random, &pair)
}

fn judge(random: &mut Random) -> Case {
    let pair = some_paths(random);
    let (loop_bytes, certificate) = some_bytes(random, &pair);
    let room = match random.below(4) {
        0 => 0,
        _ => some_room(random, pair.branches.n),
    };
    Case::Judge {
        loop_bytes,
        certificate,
        room,
    }
}

/// The records of a loop with one path: a loop of kind 1, and a certificate of kinds 2 to 4.
pub(crate) fn one_path(random: &mut Random) -> (Vec<u8>, Vec<u8>) {
    let kind = some_certificate_kind(random);
    let pair = some_pair(random, kind).pair;
    (pair.loop_bytes(), pair.certificate_bytes())
}

/// A loop and a certificate that are not judged together, either of which is damaged now and then.
fn mixed_bytes(random: &mut Random) -> (Vec<u8>, Vec<u8>) {
    let (paths, argument) = some_records(random);
    let (looped, certificate) = one_path(random);
    match random.below(9) {
        0..=3 => (paths, certificate),
        4..=6 => (looped, argument),
        7 => (argument, paths),
        _ => (paths.clone(), paths),
    }
}

fn judge_mixed(random: &mut Random) -> Case {
    let (loop_bytes, certificate) = mixed_bytes(random);
    Case::Judge {
        loop_bytes,
        certificate,
        room: random.below(20),
    }
}

/// A loop of several paths with either certificate, or an argument for another loop.
fn bound(random: &mut Random) -> Case {
    let (loop_bytes, certificate) = match random.one_in(2) {
        true => mixed_bytes(random),
        false => some_records(random),
    };
    let n = 1 + random.below(4);
    Case::Bound {
        loop_bytes,
        certificate,
        state: some_state(random, n),
    }
}

/// A sheet whose loop has several paths, or one with an argument among its certificates.
fn sheet(random: &mut Random) -> Case {
    let (paths, argument) = some_records(random);
    let (looped, certificate) = one_path(random);
    let input = match random.one_in(3) {
        true => [paths, argument].concat(),
        false => [looped, certificate.clone(), argument, certificate].concat(),
    };
    Case::Sheet {
        input,
        room: SheetRoom::Enough(random.below(9)),
    }
}

/// A reading of a loop or an argument, or a writing of either kind.
fn read_or_write(random: &mut Random) -> Case {
    let pair = some_paths(random);
    let (paths, argument) = some_bytes(random, &pair);
    let (n, m) = (pair.branches.n, pair.branches.paths[0].len());
    let bytes = match random.one_in(2) {
        true => paths,
        false => argument,
    };
    let room = random.below(bytes.len() + 1);
    let (n, m) = (
        some_argument(random, n, VARIABLES),
        some_argument(random, m, ROWS),
    );
    match random.below(3) {
        0 => Case::ReadLoop { bytes, room },
        1 => Case::ReadCertificate { bytes, n, m, room },
        _ => Case::WriteRecord {
            kind: random.pick(&[5, 6]),
            n,
            m,
            values: (0..random.below(30)).map(|_| random.signed(9)).collect(),
            room,
        },
    }
}
