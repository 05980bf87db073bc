//! Cases with settlings (kind 8): judged, and bounded at states near the threshold; beside an exclusion of the same loop; and in
//! every call and beside every loop where they are not wanted.

use crate::cases::{
    bound_at, judge_kind, scaled, some_argument, some_bytes, some_pair, some_room, some_size,
    some_state, some_style, Case, SheetRoom,
};
use crate::construct::{self, Built};
use crate::forms::{bytes_of, certificate_shape, certificate_values, Pair};
use crate::oracle::conditions::dot;
use crate::oracle::judging::Certificate;
use crate::oracle::layout::{Kind, RIGHT, ROWS, VARIABLES};
use crate::path_cases;
use crate::random::Random;

/// The case that a generator gives.
pub fn case(random: &mut Random) -> Case {
    match random.below(20) {
        0..=8 => judge_kind(random, Kind::Settling),
        9..=14 => bound(random),
        15 => judge_both(random),
        16 => judge_mixed(random),
        17 => bound_mixed(random),
        18 => sheet(random),
        _ => read_or_write(random),
    }
}

/// Moves the threshold to the state or near it, and the row that closes the fall with it, so that the fall stays.
fn move_threshold(random: &mut Random, built: &mut Built, state: &[i64]) {
    let Built { pair, pivots } = built;
    let Certificate::Settling(settling) = &mut pair.certificate else {
        return;
    };
    let below = random.pick(&[-1000, -1, 0, 0, 1, 1, 2, 1000]);
    let threshold = dot(&settling.g, state) as i64 + below;
    let weight = settling.ranking.z[pair.rows.len()];
    let right = |row: usize| pair.rows[row].right + weight * (threshold - settling.t);
    let moved = pivots.fall.map(|row| (row, right(row)));
    let fits = moved.map_or(weight == 0, |(_, right)| RIGHT.holds(right));
    if !fits || !RIGHT.holds(threshold) {
        return;
    }
    settling.t = threshold;
    if let Some((row, right)) = moved {
        pair.rows[row].right = right;
    }
}

fn bound(random: &mut Random) -> Case {
    let mut built = some_pair(random, Kind::Settling);
    let state = some_state(random, built.pair.n);
    if !random.one_in(3) {
        move_threshold(random, &mut built, &state);
    }
    bound_at(random, built.pair, state)
}

/// A curve's loop with its settling, which may be multiplied by factors, and its exclusion.
pub(crate) fn some_curve(random: &mut Random) -> (Pair, Vec<u8>) {
    let (n, m) = some_size(random);
    let style = some_style(random);
    let (built, exclusion) = construct::curve(random, n.max(2), m, style);
    let pair = scaled(random, built.pair);
    let exclusion = Certificate::Exclusion(exclusion);
    let shape = certificate_shape(&exclusion, pair.n, pair.rows.len());
    let exclusion = bytes_of(shape, &certificate_values(&exclusion));
    (pair, exclusion)
}

fn judge_both(random: &mut Random) -> Case {
    let (pair, exclusion) = some_curve(random);
    let mut certificates = [pair.certificate_bytes(), exclusion];
    if random.one_in(2) {
        certificates.reverse();
    }
    Case::JudgeBoth {
        loop_bytes: pair.loop_bytes(),
        certificates,
        room: some_room(random, pair.n),
    }
}

/// A loop of several paths, a settling or another settling's loop, with a settling that is damaged now and then.
fn mixed_bytes(random: &mut Random) -> (Vec<u8>, Vec<u8>) {
    let pair = some_pair(random, Kind::Settling).pair;
    let (looped, settling) = some_bytes(random, &pair, 2);
    match random.below(6) {
        0..=2 => (path_cases::some_records(random).0, settling),
        3 => (settling, looped),
        4 => (settling.clone(), settling),
        _ => (
            some_pair(random, Kind::Settling).pair.loop_bytes(),
            settling,
        ),
    }
}

fn judge_mixed(random: &mut Random) -> Case {
    let (loop_bytes, certificate) = mixed_bytes(random);
    Case::Judge {
        loop_bytes,
        certificate,
        room: random.below(20),
    }
}

fn bound_mixed(random: &mut Random) -> Case {
    let (loop_bytes, certificate) = mixed_bytes(random);
    let n = 1 + random.below(4);
    Case::Bound {
        loop_bytes,
        certificate,
        state: some_state(random, n),
    }
}

/// A sheet with settlings among its certificates, or one in its loop's place.
fn sheet(random: &mut Random) -> Case {
    let (pair, exclusion) = some_curve(random);
    let (looped, settling) = some_bytes(random, &pair, 2);
    let input = match random.one_in(3) {
        true => [settling, exclusion].concat(),
        false => [looped, exclusion.clone(), settling, exclusion].concat(),
    };
    Case::Sheet {
        input,
        room: SheetRoom::Enough(random.below(9)),
    }
}

/// A reading of a settling, or a writing from its values, with room for them.
fn read_or_write(random: &mut Random) -> Case {
    let pair = some_pair(random, Kind::Settling).pair;
    let (_, bytes) = some_bytes(random, &pair, 2);
    let n = some_argument(random, pair.n, VARIABLES);
    let m = some_argument(random, pair.rows.len(), ROWS);
    let room = bytes.len() + random.below(9);
    match random.below(3) {
        0 => Case::ReadLoop { bytes, room },
        1 => Case::ReadCertificate { bytes, n, m, room },
        _ => Case::WriteRecord {
            kind: Kind::Settling.number(),
            n,
            m,
            values: certificate_values(&pair.certificate),
            room,
        },
    }
}
