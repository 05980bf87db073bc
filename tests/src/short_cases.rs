//! Cases with short rankings (kind 7): judged and bounded as the rankings that they stand for, and beside these; on sheets;
//! moved to kind 7 and back; and in every call and beside every loop where they are not wanted.

use crate::cases::{
    pair_of_kind_and_state, scaled, some_argument, some_pair, some_room, some_state, spoil_state,
    Case, Move, SheetRoom,
};
use crate::damage::{any_values, damage};
use crate::forms::{bytes_of, certificate_values, Pair};
use crate::oracle::conditions::Ranking;
use crate::oracle::judging::Certificate;
use crate::oracle::layout::{Kind, ROWS, VARIABLES};
use crate::oracle::short::{short_bytes, triples_of, SHORT};
use crate::path_cases;
use crate::random::Random;
use crate::short_damage::damage_short;

/// The case that a generator gives.
pub fn case(random: &mut Random) -> Case {
    match random.below(25) {
        0..=5 => judge(random),
        6..=10 => bound(random),
        11 => judge_both(random),
        12 => mixed(random),
        13 | 14 => sheet(random),
        15..=17 => move_to(random, Move::Short),
        18..=22 => move_to(random, Move::Long),
        23 => there_and_back(random),
        _ => read_or_write(random),
    }
}

/// The ranking of a pair, if that is its certificate.
pub(crate) fn ranking_of(pair: &Pair) -> Option<&Ranking> {
    match &pair.certificate {
        Certificate::Ranking(ranking) => Some(ranking),
        _ => None,
    }
}

pub(crate) fn shortened(ranking: &Ranking) -> Vec<u8> {
    short_bytes(&triples_of(ranking))
}

/// A loop and its ranking, whose conditions hold or not, and the ranking's bytes as kind 7.
fn some_short(random: &mut Random) -> (Pair, Vec<u8>) {
    loop {
        let pair = some_pair(random, Kind::Ranking).pair;
        let pair = scaled(random, pair);
        if let Some(ranking) = ranking_of(&pair) {
            let bytes = shortened(ranking);
            return (pair, bytes);
        }
    }
}

/// The loop's bytes, which are damaged now and then, and the short ranking's, which are more often.
fn some_damage(random: &mut Random, pair: &Pair, mut bytes: Vec<u8>) -> (Vec<u8>, Vec<u8>) {
    let mut looped = pair.loop_bytes();
    if random.below(10) < 4 {
        damage_short(random, pair.rows.len(), &mut bytes);
    }
    if random.one_in(20) {
        damage(random, pair.loop_shape(), &mut looped);
    }
    (looped, bytes)
}

fn judge(random: &mut Random) -> Case {
    let (pair, short) = some_short(random);
    let (loop_bytes, certificate) = some_damage(random, &pair, short);
    Case::Judge {
        loop_bytes,
        certificate,
        room: some_room(random, pair.n),
    }
}

fn bound(random: &mut Random) -> Case {
    let (pair, mut state) = pair_of_kind_and_state(random, Kind::Ranking);
    let (pair, short) = match ranking_of(&pair).map(shortened) {
        Some(short) => (pair, short),
        None => {
            let (pair, short) = some_short(random);
            state = some_state(random, pair.n);
            (pair, short)
        }
    };
    if random.one_in(8) {
        spoil_state(random, &mut state);
    }
    let (loop_bytes, certificate) = some_damage(random, &pair, short);
    Case::Bound {
        loop_bytes,
        certificate,
        state,
    }
}

/// A ranking and its short form, judged one after the other.
fn judge_both(random: &mut Random) -> Case {
    let (pair, short) = some_short(random);
    let mut certificates = [pair.certificate_bytes(), short];
    if random.one_in(2) {
        certificates.reverse();
    }
    Case::JudgeBoth {
        loop_bytes: pair.loop_bytes(),
        certificates,
        room: some_room(random, pair.n),
    }
}

/// A short ranking with a loop of several paths, with another loop of its own kind, or in the loop's place.
fn mixed(random: &mut Random) -> Case {
    let (pair, short) = some_short(random);
    let (looped, short) = some_damage(random, &pair, short);
    let (loop_bytes, certificate) = match random.below(8) {
        0..=3 => (path_cases::some_records(random).0, short),
        4 => (short, looped),
        5 => (short.clone(), short),
        _ => (some_short(random).0.loop_bytes(), short),
    };
    match random.one_in(2) {
        true => Case::Judge {
            loop_bytes,
            certificate,
            room: random.below(20),
        },
        false => Case::Bound {
            loop_bytes,
            certificate,
            state: some_state(random, pair.n),
        },
    }
}

/// A sheet with short rankings among its certificates, or one in its loop's place.
fn sheet(random: &mut Random) -> Case {
    let (pair, short) = some_short(random);
    let mut input = match random.one_in(10) {
        true => short.clone(),
        false => pair.loop_bytes(),
    };
    for _ in 0..1 + random.below(5) {
        let mut record = match random.below(4) {
            0 => pair.certificate_bytes(),
            _ => short.clone(),
        };
        if random.one_in(2) {
            damage_short(random, pair.rows.len(), &mut record);
        }
        input.extend(record);
    }
    Case::Sheet {
        input,
        room: SheetRoom::Enough(random.below(9)),
    }
}

/// In how many of m rows a ranking has weight: all, as many as make both kinds equally long, or any number.
fn weighted_rows(random: &mut Random, m: usize) -> usize {
    match random.below(6) {
        0 | 1 => m,
        2 | 3 if m % 3 == 2 => (4 * m - 2) / 6,
        _ => random.below(m + 1),
    }
}

/// A pair whose ranking holds, fails or has any values, with weight in as many rows as may be.
fn some_ranking(random: &mut Random) -> Pair {
    let (mut pair, _) = some_short(random);
    if random.one_in(2) {
        let shape = pair.certificate_shape();
        let m = shape.m;
        let mut left = weighted_rows(random, m);
        let values = any_values(random, shape);
        let (y, z) = values.split_at(m);
        let (mut y, mut z) = (y.to_vec(), z.to_vec());
        for row in 0..m {
            if random.below(m - row) >= left {
                (y[row], z[row]) = (0, 0);
                continue;
            }
            left -= 1;
            if (y[row], z[row]) == (0, 0) {
                z[row] = 1;
            }
        }
        pair.certificate = Certificate::Ranking(Ranking { y, z });
    }
    pair
}

/// The bytes of a ranking that is to be moved, and of what it is moved to.
fn both_bytes(pair: &Pair, to: Move) -> [Vec<u8>; 2] {
    let shape = pair.certificate_shape();
    let long = bytes_of(shape, &certificate_values(&pair.certificate));
    let short = ranking_of(pair).map(shortened).unwrap_or_default();
    match to {
        Move::Short => [long, short],
        Move::Long => [short, long],
    }
}

fn damage_long_or_short(random: &mut Random, pair: &Pair, to: Move, bytes: &mut Vec<u8>) {
    match to {
        Move::Short => damage(random, pair.certificate_shape(), bytes),
        Move::Long => damage_short(random, pair.rows.len(), bytes),
    }
}

/// A sound certificate that is no ranking, with room for anything.
fn move_another(random: &mut Random, to: Move) -> Case {
    let kind = random.pick(&[Kind::Exclusion, Kind::Lasso, Kind::Settling]);
    let pair = some_pair(random, kind).pair;
    Case::Move {
        to,
        bytes: pair.certificate_bytes(),
        n: pair.n as u64,
        m: pair.rows.len() as u64,
        room: 400,
    }
}

fn move_to(random: &mut Random, to: Move) -> Case {
    if random.one_in(16) {
        return move_another(random, to);
    }
    let pair = some_ranking(random);
    let [mut bytes, moved] = both_bytes(&pair, to);
    match random.below(12) {
        0..=5 => damage_long_or_short(random, &pair, to, &mut bytes),
        6 => bytes.clone_from(&moved),
        _ => {}
    }
    Case::Move {
        to,
        bytes,
        n: some_argument(random, pair.n, VARIABLES),
        m: some_argument(random, pair.rows.len(), ROWS),
        room: some_room(random, moved.len()),
    }
}

fn there_and_back(random: &mut Random) -> Case {
    let to = random.pick(&[Move::Short, Move::Long]);
    let pair = some_ranking(random);
    let [mut bytes, _] = both_bytes(&pair, to);
    if random.one_in(8) {
        damage_long_or_short(random, &pair, to, &mut bytes);
    }
    let room = some_room(random, bytes.len());
    Case::ThereAndBack {
        to,
        bytes,
        n: pair.n as u64,
        m: pair.rows.len() as u64,
        room,
    }
}

/// A reading of a short ranking, or a writing of that kind, with room for it.
fn read_or_write(random: &mut Random) -> Case {
    let (pair, short) = some_short(random);
    let (_, bytes) = some_damage(random, &pair, short);
    let n = some_argument(random, pair.n, VARIABLES);
    let m = some_argument(random, pair.rows.len(), ROWS);
    let room = bytes.len() + random.below(9);
    match random.below(3) {
        0 => Case::ReadLoop { bytes, room },
        1 => Case::ReadCertificate { bytes, n, m, room },
        _ => Case::WriteRecord {
            kind: SHORT,
            n,
            m,
            values: certificate_values(&pair.certificate),
            room,
        },
    }
}
