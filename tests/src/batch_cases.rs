//! Cases with several certificates at once: from no record to forty, of every kind that is judged, sound, damaged and cut; with
//! verdict places and rank numbers enough and too few.

use crate::cases::{
    change_any_value_by_one, scaled, sheet_record, some_certificate_kind, some_pair, Case,
};
use crate::construct::scale_argument;
use crate::damage::{damage, damage_frame};
use crate::forms::{Pair, PathPair};
use crate::oracle::batch::{records, variables, MOST_RECORDS};
use crate::oracle::layout::Kind;
use crate::path_cases;
use crate::path_damage::{damage_argument, damage_loop};
use crate::random::Random;
use crate::settling_cases;
use crate::short_cases::{ranking_of, shortened};
use crate::short_damage::damage_short;

/// A loop's bytes, and records for it.
struct Job {
    loop_bytes: Vec<u8>,
    records: Vec<Vec<u8>>,
}

/// The case that a generator gives.
pub fn case(random: &mut Random) -> Case {
    let Job {
        loop_bytes,
        records: parts,
    } = match random.below(20) {
        0..=11 => job_of_rows(random),
        12 | 13 => job_of_a_curve(random),
        14..=16 => job_of_paths(random),
        _ => job_without_loop(random),
    };
    let mut bytes = parts.concat();
    spoil_end(random, &mut bytes);
    let count = records(&bytes).len();
    let n = variables(&loop_bytes).unwrap_or(2);
    let [places, numbers] = some_rooms(random, count, n * count);
    Case::JudgeAll {
        loop_bytes,
        records: bytes,
        places,
        numbers,
    }
}

/// How many records: mostly a few, and often none, as many as there may be, or more. Fewer where the loop is large.
fn some_count(random: &mut Random, loop_bytes: &[u8]) -> usize {
    let few = if loop_bytes.len() < 400 { 5 } else { 2 };
    match random.below(16) {
        0 => 0,
        1 if loop_bytes.len() < 400 => MOST_RECORDS - random.below(2),
        2 => MOST_RECORDS + 1,
        3 => MOST_RECORDS + 1 + random.below(8),
        _ => 1 + random.below(few),
    }
}

/// So many records; of a large number only the first are made, and stand there again and again.
fn some_records(
    random: &mut Random,
    loop_bytes: &[u8],
    mut record: impl FnMut(&mut Random) -> Vec<u8>,
) -> Vec<Vec<u8>> {
    let count = some_count(random, loop_bytes);
    let made: Vec<Vec<u8>> = (0..count.min(5)).map(|_| record(random)).collect();
    let again = (made.len()..count).map(|_| made[random.below(made.len())].clone());
    let again: Vec<Vec<u8>> = again.collect();
    [made, again].concat()
}

/// The shortest records that parting cuts off whole, of any kind.
fn empty_record(random: &mut Random) -> Vec<u8> {
    vec![2, 0, 0, 0, random.below(10) as u8, 0]
}

/// An argument for one path of two rows.
const ARGUMENT: [u8; 30] = [
    26, 0, 0, 0, 6, 0, 1, 0, 0, 0, 1, 0, 0, 0, 1, 0, 0, 0, 1, 0, 0, 0, 1, 0, 0, 0, 0, 0, 1, 0,
];

/// The pair's own certificate, scaled so that ranks differ, as a short ranking, or with a value changed by one; another one, a
/// damaged one or an empty one.
fn record_of_pair(random: &mut Random, pair: &Pair) -> Vec<u8> {
    match random.below(16) {
        0 => empty_record(random),
        1 => ARGUMENT.to_vec(),
        2 | 3 => sheet_record(random, pair),
        4 | 5 => {
            let mut pair = pair.clone();
            change_any_value_by_one(random, &mut pair);
            pair.certificate_bytes()
        }
        6..=8 => match ranking_of(&scaled(random, pair.clone())) {
            Some(ranking) => {
                let mut bytes = shortened(ranking);
                if random.one_in(4) {
                    damage_short(random, pair.rows.len(), &mut bytes);
                }
                bytes
            }
            None => scaled(random, pair.clone()).certificate_bytes(),
        },
        _ => scaled(random, pair.clone()).certificate_bytes(),
    }
}

fn job_of_rows(random: &mut Random) -> Job {
    let kind = match random.below(9) {
        0..=2 => Kind::Ranking,
        3 | 4 => Kind::Lasso,
        5 | 6 => Kind::Settling,
        _ => some_certificate_kind(random),
    };
    let pair = some_pair(random, kind).pair;
    let loop_bytes = pair.loop_bytes();
    let records = some_records(random, &loop_bytes, |random| record_of_pair(random, &pair));
    Job {
        loop_bytes,
        records,
    }
}

/// A loop that has a settling and an exclusion, both accepted.
fn job_of_a_curve(random: &mut Random) -> Job {
    let (pair, exclusion) = settling_cases::some_curve(random);
    let loop_bytes = pair.loop_bytes();
    let records = some_records(random, &loop_bytes, |random| match random.below(3) {
        0 => exclusion.clone(),
        _ => record_of_pair(random, &pair),
    });
    Job {
        loop_bytes,
        records,
    }
}

/// The argument, multiplied by factors, with a value changed by one, or damaged; an empty record, or one of another kind.
fn record_of_paths(random: &mut Random, pair: &PathPair) -> Vec<u8> {
    match random.below(8) {
        0 => empty_record(random),
        1 => path_cases::one_path(random).1,
        2 => {
            let mut bytes = pair.certificate_bytes();
            damage_argument(random, &pair.certificate_shape(), &mut bytes);
            bytes
        }
        3 => {
            let mut pair = pair.clone();
            path_cases::change_any_value_by_one(random, &mut pair.argument);
            pair.certificate_bytes()
        }
        _ => {
            let mut pair = pair.clone();
            scale_argument(&mut pair.argument, random);
            pair.certificate_bytes()
        }
    }
}

fn job_of_paths(random: &mut Random) -> Job {
    let pair = path_cases::some_paths(random);
    let loop_bytes = pair.loop_bytes();
    let records = some_records(random, &loop_bytes, |random| record_of_paths(random, &pair));
    Job {
        loop_bytes,
        records,
    }
}

/// A loop of either kind that is damaged, a certificate in its place, or no loop at all.
fn job_without_loop(random: &mut Random) -> Job {
    match random.below(4) {
        0 => {
            let pair = path_cases::some_paths(random);
            let mut job = Job {
                loop_bytes: pair.loop_bytes(),
                records: vec![pair.certificate_bytes(); 1 + random.below(36)],
            };
            damage_loop(random, &pair.branches.shape(), &mut job.loop_bytes);
            job
        }
        1 => {
            let (loop_bytes, certificate) = path_cases::one_path(random);
            Job {
                loop_bytes: certificate,
                records: vec![loop_bytes],
            }
        }
        _ => {
            let pair = some_pair(random, Kind::Ranking).pair;
            let mut job = Job {
                loop_bytes: pair.loop_bytes(),
                records: vec![pair.certificate_bytes(); random.below(36)],
            };
            damage(random, pair.loop_shape(), &mut job.loop_bytes);
            job
        }
    }
}

/// Cuts the last bytes off, adds some that make no record, or lets a record take what follows it.
fn spoil_end(random: &mut Random, bytes: &mut Vec<u8>) {
    match random.below(12) {
        0 | 1 => {
            let cut = 1 + random.below(20);
            bytes.truncate(bytes.len().saturating_sub(cut));
        }
        2 => bytes.extend((0..1 + random.below(3)).map(|_| 9)),
        3 => {
            let stated = random.pick(&[0, 1, 200, 255]);
            bytes.extend([stated, 0, 0, random.pick(&[0, 0, 1])]);
            bytes.extend(vec![7; random.below(40)]);
        }
        4 => {
            let mut rest = empty_record(random);
            damage_frame(random, &mut rest);
            bytes.extend(rest);
        }
        _ => {}
    }
}

/// Verdict places and rank numbers: as many as are needed, more, one too few, fewer; often both too few.
fn some_rooms(random: &mut Random, count: usize, needed: usize) -> [usize; 2] {
    let fewer = |random: &mut Random, room: usize| match random.below(3) {
        0 => room.saturating_sub(1),
        1 => 0,
        _ => random.below(room + 1),
    };
    let more = |random: &mut Random, room: usize| room + random.pick(&[0, 0, 1, 20]);
    match random.below(14) {
        0 => [fewer(random, count), more(random, needed)],
        1 | 2 => [more(random, count), fewer(random, needed)],
        3 => [fewer(random, count), fewer(random, needed)],
        _ => [more(random, count), more(random, needed)],
    }
}
