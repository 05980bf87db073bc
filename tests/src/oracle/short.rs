//! Short rankings (kind 7): reading them, what they stand for, and moving rankings to kind 7 and back.

use super::conditions::Ranking;
use super::judging::{certificate, Certificate};
use super::layout::{Form, Kind, MULTIPLIER, ROWS};
use super::record::{certificate_record, count_at, framed, stated_length, Writing};
use super::{refuse, Refusal};

/// The number of the kind.
pub const SHORT: u64 = 7;
/// Where the first triple stands: after length, kind and count. A triple is a row, Y and Z.
pub const TRIPLES_PLACE: usize = 8;
pub const TRIPLE: usize = 6;

/// A row that has weight, with its multipliers.
#[derive(Clone, Copy, Debug, PartialEq, Eq)]
pub struct Triple {
    pub row: i64,
    pub y: i64,
    pub z: i64,
}

/// Where the triple with this index stands.
pub fn place_of(index: usize) -> usize {
    TRIPLES_PLACE + TRIPLE * index
}

/// The triple with this index.
pub fn triple_at(bytes: &[u8], index: usize) -> Triple {
    let place = place_of(index);
    Triple {
        row: count_at(bytes, place),
        y: count_at(bytes, place + 2),
        z: count_at(bytes, place + 4),
    }
}

/// The formula for L.
pub fn short_length(count: usize) -> usize {
    4 + 6 * count
}

/// The triples of a short ranking for a loop with n variables and m rows, or why it is none.
pub fn short_record(bytes: &[u8], n: u64, m: u64) -> Result<Vec<Triple>, Refusal> {
    if framed(bytes)? != SHORT {
        return refuse(4, 4);
    }
    if !(1..=16).contains(&n) || m > 64 {
        return refuse(5, 0);
    }
    if stated_length(bytes) < 4 {
        return refuse(3, 0);
    }
    let count = count_at(bytes, 6);
    if !ROWS.holds(count) {
        return refuse(5, 6);
    }
    let count = count as usize;
    if stated_length(bytes) != short_length(count) {
        return refuse(3, 0);
    }
    let triples: Vec<Triple> = (0..count).map(|i| triple_at(bytes, i)).collect();
    for (i, triple) in triples.iter().enumerate() {
        let rises = i == 0 || triples[i - 1].row < triple.row;
        if triple.row >= m as i64 || !rises {
            return refuse(15, place_of(i));
        }
        if triple.y == 0 && triple.z == 0 {
            return refuse(16, place_of(i));
        }
    }
    for (i, triple) in triples.iter().enumerate() {
        if !MULTIPLIER.holds(triple.y) {
            return refuse(6, place_of(i) + 2);
        }
        if !MULTIPLIER.holds(triple.z) {
            return refuse(6, place_of(i) + 4);
        }
    }
    Ok(triples)
}

/// The ranking of m rows that the triples stand for: rows that have no triple have no weight.
pub fn stands_for(triples: &[Triple], m: usize) -> Ranking {
    let mut ranking = Ranking {
        y: vec![0; m],
        z: vec![0; m],
    };
    for triple in triples {
        ranking.y[triple.row as usize] = triple.y;
        ranking.z[triple.row as usize] = triple.z;
    }
    ranking
}

/// The triples of a ranking: its rows with weight, in order.
pub fn triples_of(ranking: &Ranking) -> Vec<Triple> {
    let pairs = ranking.y.iter().zip(&ranking.z).enumerate();
    let triples = pairs.map(|(row, (&y, &z))| Triple {
        row: row as i64,
        y,
        z,
    });
    triples
        .filter(|triple| (triple.y, triple.z) != (0, 0))
        .collect()
}

/// L and a kind, then these numbers, each of two bytes.
fn record_of(kind: u64, numbers: &[i64]) -> Vec<u8> {
    let length = 2 + 2 * numbers.len();
    let mut bytes = vec![0; 4 + length];
    bytes[..4].copy_from_slice(&(length as u32).to_le_bytes());
    Form::U16.put(kind as i64, &mut bytes, 4);
    for (i, &number) in numbers.iter().enumerate() {
        Form::U16.put(number, &mut bytes, 6 + 2 * i);
    }
    bytes
}

/// The bytes of a record with these triples, sound or not.
pub fn short_bytes(triples: &[Triple]) -> Vec<u8> {
    let numbers = triples.iter().flat_map(|t| [t.row, t.y, t.z]);
    let numbers: Vec<i64> = [triples.len() as i64].into_iter().chain(numbers).collect();
    record_of(SHORT, &numbers)
}

/// Room is the last test.
fn put(bytes: &[u8], room: &mut [u8]) -> Result<usize, Refusal> {
    if room.len() < bytes.len() {
        return refuse(7, bytes.len());
    }
    room[..bytes.len()].copy_from_slice(bytes);
    Ok(bytes.len())
}

fn shortened(bytes: &[u8], n: u64, m: u64, room: &mut [u8]) -> Result<usize, Refusal> {
    let record = certificate_record(bytes, &[Kind::Ranking], n, m)?;
    let Certificate::Ranking(ranking) = certificate(record) else {
        unreachable!("kind 2 alone is wanted");
    };
    put(&short_bytes(&triples_of(&ranking)), room)
}

fn lengthened(bytes: &[u8], n: u64, m: u64, room: &mut [u8]) -> Result<usize, Refusal> {
    let ranking = stands_for(&short_record(bytes, n, m)?, m as usize);
    let record = record_of(Kind::Ranking.number(), &[ranking.y, ranking.z].concat());
    put(&record, room)
}

fn writing(written: Result<usize, Refusal>) -> Writing {
    match written {
        Err(Refusal { number, place }) => Writing {
            number,
            place,
            written: 0,
        },
        Ok(written) => Writing {
            number: 0,
            place: 0,
            written: written as u64,
        },
    }
}

/// Kind 2 to kind 7.
pub fn shorten(bytes: &[u8], n: u64, m: u64, room: &mut [u8]) -> Writing {
    writing(shortened(bytes, n, m, room))
}

/// Kind 7 to kind 2.
pub fn lengthen(bytes: &[u8], n: u64, m: u64, room: &mut [u8]) -> Writing {
    writing(lengthened(bytes, n, m, room))
}
