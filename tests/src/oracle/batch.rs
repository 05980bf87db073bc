//! A job's certificates at once: the records laid end to end, each judged in turn with its stretch of the rank numbers.

use super::judging::{judge, Verdict};
use super::paths::{path_loop, PATH_LOOP};
use super::record::{framed, loop_record};
use super::sheet::part;
use super::{refuse, Refusal};

/// The most records of a batch.
pub const MOST_RECORDS: usize = 32;

/// What a batch is told: a refusal with the record that it speaks of, 1 for the loop and else 0, or the records judged.
#[derive(Clone, Copy, Debug, Default, PartialEq, Eq)]
pub struct Batch {
    pub number: u64,
    pub place: u64,
    pub record: u64,
    pub count: u64,
}

/// The records of some bytes, parted as on a sheet. No bytes are no records.
pub fn records(bytes: &[u8]) -> Vec<&[u8]> {
    let mut records = Vec::new();
    let mut rest = bytes;
    while !rest.is_empty() {
        let (record, after) = part(rest);
        records.push(record);
        rest = after;
    }
    records
}

/// n of a loop of either kind, or why it is none.
pub fn variables(loop_bytes: &[u8]) -> Result<usize, Refusal> {
    match framed(loop_bytes) {
        Ok(PATH_LOOP) => Ok(path_loop(loop_bytes)?.n),
        _ => Ok(loop_record(loop_bytes)?.shape.n),
    }
}

/// After the loop record and before any judging: more than 32 records, too few verdict places, fewer than n rank numbers a record.
fn room_for(count: usize, n: usize, places: usize, numbers: usize) -> Result<(), Refusal> {
    if count > MOST_RECORDS {
        return refuse(13, count);
    }
    if places < count {
        return refuse(7, count);
    }
    if numbers < n * count {
        return refuse(7, n * count);
    }
    Ok(())
}

fn refused(record: u64, Refusal { number, place }: Refusal) -> Batch {
    Batch {
        number,
        place,
        record,
        count: 0,
    }
}

/// Judges the records one by one, in their order.
pub fn judge_all(loop_bytes: &[u8], bytes: &[u8], row: &mut [Verdict], ranks: &mut [i64]) -> Batch {
    let n = match variables(loop_bytes) {
        Err(refusal) => return refused(1, refusal),
        Ok(n) => n,
    };
    let records = records(bytes);
    if let Err(refusal) = room_for(records.len(), n, row.len(), ranks.len()) {
        return refused(0, refusal);
    }
    for (i, record) in records.iter().enumerate() {
        row[i] = judge(loop_bytes, record, &mut ranks[n * i..n * i + n]);
    }
    Batch {
        count: records.len() as u64,
        ..Batch::default()
    }
}
