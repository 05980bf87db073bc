//! A job's certificates at once: records laid end to end, and lists of records.

use crate::{judge, raw, Judged, Refusal, Verdict};

/// The most records that a batch takes.
pub const MOST_RECORDS: usize = 32;
/// The most variables that a loop has, and so the most numbers of a rank.
const MOST_VARIABLES: usize = 16;

/// Judges certificates that are laid end to end, at most 32, and gives for each in turn its verdict, which is that of [`judge`],
/// and its rank. The loop is checked once, not once a record. No bytes are no records.
///
/// L alone says where a record ends. One with fewer than 4 bytes, with an L below 2 or with fewer bytes than its L asks for takes
/// all that is left and is the last. So a wrong L moves what follows it: [`judge_list`] keeps records apart.
///
/// Refusals: those of the loop, and 13, with the count of all records, if that is over 32. A record that is refused is none: its
/// verdict says so.
///
/// ```
/// use cushiedoo::{judge_all, write_record, Outcome, Verdict};
///
/// let mut looped = [0; 46];
/// let rows = [-1, 1, 0, 0, -2, -1, 0, 1, 0, -1, 0, 1, 0, -1, 0];
/// write_record(1, 2, 3, &rows, &mut looped)?;
///
/// // Two rankings of the loop: the second leaves out a row.
/// let mut records = [0; 36];
/// write_record(2, 2, 3, &[1, 0, 0, 0, 1, 1], &mut records[..18])?;
/// write_record(2, 2, 3, &[1, 0, 0, 0, 1, 0], &mut records[18..])?;
///
/// let judged = judge_all(&looped, &records)?;
/// assert_eq!(judged[0].verdict, Verdict::Accepted(Outcome::Ranking { start: 2, fall: 1 }));
/// assert_eq!(judged[0].rank, Some(vec![1, -1]));
/// assert_eq!(
///     judged[1].verdict.to_string(),
///     "refused 22, place 1 (column, from 0), in the certificate: (Y - Z)A is not 0 in column 1"
/// );
/// assert_eq!(judged[1].rank, None);
/// # Ok::<(), cushiedoo::Refusal>(())
/// ```
pub fn judge_all(loop_record: &[u8], records: &[u8]) -> Result<Vec<Judged>, Refusal> {
    let mut verdicts = [raw::Verdict::default(); MOST_RECORDS];
    let mut ranks = [0; MOST_RECORDS * MOST_VARIABLES];
    // SAFETY: the slices are valid for their lengths, and the two arrays are borrowed alone.
    let batch = unsafe {
        raw::cushiedoo_judge_all(
            loop_record.as_ptr(),
            loop_record.len(),
            records.as_ptr(),
            records.len(),
            verdicts.as_mut_ptr(),
            verdicts.len(),
            ranks.as_mut_ptr(),
            ranks.len(),
        )
    };
    let count = Result::from(batch)?;
    let n = variables(loop_record);
    let stretches = ranks.chunks(n);
    let judged = verdicts[..count].iter().zip(stretches);
    Ok(judged
        .map(|(&verdict, stretch)| Judged::new(verdict.into(), stretch))
        .collect())
}

/// Judges a list of certificates, of any length, and gives for each its verdict, which is that of [`judge`], and its rank. The only
/// refusals are those of the loop.
///
/// Records that part from each other when they are laid end to end are judged in batches of up to 32. One that would not be cut off
/// whole, by an L that is not that of its bytes, would take bytes of those behind it or leave them its own; it is judged by itself.
///
/// ```
/// use cushiedoo::{judge_all, judge_list, write_record};
///
/// let mut looped = [0; 46];
/// let rows = [-1, 1, 0, 0, -2, -1, 0, 1, 0, -1, 0, 1, 0, -1, 0];
/// write_record(1, 2, 3, &rows, &mut looped)?;
/// let mut ranking = [0; 18];
/// write_record(2, 2, 3, &[1, 0, 0, 0, 1, 1], &mut ranking)?;
/// let mut longer = ranking;
/// longer[0] = 15;
///
/// // Of the first an L that asks for one byte more. End to end it takes one of the second, so that neither is accepted.
/// let told = |judged: Vec<cushiedoo::Judged>| -> Vec<Option<Vec<i64>>> {
///     judged.into_iter().map(|one| one.rank).collect()
/// };
/// assert_eq!(told(judge_all(&looped, &[longer, ranking].concat())?), [None, None]);
/// assert_eq!(told(judge_list(&looped, &[longer, ranking])?), [None, Some(vec![1, -1])]);
/// # Ok::<(), cushiedoo::Refusal>(())
/// ```
pub fn judge_list<R: AsRef<[u8]>>(
    loop_record: &[u8],
    records: &[R],
) -> Result<Vec<Judged>, Refusal> {
    let mut judged = Vec::with_capacity(records.len());
    let mut run = Vec::new();
    let mut in_run = 0;
    for record in records.iter().map(AsRef::as_ref) {
        let whole = is_cut_off_whole(record);
        if !whole || in_run == MOST_RECORDS {
            judged.extend(judge_all(loop_record, &run)?);
            run.clear();
            in_run = 0;
        }
        if whole {
            run.extend_from_slice(record);
            in_run += 1;
        } else {
            judged.push(judge_alone(loop_record, record));
        }
    }
    judged.extend(judge_all(loop_record, &run)?);
    Ok(judged)
}

/// Whether parting cuts this record off whole wherever it stands: its bytes are 4 + L, and L is not below 2.
fn is_cut_off_whole(record: &[u8]) -> bool {
    match *record {
        [a, b, c, d, _, _, ..] => {
            let stated = u32::from_le_bytes([a, b, c, d]);
            record.len() as u64 == 4 + u64::from(stated)
        }
        _ => false,
    }
}

/// Judges one record of a list for a loop that is sound.
fn judge_alone(loop_record: &[u8], record: &[u8]) -> Judged {
    let mut rank = [0; MOST_VARIABLES];
    let verdict: Verdict = judge(loop_record, record, &mut rank);
    Judged::new(verdict, &rank[..variables(loop_record)])
}

/// n of a loop that is sound: it stands at byte 6 of either kind of loop.
fn variables(loop_record: &[u8]) -> usize {
    u16::from_le_bytes([loop_record[6], loop_record[7]]).into()
}
