//! What comes up in cases with several certificates at once, by name, and how often it must.

use crate::cases::Case;
use crate::compare::{verdicts_in, Answer, Lent, Told};
use crate::oracle::batch::{records, variables, Batch, MOST_RECORDS};
use crate::oracle::judging::Verdict;
use crate::oracle::paths::PATH_LOOP;
use crate::oracle::record::{count_at, framed, stated_length};

/// The name of the call.
pub const CALL: &str = "judge_all";
/// A case, one in which a record is accepted, and one whose loop is refused.
pub const CASE: &str = "batch";
pub const ACCEPTED: &str = "batch, a record accepted";
/// How many records are judged.
const NONE: &str = "no records";
const ONE: &str = "one record";
const ALL: &str = "32 records";
/// Refusals, alone and together.
const OF_VERDICTS: &str = "7 of verdicts";
const OF_RANKS: &str = "7 of rank numbers";
const ONE_VERDICT: &str = "7 of verdicts, one too few";
const ONE_NUMBER: &str = "7 of rank numbers, one too few";
const OF_BOTH: &str = "7 of verdicts, and too few rank numbers";
const ONE_TOO_MANY: &str = "13 of 33 records";
const REST_TOO_MANY: &str = "13, the last takes the rest";
const MANY_AND_ROOM: &str = "13, and too little room";
const LOOP_AND_MANY: &str = "loop refused, and over 32 records";
const LOOP_AND_ROOM: &str = "loop refused, and too little room";
/// Room that is just enough for some records, and room that is left over.
const ENOUGH: &str = "room just enough";
const LEFT_OVER: &str = "verdicts and rank numbers left over";
/// Why the last of several records takes the rest.
const CUT_LENGTH: &str = "last of several: fewer than 4 bytes";
const NO_LENGTH: &str = "last of several: L below 2, with bytes behind it";
const CUT: &str = "last of several: fewer bytes than L says";
/// One record after another.
const AFTER_REFUSED: &str = "accepted after a refused one";
const AFTER_LENGTH: &str = "accepted after one refused by 3";
const BETWEEN: &str = "numbers as found between two ranks";
const UNLIKE: &str = "two ranks that differ";
const TWO_OUTCOMES: &str = "two outcomes";
/// Loops of several paths.
const OF_PATHS: &str = "several paths: accepted after a refused one";
const PATHS_AND_OTHERS: &str = "several paths: 4 for another kind";
const PATHS_AND_RANKS: &str = "several paths: 7 of rank numbers";

const WAYS: [&str; 22] = [
    ONE_VERDICT,
    ONE_NUMBER,
    OF_BOTH,
    ONE_TOO_MANY,
    REST_TOO_MANY,
    MANY_AND_ROOM,
    LOOP_AND_MANY,
    LOOP_AND_ROOM,
    ENOUGH,
    LEFT_OVER,
    CUT_LENGTH,
    NO_LENGTH,
    CUT,
    AFTER_REFUSED,
    AFTER_LENGTH,
    BETWEEN,
    UNLIKE,
    TWO_OUTCOMES,
    OF_PATHS,
    PATHS_AND_OTHERS,
    PATHS_AND_RANKS,
    ONE,
];
/// Kinds that are accepted, and every number that a verdict can have in a row: parting leaves no bytes after a record, so not 2,
/// and its stretch has n numbers, so not 7.
const KINDS: [u64; 6] = [2, 3, 4, 6, 7, 8];
const IN_ROWS: [u64; 26] = [
    1, 3, 4, 5, 6, 14, 15, 16, 21, 22, 23, 24, 31, 32, 41, 42, 43, 44, 45, 46, 51, 52, 53, 61, 62,
    63,
];

/// The fewest times for each of these numbers: which of them a record has is judging's matter, and is asked for there.
const LEAST_IN_ROWS: u64 = 20;

fn kind_name(kind: u64) -> String {
    format!("in a row: kind {kind} accepted")
}

fn told_name(number: u64) -> String {
    format!("in a row: {number}")
}

/// What must come up, and how often: the call's refusals and the kinds in its rows, and each way.
pub fn quotas(least: u64, least_way: u64) -> Vec<(&'static str, String, u64)> {
    let of_loop = (1..=6).map(|number| format!("{number} of loop"));
    let refusals = ["13", OF_VERDICTS, OF_RANKS, NONE, ALL].map(String::from);
    let often = of_loop.chain(refusals).chain(KINDS.map(kind_name));
    let often = often.map(|name| (CALL, name, least));
    let ways = WAYS.map(|name| (CALL, name.to_string(), least_way));
    let in_rows = IN_ROWS.map(|number| (CALL, told_name(number), LEAST_IN_ROWS));
    often.chain(ways).chain(in_rows).collect()
}

/// The names of what comes up in a case.
pub fn ways_of(case: &Case, answer: &Answer) -> Vec<String> {
    let Case::JudgeAll {
        loop_bytes,
        records: bytes,
        places,
        numbers,
    } = case
    else {
        return Vec::new();
    };
    let (Told::Batch(told), Lent::Row(row, ranks)) = (&answer.told, &answer.lent) else {
        return Vec::new();
    };
    let parts = records(bytes);
    let count = parts.len();
    let n = variables(loop_bytes).unwrap_or(1);
    let rooms = Rooms {
        count,
        needed: n * count,
        places: *places,
        numbers: *numbers,
    };
    let of_paths = framed(loop_bytes) == Ok(PATH_LOOP);
    let mut names = vec![CASE];
    names.extend(named(&rooms.ways(told, of_paths)));
    names.extend(named(&last_ways(&parts, told)));
    let mut names: Vec<String> = names.into_iter().map(String::from).collect();
    if told.number == 0 {
        let verdicts = verdicts_in(row, count);
        let stretches: Vec<&[i64]> = ranks.first(n * count).chunks(n).collect();
        let ways = in_turn(&verdicts, &stretches, of_paths);
        names.extend(named(&ways).into_iter().map(String::from));
        names.extend(in_rows(&parts, &verdicts));
    }
    names
}

fn named<'a>(ways: &[(&'a str, bool)]) -> Vec<&'a str> {
    let holding = ways.iter().filter(|(_, holds)| *holds);
    holding.map(|(name, _)| *name).collect()
}

/// The records of a batch, the rank numbers that they ask for, and what is lent.
struct Rooms {
    count: usize,
    needed: usize,
    places: usize,
    numbers: usize,
}

impl Rooms {
    fn ways(&self, told: &Batch, of_paths: bool) -> Vec<(&'static str, bool)> {
        let Rooms {
            count,
            needed,
            places,
            numbers,
        } = *self;
        let done = told.number == 0;
        let of_loop = told.record == 1;
        let many = told.number == 13;
        let little = places < count || numbers < needed;
        let room = told.number == 7;
        let (of_verdicts, of_ranks) = (room && places < count, room && places >= count);
        vec![
            (NONE, done && count == 0),
            (ONE, done && count == 1),
            (ALL, done && count == MOST_RECORDS),
            (OF_VERDICTS, of_verdicts),
            (OF_RANKS, of_ranks),
            (ONE_VERDICT, of_verdicts && places + 1 == count),
            (ONE_NUMBER, of_ranks && numbers + 1 == needed),
            (OF_BOTH, of_verdicts && numbers < needed),
            (PATHS_AND_RANKS, of_ranks && of_paths),
            (ONE_TOO_MANY, many && count == MOST_RECORDS + 1),
            (MANY_AND_ROOM, many && little),
            (LOOP_AND_MANY, of_loop && count > MOST_RECORDS),
            (LOOP_AND_ROOM, of_loop && little),
            (
                ENOUGH,
                done && count > 0 && places == count && numbers == needed,
            ),
            (
                LEFT_OVER,
                done && count > 0 && places > count && numbers > needed,
            ),
        ]
    }
}

/// Why the last of several records takes the rest.
fn last_ways(parts: &[&[u8]], told: &Batch) -> Vec<(&'static str, bool)> {
    let Some((last, before)) = parts.split_last() else {
        return Vec::new();
    };
    let several = told.number == 0 && !before.is_empty();
    let length = (last.len() >= 4).then(|| stated_length(last));
    let (short, none) = (length.is_none(), length.is_some_and(|length| length < 2));
    let cut = length.is_some_and(|length| length >= 2 && last.len() < 4 + length);
    vec![
        (CUT_LENGTH, several && short),
        (NO_LENGTH, several && none && last.len() > 4),
        (CUT, several && cut),
        (REST_TOO_MANY, told.number == 13 && (short || none || cut)),
    ]
}

/// How one record's verdict and numbers stand after another's.
fn in_turn(
    verdicts: &[Verdict],
    stretches: &[&[i64]],
    of_paths: bool,
) -> Vec<(&'static str, bool)> {
    let accepted = |verdict: &Verdict| verdict.number == 0;
    let ranked = |verdict: &Verdict| accepted(verdict) && ![3, 6].contains(&verdict.outcome);
    let after = |refused: &dyn Fn(&Verdict) -> bool| {
        let first = verdicts.iter().position(refused);
        first.is_some_and(|first| verdicts[first..].iter().any(accepted))
    };
    let ranks: Vec<usize> = (0..verdicts.len())
        .filter(|&i| ranked(&verdicts[i]))
        .collect();
    let between = |pair: &[usize]| pair[1] - pair[0] > 1;
    let unlike = |pair: &[usize]| stretches[pair[0]] != stretches[pair[1]];
    let outcomes: Vec<u64> = verdicts
        .iter()
        .map(|v| v.outcome)
        .filter(|o| *o > 0)
        .collect();
    let after_refused = after(&|verdict| verdict.number > 0);
    vec![
        (ACCEPTED, verdicts.iter().any(accepted)),
        (AFTER_REFUSED, after_refused),
        (OF_PATHS, of_paths && after_refused),
        (AFTER_LENGTH, after(&|verdict| verdict.number == 3)),
        (BETWEEN, ranks.windows(2).any(between)),
        (UNLIKE, ranks.windows(2).any(unlike)),
        (
            TWO_OUTCOMES,
            outcomes.windows(2).any(|pair| pair[0] != pair[1]),
        ),
        (
            PATHS_AND_OTHERS,
            of_paths && verdicts.iter().any(|verdict| verdict.number == 4),
        ),
    ]
}

/// The kinds that are accepted in a row, and the numbers that are told there, each once.
fn in_rows(parts: &[&[u8]], verdicts: &[Verdict]) -> Vec<String> {
    let name = |(part, verdict): (&&[u8], &Verdict)| match verdict.number {
        0 => kind_name(count_at(part, 4) as u64),
        number => told_name(number),
    };
    let mut names: Vec<String> = parts.iter().zip(verdicts).map(name).collect();
    names.sort();
    names.dedup();
    names
}
