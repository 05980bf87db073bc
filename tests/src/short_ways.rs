//! What comes up in cases with short rankings (kind 7), by name, and how often it must.

use crate::cases::{Case, Move};
use crate::compare::Told;
use crate::oracle::judging::failing;
use crate::oracle::layout::{MULTIPLIER, ROWS};
use crate::oracle::paths::PATH_LOOP;
use crate::oracle::record::{count_at, framed, loop_record};
use crate::oracle::sheet::{part, sheet};
use crate::oracle::short::{place_of, short_length, triple_at, Triple, SHORT};
use crate::oracle::Refusal;

/// A case with a record of kind 7, and one that is accepted.
pub const CASE: &str = "short";
pub const ACCEPTED: &str = "short, accepted";
/// The calls in which they come up.
pub const CALLS: [&str; 9] = [
    "judge",
    "bound",
    "sheet",
    SHORTEN,
    LENGTHEN,
    BACK,
    "read_loop",
    "read_certificate",
    "write_record",
];
/// The names of the new calls.
pub const SHORTEN: &str = "shorten";
pub const LENGTHEN: &str = "lengthen";
pub const BACK: &str = "there and back";

/// A ranking and its short form have one verdict: accepted, or refused.
const BOTH_ACCEPTED: &str = "short and long of one ranking, accepted";
const BOTH_REFUSED: &str = "short and long of one ranking, refused";
/// Where it is not wanted.
const NOT_WANTED: &str = "short: not wanted";
const AS_LOOP: &str = "short: 4 of loop, in its place";
const WITH_PATHS: &str = "short: 4, with a loop of several paths";
/// Lines of a sheet.
const LINE_RANK: &str = "short: line rank";
/// How many triples an accepted record has.
const NONE: &str = "short: no triple";
const ALL: &str = "short: 64 triples";
/// A record that is moved gets shorter, stays as long, or gets longer.
const SHORTER: &str = "short: shorter than long";
const AS_LONG: &str = "short: as long as long";
const LONGER: &str = "short: longer than long";
/// Round trips, by where they start.
const FROM_SHORT: &str = "short: from kind 7 and back";
const FROM_LONG: &str = "short: from kind 2 and back";
/// Ways in which a record is refused.
const UNDER_COUNT: &str = "short: 3, L under 4";
const OF_FORMULA: &str = "short: 3, not 4 + 6c";
const ONE_TOO_MANY: &str = "short: 5, c is 65";
const OF_ARGUMENT: &str = "short: 5 of an argument";
const OF_COUNT: &str = "short: 5 of the count";
const ROW_IS_M: &str = "short: 15, the row is m";
const ROW_STAYS: &str = "short: 15, the row before again";
const ROW_FALLS: &str = "short: 15, below the row before";
const ROW_AND_ZEROS: &str = "short: 15 and 16 in one triple";
const ROW_BEFORE_ZEROS: &str = "short: 15, and 16 in a later triple";
const ZEROS_BEFORE_ROW: &str = "short: 16, and 15 in a later triple";
const ROW_AFTER_VALUE: &str = "short: 15, and 6 in an earlier triple";
const ZEROS_AFTER_VALUE: &str = "short: 16, and 6 in an earlier triple";
const Y_PAST: &str = "short: 6 for Y one past 60000";
const Z_PAST: &str = "short: 6 for Z one past 60000";
const OF_RECORD: [&str; 14] = [
    UNDER_COUNT,
    OF_FORMULA,
    ONE_TOO_MANY,
    OF_COUNT,
    ROW_IS_M,
    ROW_STAYS,
    ROW_FALLS,
    ROW_AND_ZEROS,
    ROW_BEFORE_ZEROS,
    ZEROS_BEFORE_ROW,
    ROW_AFTER_VALUE,
    ZEROS_AFTER_VALUE,
    Y_PAST,
    Z_PAST,
];

const CONDITIONS: [u64; 4] = [21, 22, 23, 24];

fn told_name(number: u64) -> String {
    format!("short: {number}")
}

fn at_first(number: u64) -> String {
    format!("short: {number} at the first of several triples")
}

fn at_last(number: u64) -> String {
    format!("short: {number} at the last of several triples")
}

/// Told before a condition that fails as well.
fn before_conditions(number: u64) -> String {
    format!("short: {number} before a condition")
}

/// What must come up, and how often: refusal numbers, and each way.
pub fn quotas(least: u64, least_way: u64) -> Vec<(&'static str, String, u64)> {
    let mut quotas = Vec::new();
    let mut ask = |call: &'static str, names: Vec<String>, least: u64| {
        quotas.extend(names.into_iter().map(|name| (call, name, least)));
    };
    let named = |names: &[&str]| names.iter().map(|name| name.to_string()).collect();
    for (call, own, last) in [
        ("judge", &[1, 2, 3, 5, 6, 15, 16, 7][..], &CONDITIONS[..]),
        ("bound", &[1, 2, 3, 5, 6, 15, 16, 9, 10], &CONDITIONS),
        (LENGTHEN, &[1, 2, 3, 4, 5, 6, 15, 16, 7], &[]),
        (SHORTEN, &[1, 2, 3, 4, 5, 6, 7], &[]),
    ] {
        let numbers = own.iter().chain(last);
        ask(
            call,
            numbers.map(|&number| told_name(number)).collect(),
            least,
        );
        if call == SHORTEN {
            continue;
        }
        let triples = [15, 16].map(|number| [at_first(number), at_last(number)]);
        ask(call, triples.concat(), least);
        ask(call, named(&OF_RECORD), least_way);
        ask(call, named(&[NONE, ALL]), least_way);
    }
    for call in ["judge", "bound"] {
        ask(call, named(&[ACCEPTED]), least);
        ask(call, named(&[AS_LOOP, WITH_PATHS]), least_way);
    }
    ask("judge", vec![before_conditions(7)], least_way);
    ask("bound", [9, 10].map(before_conditions).to_vec(), least_way);
    ask("judge", named(&[BOTH_ACCEPTED, BOTH_REFUSED]), least);
    ask("sheet", named(&[LINE_RANK]), least);
    let lines = [15, 16].map(|number| format!("line refused {number}"));
    ask("sheet", lines.to_vec(), least);
    ask("sheet", named(&[AS_LOOP]), least_way);
    for call in [SHORTEN, LENGTHEN] {
        ask(call, named(&[OF_ARGUMENT]), least_way);
        ask(
            call,
            named(&[SHORTER, AS_LONG, LONGER, NONE, ALL]),
            least_way,
        );
    }
    ask(BACK, named(&[FROM_SHORT, FROM_LONG]), least);
    ask(BACK, vec![told_name(7)], least_way);
    for call in ["read_loop", "read_certificate", "write_record"] {
        ask(call, named(&[NOT_WANTED]), least_way);
    }
    quotas
}

/// Whether the bytes of the kind say 7, in a record that may be damaged.
fn has_kind_7(bytes: &[u8]) -> bool {
    bytes.len() >= 6 && count_at(bytes, 4) as u64 == SHORT
}

/// The names of what comes up in a case.
pub fn ways_of(case: &Case, told: &Told) -> Vec<String> {
    let number = told.number_and_record().0;
    match case {
        Case::Judge {
            loop_bytes,
            certificate,
            ..
        }
        | Case::Bound {
            loop_bytes,
            certificate,
            ..
        } => judged(loop_bytes, certificate, told),
        Case::JudgeBoth { certificates, .. } => {
            let short = certificates.iter().any(|bytes| has_kind_7(bytes));
            both_judged(short, told)
        }
        Case::Sheet { input, .. } if number == 0 => on_sheet(input),
        Case::Move {
            to, bytes, n, m, ..
        } => moved(*to, bytes, *n, *m, told),
        Case::ThereAndBack { to, .. } => {
            let done = match to {
                Move::Short => FROM_LONG,
                Move::Long => FROM_SHORT,
            };
            let name = match number {
                0 => done.to_string(),
                _ => told_name(number),
            };
            vec![CASE.to_string(), name]
        }
        Case::ReadLoop { bytes, .. } | Case::ReadCertificate { bytes, .. }
            if number == 4 && has_kind_7(bytes) =>
        {
            vec![CASE.to_string(), NOT_WANTED.to_string()]
        }
        Case::WriteRecord { kind, .. } if number == 4 && *kind == SHORT => {
            vec![CASE.to_string(), NOT_WANTED.to_string()]
        }
        _ => Vec::new(),
    }
}

fn judged(looped: &[u8], certificate: &[u8], told: &Told) -> Vec<String> {
    let (number, record) = told.number_and_record();
    if (number, record) == (4, 1) && framed(looped) == Ok(SHORT) {
        return vec![CASE.to_string(), AS_LOOP.to_string()];
    }
    if !has_kind_7(certificate) {
        return Vec::new();
    }
    let mut names = vec![CASE.to_string()];
    if framed(looped) == Ok(PATH_LOOP) {
        names.extend((number == 4).then(|| WITH_PATHS.to_string()));
        return names;
    }
    match (number, record) {
        (0, _) => {
            names.push(ACCEPTED.to_string());
            names.extend(counted(certificate));
        }
        (4, _) | (_, 1) => return names,
        (7 | 9 | 10, _) => {
            let fails = failing(looped, certificate).is_some_and(|(_, _, told)| !told.is_empty());
            names.extend(fails.then(|| before_conditions(number)));
        }
        (21.., _) => names.extend(counted(certificate)),
        _ => {
            let m = loop_record(looped).map_or(0, |record| record.shape.m);
            names.extend(refused(certificate, m as u64, told));
        }
    }
    names.extend((number > 0).then(|| told_name(number)));
    names
}

fn both_judged(short: bool, told: &Told) -> Vec<String> {
    let Told::Verdicts([first, second]) = told else {
        return Vec::new();
    };
    if !short || first != second {
        return Vec::new();
    }
    let name = match first.number {
        0 => BOTH_ACCEPTED,
        _ => BOTH_REFUSED,
    };
    vec![CASE.to_string(), name.to_string()]
}

/// How many triples a sound record has, where that is none or as many as can be.
fn counted(bytes: &[u8]) -> Option<String> {
    match count_at(bytes, 6) {
        0 => Some(NONE.to_string()),
        count if count == ROWS.high => Some(ALL.to_string()),
        _ => None,
    }
}

/// What comes of the short rankings of a sheet.
fn on_sheet(input: &[u8]) -> Vec<String> {
    let text = sheet(input);
    let (looped, mut rest) = part(input);
    if framed(looped) == Ok(SHORT) {
        return vec![CASE.to_string(), AS_LOOP.to_string()];
    }
    let mut names = Vec::new();
    for line in text.lines().skip(1) {
        let (certificate, after) = part(rest);
        rest = after;
        if has_kind_7(certificate) {
            let ranks = line.split(' ').nth(1) == Some("rank");
            names.extend(ranks.then(|| LINE_RANK.to_string()));
            names.push(CASE.to_string());
        }
    }
    names.sort();
    names.dedup();
    names
}

fn moved(to: Move, bytes: &[u8], n: u64, m: u64, told: &Told) -> Vec<String> {
    let Refusal { number, place } = told.refusal();
    let mut names = vec![CASE.to_string()];
    if number > 0 {
        names.push(told_name(number));
    }
    match (number, told) {
        (0, Told::Writing(writing)) => {
            let (given, written) = (bytes.len() as u64, writing.written);
            let (short, long) = match to {
                Move::Short => (written, given),
                Move::Long => (given, written),
            };
            let name = match short.cmp(&long) {
                std::cmp::Ordering::Less => SHORTER,
                std::cmp::Ordering::Equal => AS_LONG,
                std::cmp::Ordering::Greater => LONGER,
            };
            names.push(name.to_string());
            names.extend((short == 8).then(|| NONE.to_string()));
            let all = 4 + short_length(ROWS.high as usize) as u64;
            names.extend((short == all).then(|| ALL.to_string()));
        }
        (5, _) if place == 0 => names.push(OF_ARGUMENT.to_string()),
        (1..=3 | 5 | 6 | 15 | 16, _) if to == Move::Long && n > 0 => {
            names.extend(refused(bytes, m, told));
        }
        _ => {}
    }
    names
}

/// The ways in which a record for m rows is refused.
fn refused(bytes: &[u8], m: u64, told: &Told) -> Vec<String> {
    let Refusal { number, place } = told.refusal();
    if framed(bytes) != Ok(SHORT) {
        return Vec::new();
    }
    let mut names = Vec::new();
    let mut add = |holds: bool, name: &str| names.extend(holds.then(|| name.to_string()));
    match number {
        3 => {
            add(bytes.len() < 8, UNDER_COUNT);
            add(bytes.len() >= 8, OF_FORMULA);
        }
        5 => {
            add(true, OF_COUNT);
            add(count_at(bytes, 6) == ROWS.high + 1, ONE_TOO_MANY);
        }
        6 => {
            let one_past = count_at(bytes, place as usize) == MULTIPLIER.high + 1;
            add(one_past && place % 6 == 4, Y_PAST);
            add(one_past && place % 6 == 0, Z_PAST);
        }
        15 | 16 => {
            let count = count_at(bytes, 6) as usize;
            let triples: Vec<Triple> = (0..count).map(|i| triple_at(bytes, i)).collect();
            let at = (place as usize - place_of(0)) / 6;
            add(count > 1 && at == 0, &at_first(number));
            add(count > 1 && at == count - 1, &at_last(number));
            let no_weight = |triple: &Triple| (triple.y, triple.z) == (0, 0);
            let bad_row = |i: usize| {
                triples[i].row >= m as i64 || (i > 0 && triples[i].row <= triples[i - 1].row)
            };
            let past = |triple: &Triple| !MULTIPLIER.holds(triple.y) || !MULTIPLIER.holds(triple.z);
            let after_value = triples[..at].iter().any(past);
            let row = triples[at].row;
            if number == 15 {
                add(row == m as i64, ROW_IS_M);
                add(at > 0 && row == triples[at - 1].row, ROW_STAYS);
                add(at > 0 && row < triples[at - 1].row, ROW_FALLS);
                add(no_weight(&triples[at]), ROW_AND_ZEROS);
                add(triples[at + 1..].iter().any(no_weight), ROW_BEFORE_ZEROS);
                add(after_value, ROW_AFTER_VALUE);
            } else {
                add((at + 1..count).any(bad_row), ZEROS_BEFORE_ROW);
                add(after_value, ZEROS_AFTER_VALUE);
            }
        }
        _ => {}
    }
    names
}
