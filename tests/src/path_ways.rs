//! What comes up in cases with loops of several paths and arguments for them (kinds 5 and 6), by name, and how often it must;
//! and where these kinds, and kind 8, are not wanted.

use crate::cases::Case;
use crate::compare::Told;
use crate::construct::{conditions_of, Condition};
use crate::oracle::judging::paths_and_argument;
use crate::oracle::layout::{
    Field, Range, COMPONENTS, DIRECTION, ENTRY, FALL, MULTIPLIER, PATHS, RIGHT, ROWS, VARIABLES,
};
use crate::oracle::lexicographic::{Branches, Lexicographic, Weighed};
use crate::oracle::paths::{path_loop, CertificateShape, LoopShape, LEXICOGRAPHIC, PATH_LOOP};
use crate::oracle::record::{count_at, framed, stated_length};
use crate::oracle::{sheet, Refusal};
use std::ops::RangeInclusive;

/// Judging with a loop of kind 5, and what a share of it must have.
pub const JUDGED: &str = "paths";
pub const WIDE: &str = "paths: three or more, with two components or more";
pub const ACCEPTED: &str = "lexicographic";
pub const DEEP: &str = "lexicographic, a path with component 2 or more";

/// Which of several, where a thing can stand.
const ENDS_OF_SEVERAL: [&str; 2] = ["the first of several", "the last of several"];
/// What alone is wrong in a condition.
const WRONG: [&str; 3] = ["A", "A'", "the right sides"];
/// Why L is refused, in either record.
const LENGTHS: [&str; 3] = ["the first counts", "the counts of the paths", "the formula"];
/// The new ranges of either record, by what has them, with the ends that a field can be past.
const LOOP_RANGES: [(&str, Range); 2] = [("entry", ENTRY), ("b", RIGHT)];
const ARGUMENT_RANGES: [(&str, Range); 4] = [
    ("r", DIRECTION),
    ("start", RIGHT),
    ("fall", FALL),
    ("multiplier", MULTIPLIER),
];
/// Conditions that fail together: the second comes later in the order, in the same path or in a later one.
const TOGETHER: [(u64, u64, &str); 6] = [
    (51, 52, "of one path"),
    (52, 53, "of one path"),
    (51, 53, "of one path"),
    (52, 51, "of a later path"),
    (53, 51, "of a later path"),
    (53, 52, "of a later path"),
];
/// Kinds that are not judged together.
const UNWANTED_PAIRS: [(u64, u64); 6] = [(5, 2), (5, 3), (5, 4), (5, 5), (5, 8), (1, 6)];
/// Kinds that some call does not want. Bound does not want a settling in its loop's place alone.
const NOT_WANTED: [u64; 3] = [5, 6, 8];
const RECORDS: [(u64, &str); 2] = [(1, "loop"), (2, "certificate")];

fn refusal_name(number: u64, record: u64) -> String {
    let record = RECORDS.iter().find(|(of, _)| *of == record);
    format!(
        "paths: {number} of {}",
        record.map_or("neither", |(_, name)| name)
    )
}

fn counted(what: &str, count: usize) -> String {
    format!("lexicographic, {what} {count}")
}

fn past_name(field: &str, end: i64) -> String {
    format!("paths: 6 for {field} one past {end}")
}

fn at_name(number: u64, which: &str) -> String {
    format!("paths: {number} at {which}")
}

fn wrong_name(number: u64, wrong: &str) -> String {
    format!("{number} by {wrong} alone")
}

fn together_name((first, second, which): (u64, u64, &str)) -> String {
    format!("{first} and {second} {which}")
}

fn length_name(record: u64, why: &str) -> String {
    format!("{}, by {why}", refusal_name(3, record))
}

/// L is too small for the next counts, and a count that stands before them is out of range.
fn covered_name(record: u64, why: &str) -> String {
    format!(
        "{}, with a bad count before the end",
        length_name(record, why)
    )
}

fn unwanted((looped, certificate): (u64, u64)) -> String {
    format!("4: kind {looped} with kind {certificate}")
}

/// What must come up, and how often: refusal numbers, and each way.
pub fn quotas(least: u64, least_way: u64) -> Vec<(&'static str, String, u64)> {
    let mut numbers = vec![ACCEPTED.to_string()];
    for (record, told) in [
        (1, &[1, 2, 3, 5, 6][..]),
        (2, &[1, 2, 3, 4, 5, 6, 14, 51, 52, 53]),
    ] {
        numbers.extend(told.iter().map(|&number| refusal_name(number, record)));
    }
    let mut ways = vec![DEEP.to_string(), WITHOUT_ROWS.to_string()];
    ways.extend(whole(PATHS).map(|count| counted("paths", count)));
    ways.extend(whole(COMPONENTS).map(|count| counted("components", count)));
    ways.extend(COUNTS.map(str::to_string));
    for number in [14, 51, 52, 53] {
        ways.extend(ENDS_OF_SEVERAL.map(|which| at_name(number, which)));
    }
    for number in [51, 52, 53] {
        ways.extend(WRONG.map(|wrong| wrong_name(number, wrong)));
    }
    ways.extend(ENDS_OF_SEVERAL.map(earlier_name));
    ways.extend(TOGETHER.map(together_name));
    for (record, _) in RECORDS {
        ways.extend(LENGTHS.map(|why| length_name(record, why)));
        ways.push(covered_name(record, LENGTHS[0]));
        ways.push(covered_name(record, LENGTHS[1]));
    }
    for (field, range) in LOOP_RANGES.iter().chain(&ARGUMENT_RANGES) {
        let low = (*field != "multiplier").then_some(range.low);
        let ends = low.into_iter().chain([range.high]);
        ways.extend(ends.map(|end| past_name(field, end)));
    }
    ways.extend(UNWANTED_PAIRS.map(unwanted));
    let mut quotas: Vec<(&'static str, String, u64)> = Vec::new();
    quotas.extend(numbers.into_iter().map(|name| ("judge", name, least)));
    quotas.extend(ways.into_iter().map(|name| ("judge", name, least_way)));
    for call in [
        "read_loop",
        "read_certificate",
        "write_record",
        "bound",
        "sheet",
    ] {
        let of_call = |kind: &u64| (call, kind_name(*kind), least_way);
        quotas.extend(NOT_WANTED.iter().map(of_call));
    }
    quotas
}

fn whole(range: Range) -> RangeInclusive<usize> {
    range.low as usize..=range.high as usize
}

/// A kind that a call doesn't want.
fn kind_name(kind: u64) -> String {
    format!("4: kind {kind}")
}

const WITHOUT_ROWS: &str = "paths: one without rows, refused by a condition";
const COUNTS: [&str; 5] = [
    "paths: 5 for n",
    "paths: 5 for the count of paths",
    "paths: 5 for m of the first of several",
    "paths: 5 for m of a later path",
    "paths: 5 for the count of components",
];

fn earlier_name(which: &str) -> String {
    format!("53 by {which} earlier components")
}

/// The names of what comes up in a case.
pub fn ways_of(case: &Case, told: &Told) -> Vec<String> {
    let Refusal { number, place } = told.refusal();
    let (_, record) = told.number_and_record();
    match case {
        Case::Judge {
            loop_bytes,
            certificate,
            ..
        } if has_kind_5(loop_bytes) => judged(loop_bytes, certificate, (number, place, record)),
        Case::Judge {
            loop_bytes,
            certificate,
            ..
        } => Vec::from_iter(unwanted_pair(loop_bytes, certificate, number, record)),
        Case::Bound { loop_bytes, .. } if (number, record) == (4, 1) => kinds(&[loop_bytes]),
        Case::Bound { certificate, .. } if (number, record) == (4, 2) => kinds(&[certificate]),
        Case::ReadLoop { bytes, .. } | Case::ReadCertificate { bytes, .. } if number == 4 => {
            kinds(&[bytes])
        }
        Case::WriteRecord { kind, .. } if number == 4 => named_kinds(&[*kind]),
        Case::Sheet { input, .. } if number == 0 => kinds(&unwanted_in_sheet(input)),
        _ => Vec::new(),
    }
}

/// Whether the bytes of the kind say 5, in a record that may be damaged.
fn has_kind_5(bytes: &[u8]) -> bool {
    bytes.len() >= 6 && count_at(bytes, 4) as u64 == PATH_LOOP
}

fn named_kinds(kinds: &[u64]) -> Vec<String> {
    let not_wanted = |kind: &&u64| NOT_WANTED.contains(kind);
    kinds
        .iter()
        .filter(not_wanted)
        .map(|kind| kind_name(*kind))
        .collect()
}

/// The new kinds among records.
fn kinds(records: &[&[u8]]) -> Vec<String> {
    let kinds: Vec<u64> = records
        .iter()
        .filter_map(|bytes| framed(bytes).ok())
        .collect();
    named_kinds(&kinds)
}

/// The records of a sheet that it refuses by their kind if they are new: its loop, or its certificates.
fn unwanted_in_sheet(input: &[u8]) -> Vec<&[u8]> {
    if input.len() > sheet::LONGEST_INPUT {
        return Vec::new();
    }
    let (looped, mut rest) = sheet::part(input);
    if framed(looped) != Ok(1) {
        return vec![looped];
    }
    let mut records = Vec::new();
    while !rest.is_empty() {
        let (certificate, after) = sheet::part(rest);
        records.push(certificate);
        rest = after;
    }
    records
}

fn unwanted_pair(looped: &[u8], certificate: &[u8], number: u64, record: u64) -> Option<String> {
    let pair = (framed(looped).ok()?, framed(certificate).ok()?);
    let counted = (number, record) == (4, 2) && UNWANTED_PAIRS.contains(&pair);
    counted.then(|| unwanted(pair))
}

/// Of judging with a loop of kind 5: number, place and record are those told.
fn judged(looped: &[u8], certificate: &[u8], told: (u64, u64, u64)) -> Vec<String> {
    let (number, place, record) = told;
    let mut names = vec![JUDGED.to_string()];
    let branches = path_loop(looped).ok();
    let components = match framed(certificate) {
        Ok(LEXICOGRAPHIC) if certificate.len() >= 8 => count_at(certificate, 6),
        _ => 0,
    };
    if let Some(branches) = &branches {
        if branches.paths.len() >= 3 && components >= 2 && COMPONENTS.holds(components) {
            names.push(WIDE.to_string());
        }
    }
    if number > 0 {
        names.push(refusal_name(number, record));
    }
    let paths = branches.as_ref().map_or(0, |branches| branches.paths.len());
    match (number, record) {
        (0, _) => names.extend(accepted(looped, certificate)),
        (3, 1) => names.extend(length_names(1, loop_length(looped), looped)),
        (3, _) => {
            let why = argument_length(certificate, paths);
            names.extend(length_names(2, why, certificate));
        }
        (4, _) => names.extend(unwanted_pair(looped, certificate, number, record)),
        (5, _) => names.push(COUNTS[refused_count(looped, place, record)].to_string()),
        (6, 1) => names.extend(past_of_loop(looped, place)),
        (6, _) => names.extend(past_of_argument(looped, certificate, place)),
        (14, _) => names.extend(at_end(14, (place as usize - 8) / 2, paths)),
        (51..=53, _) => names.extend(failing(looped, certificate)),
        _ => {}
    }
    names
}

fn accepted(looped: &[u8], certificate: &[u8]) -> Vec<String> {
    let Ok((branches, argument)) = paths_and_argument(looped, certificate) else {
        return Vec::new();
    };
    let mut names = vec![
        counted("paths", branches.paths.len()),
        counted("components", argument.components.len()),
    ];
    if argument.parts.iter().any(|part| part.component >= 2) {
        names.push(DEEP.to_string());
    }
    names
}

/// Which test of L fails.
fn loop_length(looped: &[u8]) -> usize {
    match stated_length(looped) {
        0..=5 => 0,
        length if length < 6 + 2 * count_at(looped, 8) as usize => 1,
        _ => 2,
    }
}

fn argument_length(certificate: &[u8], paths: usize) -> usize {
    match stated_length(certificate) {
        0..=3 => 0,
        length if length < 4 + 2 * paths => 1,
        _ => 2,
    }
}

/// Why L is refused, and whether a count before the end would be refused if L were not.
fn length_names(record: u64, why: usize, bytes: &[u8]) -> Vec<String> {
    let mut names = vec![length_name(record, LENGTHS[why])];
    let counts = |from: usize| (from..bytes.len() - 1).step_by(2);
    let over = |from: usize, most: i64| counts(from).any(|at| count_at(bytes, at) > most);
    let covered = match (record, why) {
        (1, 0) => over(6, VARIABLES.high),
        (1, 1) => over(10, ROWS.high),
        (2, 0) => over(6, COMPONENTS.high),
        (2, 1) => over(8, count_at(bytes, 6) - 1),
        _ => false,
    };
    if covered {
        names.push(covered_name(record, LENGTHS[why]));
    }
    names
}

/// Which count is out of range.
fn refused_count(looped: &[u8], place: u64, record: u64) -> usize {
    match (record, place) {
        (2, _) => 4,
        (_, 6) => 0,
        (_, 8) => 1,
        (_, 10) if count_at(looped, 8) > 1 => 2,
        _ => 3,
    }
}

/// First or last of several, where it is one of them.
fn at_end(number: u64, place: usize, count: usize) -> Option<String> {
    let which = match place {
        _ if count < 2 => return None,
        0 => 0,
        place if place == count - 1 => 1,
        _ => return None,
    };
    Some(at_name(number, ENDS_OF_SEVERAL[which]))
}

/// The name of a field at a place whose value is one past an end of its range.
fn past(
    bytes: &[u8],
    values_place: usize,
    fields: &[Field],
    place: u64,
    ranges: &[(&str, Range)],
) -> Option<String> {
    let mut at = values_place;
    for field in fields {
        if at as u64 == place {
            let value = field.form.read(bytes, at);
            let (name, range) = ranges.iter().find(|(_, range)| *range == field.range)?;
            let ends = [(range.low, -1), (range.high, 1)];
            let end = ends.iter().find(|(end, past)| value == end + past)?;
            return Some(past_name(name, end.0));
        }
        at += field.form.width();
    }
    None
}

/// The shape of a loop whose L is that of its counts.
fn loop_shape(looped: &[u8]) -> Option<LoopShape> {
    let whole = framed(looped) == Ok(PATH_LOOP) && looped.len() >= 10;
    let count = |place: usize| count_at(looped, place) as usize;
    if !whole || looped.len() < 10 + 2 * count(8) {
        return None;
    }
    let rows = (0..count(8)).map(|path| count(10 + 2 * path)).collect();
    let shape = LoopShape { n: count(6), rows };
    (shape.length() == stated_length(looped)).then_some(shape)
}

/// The shape of an argument whose L is that of its counts, for a loop that is sound.
fn argument_shape(looped: &[u8], certificate: &[u8]) -> Option<CertificateShape> {
    let of_loop = path_loop(looped).ok()?.shape();
    let paths = of_loop.rows.len();
    let whole = framed(certificate) == Ok(LEXICOGRAPHIC) && certificate.len() >= 8 + 2 * paths;
    if !whole {
        return None;
    }
    let count = |place: usize| count_at(certificate, place) as usize;
    let shape = CertificateShape {
        components: count(6),
        numbers: (0..paths).map(|path| count(8 + 2 * path)).collect(),
        of_loop,
    };
    (shape.length() == stated_length(certificate)).then_some(shape)
}

fn past_of_loop(looped: &[u8], place: u64) -> Option<String> {
    let shape = loop_shape(looped)?;
    let fields = shape.fields();
    past(looped, shape.values_place(), &fields, place, &LOOP_RANGES)
}

fn past_of_argument(looped: &[u8], certificate: &[u8], place: u64) -> Option<String> {
    let shape = argument_shape(looped, certificate)?;
    let fields = shape.fields();
    past(
        certificate,
        shape.values_place(),
        &fields,
        place,
        &ARGUMENT_RANGES,
    )
}

/// The right sides b and the starts of two records.
pub fn right_sides(looped: &[u8], certificate: &[u8]) -> Vec<i64> {
    let mut values = Vec::new();
    let mut take = |bytes: &[u8], mut place: usize, fields: &[Field]| {
        for field in fields {
            if field.range == RIGHT {
                values.push(field.form.read(bytes, place));
            }
            place += field.form.width();
        }
    };
    if let Some(shape) = loop_shape(looped) {
        take(looped, shape.values_place(), &shape.fields());
    }
    if let Some(shape) = argument_shape(looped, certificate) {
        take(certificate, shape.values_place(), &shape.fields());
    }
    values
}

/// The ways in which the first failing condition fails: its path, what is wrong in it, and what fails with it.
fn failing(looped: &[u8], certificate: &[u8]) -> Vec<String> {
    let Ok((branches, argument)) = paths_and_argument(looped, certificate) else {
        return Vec::new();
    };
    let failing = argument.failing(&branches);
    let Refusal { number, place } = failing[0];
    let path = place as usize;
    let mut names: Vec<String> = Vec::new();
    names.extend(at_end(number, path, branches.paths.len()));
    names.extend(wrong_alone(&branches, &argument, number, path));
    if branches.paths[path].is_empty() {
        names.push(WITHOUT_ROWS.to_string());
    }
    for together @ (first, second, which) in TOGETHER {
        let later = |fails: &&Refusal| match which {
            "of one path" => fails.place == place,
            _ => fails.place > place,
        };
        let with = failing.iter().filter(later).any(|f| f.number == second);
        if first == number && with {
            names.push(together_name(together));
        }
    }
    names
}

fn weighed<'a>(
    branches: &'a Branches,
    argument: &'a Lexicographic,
    path: usize,
    condition: Condition,
) -> Weighed<'a> {
    match condition {
        Condition::Bounded => argument.bounded(branches, path),
        Condition::Ranking => argument.ranking(branches, path),
        Condition::Unaffecting(earlier) => argument.unaffecting(branches, path, earlier),
    }
}

/// What alone is wrong in the failing condition; of several earlier components, which one alone fails.
fn wrong_alone(
    branches: &Branches,
    argument: &Lexicographic,
    number: u64,
    path: usize,
) -> Vec<String> {
    let conditions = conditions_of(argument.parts[path].component);
    let of_number: &[Condition] = match number {
        51 => &conditions[..1],
        52 => &conditions[1..2],
        _ => &conditions[2..],
    };
    let holds = |condition: &Condition| weighed(branches, argument, path, *condition).holds();
    let fails: Vec<usize> = (0..of_number.len())
        .filter(|&i| !holds(&of_number[i]))
        .collect();
    let [alone] = fails[..] else {
        return Vec::new();
    };
    let mut names = Vec::new();
    let wrong = match weighed(branches, argument, path, of_number[alone]).faults() {
        (1.., 0, false) => Some(0),
        (0, 1.., false) => Some(1),
        (0, 0, true) => Some(2),
        _ => None,
    };
    names.extend(wrong.map(|i| wrong_name(number, WRONG[i])));
    if number == 53 && of_number.len() > 1 {
        let which = match alone {
            0 => Some(0),
            _ if alone == of_number.len() - 1 => Some(1),
            _ => None,
        };
        names.extend(which.map(|i| earlier_name(ENDS_OF_SEVERAL[i])));
    }
    names
}
