//! What comes up in cases with settlings (kind 8), by name, and how often it must.

use crate::cases::Case;
use crate::compare::Told;
use crate::oracle::conditions::dot;
use crate::oracle::judging::{failing, settling_of};
use crate::oracle::layout::{Kind, Range, Shape, ENTRY, MULTIPLIER, RIGHT, SCALE};
use crate::oracle::record::{count_at, framed, loop_record};
use crate::oracle::Refusal;

/// What an accepted settling is counted as in judging; in a bound call its bound follows.
pub const ACCEPTED: &str = "settling";
pub const BOUNDS: [&str; 3] = [
    "settling, bound 0",
    "settling, bound 1",
    "settling, bound above 1",
];
/// Both verdicts on one loop accept.
const EXCLUDED_TOO: &str = "settling and exclusion of one loop";
/// Where a state lies.
const AT_THRESHOLD: &str = "settling, g·x = t";
const PAST_THRESHOLD: &str = "settling, g·x above t";
/// A settling in the loop's place.
const AS_LOOP: &str = "settling: 4 of loop, in its place";

const CONDITIONS: [u64; 7] = [61, 62, 63, 21, 22, 23, 24];
const IN_COLUMNS: [u64; 5] = [61, 62, 21, 22, 23];
/// Conditions of which the second is told next, and whether the second has an earlier column to fail in.
const NEIGHBOURS: [(u64, u64, bool); 6] = [
    (61, 62, true),
    (62, 63, false),
    (63, 21, false),
    (21, 22, true),
    (22, 23, true),
    (23, 24, false),
];
/// The parts of the record that have a range to be one past.
const PARTS: [(&str, Range); 6] = [
    ("g", ENTRY),
    ("t", RIGHT),
    ("k", SCALE),
    ("E", MULTIPLIER),
    ("Y", MULTIPLIER),
    ("Z", MULTIPLIER),
];

fn told_name(number: u64) -> String {
    format!("settling: {number}")
}

fn at_first(number: u64) -> String {
    format!("settling: {number} at the first of several")
}

fn at_last(number: u64) -> String {
    format!("settling: {number} at the last of several")
}

fn together(first: u64, second: u64) -> String {
    format!("settling: {first} and {second}")
}

/// The second condition fails in an earlier column, and the first is told all the same.
fn overtaken(first: u64, second: u64) -> String {
    format!("settling: {first} and {second} in an earlier column")
}

/// Told before a condition that fails as well.
fn before_conditions(number: u64) -> String {
    format!("settling: {number} before a condition")
}

fn past_name(part: &str, end: i64) -> String {
    format!("settling: 6 for {part} one past {end}")
}

fn at_end_name(end: i64) -> String {
    format!("settling, t {end}")
}

/// The ends of a part's range that its field can be past.
fn ends(range: Range) -> Vec<i64> {
    let low = (range.low != 0).then_some(range.low);
    low.into_iter().chain([range.high]).collect()
}

/// What must come up, and how often: refusal numbers, and each way.
pub fn quotas(least: u64, least_way: u64) -> Vec<(&'static str, String, u64)> {
    let mut quotas = Vec::new();
    for (call, own) in [
        ("judge", &[1, 2, 3, 6, 7][..]),
        ("bound", &[1, 2, 3, 6, 9, 10]),
    ] {
        let numbers = own.iter().chain(&CONDITIONS);
        quotas.extend(numbers.map(|&number| (call, told_name(number), least)));
        let mut ways = vec![AS_LOOP.to_string()];
        for number in IN_COLUMNS {
            ways.extend([at_first(number), at_last(number)]);
        }
        for (first, second, in_columns) in NEIGHBOURS {
            ways.push(together(first, second));
            ways.extend(in_columns.then(|| overtaken(first, second)));
        }
        for (part, range) in PARTS {
            ways.extend(ends(range).into_iter().map(|end| past_name(part, end)));
        }
        ways.extend(ends(RIGHT).into_iter().map(at_end_name));
        ways.extend(
            own.iter()
                .filter(|&&n| n > 6)
                .map(|&n| before_conditions(n)),
        );
        quotas.extend(ways.into_iter().map(|way| (call, way, least_way)));
    }
    quotas.push(("judge", ACCEPTED.to_string(), least));
    quotas.push(("judge", EXCLUDED_TOO.to_string(), least));
    let states = [AT_THRESHOLD, PAST_THRESHOLD];
    let of_bound = BOUNDS.iter().chain(&states);
    quotas.extend(of_bound.map(|name| ("bound", name.to_string(), least)));
    quotas
}

/// The names of what comes up in a case.
pub fn ways_of(case: &Case, told: &Told) -> Vec<String> {
    let (number, record) = told.number_and_record();
    let Refusal { place, .. } = told.refusal();
    let (looped, certificate, state) = match (case, told) {
        (Case::JudgeBoth { certificates, .. }, Told::Verdicts(verdicts)) => {
            let settling = certificates.iter().any(|bytes| has_kind_8(bytes));
            let both = settling && verdicts.iter().all(|verdict| verdict.number == 0);
            return Vec::from_iter(both.then(|| EXCLUDED_TOO.to_string()));
        }
        (
            Case::Judge {
                loop_bytes,
                certificate,
                ..
            },
            _,
        ) => (loop_bytes, certificate, None),
        (
            Case::Bound {
                loop_bytes,
                certificate,
                state,
            },
            _,
        ) => (loop_bytes, certificate, Some(state)),
        _ => return Vec::new(),
    };
    if (number, record) == (4, 1) && framed(looped) == Ok(Kind::Settling.number()) {
        return vec![AS_LOOP.to_string()];
    }
    if !has_kind_8(certificate) {
        return Vec::new();
    }
    let mut names = Vec::new();
    match (number, record) {
        (0, _) => names.extend(accepted(looped, certificate, state)),
        (4, _) | (_, 1) => return names,
        (6, _) => names.extend(past(looped, certificate, place)),
        (7 | 9 | 10, _) => {
            let fails = failing(looped, certificate).is_some_and(|(_, _, told)| !told.is_empty());
            names.extend(fails.then(|| before_conditions(number)));
        }
        (21.., _) => names.extend(failing_ways(looped, certificate)),
        _ => {}
    }
    names.extend((number > 0).then(|| told_name(number)));
    names
}

/// Whether the bytes of the kind say 8, in a record that may be damaged.
pub fn has_kind_8(bytes: &[u8]) -> bool {
    bytes.len() >= 6 && count_at(bytes, 4) as u64 == Kind::Settling.number()
}

/// Where the threshold stands, and the state beside it.
fn accepted(looped: &[u8], certificate: &[u8], state: Option<&Vec<i64>>) -> Vec<String> {
    let Some(settling) = settling_of(looped, certificate) else {
        return Vec::new();
    };
    let at_end = ends(RIGHT).into_iter().filter(|end| settling.t == *end);
    let mut names: Vec<String> = at_end.map(at_end_name).collect();
    if let Some(state) = state {
        let reached = dot(&settling.g, state) - i128::from(settling.t);
        names.extend((reached == 0).then(|| AT_THRESHOLD.to_string()));
        names.extend((reached > 0).then(|| PAST_THRESHOLD.to_string()));
    }
    names
}

/// The part whose value is refused, if it is one past an end of its range.
fn past(looped: &[u8], certificate: &[u8], place: u64) -> Option<String> {
    let looped = loop_record(looped).ok()?;
    let (n, m) = (looped.shape.n, looped.shape.m);
    let kind = Kind::Settling;
    let shape = Shape { kind, n, m, ms: 0 };
    let value = shape.places().iter().position(|at| *at as u64 == place)?;
    let mut parts = shape.settling_parts().into_iter().zip(PARTS);
    let (_, (name, range)) = parts.find(|(part, _)| part.contains(&value))?;
    let refused = shape.fields()[value].form.read(certificate, place as usize);
    let is_past = |end: &i64| (refused - end).abs() == 1 && !range.holds(refused);
    let end = ends(range).into_iter().find(is_past)?;
    Some(past_name(name, end))
}

/// The ways in which a condition fails: by its column, and by what fails with it.
fn failing_ways(looped: &[u8], certificate: &[u8]) -> Vec<String> {
    let Some((n, _, failing)) = failing(looped, certificate) else {
        return Vec::new();
    };
    let Refusal { number, place } = failing[0];
    let mut names = Vec::new();
    if n > 1 && IN_COLUMNS.contains(&number) {
        names.extend((place == 0).then(|| at_first(number)));
        names.extend((place as usize == n - 1).then(|| at_last(number)));
    }
    for (first, second, in_columns) in NEIGHBOURS {
        let next = failing.iter().find(|fails| fails.number == second);
        if let Some(next) = next.filter(|_| first == number) {
            names.push(together(first, second));
            names.extend((in_columns && next.place < place).then(|| overtaken(first, second)));
        }
    }
    names
}
