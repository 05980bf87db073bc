//! Counts of the cases, and the quotas that a whole run must meet: 30 % accepted; every kind, every refusal number with
//! each record that it can speak of, and every line of a sheet at least 500 times; every condition that fails at least
//! 100 times, and 50 times each at its first place, at its last, and together with the next condition; a right side near
//! each end of its range in a tenth of the cases, and one past it, for b, d and s0, 50 times; accepted exclusions with q
//! above 1 of either grade 100 times, and 50 times each way in which they have it.
//!
//! Of loops with several paths: 5 % of all cases are accepted, a fifth of these with a path whose component is 2 or more; a
//! fifth of those judged have three paths or more and two components or more; each refusal number of either record, and each
//! condition that fails, 100 times; and 50 times each way in which it does, each count of paths and components, and each call
//! or pair of records in which kinds 5, 6 and 8 are not wanted.
//!
//! Of settlings: 5 % of all cases are accepted; in judging and in bound each refusal number, each condition that fails and each
//! bound 100 times, and a loop that has an exclusion too; and 50 times each way in which a condition fails, each range one past
//! its ends, and the threshold at either end of its range.
//!
//! Of short rankings: 5 % of the cases with one are accepted by judging or bound; in these and in both conversions each refusal
//! number 100 times, 15 and 16 as often at the first and at the last of several triples, and as often a round trip from either
//! kind; and 50 times each way in which a record is refused, none and 64 triples, and each call or loop that doesn't take one.
//!
//! Of several certificates at once: in 5 % of the batches a record is accepted; 13, 7 of either room, each refusal of the loop, each
//! kind that is accepted, no record and 32 records 100 times; 50 times each pair of refusals of the call, each way in which the
//! last record takes the rest, and how one record's verdict and rank stand after another's; and 20 times each number in a row.

use crate::batch_ways;
use crate::cases::{Case, Move};
use crate::compare::{Answer, Lent, Told};
use crate::construct::places;
use crate::grades;
use crate::oracle::judging;
use crate::oracle::layout::RIGHT;
use crate::oracle::Refusal;
use crate::path_ways;
use crate::right_sides;
use crate::settling_ways;
use crate::short_ways;
use std::collections::BTreeMap;

/// The fewest times that anything must come up.
const LEAST: u64 = 500;
/// The fewest times that a failing condition must come up, something accepted with a right side near an end of its range,
/// or an exclusion of either grade with q above 1; and each way in which a condition fails, a right side is past its end or
/// an exclusion has its grade.
const LEAST_FAILING: u64 = 100;
const LEAST_WAY: u64 = 50;
/// The fewest accepted cases in a hundred.
const LEAST_ACCEPTED: u64 = 30;
/// The fewest cases in a hundred that have a right side near each end of its range; of the accepted, near either.
const LEAST_NEAR_ENDS: u64 = 10;
const ENDS: [i64; 2] = [RIGHT.low, RIGHT.high];
/// Of loops with several paths: the fewest accepted in a hundred of all cases, and the shares of those judged and accepted
/// that are wide and deep.
const LEAST_LEXICOGRAPHIC: u64 = 5;
const LEAST_WIDE: u64 = 20;
const LEAST_DEEP: u64 = 20;
/// The fewest accepted settlings in a hundred of all cases.
const LEAST_SETTLING: u64 = 5;
/// The fewest accepted in a hundred of the cases with short rankings.
const LEAST_SHORT: u64 = 5;
/// The fewest batches in a hundred in which a record is accepted.
const LEAST_BATCHES: u64 = 5;

/// What must come up, under the names that `Tally::count` gives.
const QUOTAS: [(&str, &[&str]); 10] = [
    ("read_loop", &["kind 1", "1", "2", "3", "4", "5", "6", "7"]),
    (
        "read_certificate",
        &[
            "kind 2", "kind 3", "kind 4", "1", "2", "3", "4", "5", "6", "7",
        ],
    ),
    (
        "write_record",
        &[
            "kind 1", "kind 2", "kind 3", "kind 4", "4", "5", "6", "7", "12",
        ],
    ),
    (
        "judge",
        &[
            "ranking",
            "exclusion whole",
            "exclusion fractions",
            "lasso",
            "1 of loop",
            "2 of loop",
            "3 of loop",
            "4 of loop",
            "5 of loop",
            "6 of loop",
            "1 of certificate",
            "2 of certificate",
            "3 of certificate",
            "4 of certificate",
            "5 of certificate",
            "6 of certificate",
            "7",
        ],
    ),
    (
        "bound",
        &[
            "ranking, bound 0",
            "ranking, bound 1",
            "ranking, bound above 1",
            "lasso, bound 0",
            "lasso, bound 1",
            "lasso, bound above 1",
            "1 of loop",
            "2 of loop",
            "3 of loop",
            "4 of loop",
            "5 of loop",
            "6 of loop",
            "1 of certificate",
            "2 of certificate",
            "3 of certificate",
            "4 of certificate",
            "5 of certificate",
            "6 of certificate",
            "9",
            "10",
            "11 of certificate",
        ],
    ),
    (
        "sheet",
        &[
            "line loop",
            "line loop refused 1",
            "line loop refused 3",
            "line loop refused 4",
            "line loop refused 5",
            "line loop refused 6",
            "line rank",
            "line lasso",
            "line excluded whole",
            "line excluded fractions",
            "line refused 1",
            "line refused 3",
            "line refused 4",
            "line refused 5",
            "line refused 6",
            "line input too long",
            "7",
        ],
    ),
    (short_ways::SHORTEN, &["done"]),
    (short_ways::LENGTHEN, &["done"]),
    (short_ways::BACK, &["done"]),
    (batch_ways::CALL, &["done"]),
];

/// The conditions that fail in a column or a row, and those on right sides.
const IN_PLACES: [u64; 9] = [21, 22, 23, 31, 32, 41, 42, 44, 45];
const ON_RIGHT_SIDES: [u64; 3] = [24, 43, 46];
/// Conditions of which the second is told next, and whether the second has an earlier place to fail in.
const NEIGHBOURS: [(u64, u64, bool); 10] = [
    (21, 22, true),
    (22, 23, true),
    (23, 24, false),
    (31, 32, true),
    (41, 42, true),
    (42, 43, false),
    (43, 44, false),
    (44, 45, true),
    (45, 46, false),
    (46, 21, false),
];

/// What must come up of failing conditions in a call, and how often.
fn failing_quotas(call: &str) -> Vec<(String, u64)> {
    let told = |number: &u64| match call {
        "sheet" => format!("line refused {number}"),
        _ => format!("{number} of certificate"),
    };
    let numbers = IN_PLACES.iter().chain(&ON_RIGHT_SIDES);
    let mut quotas: Vec<_> = numbers
        .map(|number| (told(number), LEAST_FAILING))
        .collect();
    if call != "sheet" {
        quotas.extend(ways().into_iter().map(|way| (way, LEAST_WAY)));
    }
    let of_exclusion = |name: &str| name.starts_with('3');
    quotas.retain(|(name, _)| call != "bound" || !of_exclusion(name));
    quotas
}

/// The ways in which conditions fail.
fn ways() -> Vec<String> {
    let places = IN_PLACES.map(|number| [at_first(number), at_last(number)]);
    let mut ways = places.concat();
    for (first, second, in_places) in NEIGHBOURS {
        ways.push(together(first, second));
        if in_places {
            ways.push(overtaken(first, second));
        }
    }
    ways
}

fn at_first(number: u64) -> String {
    format!("{number} at the first of several")
}

fn at_last(number: u64) -> String {
    format!("{number} at the last of several")
}

fn together(first: u64, second: u64) -> String {
    format!("{first} and {second}")
}

/// The second condition fails in an earlier place, and the first is told all the same.
fn overtaken(first: u64, second: u64) -> String {
    format!("{first} and {second} in an earlier place")
}

/// Accepted with a right side near an end of its range.
fn near_ends_name(accepted: &str) -> String {
    format!("{accepted}, right sides near an end")
}

/// What must come up of right sides in each call: accepted ones near an end, and refused ones past it.
fn right_side_quotas() -> Vec<(&'static str, String, u64)> {
    let accepted = [
        ("read_loop", "kind 1"),
        ("read_certificate", "kind 4"),
        ("write_record", "kind 1"),
        ("write_record", "kind 4"),
        ("judge", "ranking"),
        ("judge", "exclusion whole"),
        ("judge", "exclusion fractions"),
        ("judge", "lasso"),
        ("judge", "lexicographic"),
        ("judge", settling_ways::ACCEPTED),
        ("bound", "ranking, bound above 1"),
        ("bound", "lasso, bound above 1"),
        ("bound", settling_ways::BOUNDS[2]),
    ];
    let refused = [
        ("read_loop", &["b"][..]),
        ("read_certificate", &["d", "s0"]),
        ("write_record", &["b", "d", "s0"]),
        ("judge", &["b", "d", "s0", "t"]),
        ("bound", &["b", "d", "s0", "t"]),
    ];
    let mut quotas = Vec::new();
    for (call, name) in accepted {
        quotas.push((call, near_ends_name(name), LEAST_FAILING));
    }
    for (call, fields) in refused {
        for field in fields {
            for end in ENDS {
                quotas.push((call, right_sides::past_name(field, end), LEAST_WAY));
            }
        }
    }
    quotas
}

/// How often each thing came up, by call.
#[derive(Default)]
pub struct Tally {
    cases: u64,
    accepted: u64,
    /// Cases with a right side near the lower end, and near the upper.
    near_ends: [u64; 2],
    accepted_near_ends: u64,
    counts: BTreeMap<(&'static str, String), u64>,
}

impl Tally {
    /// Counts a case by what the paper says of it.
    pub fn count(&mut self, case: &Case, answer: &Answer) {
        self.cases += 1;
        let call = call_name(case);
        let lines = match (case, &answer.told, &answer.lent) {
            (Case::Sheet { .. }, Told::Writing(writing), Lent::Bytes(lending)) => {
                sheet_lines(lending.first(writing.written as usize))
            }
            _ => Vec::new(),
        };
        let accepts_a_line = lines
            .iter()
            .any(|line| !line.contains("refused") && line != "line loop");
        let done = answer.told.number_and_record().0 == 0;
        let batch_names = batch_ways::ways_of(case, answer);
        let accepted = match case {
            Case::Sheet { .. } => done && accepts_a_line,
            Case::JudgeAll { .. } => batch_names.iter().any(|name| name == batch_ways::ACCEPTED),
            _ => done,
        };
        let ends = right_sides::ends_near(case);
        self.accepted += u64::from(accepted);
        for (count, end) in self.near_ends.iter_mut().zip(ENDS) {
            *count += u64::from(ends.contains(&end));
        }
        if accepted && !ends.is_empty() {
            self.accepted_near_ends += 1;
            self.add(call, near_ends_name(&answer_name(case, &answer.told)));
        }
        if let Some(name) = right_sides::one_past(case, &answer.told) {
            self.add(call, name);
        }
        if !(done && matches!(case, Case::Sheet { .. })) {
            self.add(call, answer_name(case, &answer.told));
        }
        for name in ways_of(case, &answer.told) {
            self.add(call, name);
        }
        for way in grades::ways_of(case, &answer.told) {
            self.add(call, way.to_string());
        }
        for way in path_ways::ways_of(case, &answer.told) {
            self.add(call, way);
        }
        for way in settling_ways::ways_of(case, &answer.told) {
            self.add(call, way);
        }
        for way in short_ways::ways_of(case, &answer.told) {
            self.add(call, way);
        }
        for way in batch_names {
            self.add(call, way);
        }
        for line in lines {
            self.add(call, line);
        }
    }

    fn add(&mut self, call: &'static str, name: String) {
        *self.counts.entry((call, name)).or_insert(0) += 1;
    }

    /// Adds what another tally has counted.
    pub fn add_all(&mut self, other: Tally) {
        self.cases += other.cases;
        self.accepted += other.accepted;
        for (count, more) in self.near_ends.iter_mut().zip(other.near_ends) {
            *count += more;
        }
        self.accepted_near_ends += other.accepted_near_ends;
        for (name, count) in other.counts {
            *self.counts.entry(name).or_insert(0) += count;
        }
    }

    /// The shares of loops with several paths, of settlings, of short rankings and of batches: what, how often, of how many, and
    /// the least in a hundred.
    fn shares(&self) -> [(&'static str, u64, u64, u64); 6] {
        let told = |call: &'static str, name: &str| {
            let name = (call, name.to_string());
            self.counts.get(&name).copied().unwrap_or(0)
        };
        let judged = |name: &str| told("judge", name);
        let bounded = settling_ways::BOUNDS.iter().map(|name| told("bound", name));
        let settling = judged(settling_ways::ACCEPTED) + bounded.sum::<u64>();
        let accepted = judged(path_ways::ACCEPTED);
        let short = |name: &str| short_ways::CALLS.iter().map(|call| told(call, name)).sum();
        [
            (
                "accepted lexicographic",
                accepted,
                self.cases,
                LEAST_LEXICOGRAPHIC,
            ),
            (
                path_ways::WIDE,
                judged(path_ways::WIDE),
                judged(path_ways::JUDGED),
                LEAST_WIDE,
            ),
            (
                path_ways::DEEP,
                judged(path_ways::DEEP),
                accepted,
                LEAST_DEEP,
            ),
            ("accepted settling", settling, self.cases, LEAST_SETTLING),
            (
                "accepted short",
                short(short_ways::ACCEPTED),
                short(short_ways::CASE),
                LEAST_SHORT,
            ),
            (
                batch_ways::ACCEPTED,
                told(batch_ways::CALL, batch_ways::ACCEPTED),
                told(batch_ways::CALL, batch_ways::CASE),
                LEAST_BATCHES,
            ),
        ]
    }

    /// Prints all counts.
    pub fn print(&self) {
        for (call, _) in QUOTAS {
            let of_call = self.counts.iter().filter(|((name, _), _)| *name == call);
            let parts: Vec<String> = of_call
                .map(|((_, name), count)| format!("{name}: {count}"))
                .collect();
            println!("{call}: {}", parts.join("; "));
        }
        let print = |what: &str, count: u64, all: u64| {
            println!("{what} {count} of {all} ({} %)", 100 * count / all.max(1));
        };
        for (count, end) in self.near_ends.into_iter().zip(ENDS) {
            print(&format!("right sides near {end}"), count, self.cases);
        }
        print(
            "accepted with such a right side",
            self.accepted_near_ends,
            self.accepted,
        );
        for (what, count, all, _) in self.shares() {
            print(what, count, all);
        }
        print("accepted", self.accepted, self.cases);
    }

    /// The quotas that are not met, in words.
    pub fn unmet(&self) -> Vec<String> {
        let mut unmet = Vec::new();
        let mut ask = |call: &'static str, name: String, least: u64| {
            let count = self.counts.get(&(call, name.clone())).copied();
            let count = count.unwrap_or(0);
            if count < least {
                unmet.push(format!("{call}, {name}: {count} times, not {least}"));
            }
        };
        for (call, names) in QUOTAS {
            for name in names {
                ask(call, name.to_string(), LEAST);
            }
        }
        for call in ["judge", "bound", "sheet"] {
            for (name, least) in failing_quotas(call) {
                ask(call, name, least);
            }
        }
        for (call, name, least) in right_side_quotas() {
            ask(call, name, least);
        }
        for name in grades::OFTEN {
            ask("judge", name.to_string(), LEAST_FAILING);
        }
        for name in grades::SELDOM {
            ask("judge", name.to_string(), LEAST_WAY);
        }
        for (call, name, least) in path_ways::quotas(LEAST_FAILING, LEAST_WAY) {
            ask(call, name, least);
        }
        for (call, name, least) in settling_ways::quotas(LEAST_FAILING, LEAST_WAY) {
            ask(call, name, least);
        }
        for (call, name, least) in short_ways::quotas(LEAST_FAILING, LEAST_WAY) {
            ask(call, name, least);
        }
        for (call, name, least) in batch_ways::quotas(LEAST_FAILING, LEAST_WAY) {
            ask(call, name, least);
        }
        let mut share = |what: &str, count: u64, all: u64, least: u64| {
            if count * 100 < all * least {
                unmet.push(format!("{what}: less than {least} %"));
            }
        };
        share("accepted", self.accepted, self.cases, LEAST_ACCEPTED);
        for (what, count, all, least) in self.shares() {
            share(what, count, all, least);
        }
        for (count, end) in self.near_ends.into_iter().zip(ENDS) {
            let what = format!("right sides near {end}");
            share(&what, count, self.cases, LEAST_NEAR_ENDS);
        }
        share(
            "accepted with such a right side",
            self.accepted_near_ends,
            self.accepted,
            LEAST_NEAR_ENDS,
        );
        unmet
    }
}

fn call_name(case: &Case) -> &'static str {
    match case {
        Case::ReadLoop { .. } => "read_loop",
        Case::ReadCertificate { .. } => "read_certificate",
        Case::WriteRecord { .. } => "write_record",
        Case::Move { to, .. } => match to {
            Move::Short => short_ways::SHORTEN,
            Move::Long => short_ways::LENGTHEN,
        },
        Case::ThereAndBack { .. } => short_ways::BACK,
        Case::Sheet { .. } => "sheet",
        Case::Judge { .. } | Case::JudgeBoth { .. } => "judge",
        Case::Bound { .. } => "bound",
        Case::JudgeAll { .. } => batch_ways::CALL,
    }
}

/// What an answer is counted as: a refusal's number and record, or what was accepted.
fn answer_name(case: &Case, told: &Told) -> String {
    match told.number_and_record() {
        (0, _) => {}
        (number, 1) => return format!("{number} of loop"),
        (number, 2) => return format!("{number} of certificate"),
        (number, _) => return number.to_string(),
    }
    match (told, case) {
        (Told::Reading(reading), _) => format!("kind {}", reading.kind),
        (_, Case::WriteRecord { kind, .. }) => format!("kind {kind}"),
        (Told::Verdict(verdict) | Told::Verdicts([verdict, _]), _) => {
            outcome_name(verdict.outcome, verdict.grade)
        }
        (Told::Bounded(bounded), _) => {
            let name = outcome_name(bounded.verdict.outcome, bounded.verdict.grade);
            match bounded.bound {
                0 | 1 => format!("{name}, bound {}", bounded.bound),
                _ => format!("{name}, bound above 1"),
            }
        }
        _ => "done".to_string(),
    }
}

/// The ways in which a case's condition fails: by its place, and by what fails with it. Those of settlings are counted apart.
fn ways_of(case: &Case, told: &Told) -> Vec<String> {
    let records = match case {
        Case::Judge {
            loop_bytes,
            certificate,
            ..
        }
        | Case::Bound {
            loop_bytes,
            certificate,
            ..
        } if told.number_and_record().0 > 20 && !settling_ways::has_kind_8(certificate) => {
            judging::failing(loop_bytes, certificate)
        }
        _ => None,
    };
    let Some((n, m, failing)) = records else {
        return Vec::new();
    };
    let Refusal { number, place } = failing[0];
    let places = places(number, n, m) as u64;
    let mut names = Vec::new();
    if places > 1 && place == 0 {
        names.push(at_first(number));
    }
    if places > 1 && place == places - 1 {
        names.push(at_last(number));
    }
    for (first, second, in_places) in NEIGHBOURS {
        let next = failing.iter().find(|fails| fails.number == second);
        if let Some(next) = next.filter(|_| first == number) {
            names.push(together(first, second));
            if in_places && next.place < place {
                names.push(overtaken(first, second));
            }
        }
    }
    names
}

fn outcome_name(outcome: u64, grade: u64) -> String {
    let name = match (outcome, grade) {
        (2, _) => "ranking",
        (4, _) => "lasso",
        (6, _) => "lexicographic",
        (8, _) => settling_ways::ACCEPTED,
        (3, 1) => "exclusion whole",
        _ => "exclusion fractions",
    };
    name.to_string()
}

/// What each line of a sheet is counted as: its words without count, place and numbers of a rank.
fn sheet_lines(text: &[u8]) -> Vec<String> {
    let text = String::from_utf8_lossy(text);
    text.lines().map(line_name).collect()
}

fn line_name(line: &str) -> String {
    let words: Vec<&str> = line.split(' ').collect();
    let told = match words[..] {
        ["loop", "refused", number, _] => format!("loop refused {number}"),
        ["loop", ..] => "loop".to_string(),
        [_, "refused", number, _] => format!("refused {number}"),
        [_, "excluded", grade] => format!("excluded {grade}"),
        [_, word @ ("rank" | "lasso"), ..] => word.to_string(),
        _ => line.to_string(),
    };
    format!("line {told}")
}
