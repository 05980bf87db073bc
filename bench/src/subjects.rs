//! What is measured: each call on loops of five sizes with certificates of each kind, dense and sparse, accepted and
//! refused at several points; loops of several paths have one path to eight. Rankings also with weight in two rows alone, long
//! and short, moved to kind 7 and back; and 32 certificates at once. A tenth of the right sides lie near the ends of their range.

use crate::contenders::Contender;
use cushiedoo::raw::{Batch, Bounded, Verdict, Writing};
use second_opinion::construct::{
    self, bring_to_edge, conditions_of, fail, scale, scale_argument, spoil, Built, BuiltPaths,
    Condition, Inequality, PathSizes, Style, Wrong, NEAR,
};
use second_opinion::forms::Pair;
use second_opinion::oracle::conditions::Row;
use second_opinion::oracle::judging::Certificate;
use second_opinion::oracle::layout::RIGHT;
use second_opinion::oracle::short::{short_bytes, triples_of};
use second_opinion::random::Random;

/// The kind of certificate that is judged.
#[derive(Clone, Copy, Debug, PartialEq, Eq)]
pub enum Kind {
    Ranking,
    Exclusion,
    Lasso,
    Lexicographic,
    Short,
    Settling,
}

impl Kind {
    pub fn number(self) -> u64 {
        match self {
            Kind::Ranking => 2,
            Kind::Exclusion => 3,
            Kind::Lasso => 4,
            Kind::Lexicographic => 6,
            Kind::Short => 7,
            Kind::Settling => 8,
        }
    }
}

#[derive(Clone, Copy, Debug, PartialEq, Eq)]
pub enum Call {
    Judge,
    Bound,
    /// 32 certificates at once.
    JudgeAll,
    /// A ranking to kind 7, and a short one to kind 2.
    Shorten,
    Lengthen,
}

impl Call {
    pub fn name(self) -> &'static str {
        match self {
            Call::Judge => "judge",
            Call::Bound => "bound",
            Call::JudgeAll => "judge_all",
            Call::Shorten => "shorten",
            Call::Lengthen => "lengthen",
        }
    }
}

/// The certificates of a batch.
pub const BATCH: usize = 32;

/// How full the rows are. Multipliers are all above 0, but for those of the two or three rows that close the sums;
/// these rows are full in sparse loops too.
#[derive(Clone, Copy, Debug, PartialEq, Eq)]
pub enum Fill {
    Dense,
    /// Nine zeros in ten.
    Sparse,
    /// Rows as in dense loops, of which two alone have weight. For rankings, long and short.
    Few,
}

/// Where the answer falls.
#[derive(Clone, Copy, Debug, PartialEq, Eq)]
pub enum Answer {
    Accepted,
    /// Refused by the last condition: 24, or 32 in the last row; 53 of the last path, or 52 where it has no earlier component.
    Last,
    /// Refused by the first condition in its first column, row or path: 21, 31, 41, 51 or 61.
    First,
    /// Refused by a ranking's last equation in its last column: 23.
    Column,
    /// Refused by an exclusion's direction in the last row: 31.
    Direction,
    /// Refused by the last condition on a lasso's invariant: 46.
    Kept,
    /// Refused by the last condition on a settling's rise: 63.
    Rise,
    /// Refused before any value is looked at: the loop record's kind is that of no loop.
    Early,
}

pub const SIZES: [(usize, usize); 5] = [(1, 1), (2, 3), (4, 8), (8, 24), (16, 64)];
/// With each of the sizes, so many paths, each with as many rows and a component of its own.
const PATHS: [usize; 5] = [1, 2, 3, 4, 8];
const KINDS: [Kind; 5] = [
    Kind::Ranking,
    Kind::Exclusion,
    Kind::Lasso,
    Kind::Short,
    Kind::Settling,
];

/// How full the rows and multipliers of a kind are. With one row no ranking has weight in two.
fn fills(kind: Kind, m: usize) -> &'static [Fill] {
    match kind {
        Kind::Ranking if m > 1 => &[Fill::Dense, Fill::Sparse, Fill::Few],
        Kind::Short if m > 1 => &[Fill::Dense, Fill::Few],
        Kind::Short => &[Fill::Dense],
        _ => &[Fill::Dense, Fill::Sparse],
    }
}

/// What is measured of a kind; one refusal is of this kind alone.
fn answers(kind: Kind) -> [Answer; 5] {
    let own = match kind {
        Kind::Exclusion => Answer::Direction,
        Kind::Lasso => Answer::Kept,
        Kind::Settling => Answer::Rise,
        _ => Answer::Column,
    };
    [
        Answer::Accepted,
        Answer::Last,
        Answer::First,
        own,
        Answer::Early,
    ]
}

/// One input that every contender answers.
#[derive(Clone, Debug)]
pub struct Subject {
    pub call: Call,
    pub kind: Kind,
    pub n: usize,
    /// The rows, of each path if there are several.
    pub m: usize,
    pub paths: usize,
    pub fill: Fill,
    pub answer: Answer,
    /// The loop; a ranking is moved without it.
    pub looped: Vec<u8>,
    /// The certificate, or those of a batch end to end.
    pub certificate: Vec<u8>,
    pub state: Vec<i64>,
}

/// What a call answers, with what it was lent afterwards.
#[derive(Clone, Debug, PartialEq, Eq)]
pub enum Told {
    Judged(Verdict, [i64; 16]),
    Bounded(Bounded),
    Batch(Batch, Vec<Verdict>, Vec<i64>),
    Written(Writing, Vec<u8>),
}

impl Told {
    pub fn number_and_place(&self) -> (u64, u64) {
        match self {
            Told::Judged(verdict, _) => (verdict.number, verdict.place),
            Told::Bounded(bounded) => (bounded.number, bounded.place),
            Told::Batch(batch, ..) => (batch.number, batch.place),
            Told::Written(writing, _) => (writing.number, writing.place),
        }
    }
}

impl Subject {
    /// A name by which a subject is chosen, such as `judge-2-16x64-dense-accepted` or `judge-6-16x8x64-dense-last`.
    pub fn name(&self) -> String {
        let size = match self.kind {
            Kind::Lexicographic => paths_size_name(self.n, self.paths, self.m),
            _ => size_name(self.n, self.m),
        };
        let name = format!(
            "{}-{}-{size}-{:?}-{:?}",
            self.call.name(),
            self.kind.number(),
            self.fill,
            self.answer
        );
        name.to_lowercase()
    }

    /// The size as the tables have it: n and the rows, or so many paths of so many rows.
    pub fn size(&self) -> String {
        match self.kind {
            Kind::Lexicographic => format!("{}, {} of {}", self.n, self.paths, self.m),
            _ => format!("{}, {}", self.n, self.m),
        }
    }

    /// Whether the subject is of this call, kind, fill and answer.
    pub fn is(&self, wanted: (Call, Kind, Fill, Answer)) -> bool {
        (self.call, self.kind, self.fill, self.answer) == wanted
    }

    /// The bytes of both records.
    pub fn bytes(&self) -> usize {
        self.looped.len() + self.certificate.len()
    }

    /// One call.
    pub fn ask(&self, contender: Contender) -> Told {
        match self.call {
            Call::Judge => {
                let mut rank = [77; 16];
                let verdict = contender.judge(&self.looped, &self.certificate, &mut rank);
                Told::Judged(verdict, rank)
            }
            Call::Bound => {
                Told::Bounded(contender.bound(&self.looped, &self.certificate, &self.state))
            }
            Call::JudgeAll => {
                let mut verdicts = vec![Verdict::default(); BATCH];
                let mut ranks = vec![77; BATCH * self.n];
                let (looped, records) = (&self.looped, &self.certificate);
                let batch = contender.judge_all(looped, records, &mut verdicts, &mut ranks);
                Told::Batch(batch, verdicts, ranks)
            }
            Call::Shorten | Call::Lengthen => {
                let mut room = vec![77; ROOM];
                let (n, m) = (self.n as u64, self.m as u64);
                let writing = match self.call {
                    Call::Shorten => contender.shorten(&self.certificate, n, m, &mut room),
                    _ => contender.lengthen(&self.certificate, n, m, &mut room),
                };
                Told::Written(writing, room)
            }
        }
    }

    /// The refusal number and the place that the answer must have.
    pub fn wanted(&self) -> (u64, u64) {
        let (last_column, last_row) = (self.n as u64 - 1, self.m as u64 - 1);
        match (self.answer, self.kind) {
            (Answer::Accepted, _) => (0, 0),
            (Answer::Last, Kind::Lexicographic) if self.paths == 1 => (52, 0),
            (Answer::Last, Kind::Lexicographic) => (53, self.paths as u64 - 1),
            (Answer::First, Kind::Lexicographic) => (51, 0),
            (Answer::Last, Kind::Exclusion) => (32, last_row),
            (Answer::Last, _) => (24, 0),
            (Answer::First, Kind::Exclusion) => (31, 0),
            (Answer::First, Kind::Lasso) if self.m > 1 => (41, 0),
            (Answer::First, Kind::Settling) => (61, 0),
            (Answer::First, _) => (21, 0),
            (Answer::Column, _) => (23, last_column),
            (Answer::Direction, _) => (31, last_row),
            (Answer::Kept, _) => (46, 0),
            (Answer::Rise, _) => (63, 0),
            (Answer::Early, _) => (4, 4),
        }
    }
}

/// Room enough for every ranking, long or short.
pub const ROOM: usize = 400;

/// Whether the subject of this name is of this call, kind and size. Without a name every subject is.
fn is_of(name: &str, call: Call, kind: Kind, size: &str) -> bool {
    let front = format!("{}-{}-{size}-", call.name(), kind.number());
    name.is_empty() || name.starts_with(&front)
}

fn size_name(n: usize, m: usize) -> String {
    format!("{n}x{m}")
}

fn paths_size_name(n: usize, paths: usize, m: usize) -> String {
    format!("{n}x{paths}x{m}")
}

/// Every subject, in the order of the tables; with a name, those of its call, kind and size alone.
pub fn subjects(name: &str) -> Vec<Subject> {
    let mut subjects = Vec::new();
    for call in [Call::Judge, Call::Bound] {
        for kind in KINDS {
            if (call, kind) == (Call::Bound, Kind::Exclusion) {
                continue;
            }
            for (n, m) in SIZES {
                if !is_of(name, call, kind, &size_name(n, m)) {
                    continue;
                }
                for &fill in fills(kind, m) {
                    let built = build(kind, n, m, fill);
                    let subject = |&answer| subject(&built, kind, call, fill, answer);
                    subjects.extend(answers(kind).iter().map(subject));
                }
            }
        }
    }
    subjects.extend(moved_subjects(name));
    subjects.extend(path_subjects(name));
    subjects.extend(batch_subjects(name));
    subjects
}

/// Rankings moved to kind 7, and short ones moved back.
fn moved_subjects(name: &str) -> Vec<Subject> {
    let mut subjects = Vec::new();
    for (call, kind) in [
        (Call::Shorten, Kind::Ranking),
        (Call::Lengthen, Kind::Short),
    ] {
        for (n, m) in SIZES {
            if !is_of(name, call, kind, &size_name(n, m)) {
                continue;
            }
            for &fill in fills(Kind::Short, m) {
                let built = build(kind, n, m, fill);
                subjects.push(Subject {
                    looped: Vec::new(),
                    ..subject(&built, kind, call, fill, Answer::Accepted)
                });
            }
        }
    }
    subjects
}

/// 32 certificates at once of each kind, all accepted, each multiplied by factors of its own.
fn batch_subjects(name: &str) -> Vec<Subject> {
    let mut subjects = Vec::new();
    for kind in KINDS {
        for (n, m) in SIZES {
            if !is_of(name, Call::JudgeAll, kind, &size_name(n, m)) {
                continue;
            }
            let random = &mut Random::new(1);
            let fill = match kind {
                Kind::Short if m > 1 => Fill::Few,
                _ => Fill::Dense,
            };
            let built = build(kind, n, m, fill);
            let records: Vec<Vec<u8>> = (0..BATCH)
                .map(|_| {
                    let mut pair = built.pair.clone();
                    scale(&mut pair.certificate, random);
                    certificate_bytes(&pair, kind)
                })
                .collect();
            subjects.push(Subject {
                certificate: records.concat(),
                ..subject(&built, kind, Call::JudgeAll, fill, Answer::Accepted)
            });
        }
    }
    for ((n, m), paths) in SIZES.into_iter().zip(PATHS) {
        let size = paths_size_name(n, paths, m);
        if !is_of(name, Call::JudgeAll, Kind::Lexicographic, &size) {
            continue;
        }
        let random = &mut Random::new(1);
        let built = build_paths(n, paths, m, Fill::Dense);
        let records: Vec<Vec<u8>> = (0..BATCH)
            .map(|_| {
                let mut pair = built.pair.clone();
                scale_argument(&mut pair.argument, random);
                pair.certificate_bytes()
            })
            .collect();
        subjects.push(Subject {
            call: Call::JudgeAll,
            certificate: records.concat(),
            ..path_subject(&built, Fill::Dense, Answer::Accepted)
        });
    }
    subjects
}

fn path_subjects(name: &str) -> Vec<Subject> {
    let mut subjects = Vec::new();
    for ((n, m), paths) in SIZES.into_iter().zip(PATHS) {
        let size = paths_size_name(n, paths, m);
        if !is_of(name, Call::Judge, Kind::Lexicographic, &size) {
            continue;
        }
        for fill in [Fill::Dense, Fill::Sparse] {
            let built = build_paths(n, paths, m, fill);
            let subject = |answer| path_subject(&built, fill, answer);
            subjects.extend([Answer::Accepted, Answer::Last, Answer::First].map(subject));
        }
    }
    subjects
}

/// A subject with a loop of several paths, which only judging takes.
fn path_subject(built: &BuiltPaths, fill: Fill, answer: Answer) -> Subject {
    let mut built = built.clone();
    let paths = built.pivots.len();
    let n = built.pair.branches.n;
    match answer {
        Answer::First => fail_bounded(&mut built),
        Answer::Last => {
            let number = built.pair.argument.parts[paths - 1].component;
            let conditions = conditions_of(number);
            let last = conditions[conditions.len() - 1];
            spoil(&mut built, paths - 1, last, Wrong::Next(n - 1, 1));
        }
        _ => {}
    }
    let pair = &built.pair;
    Subject {
        call: Call::Judge,
        kind: Kind::Lexicographic,
        n,
        m: pair.branches.paths[0].len(),
        paths,
        fill,
        answer,
        looped: pair.loop_bytes(),
        certificate: pair.certificate_bytes(),
        state: Vec::new(),
    }
}

/// Lets the first path's own component not be bounded: by the first column, or where no row has weight by its start.
fn fail_bounded(built: &mut BuiltPaths) {
    let before = built.pair.branches.clone();
    spoil(built, 0, Condition::Bounded, Wrong::Now(0, 1));
    if built.pair.branches == before {
        let number = built.pair.argument.parts[0].component;
        built.pair.argument.components[number].start = 1;
    }
}

/// An accepted argument with a component for each path, in which no weight had to be dropped. Of every tenth row the right
/// side lies at the lower end of its range, by which no sum of right sides gets larger.
fn build_paths(n: usize, paths: usize, m: usize, fill: Fill) -> BuiltPaths {
    let sizes = PathSizes {
        n,
        components: paths,
        paths: (0..paths).map(|number| (m, number)).collect(),
    };
    let candidates = (0..).map(|seed| {
        let random = &mut Random::new(seed);
        construct::lexicographic(random, &sizes, style(fill))
    });
    let mut fitting = candidates.filter(|built| paths_fit(built, m));
    let mut built = fitting.next().expect("one of the seeds fits");
    for rows in &mut built.pair.branches.paths {
        let tenth = rows.iter_mut().step_by(10);
        tenth.for_each(|row| row.right = RIGHT.low);
    }
    built
}

/// Whether each path has as many rows as were asked for, and each list weight on all rows but those that close the others.
fn paths_fit(built: &BuiltPaths, m: usize) -> bool {
    let argument = &built.pair.argument;
    let weighty = |list: &[i64]| list.iter().filter(|weight| **weight != 0).count();
    argument
        .parts
        .iter()
        .zip(&built.pivots)
        .all(|(part, pivots)| {
            let lists = [
                &[part.bounded.clone(), part.ranking.clone()][..],
                &part.unaffecting,
            ]
            .concat();
            let full = |list: &Vec<i64>| list.len() == m && weighty(list) + lists.len() == m + 1;
            m == 1 && pivots.len() == 1 || lists.iter().all(full)
        })
}

/// The bytes of a pair's certificate; those of a ranking as a short one, if that is its kind.
fn certificate_bytes(pair: &Pair, kind: Kind) -> Vec<u8> {
    match &pair.certificate {
        Certificate::Ranking(ranking) if kind == Kind::Short => short_bytes(&triples_of(ranking)),
        _ => pair.certificate_bytes(),
    }
}

fn subject(built: &Built, kind: Kind, call: Call, fill: Fill, answer: Answer) -> Subject {
    let mut built = built.clone();
    match answer {
        Answer::Accepted | Answer::Early => {}
        Answer::Last => fail_last(&mut built),
        Answer::First => fail_first(&mut built),
        Answer::Column => fail_column(&mut built),
        Answer::Direction => fail_direction(&mut built),
        Answer::Kept => fail_kept(&mut built),
        Answer::Rise => fail_rise(&mut built),
    }
    let pair = &built.pair;
    let mut looped = pair.loop_bytes();
    if answer == Answer::Early {
        looped[4] = 0;
    }
    Subject {
        call,
        kind,
        n: pair.n,
        m: pair.rows.len(),
        paths: 1,
        fill,
        answer,
        looped,
        certificate: certificate_bytes(pair, kind),
        state: state_for(pair.n, &pair.certificate),
    }
}

/// A state that a lasso's invariant lets through; of a settling one below its threshold.
fn state_for(n: usize, certificate: &Certificate) -> Vec<i64> {
    match certificate {
        Certificate::Lasso(lasso) => lasso.s.iter().map(|s| 100 * s.signum()).collect(),
        Certificate::Settling(settling) => settling.g.iter().map(|g| -100 * g.signum()).collect(),
        _ => (0..n as i64).map(|j| 100 - 7 * j).collect(),
    }
}

fn style(fill: Fill) -> Style {
    Style {
        entry: 9,
        right: SMALL,
        ends: false,
        weight: if fill == Fill::Few { 0 } else { 9 },
        zeros: if fill == Fill::Sparse { 9 } else { 0 },
        mirrored: false,
    }
}

/// An accepted pair in which no weight had to be dropped. A lasso's stem has as many rows as the loop. A short ranking's pair is
/// that of the ranking which it stands for.
fn build(kind: Kind, n: usize, m: usize, fill: Fill) -> Built {
    let style = style(fill);
    let candidates = (0..).map(|seed| {
        let random = &mut Random::new(seed);
        match kind {
            Kind::Exclusion => construct::exclusion(random, n, m, style),
            Kind::Lasso => construct::lasso(random, n, m, m, style),
            Kind::Settling => construct::settling(random, n, m, style),
            _ => construct::ranking(random, n, m, style),
        }
    });
    let mut fitting = candidates.filter(|built| fits(built, m, fill));
    let mut built = fitting.next().expect("one of the seeds fits");
    spread(&mut built);
    built
}

/// The largest right side that is drawn.
const SMALL: i64 = 20;

/// Moves the right sides of a tenth of the rows at least, of a loop and of a stem, near the ends of their range. No sum
/// of right sides that a condition compares gets larger by it. An exclusion's rows allow the upper end only.
fn spread(built: &mut Built) {
    let Built { pair, pivots } = built;
    let rows = &mut pair.rows;
    let lower = |rows: &mut [Row], pivot: Option<usize>| {
        if let Some(row) = pivot {
            rows[row].right = RIGHT.low;
        }
    };
    match &mut pair.certificate {
        Certificate::Exclusion(_) => {
            let tenth = rows.iter_mut().step_by(10);
            tenth.for_each(|row| row.right = RIGHT.high);
        }
        Certificate::Ranking(ranking) => {
            lower(rows, pivots.fall);
            spread_rows(rows, &[&ranking.z]);
        }
        Certificate::Lasso(lasso) => {
            lower(rows, pivots.fall);
            lower(rows, pivots.kept);
            spread_rows(rows, &[&lasso.ranking.z, &lasso.h]);
            lower(&mut lasso.stem, pivots.stem);
            spread_rows(&mut lasso.stem, &[&lasso.t]);
        }
        Certificate::Settling(settling) => {
            lower(rows, pivots.fall.or(Some(0)));
            lower(rows, pivots.kept);
            spread_rows(rows, &[&settling.ranking.z, &settling.e]);
        }
    }
}

fn near_an_end(row: &Row) -> bool {
    RIGHT.high - row.right.abs() <= NEAR
}

/// Moves right sides until a tenth of them lie near an end: of a row without weight alone, of two rows with the same
/// weights to either end, so that the weighted sums stay.
fn spread_rows(rows: &mut [Row], weights: &[&[i64]]) {
    let wanted = rows.len().div_ceil(10);
    let weightless = |i: usize| weights.iter().all(|list| list[i] == 0);
    let alike = |i: usize, j: usize| weights.iter().all(|list| list[i] == list[j]);
    for i in 0..rows.len() {
        let near = rows.iter().filter(|row| near_an_end(row)).count();
        if near >= wanted || near_an_end(&rows[i]) {
            continue;
        }
        let other = (i + 1..rows.len()).find(|&j| alike(i, j) && !near_an_end(&rows[j]));
        if weightless(i) {
            rows[i].right = RIGHT.high;
        } else if let Some(j) = other {
            rows[i].right += RIGHT.high - SMALL;
            rows[j].right -= RIGHT.high - SMALL;
        }
    }
}

fn fits(built: &Built, m: usize, fill: Fill) -> bool {
    let weighty = |list: &[i64]| list.iter().filter(|weight| **weight != 0).count();
    let pivots = &built.pivots;
    match &built.pair.certificate {
        Certificate::Ranking(ranking) if fill == Fill::Few => {
            (weighty(&ranking.y), weighty(&ranking.z)) == (1, 1)
        }
        Certificate::Ranking(ranking) => m == 1 || weighty(&ranking.y) + 1 == m,
        Certificate::Exclusion(exclusion) => {
            exclusion.q == 1 && exclusion.v.iter().all(|v| (1..=9).contains(&v.abs()))
        }
        Certificate::Lasso(_) if m == 1 => pivots.fall.is_some(),
        Certificate::Lasso(lasso) => {
            let start_is_due = m > 2;
            pivots.kept.is_some()
                && pivots.start.is_some() == start_is_due
                && weighty(&lasso.t) == m
                && weighty(&lasso.h) + if start_is_due { 2 } else { 1 } == m
                && (m < 4 || weighty(&lasso.ranking.y[..m]) + 2 == m)
        }
        Certificate::Settling(_) if m == 1 => true,
        Certificate::Settling(settling) => {
            let start_is_due = m > 2;
            pivots.kept.is_some()
                && pivots.start.is_some() == start_is_due
                && weighty(&settling.g) > 0
                && weighty(&settling.e) + if start_is_due { 2 } else { 1 } == m
                && (m < 4 || weighty(&settling.ranking.y[..m]) + 2 == m)
        }
    }
}

fn fail_last(built: &mut Built) {
    if let Certificate::Settling(settling) = &mut built.pair.certificate {
        // a row that no step meets is the only one: without it nothing falls
        if built.pivots.fall.is_none() {
            settling.ranking.z.fill(0);
        }
    }
    bring_to_edge(built, Inequality::Fall, 1);
    bring_to_edge(built, Inequality::Step, 1);
}

/// Lets the first condition of the kind fail in its first column or row.
fn fail_first(built: &mut Built) {
    let rows = &mut built.pair.rows;
    match &mut built.pair.certificate {
        Certificate::Ranking(ranking) => raise_next(rows, &ranking.y),
        Certificate::Exclusion(exclusion) => {
            rows[0].now = exclusion.v.iter().map(|v| v.signum()).collect();
            rows[0].next.fill(0);
        }
        Certificate::Lasso(lasso) => match lasso.t.iter().position(|weight| *weight != 0) {
            Some(row) => lasso.stem[row].now[0] += 1,
            None => raise_next(rows, &lasso.ranking.y),
        },
        Certificate::Settling(_) => rows[built.pivots.kept.unwrap_or(0)].now[0] += 1,
    }
}

/// Lets Z(A + A') = 0 fail in the last column alone. A row that is the only one gets the same weight in Y and Z.
fn fail_column(built: &mut Built) {
    let last = built.pair.n - 1;
    match &mut built.pair.certificate {
        Certificate::Ranking(ranking) if ranking.y.len() == 1 => {
            ranking.y[0] = ranking.z[0];
            built.pair.rows[0].now[last] += 1;
        }
        _ => fail(built, 23, last, 1),
    }
}

/// Lets the direction leave the last row, and no other.
fn fail_direction(built: &mut Built) {
    let last = built.pair.rows.len() - 1;
    fail(built, 31, last, 1);
}

/// Lets the invariant not be kept by its right sides. Without a row of its own it leans on h0.
fn fail_kept(built: &mut Built) {
    match &mut built.pair.certificate {
        Certificate::Lasso(lasso) if built.pivots.kept.is_none() => {
            lasso.s0 = lasso.s0.max(1);
            lasso.h0 = lasso.k2 + 1;
        }
        _ => fail(built, 46, 0, 1),
    }
}

/// Lets g·x not rise by the right sides.
fn fail_rise(built: &mut Built) {
    match built.pivots.kept {
        Some(_) => fail(built, 63, 0, 1),
        None => built.pair.rows[0].right = 0,
    }
}

/// Raises the first entry of A' in a row with weight, so that YA' is not 0.
fn raise_next(rows: &mut [Row], y: &[i64]) {
    let weighty = y.iter().position(|weight| *weight != 0);
    rows[weighty.expect("some multiplier is above 0")].next[0] += 1;
}

#[cfg(test)]
mod tests {
    use super::*;

    #[test]
    fn a_tenth_of_the_rows_have_right_sides_near_an_end() {
        for kind in KINDS {
            for (n, m) in SIZES {
                for &fill in fills(kind, m) {
                    let built = build(kind, n, m, fill);
                    let enough = |rows: &[Row]| {
                        let near = rows.iter().filter(|row| near_an_end(row)).count();
                        near * 10 >= rows.len()
                    };
                    assert!(enough(&built.pair.rows), "{built:?}");
                    if let Certificate::Lasso(lasso) = &built.pair.certificate {
                        assert!(enough(&lasso.stem), "{built:?}");
                    }
                }
            }
        }
    }

    #[test]
    fn a_tenth_of_the_rows_of_each_path_have_right_sides_near_an_end() {
        for ((n, m), paths) in SIZES.into_iter().zip(PATHS) {
            for fill in [Fill::Dense, Fill::Sparse] {
                let branches = build_paths(n, paths, m, fill).pair.branches;
                assert_eq!(branches.paths.len(), paths);
                for rows in branches.paths {
                    assert_eq!(rows.len(), m);
                    let near = rows.iter().filter(|row| near_an_end(row)).count();
                    assert!(near * 10 >= m, "{rows:?}");
                }
            }
        }
    }
}
