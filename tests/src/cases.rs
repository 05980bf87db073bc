//! The cases: for each call of the archive, inputs of every kind, valid, damaged, at and past the limits, and with
//! conditions that just hold, just fail, or fail together. Those with loops of several paths stand in `path_cases`, those with
//! settlings in `settling_cases`, those with short rankings in `short_cases`, those with several certificates at once in
//! `batch_cases`.

use crate::batch_cases;
use crate::construct::{self, Built, Inequality, Style};
use crate::damage::{any_record, any_values, damage, limits};
use crate::forms::{bytes_of, certificate_shape, certificate_values, row_values, Pair};
use crate::oracle::conditions::{dot, Exclusion, Lasso};
use crate::oracle::judging::{self, Certificate};
use crate::oracle::layout::{Kind, Range, Shape, RIGHT, ROWS, STATE, VARIABLES};
use crate::oracle::record::Record;
use crate::oracle::settling::Settling;
use crate::oracle::sheet::LONGEST_INPUT;
use crate::path_cases;
use crate::random::Random;
use crate::right_sides;
use crate::settling_cases;
use crate::short_cases;

/// The room that a sheet is lent: measured by what a call with an empty room tells.
#[derive(Clone, Copy, Debug)]
pub enum SheetRoom {
    Empty,
    OneShort,
    /// Enough, and so many places more.
    Enough(usize),
}

/// What a ranking is moved to.
#[derive(Clone, Copy, Debug, PartialEq, Eq)]
pub enum Move {
    /// From kind 2 to kind 7.
    Short,
    /// From kind 7 to kind 2.
    Long,
}

impl Move {
    /// The way back.
    pub fn back(self) -> Move {
        match self {
            Move::Short => Move::Long,
            Move::Long => Move::Short,
        }
    }
}

/// One call with its input. `room` is the number of places in the list that it is lent.
#[derive(Clone, Debug)]
pub enum Case {
    ReadLoop {
        bytes: Vec<u8>,
        room: usize,
    },
    ReadCertificate {
        bytes: Vec<u8>,
        n: u64,
        m: u64,
        room: usize,
    },
    WriteRecord {
        kind: u64,
        n: u64,
        m: u64,
        values: Vec<i64>,
        room: usize,
    },
    Move {
        to: Move,
        bytes: Vec<u8>,
        n: u64,
        m: u64,
        room: usize,
    },
    /// A ranking that is moved and then moved back. The way there has room enough, the way back is lent the list.
    ThereAndBack {
        to: Move,
        bytes: Vec<u8>,
        n: u64,
        m: u64,
        room: usize,
    },
    Sheet {
        input: Vec<u8>,
        room: SheetRoom,
    },
    Judge {
        loop_bytes: Vec<u8>,
        certificate: Vec<u8>,
        room: usize,
    },
    /// A loop with two certificates, which are judged one after the other and lent the same list.
    JudgeBoth {
        loop_bytes: Vec<u8>,
        certificates: [Vec<u8>; 2],
        room: usize,
    },
    Bound {
        loop_bytes: Vec<u8>,
        certificate: Vec<u8>,
        state: Vec<i64>,
    },
    /// Records laid end to end, with so many verdict places and rank numbers.
    JudgeAll {
        loop_bytes: Vec<u8>,
        records: Vec<u8>,
        places: usize,
        numbers: usize,
    },
}

/// The case that a generator gives.
pub fn case(random: &mut Random) -> Case {
    match random.below(123) {
        0..=8 => read_loop(random),
        9..=17 => read_certificate(random),
        18..=26 => write_record(random),
        27..=32 => sheet(random),
        33..=52 => judge(random),
        53..=68 => bound(random),
        69..=83 => path_cases::case(random),
        84..=103 => settling_cases::case(random),
        104..=116 => short_cases::case(random),
        _ => batch_cases::case(random),
    }
}

pub(crate) fn some_style(random: &mut Random) -> Style {
    Style {
        entry: random.pick(&[1, 3, 9, 100, 30_000]),
        right: random.pick(&[0, 3, 20, 1000, 1_000_000, RIGHT.high]),
        ends: random.one_in(4),
        weight: random.pick(&[0, 1, 3, 9, 60_000]),
        zeros: random.pick(&[0, 3, 6, 9]),
        mirrored: random.one_in(3),
    }
}

/// n and m, mostly small, and often at their limits.
pub(crate) fn some_size(random: &mut Random) -> (usize, usize) {
    match random.below(12) {
        0..=7 => (1 + random.below(4), random.below(9)),
        8 => (random.pick(&[1, 16]), random.pick(&[0, 1, 2, 3])),
        9 => (random.pick(&[1, 2, 16]), random.pick(&[63, 64])),
        10 => (16, 64),
        _ => (1 + random.below(16), random.below(65)),
    }
}

fn some_stem_rows(random: &mut Random) -> usize {
    match random.below(10) {
        0..=7 => random.below(5),
        8 => random.pick(&[0, 63, 64]),
        _ => random.below(65),
    }
}

/// A loop with a certificate of this kind that is accepted, unless the loop has too few rows for one.
fn some_built(random: &mut Random, kind: Kind) -> Built {
    some_built_with(random, kind, 0, 0)
}

/// The same, with so many rows and stem rows at least.
fn some_built_with(random: &mut Random, kind: Kind, rows: usize, stem_rows: usize) -> Built {
    let (n, m) = some_size(random);
    let m = m.max(rows);
    let style = some_style(random);
    match kind {
        Kind::Exclusion => construct::exclusion(random, n, m, style),
        Kind::Lasso => {
            let ms = some_stem_rows(random).max(stem_rows);
            construct::lasso(random, n, m, ms, style)
        }
        Kind::Settling => construct::settling(random, n, m, style),
        _ if random.one_in(8) => construct::steep_ranking(random, n, m),
        _ => construct::ranking(random, n, m, style),
    }
}

const INEQUALITIES: [Inequality; 6] = [
    Inequality::Rise,
    Inequality::Fall,
    Inequality::Kept,
    Inequality::Start,
    Inequality::Step,
    Inequality::Direction,
];

/// Lets conditions fail: chosen ones at chosen places, an inequality by one, or what some value changed by one breaks.
fn break_conditions(random: &mut Random, built: &mut Built) {
    match random.below(8) {
        0 => change_any_value_by_one(random, &mut built.pair),
        1 => {
            let of_kind = match built.pair.certificate {
                Certificate::Ranking(_) => Inequality::Fall,
                Certificate::Exclusion(_) => random.pick(&INEQUALITIES[4..]),
                Certificate::Lasso(_) => random.pick(&INEQUALITIES[1..4]),
                Certificate::Settling(_) => random.pick(&INEQUALITIES[..2]),
            };
            construct::bring_to_edge(built, of_kind, 1);
        }
        _ => fail_conditions(random, built),
    }
}

/// Lets a condition fail, mostly the next one as well, and now and then any other. Of a lasso's ten, 43 to 46 are chosen
/// more often, since fewer lassos have the rows for them.
fn fail_conditions(random: &mut Random, built: &mut Built) {
    let (n, m) = (built.pair.n, built.pair.rows.len());
    let numbers = construct::breakable(built);
    if numbers.is_empty() {
        return;
    }
    let invariant = numbers.iter().position(|number| *number == 43);
    let chosen = match invariant {
        Some(start) if built.pivots.kept.is_some() && random.one_in(2) => start + random.below(4),
        _ => random.below(numbers.len()),
    };
    let mut failing = numbers[chosen..].to_vec();
    failing.truncate(random.pick(&[1, 2, 2]));
    if random.one_in(8) {
        failing.push(random.pick(&numbers));
    }
    for (i, number) in failing.into_iter().enumerate() {
        let last = construct::places(number, n, m) - 1;
        let place = match random.below(5) {
            0 => random.below(last + 1),
            1 => 0,
            _ if i == 0 => last,
            _ => 0,
        };
        let by = random.pick(&[1, 1, 2, 1000]);
        let by = if random.one_in(2) { by } else { -by };
        construct::fail(built, number, place, by);
    }
}

/// Changes a multiplier, a scale or an entry of the certificate by one, within its range.
pub(crate) fn change_any_value_by_one(random: &mut Random, pair: &mut Pair) {
    let lists: Vec<&mut Vec<i64>> = match &mut pair.certificate {
        Certificate::Ranking(ranking) => vec![&mut ranking.y, &mut ranking.z],
        Certificate::Exclusion(part) => vec![&mut part.u, &mut part.v, &mut part.w],
        Certificate::Lasso(Lasso {
            s, t, h, ranking, ..
        }) => {
            vec![s, t, h, &mut ranking.y, &mut ranking.z]
        }
        Certificate::Settling(Settling { g, e, ranking, .. }) => {
            vec![g, e, &mut ranking.y, &mut ranking.z]
        }
    };
    let mut lists: Vec<_> = lists.into_iter().filter(|list| !list.is_empty()).collect();
    if !lists.is_empty() {
        let chosen = random.below(lists.len());
        let list = &mut lists[chosen];
        let place = random.below(list.len());
        list[place] += if list[place] > 0 { -1 } else { 1 };
    }
}

/// A loop and a certificate, well formed: accepted, or with conditions that fail, or of any values.
pub(crate) fn some_pair(random: &mut Random, kind: Kind) -> Built {
    let many_conditions = matches!(kind, Kind::Lasso | Kind::Settling);
    let breaks = random.below(8) < if many_conditions { 3 } else { 2 };
    let mut built = match breaks && !random.one_in(5) {
        true => some_built_with(random, kind, 3, 1),
        false => some_built(random, kind),
    };
    if random.one_in(3) {
        for inequality in INEQUALITIES {
            construct::bring_to_edge(&mut built, inequality, 0);
        }
    } else {
        construct::slacken(&mut built, random);
    }
    if breaks {
        break_conditions(random, &mut built);
    } else if random.one_in(20) {
        built.pair.certificate = any_certificate(random, &built.pair);
    }
    built
}

pub(crate) fn some_certificate_kind(random: &mut Random) -> Kind {
    random.pick(&[Kind::Ranking, Kind::Exclusion, Kind::Lasso])
}

/// A certificate of any values in range for the pair's loop: a settling for a settling, otherwise of any kind but that.
fn any_certificate(random: &mut Random, pair: &Pair) -> Certificate {
    let kind = match pair.certificate {
        Certificate::Settling(_) => Kind::Settling,
        _ => some_certificate_kind(random),
    };
    let ms = if kind == Kind::Lasso {
        some_stem_rows(random)
    } else {
        0
    };
    let (n, m) = (pair.n, pair.rows.len());
    let shape = Shape { kind, n, m, ms };
    let values = any_values(random, shape);
    judging::certificate(Record { shape, values })
}

pub(crate) fn scaled(random: &mut Random, mut pair: Pair) -> Pair {
    if random.one_in(2) {
        construct::scale(&mut pair.certificate, random);
    }
    pair
}

/// The bytes of both records. One of the two, or both, may be damaged, more than once.
pub(crate) fn some_bytes(
    random: &mut Random,
    pair: &Pair,
    damaged_in: usize,
) -> (Vec<u8>, Vec<u8>) {
    let (mut looped, mut certificate) = (pair.loop_bytes(), pair.certificate_bytes());
    if random.below(10) < damaged_in {
        let which = random.below(9);
        if which <= 3 {
            damage(random, pair.loop_shape(), &mut looped);
        }
        if which >= 3 {
            damage(random, pair.certificate_shape(), &mut certificate);
        }
        if random.one_in(4) {
            damage(random, pair.certificate_shape(), &mut certificate);
        }
    }
    (looped, certificate)
}

/// Room for a count: exactly, one too few, none, or more.
pub(crate) fn some_room(random: &mut Random, count: usize) -> usize {
    match random.below(10) {
        0 => count.saturating_sub(1),
        1 => random.below(count + 1),
        2..=5 => count,
        _ => count + random.below(9),
    }
}

fn values_in(bytes: &[u8]) -> usize {
    bytes.len() / 2
}

fn read_loop(random: &mut Random) -> Case {
    let kind = some_certificate_kind(random);
    let pair = match random.one_in(2) {
        true => some_built(random, kind).pair,
        false => some_pair(random, kind).pair,
    };
    let shape = pair.loop_shape();
    let count = row_values(&pair.rows).len();
    let mut bytes = match random.below(6) {
        0 => any_record(random, shape),
        1 if random.one_in(4) => pair.certificate_bytes(),
        _ => pair.loop_bytes(),
    };
    for _ in 0..random.pick(&[0, 1, 1, 2]) {
        damage(random, shape, &mut bytes);
    }
    let room = if random.one_in(3) {
        values_in(&bytes)
    } else {
        some_room(random, count)
    };
    Case::ReadLoop { bytes, room }
}

/// n or m as a caller may give it: right, or off, or far out.
pub(crate) fn some_argument(random: &mut Random, right: usize, range: Range) -> u64 {
    let right = right as u64;
    match random.below(12) {
        0 => random.pick(&[range.low as u64, range.high as u64, range.high as u64 + 1]),
        1 => random.pick(&[0, right + 1, right.wrapping_sub(1)]),
        2 if random.one_in(3) => random.pick(&[u64::MAX, right + (1 << 16), right + (1 << 32)]),
        _ => right,
    }
}

fn read_certificate(random: &mut Random) -> Case {
    let kind = some_certificate_kind(random);
    let pair = match random.one_in(2) {
        true => some_built(random, kind).pair,
        false => some_pair(random, kind).pair,
    };
    let shape = pair.certificate_shape();
    let count = shape.fields().len();
    let mut bytes = match random.below(6) {
        0 => any_record(random, shape),
        1 if random.one_in(4) => pair.loop_bytes(),
        _ => pair.certificate_bytes(),
    };
    for _ in 0..random.pick(&[0, 0, 1, 1, 2]) {
        damage(random, shape, &mut bytes);
    }
    Case::ReadCertificate {
        n: some_argument(random, shape.n, VARIABLES),
        m: some_argument(random, shape.m, ROWS),
        room: if random.one_in(3) {
            values_in(&bytes)
        } else {
            some_room(random, count)
        },
        bytes,
    }
}

const WHOLE_I64: Range = Range {
    low: i64::MIN,
    high: i64::MAX,
};

/// Changes a value list: its length, or a value to a limit or far past it.
fn disturb(random: &mut Random, shape: Shape, values: &mut Vec<i64>) {
    match random.below(9) {
        0 => values.truncate(random.below(3)),
        1 => drop(values.pop()),
        2 => values.push(random.signed(1000)),
        3..=5 => move_right_side(random, shape, values),
        _ => {
            let fields = shape.fields();
            let place = match random.below(4) {
                0 => 0,
                _ => random.below(fields.len().max(1)),
            };
            if place < values.len() && place < fields.len() {
                let range = fields[place].range;
                let far = limits(range, WHOLE_I64);
                let near = limits(range, fields[place].form.holds());
                let off = random.pick(&[1 << 16, -(1 << 16), 1 << 32]);
                let wrapped = values[place].wrapping_add(off);
                values[place] = match random.below(3) {
                    0 => random.pick(&far),
                    1 => random.pick(&near),
                    _ => wrapped,
                };
            }
        }
    }
}

/// Moves a right side to one past an end of its range.
fn move_right_side(random: &mut Random, shape: Shape, values: &mut [i64]) {
    let rights = right_sides::indices(shape);
    if rights.is_empty() || values.len() != shape.fields().len() {
        return;
    }
    let chosen = match random.one_in(3) {
        true => rights[rights.len() - 1],
        false => random.pick(&rights),
    };
    values[chosen] = random.pick(&[RIGHT.low - 1, RIGHT.high + 1]);
}

/// The kind as a caller may give it: right, another, none, or one that is right in its lowest bytes only.
fn some_kind_number(random: &mut Random, right: u64) -> u64 {
    match random.below(20) {
        0 => random.pick(&[1, 2, 3, 4]),
        1 => random.pick(&[
            0,
            5,
            6,
            7,
            8,
            9,
            u64::MAX,
            right + (1 << 16),
            right + (1 << 32),
        ]),
        _ => right,
    }
}

fn write_record(random: &mut Random) -> Case {
    let kind = some_certificate_kind(random);
    let pair = some_built(random, kind).pair;
    let (shape, mut values) = match random.one_in(3) {
        true => (pair.loop_shape(), row_values(&pair.rows)),
        false => (
            pair.certificate_shape(),
            certificate_values(&pair.certificate),
        ),
    };
    if random.one_in(5) {
        values = any_values(random, shape);
    }
    for _ in 0..random.pick(&[0, 0, 0, 1, 2]) {
        disturb(random, shape, &mut values);
    }
    Case::WriteRecord {
        kind: some_kind_number(random, shape.kind.number()),
        n: some_argument(random, shape.n, VARIABLES),
        m: some_argument(random, shape.m, ROWS),
        room: some_room(random, 4 + shape.length()),
        values,
    }
}

fn judge(random: &mut Random) -> Case {
    let kind = some_certificate_kind(random);
    judge_kind(random, kind)
}

/// A certificate of this kind, judged.
pub(crate) fn judge_kind(random: &mut Random, kind: Kind) -> Case {
    let pair = some_pair(random, kind).pair;
    let pair = scaled(random, pair);
    let (loop_bytes, certificate) = some_bytes(random, &pair, 3);
    Case::Judge {
        loop_bytes,
        certificate,
        room: some_room(random, pair.n),
    }
}

/// State entries of one size, or at the limits.
pub(crate) fn some_state(random: &mut Random, n: usize) -> Vec<i64> {
    let size = random.pick(&[0, 1, 10, 1000, 1_000_000]);
    let at_limit = random.one_in(5);
    let mut entry = || match at_limit {
        true => random.pick(&[STATE.low, STATE.high]),
        false => random.signed(size),
    };
    (0..n).map(|_| entry()).collect()
}

/// Moves one entry so that s·x + s0 is as near above `target` as its coefficient lets it be.
fn move_to_invariant(random: &mut Random, lasso: &Lasso, state: &mut [i64]) {
    let places: Vec<usize> = (0..state.len()).filter(|&j| lasso.s[j] != 0).collect();
    if places.is_empty() {
        return;
    }
    let target = random.pick(&[-1, 0, 0, 1, 1000]);
    let place = random.pick(&places);
    state[place] = 0;
    let missing = target - (dot(&lasso.s, state) as i64 + lasso.s0);
    let coefficient = lasso.s[place];
    let least = -((-missing).div_euclid(coefficient.abs())) * coefficient.signum();
    state[place] = least.clamp(STATE.low, STATE.high);
}

/// Sets the right side of the start's pivot so that r·x - δ0 is a chosen number, near a multiple of the fall.
fn move_start(random: &mut Random, built: &mut Built, state: &[i64]) {
    let Some(pivot) = built.pivots.start else {
        return;
    };
    let (n, rows) = (built.pair.n, &mut built.pair.rows);
    let rank = match &built.pair.certificate {
        Certificate::Ranking(ranking) => ranking.judged(n, rows),
        Certificate::Lasso(lasso) => lasso.judged(n, rows),
        Certificate::Exclusion(_) | Certificate::Settling(_) => return,
    };
    let Ok(rank) = rank else { return };
    let value: i128 = rank
        .r
        .iter()
        .zip(state)
        .map(|(r, &x)| r * i128::from(x))
        .sum();
    let near = (value - rank.start).div_euclid(rank.fall);
    let falls = random.pick(&[-1, 0, 0, 1, 2, 1000, near, near + 1]);
    let multiple = rank.fall * falls;
    let start = value - multiple - i128::from(random.between(-1, 1));
    let right = i128::from(rows[pivot].right) + rank.start - start;
    if i128::from(RIGHT.low) <= right && right <= i128::from(RIGHT.high) {
        rows[pivot].right = right as i64;
    }
}

/// Lets a state be refused: of another length, or with entries at and past the limits.
pub(crate) fn spoil_state(random: &mut Random, state: &mut Vec<i64>) {
    match random.below(5) {
        0 => drop(state.pop()),
        1 => state.push(random.signed(10)),
        2 if random.one_in(4) => state.clear(),
        _ => {
            let place = random.below(state.len());
            state[place] = random.pick(&limits(STATE, WHOLE_I64));
            if random.one_in(3) {
                let place = random.below(state.len());
                state[place] = random.pick(&limits(STATE, WHOLE_I64));
            }
        }
    }
}

/// A pair and a state, brought near the edges of the invariant and of the bound.
fn pair_and_state(random: &mut Random) -> (Pair, Vec<i64>) {
    let kind = match random.below(7) {
        0..=2 => Kind::Ranking,
        3..=5 => Kind::Lasso,
        _ => Kind::Exclusion,
    };
    pair_of_kind_and_state(random, kind)
}

/// The same, with a certificate of this kind.
pub(crate) fn pair_of_kind_and_state(random: &mut Random, kind: Kind) -> (Pair, Vec<i64>) {
    let mut built = some_pair(random, kind);
    let mut state = some_state(random, built.pair.n);
    if let Certificate::Lasso(lasso) = &built.pair.certificate {
        if random.one_in(2) {
            move_to_invariant(random, lasso, &mut state);
        }
    }
    if random.one_in(3) {
        move_start(random, &mut built, &state);
    }
    (built.pair, state)
}

/// A steep ranking with a state as far up its rank as the ranges allow, where r·x has up to 60 bits.
fn steep_pair_and_far_state(random: &mut Random) -> (Pair, Vec<i64>) {
    let (n, m) = (random.pick(&[8, 16]), random.pick(&[3, 5, 31, 63]));
    let mut built = construct::steep_ranking(random, n, m);
    let size = random.between(STATE.high - 9, STATE.high);
    let upward = built.pair.rows[1].next.iter().map(|entry| entry.signum());
    let state: Vec<i64> = upward.map(|sign| sign * size).collect();
    move_start(random, &mut built, &state);
    (built.pair, state)
}

fn bound(random: &mut Random) -> Case {
    let (pair, state) = match random.below(12) {
        0 => steep_pair_and_far_state(random),
        _ => pair_and_state(random),
    };
    bound_at(random, pair, state)
}

/// The pair's bound at the state, either of which may be spoilt.
pub(crate) fn bound_at(random: &mut Random, pair: Pair, mut state: Vec<i64>) -> Case {
    if random.one_in(8) {
        spoil_state(random, &mut state);
    }
    let pair = scaled(random, pair);
    let (loop_bytes, certificate) = some_bytes(random, &pair, 3);
    Case::Bound {
        loop_bytes,
        certificate,
        state,
    }
}

/// One more certificate record for a sheet or a batch: the pair's own, scaled, another one, or a damaged one.
pub(crate) fn sheet_record(random: &mut Random, pair: &Pair) -> Vec<u8> {
    let mut certificate = match random.below(8) {
        0 => any_certificate(random, pair),
        1 => zero_exclusion(random, pair.n),
        _ => pair.certificate.clone(),
    };
    if random.one_in(3) {
        construct::scale(&mut certificate, random);
    }
    let shape = certificate_shape(&certificate, pair.n, pair.rows.len());
    let mut bytes = bytes_of(shape, &certificate_values(&certificate));
    if random.one_in(4) {
        damage(random, shape, &mut bytes);
    }
    bytes
}

/// The step from 0 to 0, which many loops have.
fn zero_exclusion(random: &mut Random, n: usize) -> Certificate {
    let zeros = vec![0; n];
    Certificate::Exclusion(Exclusion {
        q: random.pick(&[1, 2]),
        u: zeros.clone(),
        v: zeros.clone(),
        w: zeros,
    })
}

fn sheet(random: &mut Random) -> Case {
    let kind = some_certificate_kind(random);
    let pair = some_pair(random, kind).pair;
    let mut input = pair.loop_bytes();
    if random.one_in(3) {
        damage(random, pair.loop_shape(), &mut input);
    }
    match random.below(150) {
        0 => fill_sheet(random, &pair, &mut input),
        1..=7 => input.resize(LONGEST_INPUT + 1 + random.below(3), 0),
        _ => {
            for _ in 0..random.below(9) {
                input.extend(sheet_record(random, &pair));
            }
        }
    }
    match random.below(8) {
        0 => input.truncate(random.below(input.len() + 1)),
        1 => input.extend(vec![random.word() as u8; random.below(6)]),
        _ => {}
    }
    let room = match random.below(10) {
        0 => SheetRoom::Empty,
        1 => SheetRoom::OneShort,
        _ => SheetRoom::Enough(random.below(9)),
    };
    Case::Sheet { input, room }
}

/// Fills a sheet to the longest input, to one byte less, or past it.
fn fill_sheet(random: &mut Random, pair: &Pair, input: &mut Vec<u8>) {
    let length = LONGEST_INPUT + random.pick(&[0, 0, 1, 5000]) - random.below(2);
    let record = match random.one_in(2) {
        true => pair.certificate_bytes(),
        false => vec![2, 0, 0, 0, 2, 0],
    };
    while input.len() < length {
        match random.one_in(4) {
            true => input.extend(sheet_record(random, pair)),
            false => input.extend(&record),
        }
    }
    input.truncate(length);
}
