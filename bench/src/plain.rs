//! The plain Rust implementation that the archive is measured against. It parses once into fixed arrays, allocates
//! nothing, stops at the first fault, and then computes; there is no trick in it. Numbers are held as i64, the type of
//! the value lists. It answers as the archive does.

use cushiedoo::raw::{Batch, Bounded, Verdict, Writing};
use std::array;

const MOST_VARIABLES: usize = 16;
const MOST_ROWS: usize = 64;
const MOST_PATHS: usize = 8;
const MOST_COMPONENTS: usize = 8;
const MOST_RECORDS: usize = 32;
/// Bounded, ranking, and unaffecting for each component before the last.
const MOST_LISTS: usize = 2 + MOST_COMPONENTS - 1;
/// The largest b, d, s0 and t, either way.
const MOST_RIGHT: i64 = 2_000_000_000;
/// The largest entry of a state, either way.
const MOST_STATE: i64 = 1_000_000;

/// A refusal's number and place.
type Fault = (u64, u64);
/// A refusal's number, its place and the record that it speaks of.
type Refused = (u64, u64, u64);

/// Rows in fixed arrays.
struct Rows {
    count: usize,
    now: [[i64; MOST_VARIABLES]; MOST_ROWS],
    next: [[i64; MOST_VARIABLES]; MOST_ROWS],
    right: [i64; MOST_ROWS],
}

impl Rows {
    const NONE: Rows = Rows {
        count: 0,
        now: [[0; MOST_VARIABLES]; MOST_ROWS],
        next: [[0; MOST_VARIABLES]; MOST_ROWS],
        right: [0; MOST_ROWS],
    };
}

/// Multipliers in a fixed array; a lasso and a settling have one more than there are rows.
type Multipliers = [i64; MOST_ROWS + 1];
type Entries = [i64; MOST_VARIABLES];

const NO_MULTIPLIERS: Multipliers = [0; MOST_ROWS + 1];
const NO_ENTRIES: Entries = [0; MOST_VARIABLES];

/// Takes numbers from bytes one after another; the length was tested before.
struct Cursor<'a> {
    bytes: &'a [u8],
    place: usize,
}

impl Cursor<'_> {
    fn checked(&mut self, value: i64, width: usize, low: i64, high: i64) -> Result<i64, Fault> {
        if value < low || value > high {
            return Err((6, self.place as u64));
        }
        self.place += width;
        Ok(value)
    }

    fn u16(&mut self, low: i64, high: i64) -> Result<i64, Fault> {
        let at = &self.bytes[self.place..self.place + 2];
        let value = u16::from_le_bytes([at[0], at[1]]);
        self.checked(value.into(), 2, low, high)
    }

    fn entry(&mut self) -> Result<i64, Fault> {
        let at = &self.bytes[self.place..self.place + 2];
        let value = i16::from_le_bytes([at[0], at[1]]);
        self.checked(value.into(), 2, -30_000, 30_000)
    }

    fn i32(&mut self, size: i64) -> Result<i64, Fault> {
        let at = &self.bytes[self.place..self.place + 4];
        let value = i32::from_le_bytes([at[0], at[1], at[2], at[3]]);
        self.checked(value.into(), 4, -size, size)
    }

    fn fall(&mut self) -> Result<i64, Fault> {
        let at = &self.bytes[self.place..self.place + 4];
        let value = i32::from_le_bytes([at[0], at[1], at[2], at[3]]);
        self.checked(value.into(), 4, 1, 1_000_000)
    }

    fn scale(&mut self) -> Result<i64, Fault> {
        self.u16(1, 60_000)
    }

    fn multipliers(&mut self, list: &mut [i64]) -> Result<(), Fault> {
        for multiplier in list {
            *multiplier = self.u16(0, 60_000)?;
        }
        Ok(())
    }

    fn entries(&mut self, list: &mut [i64]) -> Result<(), Fault> {
        for entry in list {
            *entry = self.entry()?;
        }
        Ok(())
    }

    fn directions(&mut self, list: &mut [i64]) -> Result<(), Fault> {
        for entry in list {
            *entry = self.i32(60_000)?;
        }
        Ok(())
    }

    fn rows(&mut self, rows: &mut Rows, n: usize, count: usize) -> Result<(), Fault> {
        rows.count = count;
        for i in 0..count {
            self.entries(&mut rows.now[i][..n])?;
            self.entries(&mut rows.next[i][..n])?;
            rows.right[i] = self.i32(MOST_RIGHT)?;
        }
        Ok(())
    }
}

fn u16_at(bytes: &[u8], place: usize) -> usize {
    u16::from_le_bytes([bytes[place], bytes[place + 1]]).into()
}

/// The record's kind, once its bytes are as many as it states.
fn framed_kind(bytes: &[u8]) -> Result<usize, Fault> {
    let count = bytes.len() as u64;
    if count < 4 {
        return Err((1, count));
    }
    let length = u64::from(u32::from_le_bytes([bytes[0], bytes[1], bytes[2], bytes[3]]));
    if length < 2 {
        return Err((3, 0));
    }
    if count < 4 + length {
        return Err((1, count));
    }
    if count > 4 + length {
        return Err((2, 4 + length));
    }
    Ok(u16_at(bytes, 4))
}

/// The loop's n and m, once its length is that of its counts.
fn loop_counts(bytes: &[u8]) -> Result<(usize, usize), Fault> {
    if framed_kind(bytes)? != 1 {
        return Err((4, 4));
    }
    if bytes.len() < 10 {
        return Err((3, 0));
    }
    let (n, m) = (u16_at(bytes, 6), u16_at(bytes, 8));
    if !(1..=MOST_VARIABLES).contains(&n) {
        return Err((5, 6));
    }
    if m > MOST_ROWS {
        return Err((5, 8));
    }
    if bytes.len() != 10 + m * (4 * n + 4) {
        return Err((3, 0));
    }
    Ok((n, m))
}

fn parse_loop(bytes: &[u8], rows: &mut Rows, n: usize, m: usize) -> Result<(), Fault> {
    Cursor { bytes, place: 10 }.rows(rows, n, m)
}

struct Ranking {
    y: Multipliers,
    z: Multipliers,
}

fn parse_ranking(bytes: &[u8], m: usize) -> Result<Ranking, Fault> {
    if bytes.len() != 6 + 4 * m {
        return Err((3, 0));
    }
    let mut ranking = Ranking {
        y: NO_MULTIPLIERS,
        z: NO_MULTIPLIERS,
    };
    let mut cursor = Cursor { bytes, place: 6 };
    cursor.multipliers(&mut ranking.y[..m])?;
    cursor.multipliers(&mut ranking.z[..m])?;
    Ok(ranking)
}

/// A short ranking: rows that it does not name have no weight.
fn parse_short(bytes: &[u8], m: usize) -> Result<Ranking, Fault> {
    if bytes.len() < 8 {
        return Err((3, 0));
    }
    let count = u16_at(bytes, 6);
    if count > MOST_ROWS {
        return Err((5, 6));
    }
    if bytes.len() != 8 + 6 * count {
        return Err((3, 0));
    }
    let mut least = 0;
    for place in (8..bytes.len()).step_by(6) {
        let row = u16_at(bytes, place);
        if row < least || row >= m {
            return Err((15, place as u64));
        }
        if bytes[place + 2..place + 6] == [0; 4] {
            return Err((16, place as u64));
        }
        least = row + 1;
    }
    let mut ranking = Ranking {
        y: NO_MULTIPLIERS,
        z: NO_MULTIPLIERS,
    };
    let mut cursor = Cursor { bytes, place: 8 };
    while cursor.place < bytes.len() {
        let row = u16_at(bytes, cursor.place);
        cursor.place += 2;
        ranking.y[row] = cursor.u16(0, 60_000)?;
        ranking.z[row] = cursor.u16(0, 60_000)?;
    }
    Ok(ranking)
}

struct Exclusion {
    q: i64,
    u: Entries,
    v: Entries,
    w: Entries,
}

fn parse_exclusion(bytes: &[u8], n: usize) -> Result<Exclusion, Fault> {
    if bytes.len() != 8 + 12 * n {
        return Err((3, 0));
    }
    let mut cursor = Cursor { bytes, place: 6 };
    let mut exclusion = Exclusion {
        q: cursor.scale()?,
        u: NO_ENTRIES,
        v: NO_ENTRIES,
        w: NO_ENTRIES,
    };
    cursor.directions(&mut exclusion.u[..n])?;
    cursor.directions(&mut exclusion.v[..n])?;
    cursor.directions(&mut exclusion.w[..n])?;
    Ok(exclusion)
}

struct Lasso {
    stem: Rows,
    s: Entries,
    s0: i64,
    k: i64,
    t: Multipliers,
    k2: i64,
    h: Multipliers,
    h0: i64,
    ranking: Ranking,
}

impl Lasso {
    const NONE: Lasso = Lasso {
        stem: Rows::NONE,
        s: NO_ENTRIES,
        s0: 0,
        k: 0,
        t: NO_MULTIPLIERS,
        k2: 0,
        h: NO_MULTIPLIERS,
        h0: 0,
        ranking: Ranking {
            y: NO_MULTIPLIERS,
            z: NO_MULTIPLIERS,
        },
    };

    fn parse(&mut self, bytes: &[u8], n: usize, m: usize) -> Result<(), Fault> {
        if bytes.len() < 8 {
            return Err((3, 0));
        }
        let ms = u16_at(bytes, 6);
        if ms > MOST_ROWS {
            return Err((5, 6));
        }
        if bytes.len() != 22 + 2 * n + ms * (4 * n + 6) + 6 * m {
            return Err((3, 0));
        }
        let mut cursor = Cursor { bytes, place: 8 };
        cursor.rows(&mut self.stem, n, ms)?;
        cursor.entries(&mut self.s[..n])?;
        self.s0 = cursor.i32(MOST_RIGHT)?;
        self.k = cursor.scale()?;
        cursor.multipliers(&mut self.t[..ms])?;
        self.k2 = cursor.scale()?;
        cursor.multipliers(&mut self.h[..m])?;
        self.h0 = cursor.u16(0, 60_000)?;
        cursor.multipliers(&mut self.ranking.y[..m + 1])?;
        cursor.multipliers(&mut self.ranking.z[..m + 1])
    }
}

struct Settling {
    g: Entries,
    t: i64,
    k: i64,
    e: Multipliers,
    ranking: Ranking,
}

fn parse_settling(bytes: &[u8], n: usize, m: usize) -> Result<Settling, Fault> {
    if bytes.len() != 16 + 2 * n + 6 * m {
        return Err((3, 0));
    }
    let mut settling = Settling {
        g: NO_ENTRIES,
        t: 0,
        k: 0,
        e: NO_MULTIPLIERS,
        ranking: Ranking {
            y: NO_MULTIPLIERS,
            z: NO_MULTIPLIERS,
        },
    };
    let mut cursor = Cursor { bytes, place: 6 };
    cursor.entries(&mut settling.g[..n])?;
    settling.t = cursor.i32(MOST_RIGHT)?;
    settling.k = cursor.scale()?;
    cursor.multipliers(&mut settling.e[..m])?;
    cursor.multipliers(&mut settling.ranking.y[..m + 1])?;
    cursor.multipliers(&mut settling.ranking.z[..m + 1])?;
    Ok(settling)
}

/// A loop of several paths; only as many arrays are cleared as it has paths.
struct Branches {
    n: usize,
    count: usize,
    rows: [Option<Rows>; MOST_PATHS],
}

/// n, the rows of each path and how many paths there are, once the loop's length is that of its counts.
fn path_counts(bytes: &[u8]) -> Result<(usize, [usize; MOST_PATHS], usize), Fault> {
    framed_kind(bytes)?;
    if bytes.len() < 10 {
        return Err((3, 0));
    }
    let (n, count) = (u16_at(bytes, 6), u16_at(bytes, 8));
    if !(1..=MOST_VARIABLES).contains(&n) {
        return Err((5, 6));
    }
    if !(1..=MOST_PATHS).contains(&count) {
        return Err((5, 8));
    }
    if bytes.len() < 10 + 2 * count {
        return Err((3, 0));
    }
    let mut rows = [0; MOST_PATHS];
    for (path, m) in rows[..count].iter_mut().enumerate() {
        *m = u16_at(bytes, 10 + 2 * path);
        if *m > MOST_ROWS {
            return Err((5, 10 + 2 * path as u64));
        }
    }
    let all: usize = rows.iter().sum();
    if bytes.len() != 10 + 2 * count + all * (4 * n + 4) {
        return Err((3, 0));
    }
    Ok((n, rows, count))
}

impl Branches {
    fn parse(&mut self, bytes: &[u8]) -> Result<(), Fault> {
        let (n, rows_of, count) = path_counts(bytes)?;
        (self.n, self.count) = (n, count);
        let place = 10 + 2 * count;
        let mut cursor = Cursor { bytes, place };
        for (path, &m) in self.rows.iter_mut().zip(&rows_of[..count]) {
            cursor.rows(path.insert(Rows::NONE), n, m)?;
        }
        Ok(())
    }
}

/// A component: r, δ0 and δ.
#[derive(Clone, Copy)]
struct Component {
    r: Entries,
    start: i64,
    fall: i64,
}

const NO_COMPONENT: Component = Component {
    r: NO_ENTRIES,
    start: 0,
    fall: 0,
};

/// A path's component number, and its lists of multipliers: bounded, ranking, unaffecting.
struct Part {
    number: usize,
    lists: [Multipliers; MOST_LISTS],
}

/// A lexicographic argument; only as many arrays are cleared as there are paths.
struct Argument {
    components: [Component; MOST_COMPONENTS],
    parts: [Option<Part>; MOST_PATHS],
}

/// The count of components and the number of each path, once the certificate's length is that of its counts.
fn component_counts(
    bytes: &[u8],
    branches: &Branches,
) -> Result<(usize, [usize; MOST_PATHS]), Fault> {
    if framed_kind(bytes)? != 6 {
        return Err((4, 4));
    }
    if bytes.len() < 8 {
        return Err((3, 0));
    }
    let components = u16_at(bytes, 6);
    if !(1..=MOST_COMPONENTS).contains(&components) {
        return Err((5, 6));
    }
    if bytes.len() < 8 + 2 * branches.count {
        return Err((3, 0));
    }
    let mut numbers = [0; MOST_PATHS];
    let mut multipliers = 0;
    for (path, rows) in branches.rows.iter().flatten().enumerate() {
        numbers[path] = u16_at(bytes, 8 + 2 * path);
        if numbers[path] >= components {
            return Err((14, 8 + 2 * path as u64));
        }
        multipliers += rows.count * (2 + numbers[path]);
    }
    let components_end = 8 + 2 * branches.count + 4 * components * (branches.n + 2);
    if bytes.len() != components_end + 2 * multipliers {
        return Err((3, 0));
    }
    Ok((components, numbers))
}

impl Argument {
    fn parse(&mut self, bytes: &[u8], branches: &Branches) -> Result<(), Fault> {
        let (count, numbers) = component_counts(bytes, branches)?;
        let place = 8 + 2 * branches.count;
        let mut cursor = Cursor { bytes, place };
        for component in &mut self.components[..count] {
            cursor.directions(&mut component.r[..branches.n])?;
            component.start = cursor.i32(MOST_RIGHT)?;
            component.fall = cursor.fall()?;
        }
        for (path, rows) in branches.rows.iter().flatten().enumerate() {
            let part = self.parts[path].insert(Part {
                number: numbers[path],
                lists: [NO_MULTIPLIERS; MOST_LISTS],
            });
            for list in &mut part.lists[..2 + numbers[path]] {
                cursor.multipliers(&mut list[..rows.count])?;
            }
        }
        Ok(())
    }

    /// 51 to 53, path by path.
    fn judged(&self, branches: &Branches) -> Result<(), Fault> {
        let paths = branches.rows.iter().flatten();
        for (path, (rows, part)) in paths.zip(self.parts.iter().flatten()).enumerate() {
            let weighs = |list: usize, component: &Component, next: i64, limit: i64| {
                weighs(
                    &part.lists[list],
                    rows,
                    branches.n,
                    &component.r,
                    next,
                    limit,
                )
            };
            let own = &self.components[part.number];
            if !weighs(0, own, 0, -own.start) {
                return Err((51, path as u64));
            }
            if !weighs(1, own, 1, -own.fall) {
                return Err((52, path as u64));
            }
            if !(0..part.number).all(|i| weighs(2 + i, &self.components[i], 1, 0)) {
                return Err((53, path as u64));
            }
        }
        Ok(())
    }
}

/// Whether the weighted rows sum to -r·x + next·r·x', and their right sides to the limit at most.
fn weighs(
    weights: &Multipliers,
    rows: &Rows,
    n: usize,
    r: &Entries,
    next: i64,
    limit: i64,
) -> bool {
    (0..n).all(|j| column(weights, rows, &rows.now, j) == -r[j])
        && (0..n).all(|j| column(weights, rows, &rows.next, j) == next * r[j])
        && right(weights, rows) <= limit
}

/// Σ multiplier·entry down one column.
fn column(weights: &Multipliers, rows: &Rows, entries: &[Entries; MOST_ROWS], j: usize) -> i64 {
    (0..rows.count).map(|i| weights[i] * entries[i][j]).sum()
}

/// Σ multiplier·right side.
fn right(weights: &Multipliers, rows: &Rows) -> i64 {
    (0..rows.count).map(|i| weights[i] * rows.right[i]).sum()
}

fn dot(left: &[i64], right: &[i64]) -> i64 {
    left.iter().zip(right).map(|(x, y)| x * y).sum()
}

/// r, start and fall of an accepted ranking.
struct Rank {
    r: Entries,
    start: i64,
    fall: i64,
}

/// A condition in each of so many columns or rows: the first place where it fails is told.
fn each(number: u64, count: usize, mut holds: impl FnMut(usize) -> bool) -> Result<(), Fault> {
    match (0..count).find(|&place| !holds(place)) {
        Some(place) => Err((number, place as u64)),
        None => Ok(()),
    }
}

/// The four conditions over the rows and an added row -s·x <= s0.
fn rank(ranking: &Ranking, rows: &Rows, n: usize, s: &Entries, s0: i64) -> Result<Rank, Fault> {
    let (y, z) = (&ranking.y, &ranking.z);
    let (y_added, z_added) = (y[rows.count], z[rows.count]);
    let (mut za, mut r) = (NO_ENTRIES, NO_ENTRIES);
    each(21, n, |j| column(y, rows, &rows.next, j) == 0)?;
    each(22, n, |j| {
        za[j] = column(z, rows, &rows.now, j) - z_added * s[j];
        column(y, rows, &rows.now, j) - y_added * s[j] == za[j]
    })?;
    each(23, n, |j| {
        r[j] = column(z, rows, &rows.next, j);
        za[j] + r[j] == 0
    })?;
    let zb = right(z, rows) + z_added * s0;
    if zb >= 0 {
        return Err((24, 0));
    }
    let start = -(right(y, rows) + y_added * s0);
    Ok(Rank {
        r,
        start,
        fall: -zb,
    })
}

fn excluded(exclusion: &Exclusion, rows: &Rows, n: usize) -> Result<(), Fault> {
    let Exclusion { q, u, v, w } = exclusion;
    let mut before = NO_ENTRIES;
    for j in 0..n {
        before[j] = w[j] - v[j];
    }
    let sides = |i: usize| (&rows.now[i][..n], &rows.next[i][..n]);
    each(31, rows.count, |i| {
        let (now, next) = sides(i);
        dot(now, v) + dot(next, u) <= 0
    })?;
    each(32, rows.count, |i| {
        let (now, next) = sides(i);
        dot(now, &before) + dot(next, w) <= q * rows.right[i]
    })
}

/// 1, whole, exactly when q divides every entry of V and W (those past n are 0); 2, fractions, otherwise.
fn grade(exclusion: &Exclusion) -> u64 {
    let Exclusion { q, v, w, .. } = exclusion;
    let divided = |entries: &Entries| entries.iter().all(|entry| entry % q == 0);
    match *q == 1 || divided(v) && divided(w) {
        true => 1,
        false => 2,
    }
}

impl Lasso {
    fn starts(&self, n: usize) -> Result<(), Fault> {
        let (t, stem) = (&self.t, &self.stem);
        each(41, n, |j| column(t, stem, &stem.now, j) == 0)?;
        each(42, n, |j| {
            column(t, stem, &stem.next, j) == -self.k * self.s[j]
        })?;
        each(43, 1, |_| right(t, stem) <= self.k * self.s0)
    }

    fn kept(&self, rows: &Rows, n: usize) -> Result<(), Fault> {
        let h = &self.h;
        each(44, n, |j| {
            column(h, rows, &rows.now, j) == self.h0 * self.s[j]
        })?;
        each(45, n, |j| {
            column(h, rows, &rows.next, j) == -self.k2 * self.s[j]
        })?;
        each(46, 1, |_| {
            right(h, rows) + self.h0 * self.s0 <= self.k2 * self.s0
        })
    }

    fn rank(&self, rows: &Rows, n: usize) -> Result<Rank, Fault> {
        self.starts(n)?;
        self.kept(rows, n)?;
        rank(&self.ranking, rows, n, &self.s, self.s0)
    }
}

impl Settling {
    fn rises(&self, rows: &Rows, n: usize) -> Result<(), Fault> {
        let e = &self.e;
        each(61, n, |j| {
            column(e, rows, &rows.now, j) == self.k * self.g[j]
        })?;
        each(62, n, |j| {
            column(e, rows, &rows.next, j) == -self.k * self.g[j]
        })?;
        each(63, 1, |_| right(e, rows) <= -self.k)
    }

    fn rank(&self, rows: &Rows, n: usize) -> Result<Rank, Fault> {
        self.rises(rows, n)?;
        rank(&self.ranking, rows, n, &self.g, -self.t)
    }
}

fn of_loop((number, place): Fault) -> Refused {
    (number, place, 1)
}

fn of_certificate((number, place): Fault) -> Refused {
    (number, place, 2)
}

fn verdict(outcome: u64, start: i64, fall: i64, grade: u64) -> Verdict {
    Verdict {
        number: 0,
        place: 0,
        record: 0,
        outcome,
        start,
        fall,
        grade,
    }
}

fn refused((number, place, record): Refused) -> Verdict {
    Verdict {
        number,
        place,
        record,
        ..verdict(0, 0, 0, 0)
    }
}

fn fill(list: &mut [i64], rank: &Rank, n: usize, outcome: u64) -> Verdict {
    list[..n].copy_from_slice(&rank.r[..n]);
    verdict(outcome, rank.start, rank.fall, 0)
}

fn room_for(n: usize, list: &[i64]) -> Result<(), Refused> {
    if list.len() < n {
        return Err((7, n as u64, 0));
    }
    Ok(())
}

fn judged(looped: &[u8], certificate: &[u8], list: &mut [i64]) -> Result<Verdict, Refused> {
    let (n, m) = loop_counts(looped).map_err(of_loop)?;
    let mut rows = Rows::NONE;
    parse_loop(looped, &mut rows, n, m).map_err(of_loop)?;
    judged_for(&rows, n, certificate, list)
}

/// Judges a certificate for a loop that was parsed.
#[inline(always)]
fn judged_for(
    rows: &Rows,
    n: usize,
    certificate: &[u8],
    list: &mut [i64],
) -> Result<Verdict, Refused> {
    let m = rows.count;
    match framed_kind(certificate).map_err(of_certificate)? {
        kind @ (2 | 7) => {
            let ranking = match kind {
                2 => parse_ranking(certificate, m),
                _ => parse_short(certificate, m),
            };
            let ranking = ranking.map_err(of_certificate)?;
            room_for(n, list)?;
            let rank = rank(&ranking, rows, n, &NO_ENTRIES, 0).map_err(of_certificate)?;
            Ok(fill(list, &rank, n, 2))
        }
        3 => {
            let exclusion = parse_exclusion(certificate, n).map_err(of_certificate)?;
            excluded(&exclusion, rows, n).map_err(of_certificate)?;
            Ok(verdict(3, 0, 0, grade(&exclusion)))
        }
        4 => {
            let mut lasso = Lasso::NONE;
            lasso.parse(certificate, n, m).map_err(of_certificate)?;
            room_for(n, list)?;
            let rank = lasso.rank(rows, n).map_err(of_certificate)?;
            Ok(fill(list, &rank, n, 4))
        }
        8 => {
            let settling = parse_settling(certificate, n, m).map_err(of_certificate)?;
            room_for(n, list)?;
            let rank = settling.rank(rows, n).map_err(of_certificate)?;
            Ok(fill(list, &rank, n, 8))
        }
        _ => Err((4, 4, 2)),
    }
}

/// Not inlined, so that its arrays cost the other kinds nothing.
#[inline(never)]
fn judged_paths(looped: &[u8], certificate: &[u8]) -> Result<Verdict, Refused> {
    let mut branches = Branches {
        n: 0,
        count: 0,
        rows: array::from_fn(|_| None),
    };
    branches.parse(looped).map_err(of_loop)?;
    judged_argument(&branches, certificate)
}

/// Judges an argument for a loop of several paths that was parsed.
#[inline(always)]
fn judged_argument(branches: &Branches, certificate: &[u8]) -> Result<Verdict, Refused> {
    let mut argument = Argument {
        components: [NO_COMPONENT; MOST_COMPONENTS],
        parts: array::from_fn(|_| None),
    };
    argument
        .parse(certificate, branches)
        .map_err(of_certificate)?;
    argument.judged(branches).map_err(of_certificate)?;
    Ok(verdict(6, 0, 0, 0))
}

/// As `cushiedoo_judge`.
pub fn judge(looped: &[u8], certificate: &[u8], list: &mut [i64]) -> Verdict {
    let judged = match looped.len() >= 6 && u16_at(looped, 4) == 5 {
        true => judged_paths(looped, certificate),
        false => judged(looped, certificate, list),
    };
    judged.unwrap_or_else(refused)
}

/// Where the record that starts there ends: after 4 + L bytes, or with the bytes if it can't be cut off so.
fn record_end(bytes: &[u8], from: usize) -> usize {
    let rest = &bytes[from..];
    if rest.len() < 4 {
        return bytes.len();
    }
    let length = u32::from_le_bytes([rest[0], rest[1], rest[2], rest[3]]) as usize;
    match length < 2 || rest.len() < 4 + length {
        true => bytes.len(),
        false => from + 4 + length,
    }
}

/// The count of records, once there are not too many of them and room for each.
fn counted(bytes: &[u8], n: usize, places: usize, numbers: usize) -> Result<usize, Refused> {
    let (mut count, mut from) = (0, 0);
    while from < bytes.len() {
        from = record_end(bytes, from);
        count += 1;
    }
    if count > MOST_RECORDS {
        return Err((13, count as u64, 0));
    }
    if places < count {
        return Err((7, count as u64, 0));
    }
    if numbers < n * count {
        return Err((7, (n * count) as u64, 0));
    }
    Ok(count)
}

/// Puts a verdict for each record, each with the next n numbers as its rank list.
#[inline(always)]
fn judge_each(
    bytes: &[u8],
    n: usize,
    verdicts: &mut [Verdict],
    ranks: &mut [i64],
    judged: impl Fn(&[u8], &mut [i64]) -> Result<Verdict, Refused>,
) -> Result<usize, Refused> {
    let count = counted(bytes, n, verdicts.len(), ranks.len())?;
    let mut from = 0;
    for (verdict, rank) in verdicts[..count].iter_mut().zip(ranks.chunks_mut(n)) {
        let end = record_end(bytes, from);
        *verdict = judged(&bytes[from..end], rank).unwrap_or_else(refused);
        from = end;
    }
    Ok(count)
}

fn judged_all(
    looped: &[u8],
    bytes: &[u8],
    verdicts: &mut [Verdict],
    ranks: &mut [i64],
) -> Result<usize, Refused> {
    let (n, m) = loop_counts(looped).map_err(of_loop)?;
    let mut rows = Rows::NONE;
    parse_loop(looped, &mut rows, n, m).map_err(of_loop)?;
    judge_each(bytes, n, verdicts, ranks, |certificate, rank| {
        judged_for(&rows, n, certificate, rank)
    })
}

#[inline(never)]
fn judged_all_paths(
    looped: &[u8],
    bytes: &[u8],
    verdicts: &mut [Verdict],
    ranks: &mut [i64],
) -> Result<usize, Refused> {
    let mut branches = Branches {
        n: 0,
        count: 0,
        rows: array::from_fn(|_| None),
    };
    branches.parse(looped).map_err(of_loop)?;
    judge_each(bytes, branches.n, verdicts, ranks, |certificate, _| {
        judged_argument(&branches, certificate)
    })
}

/// As `cushiedoo_judge_all`.
pub fn judge_all(
    looped: &[u8],
    bytes: &[u8],
    verdicts: &mut [Verdict],
    ranks: &mut [i64],
) -> Batch {
    let judged = match looped.len() >= 6 && u16_at(looped, 4) == 5 {
        true => judged_all_paths(looped, bytes, verdicts, ranks),
        false => judged_all(looped, bytes, verdicts, ranks),
    };
    let ((number, place, record), count) = match judged {
        Ok(count) => ((0, 0, 0), count as u64),
        Err(refusal) => (refusal, 0),
    };
    Batch {
        number,
        place,
        record,
        count,
    }
}

/// Which ranking is wanted, and n and m as arguments.
fn wanted(bytes: &[u8], kind: usize, n: u64, m: u64) -> Result<usize, Fault> {
    if framed_kind(bytes)? != kind {
        return Err((4, 4));
    }
    if !(1..=MOST_VARIABLES as u64).contains(&n) || m > MOST_ROWS as u64 {
        return Err((5, 0));
    }
    Ok(m as usize)
}

/// Puts L, a kind and then numbers of two bytes, once there is room for them.
fn put(
    room: &mut [u8],
    kind: u16,
    count: usize,
    numbers: impl Iterator<Item = u16>,
) -> Result<usize, Fault> {
    let length = 6 + 2 * count;
    if room.len() < length {
        return Err((7, length as u64));
    }
    room[..4].copy_from_slice(&(length as u32 - 4).to_le_bytes());
    room[4..6].copy_from_slice(&kind.to_le_bytes());
    for (place, number) in room[6..length].chunks_exact_mut(2).zip(numbers) {
        place.copy_from_slice(&number.to_le_bytes());
    }
    Ok(length)
}

fn shortened(bytes: &[u8], n: u64, m: u64, room: &mut [u8]) -> Result<usize, Fault> {
    let m = wanted(bytes, 2, n, m)?;
    let Ranking { y, z } = parse_ranking(bytes, m)?;
    let weighty = |&row: &usize| y[row] != 0 || z[row] != 0;
    let rows = (0..m).filter(weighty);
    let count = rows.clone().count();
    let triples = rows.flat_map(|row| [row as u16, y[row] as u16, z[row] as u16]);
    put(
        room,
        7,
        1 + 3 * count,
        [count as u16].into_iter().chain(triples),
    )
}

fn lengthened(bytes: &[u8], n: u64, m: u64, room: &mut [u8]) -> Result<usize, Fault> {
    let m = wanted(bytes, 7, n, m)?;
    let Ranking { y, z } = parse_short(bytes, m)?;
    let multipliers = y[..m].iter().chain(&z[..m]);
    put(room, 2, 2 * m, multipliers.map(|&weight| weight as u16))
}

fn writing(written: Result<usize, Fault>) -> Writing {
    let ((number, place), written) = match written {
        Ok(written) => ((0, 0), written as u64),
        Err(fault) => (fault, 0),
    };
    Writing {
        number,
        place,
        written,
    }
}

/// As `cushiedoo_shorten`.
pub fn shorten(bytes: &[u8], n: u64, m: u64, room: &mut [u8]) -> Writing {
    writing(shortened(bytes, n, m, room))
}

/// As `cushiedoo_lengthen`.
pub fn lengthen(bytes: &[u8], n: u64, m: u64, room: &mut [u8]) -> Writing {
    writing(lengthened(bytes, n, m, room))
}

fn state_in_range(state: &[i64], n: usize) -> Result<(), Refused> {
    if state.len() != n {
        return Err((10, state.len() as u64, 0));
    }
    let fits = |entry: &i64| (-MOST_STATE..=MOST_STATE).contains(entry);
    match state.iter().position(|entry| !fits(entry)) {
        Some(index) => Err((9, index as u64, 0)),
        None => Ok(()),
    }
}

fn bound_at(rank: &Rank, state: &[i64], outcome: u64) -> (Verdict, u64) {
    let over = dot(&rank.r, state) - rank.start;
    let bound = if over < 0 {
        0
    } else {
        (over / rank.fall) as u64 + 1
    };
    (verdict(outcome, rank.start, rank.fall, 0), bound)
}

fn bounded(looped: &[u8], certificate: &[u8], state: &[i64]) -> Result<(Verdict, u64), Refused> {
    let (n, m) = loop_counts(looped).map_err(of_loop)?;
    let mut rows = Rows::NONE;
    parse_loop(looped, &mut rows, n, m).map_err(of_loop)?;
    match framed_kind(certificate).map_err(of_certificate)? {
        kind @ (2 | 7) => {
            let ranking = match kind {
                2 => parse_ranking(certificate, m),
                _ => parse_short(certificate, m),
            };
            let ranking = ranking.map_err(of_certificate)?;
            state_in_range(state, n)?;
            let rank = rank(&ranking, &rows, n, &NO_ENTRIES, 0).map_err(of_certificate)?;
            Ok(bound_at(&rank, state, 2))
        }
        4 => {
            let mut lasso = Lasso::NONE;
            lasso.parse(certificate, n, m).map_err(of_certificate)?;
            state_in_range(state, n)?;
            let rank = lasso.rank(&rows, n).map_err(of_certificate)?;
            if dot(&lasso.s, state) + lasso.s0 < 0 {
                return Err((11, 0, 2));
            }
            Ok(bound_at(&rank, state, 4))
        }
        8 => {
            let settling = parse_settling(certificate, n, m).map_err(of_certificate)?;
            state_in_range(state, n)?;
            let rank = settling.rank(&rows, n).map_err(of_certificate)?;
            let missing = settling.t - dot(&settling.g, state);
            Ok((verdict(8, rank.start, rank.fall, 0), missing.max(0) as u64))
        }
        _ => Err((4, 4, 2)),
    }
}

/// As `cushiedoo_bound`.
pub fn bound(looped: &[u8], certificate: &[u8], state: &[i64]) -> Bounded {
    let (verdict, bound) =
        bounded(looped, certificate, state).unwrap_or_else(|refusal| (refused(refusal), 0));
    Bounded {
        number: verdict.number,
        place: verdict.place,
        record: verdict.record,
        outcome: verdict.outcome,
        start: verdict.start,
        fall: verdict.fall,
        grade: verdict.grade,
        bound,
    }
}
