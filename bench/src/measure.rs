//! Time by the clock, and instructions by callgrind.

use crate::contenders::{Contender, CONTENDERS};
use crate::subjects::{Call, Subject, BATCH, ROOM};
use cushiedoo::raw::Verdict;
use std::hint::black_box;
use std::process::Command;
use std::time::{Duration, Instant};

/// Nanoseconds a call.
#[derive(Clone, Copy, Debug)]
pub struct Time {
    pub minimum: f64,
    pub median: f64,
}

/// Makes so many calls.
pub type Work<'a> = Box<dyn FnMut(u32) + 'a>;

/// The work that makes a call again and again, with as little around it as can be.
pub fn repeated<'a, R>(mut call: impl FnMut() -> R + 'a) -> Work<'a> {
    Box::new(move |calls| {
        for _ in 0..calls {
            black_box(&call());
        }
    })
}

/// The work of one contender on one subject.
pub fn work(subject: &Subject, contender: Contender) -> Work<'_> {
    match (subject.call, contender) {
        (Call::Judge, Contender::Archive) => judging(subject, Contender::Archive),
        (Call::Judge, Contender::Plain) => judging(subject, Contender::Plain),
        (Call::Judge, Contender::OnePass) => judging(subject, Contender::OnePass),
        (Call::Bound, Contender::Archive) => bounding(subject, Contender::Archive),
        (Call::Bound, Contender::Plain) => bounding(subject, Contender::Plain),
        (Call::Bound, Contender::OnePass) => bounding(subject, Contender::OnePass),
        (Call::JudgeAll, Contender::Archive) => judging_all(subject, Contender::Archive),
        (Call::JudgeAll, Contender::Plain) => judging_all(subject, Contender::Plain),
        (Call::JudgeAll, Contender::OnePass) => judging_all(subject, Contender::OnePass),
        (Call::Shorten, Contender::Archive) => shortening(subject, Contender::Archive),
        (Call::Shorten, Contender::Plain) => shortening(subject, Contender::Plain),
        (Call::Shorten, Contender::OnePass) => shortening(subject, Contender::OnePass),
        (Call::Lengthen, Contender::Archive) => lengthening(subject, Contender::Archive),
        (Call::Lengthen, Contender::Plain) => lengthening(subject, Contender::Plain),
        (Call::Lengthen, Contender::OnePass) => lengthening(subject, Contender::OnePass),
    }
}

/// Inlined, so that the contender is settled before the loop.
#[inline(always)]
fn judging(subject: &Subject, contender: Contender) -> Work<'_> {
    let (looped, certificate) = (&subject.looped[..], &subject.certificate[..]);
    let mut rank = [0; 16];
    repeated(move || contender.judge(black_box(looped), black_box(certificate), &mut rank))
}

#[inline(always)]
fn bounding(subject: &Subject, contender: Contender) -> Work<'_> {
    let (looped, certificate) = (&subject.looped[..], &subject.certificate[..]);
    let state = &subject.state[..];
    repeated(move || contender.bound(black_box(looped), black_box(certificate), black_box(state)))
}

#[inline(always)]
fn judging_all(subject: &Subject, contender: Contender) -> Work<'_> {
    let (looped, records) = (&subject.looped[..], &subject.certificate[..]);
    let mut verdicts = [Verdict::default(); BATCH];
    let mut ranks = vec![0; BATCH * subject.n];
    repeated(move || {
        let (looped, records) = (black_box(looped), black_box(records));
        contender.judge_all(looped, records, &mut verdicts, &mut ranks)
    })
}

/// The name of the next.
pub const ONE_BY_ONE: &str = "one-by-one";

/// The certificates of a batch judged one by one through the archive, each with its loop, into the same places.
pub fn one_by_one(subject: &Subject) -> Work<'_> {
    let looped = &subject.looped[..];
    let mut records = Vec::new();
    let mut rest = &subject.certificate[..];
    while !rest.is_empty() {
        let length = u32::from_le_bytes([rest[0], rest[1], rest[2], rest[3]]);
        let (record, after) = rest.split_at(4 + length as usize);
        records.push(record);
        rest = after;
    }
    let mut verdicts = [Verdict::default(); BATCH];
    let mut ranks = vec![0; BATCH * subject.n];
    repeated(move || {
        let places = verdicts.iter_mut().zip(ranks.chunks_mut(subject.n));
        for (record, (verdict, rank)) in records.iter().zip(places) {
            *verdict = Contender::Archive.judge(black_box(looped), black_box(record), rank);
        }
        verdicts[BATCH - 1]
    })
}

#[inline(always)]
fn shortening(subject: &Subject, contender: Contender) -> Work<'_> {
    let (ranking, n, m) = (&subject.certificate[..], subject.n as u64, subject.m as u64);
    let mut room = [0; ROOM];
    repeated(move || contender.shorten(black_box(ranking), n, m, &mut room))
}

#[inline(always)]
fn lengthening(subject: &Subject, contender: Contender) -> Work<'_> {
    let (ranking, n, m) = (&subject.certificate[..], subject.n as u64, subject.m as u64);
    let mut room = [0; ROOM];
    repeated(move || contender.lengthen(black_box(ranking), n, m, &mut room))
}

/// As many calls are timed together as take about so long, so that the clock's own cost doesn't count.
const TIMED: Duration = Duration::from_micros(40);

/// The least and the median of what was measured.
fn time_of(mut samples: Vec<f64>) -> Time {
    samples.sort_by(f64::total_cmp);
    Time {
        minimum: samples[0],
        median: samples[samples.len() / 2],
    }
}

fn timed(work: &mut Work, calls: u32) -> Duration {
    let begun = Instant::now();
    work(calls);
    begun.elapsed()
}

/// How many calls are timed together.
fn calls_timed(work: &mut Work) -> u32 {
    let mut calls = 1;
    while timed(work, calls) < TIMED {
        calls *= 2;
    }
    calls
}

/// Measures works side by side: some calls of each in turn, so that a slow moment of the machine meets them all.
pub fn side_by_side(works: &mut [Work], repeats: usize) -> Vec<Time> {
    let calls: Vec<u32> = works.iter_mut().map(calls_timed).collect();
    let mut samples = vec![Vec::with_capacity(repeats); works.len()];
    for _ in 0..repeats {
        for (i, work) in works.iter_mut().enumerate() {
            let elapsed = timed(work, calls[i]);
            samples[i].push(elapsed.as_nanos() as f64 / f64::from(calls[i]));
        }
    }
    samples.into_iter().map(time_of).collect()
}

/// The times of the three contenders on one subject.
pub fn times(subject: &Subject, repeats: usize) -> Vec<Time> {
    let mut works = CONTENDERS.map(|contender| work(subject, contender));
    side_by_side(&mut works, repeats)
}

/// Instructions that this program takes under callgrind for so many calls.
fn instructions_of_run(subject: &Subject, with: &str, calls: usize) -> Option<u64> {
    let program = std::env::current_exe().ok()?;
    let calls = calls.to_string();
    let output = Command::new("valgrind")
        .args(["--tool=callgrind", "--callgrind-out-file=/dev/null"])
        .arg(program)
        .args(["--case", &subject.name()])
        .args(["--with", with, "--calls", &calls])
        .output()
        .ok()?;
    let report = String::from_utf8_lossy(&output.stderr).into_owned();
    let line = report.lines().find(|line| line.contains("Collected"))?;
    line.rsplit(' ').next()?.parse().ok()
}

/// Instructions a call with a contender, or one by one: what 100 calls more cost, by 100.
pub fn instructions(subject: &Subject, with: &str) -> Option<u64> {
    let few = instructions_of_run(subject, with, 10)?;
    let many = instructions_of_run(subject, with, 110)?;
    Some((many - few + 50) / 100)
}
