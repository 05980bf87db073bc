//! Judging and bound: from the bytes of a loop and a certificate to a verdict.

use super::conditions::{Exclusion, Lasso, Rank, Ranking, Row};
use super::layout::{Kind, STATE};
use super::lexicographic::{Branches, Lexicographic};
use super::paths::{lexicographic, path_loop, LEXICOGRAPHIC, PATH_LOOP};
use super::record::{certificate_record, framed, loop_record, Record, CERTIFICATES};
use super::settling::Settling;
use super::short::{short_record, stands_for, SHORT};
use super::{refuse, Refusal};

/// What a record's values are, in the words of the conditions.
#[derive(Clone, Debug)]
pub enum Certificate {
    Ranking(Ranking),
    Exclusion(Exclusion),
    Lasso(Lasso),
    Settling(Settling),
}

/// The kinds of certificate that are judged with a loop of one path, and those that have a bound.
const JUDGED: [Kind; 4] = [Kind::Ranking, Kind::Exclusion, Kind::Lasso, Kind::Settling];
const BOUNDED: [Kind; 3] = [Kind::Ranking, Kind::Lasso, Kind::Settling];

/// A verdict. The outcome is the kind of the certificate that gave it, the grade 1 for whole and 2 for fractions; 0
/// where there is none.
#[derive(Clone, Copy, Debug, Default, PartialEq, Eq)]
pub struct Verdict {
    pub number: u64,
    pub place: u64,
    pub record: u64,
    pub outcome: u64,
    pub start: i64,
    pub fall: i64,
    pub grade: u64,
}

/// A verdict with the bound at a state.
#[derive(Clone, Copy, Debug, Default, PartialEq, Eq)]
pub struct Bounded {
    pub verdict: Verdict,
    pub bound: u64,
}

/// A refusal and the record that it speaks of: 1 loop, 2 certificate, 0 neither.
pub type Refused = (u64, Refusal);

fn of_record<T>(record: u64, result: Result<T, Refusal>) -> Result<T, Refused> {
    result.map_err(|refusal| (record, refusal))
}

fn refused((record, Refusal { number, place }): Refused) -> Verdict {
    Verdict {
        number,
        place,
        record,
        ..Verdict::default()
    }
}

/// Takes the values of a record one part after another.
pub struct Parts {
    values: std::vec::IntoIter<i64>,
}

impl Parts {
    pub fn of(values: Vec<i64>) -> Parts {
        let values = values.into_iter();
        Parts { values }
    }

    pub fn one(&mut self) -> i64 {
        self.values.next().expect("the layout has as many values")
    }

    pub fn list(&mut self, count: usize) -> Vec<i64> {
        (0..count).map(|_| self.one()).collect()
    }

    pub fn rows(&mut self, count: usize, n: usize) -> Vec<Row> {
        let mut row = || Row {
            now: self.list(n),
            next: self.list(n),
            right: self.one(),
        };
        (0..count).map(|_| row()).collect()
    }
}

/// The rows of a loop record.
pub fn rows(record: Record) -> Vec<Row> {
    let mut parts = Parts::of(record.values);
    parts.rows(record.shape.m, record.shape.n)
}

/// The parts of a certificate record.
pub fn certificate(record: Record) -> Certificate {
    let (n, m, ms) = (record.shape.n, record.shape.m, record.shape.ms);
    let mut parts = Parts::of(record.values);
    match record.shape.kind {
        Kind::Loop => unreachable!("a certificate has another kind"),
        Kind::Ranking => Certificate::Ranking(Ranking {
            y: parts.list(m),
            z: parts.list(m),
        }),
        Kind::Exclusion => Certificate::Exclusion(Exclusion {
            q: parts.one(),
            u: parts.list(n),
            v: parts.list(n),
            w: parts.list(n),
        }),
        Kind::Lasso => {
            let _ms = parts.one();
            Certificate::Lasso(Lasso {
                stem: parts.rows(ms, n),
                s: parts.list(n),
                s0: parts.one(),
                k: parts.one(),
                t: parts.list(ms),
                k2: parts.one(),
                h: parts.list(m),
                h0: parts.one(),
                ranking: Ranking {
                    y: parts.list(m + 1),
                    z: parts.list(m + 1),
                },
            })
        }
        Kind::Settling => Certificate::Settling(Settling {
            g: parts.list(n),
            t: parts.one(),
            k: parts.one(),
            e: parts.list(m),
            ranking: Ranking {
                y: parts.list(m + 1),
                z: parts.list(m + 1),
            },
        }),
    }
}

/// A certificate of one of the kinds wanted. Where kind 2 is wanted kind 7 is too, and is the ranking that it stands for.
fn certificate_wanted(
    bytes: &[u8],
    wanted: &[Kind],
    n: usize,
    m: usize,
) -> Result<Certificate, Refusal> {
    if wanted.contains(&Kind::Ranking) && framed(bytes) == Ok(SHORT) {
        let triples = short_record(bytes, n as u64, m as u64)?;
        return Ok(Certificate::Ranking(stands_for(&triples, m)));
    }
    certificate_record(bytes, wanted, n as u64, m as u64).map(certificate)
}

/// The two records of a loop with one path, read: n, the rows and the certificate.
fn both(
    loop_bytes: &[u8],
    certificate_bytes: &[u8],
    wanted: &[Kind],
) -> Result<(usize, Vec<Row>, Certificate), Refused> {
    let looped = of_record(1, loop_record(loop_bytes))?;
    let (n, m) = (looped.shape.n, looped.shape.m);
    let certificate = of_record(2, certificate_wanted(certificate_bytes, wanted, n, m))?;
    Ok((n, rows(looped), certificate))
}

fn ranked(kind: Kind, rank: &Rank) -> Verdict {
    Verdict {
        outcome: kind.number(),
        start: i64::try_from(rank.start).expect("the ranges keep start within 64 bits"),
        fall: i64::try_from(rank.fall).expect("the ranges keep fall within 64 bits"),
        ..Verdict::default()
    }
}

fn excluded(exclusion: &Exclusion) -> Verdict {
    Verdict {
        outcome: Kind::Exclusion.number(),
        grade: if exclusion.whole() { 1 } else { 2 },
        ..Verdict::default()
    }
}

/// The verdict on a certificate that was read, with the rank of all kinds but 3.
fn verdict(
    n: usize,
    rows: &[Row],
    certificate: &Certificate,
) -> Result<(Verdict, Option<Rank>), Refusal> {
    match certificate {
        Certificate::Ranking(ranking) => {
            let rank = ranking.judged(n, rows)?;
            Ok((ranked(Kind::Ranking, &rank), Some(rank)))
        }
        Certificate::Exclusion(exclusion) => {
            exclusion.judged(rows)?;
            Ok((excluded(exclusion), None))
        }
        Certificate::Lasso(lasso) => {
            let rank = lasso.judged(n, rows)?;
            Ok((ranked(Kind::Lasso, &rank), Some(rank)))
        }
        Certificate::Settling(settling) => {
            let rank = settling.judged(n, rows)?;
            Ok((ranked(Kind::Settling, &rank), Some(rank)))
        }
    }
}

/// Every test of the conditions that two records fail, in the order in which they are told, and the loop's n and m; none
/// if a record is not sound.
pub fn failing(
    loop_bytes: &[u8],
    certificate_bytes: &[u8],
) -> Option<(usize, usize, Vec<Refusal>)> {
    let (n, rows, certificate) = both(loop_bytes, certificate_bytes, &JUDGED).ok()?;
    let failing = match certificate {
        Certificate::Ranking(ranking) => ranking.failing(n, &rows),
        Certificate::Exclusion(exclusion) => exclusion.failing(&rows),
        Certificate::Lasso(lasso) => lasso.failing(n, &rows),
        Certificate::Settling(settling) => settling.failing(n, &rows),
    };
    Some((n, rows.len(), failing))
}

/// The exclusion of two records that are sound; none if they are not, or if the certificate is of another kind.
pub fn exclusion_of(loop_bytes: &[u8], certificate_bytes: &[u8]) -> Option<Exclusion> {
    match both(loop_bytes, certificate_bytes, &[Kind::Exclusion]) {
        Ok((_, _, Certificate::Exclusion(exclusion))) => Some(exclusion),
        _ => None,
    }
}

/// The settling of two records that are sound; none if they are not, or if the certificate is of another kind.
pub fn settling_of(loop_bytes: &[u8], certificate_bytes: &[u8]) -> Option<Settling> {
    match both(loop_bytes, certificate_bytes, &[Kind::Settling]) {
        Ok((_, _, Certificate::Settling(settling))) => Some(settling),
        _ => None,
    }
}

/// The loop record, then the certificate, then 7 (not for kind 3), then the conditions.
fn judged(
    loop_bytes: &[u8],
    certificate_bytes: &[u8],
    wanted: &[Kind],
    list: &mut [i64],
) -> Result<Verdict, Refused> {
    let (n, rows, certificate) = both(loop_bytes, certificate_bytes, wanted)?;
    let fills = !matches!(certificate, Certificate::Exclusion(_));
    if fills && list.len() < n {
        return of_record(0, refuse(7, n));
    }
    let (verdict, rank) = of_record(2, verdict(n, &rows, &certificate))?;
    if let Some(rank) = rank {
        for (place, r) in list.iter_mut().zip(rank.r) {
            *place = i64::try_from(r).expect("the ranges keep r within 64 bits");
        }
    }
    Ok(verdict)
}

/// The two records of a loop with several paths, read.
pub fn paths_and_argument(
    loop_bytes: &[u8],
    certificate_bytes: &[u8],
) -> Result<(Branches, Lexicographic), Refused> {
    let branches = of_record(1, path_loop(loop_bytes))?;
    let argument = of_record(2, lexicographic(certificate_bytes, &branches))?;
    Ok((branches, argument))
}

/// The loop record, then the certificate, then the conditions. No rank list is asked for or filled.
fn judged_paths(loop_bytes: &[u8], certificate_bytes: &[u8]) -> Result<Verdict, Refused> {
    let (branches, argument) = paths_and_argument(loop_bytes, certificate_bytes)?;
    of_record(2, argument.judged(&branches))?;
    Ok(Verdict {
        outcome: LEXICOGRAPHIC,
        ..Verdict::default()
    })
}

/// Kinds 5 and 6 are judged only together, so the loop's kind says how.
pub fn judge(loop_bytes: &[u8], certificate_bytes: &[u8], list: &mut [i64]) -> Verdict {
    let judged = match framed(loop_bytes) {
        Ok(PATH_LOOP) => judged_paths(loop_bytes, certificate_bytes),
        _ => judged(loop_bytes, certificate_bytes, &JUDGED, list),
    };
    judged.unwrap_or_else(refused)
}

/// On a sheet the kinds are those that are read, and kind 7.
pub fn judge_on_sheet(loop_bytes: &[u8], certificate_bytes: &[u8], list: &mut [i64]) -> Verdict {
    judged(loop_bytes, certificate_bytes, &CERTIFICATES, list).unwrap_or_else(refused)
}

/// Loop (kind 5 gives 4), certificate (kinds 3 and 6 give 4), 10, 9, the conditions, 11 (of a lasso).
fn bounded(loop_bytes: &[u8], certificate_bytes: &[u8], state: &[i64]) -> Result<Bounded, Refused> {
    let (n, rows, certificate) = both(loop_bytes, certificate_bytes, &BOUNDED)?;
    if state.len() != n {
        return of_record(0, refuse(10, state.len()));
    }
    if let Some(index) = state.iter().position(|&entry| !STATE.holds(entry)) {
        return of_record(0, refuse(9, index));
    }
    let (verdict, rank) = of_record(2, verdict(n, &rows, &certificate))?;
    let rank = rank.expect("an exclusion has no bound");
    let bound = match &certificate {
        Certificate::Lasso(lasso) if !lasso.invariant_holds(state) => {
            return of_record(2, refuse(11, 0));
        }
        Certificate::Settling(settling) => settling.bound(state),
        _ => rank.bound(state),
    };
    Ok(Bounded {
        verdict,
        bound: u64::try_from(bound).expect("the ranges keep the bound within 64 bits"),
    })
}

pub fn bound(loop_bytes: &[u8], certificate_bytes: &[u8], state: &[i64]) -> Bounded {
    bounded(loop_bytes, certificate_bytes, state).unwrap_or_else(|refusal| Bounded {
        verdict: refused(refusal),
        bound: 0,
    })
}
