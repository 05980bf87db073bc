//! How an accepted exclusion comes by its grade: what its q divides, and what not.

use crate::cases::Case;
use crate::compare::Told;
use crate::oracle::conditions::Exclusion;
use crate::oracle::judging::exclusion_of;
use crate::oracle::layout::DIRECTION;

pub const SCALED: &str = "exclusion whole, q above 1";
pub const NOT_OF_U: &str = "exclusion whole, q divides all but U";
pub const NEGATIVE: &str = "exclusion whole, q above 1, a negative entry";
pub const ZERO: &str = "exclusion whole, q above 1, a zero entry";
pub const AT_ENDS: &str = "exclusion whole, q 60000, entries of both ends";
pub const FRACTIONS: &str = "exclusion fractions, q above 1";
pub const BY_V: &str = "exclusion fractions, by V alone";
pub const BY_W: &str = "exclusion fractions, by W alone";
pub const BY_LAST_OF_V: &str = "exclusion fractions, by the last entry of several of V";
pub const BY_LAST_OF_W: &str = "exclusion fractions, by the last entry of several of W";
pub const NEXT_TO_END: &str = "exclusion fractions, q 60000, by an entry next to an end";

/// Those that miss the other grade at one place alone are asked for less often.
pub const OFTEN: [&str; 2] = [SCALED, FRACTIONS];
pub const SELDOM: [&str; 9] = [
    NOT_OF_U,
    NEGATIVE,
    ZERO,
    AT_ENDS,
    BY_V,
    BY_W,
    BY_LAST_OF_V,
    BY_LAST_OF_W,
    NEXT_TO_END,
];

/// The ways in which the case's exclusion has its grade; none if none is accepted, or if q is 1.
pub fn ways_of(case: &Case, told: &Told) -> Vec<&'static str> {
    let (loop_bytes, certificate) = match case {
        Case::Judge {
            loop_bytes,
            certificate,
            ..
        } if told.number_and_record().0 == 0 => (loop_bytes, certificate),
        _ => return Vec::new(),
    };
    match exclusion_of(loop_bytes, certificate) {
        Some(exclusion) if exclusion.q > 1 && exclusion.whole() => whole_ways(&exclusion),
        Some(exclusion) if exclusion.q > 1 => fraction_ways(&exclusion),
        _ => Vec::new(),
    }
}

fn whole_ways(exclusion: &Exclusion) -> Vec<&'static str> {
    let entries = [&exclusion.v[..], &exclusion.w].concat();
    let has = |wanted: i64| entries.contains(&wanted);
    let ends = exclusion.q == DIRECTION.high && has(DIRECTION.low) && has(DIRECTION.high);
    named(&[
        (SCALED, true),
        (NOT_OF_U, !exclusion.divides(&exclusion.u)),
        (NEGATIVE, entries.iter().any(|entry| *entry < 0)),
        (ZERO, has(0)),
        (AT_ENDS, ends),
    ])
}

fn fraction_ways(exclusion: &Exclusion) -> Vec<&'static str> {
    let Exclusion { q, v, w, .. } = exclusion;
    let (by_v, by_w) = (!exclusion.divides(v), !exclusion.divides(w));
    let but_last = |list: &[i64]| list.len() > 1 && exclusion.divides(&list[..list.len() - 1]);
    let next = |entry: &i64| entry.abs() == DIRECTION.high - 1;
    let next_to_end = *q == DIRECTION.high && v.iter().chain(w).any(next);
    named(&[
        (FRACTIONS, true),
        (BY_V, by_v && !by_w),
        (BY_W, by_w && !by_v),
        (BY_LAST_OF_V, by_v && !by_w && but_last(v)),
        (BY_LAST_OF_W, by_w && !by_v && but_last(w)),
        (NEXT_TO_END, next_to_end),
    ])
}

fn named(ways: &[(&'static str, bool)]) -> Vec<&'static str> {
    let found = ways.iter().filter(|(_, is)| *is);
    found.map(|(name, _)| *name).collect()
}
