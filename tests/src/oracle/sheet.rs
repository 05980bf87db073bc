//! The program "sheet": what it prints for an input.

use super::judging::{judge_on_sheet, Verdict};
use super::record::{loop_record, stated_length};
use super::Refusal;

/// The most bytes that are judged.
pub const LONGEST_INPUT: usize = 65_536;

/// Parts the next record from the bytes left: one with fewer than 4 bytes, L < 2 or too few bytes takes all the rest.
pub fn part(rest: &[u8]) -> (&[u8], &[u8]) {
    if rest.len() < 4 {
        return (rest, &[]);
    }
    let length = stated_length(rest);
    if length < 2 || rest.len() < 4 + length {
        return (rest, &[]);
    }
    rest.split_at(4 + length)
}

/// A certificate's line, without its count.
fn line(verdict: Verdict, rank: &[i64]) -> String {
    let word = match (verdict.number, verdict.outcome, verdict.grade) {
        (0, 2, _) => "rank",
        (0, 4, _) => "lasso",
        (0, 3, 1) => return "excluded whole".to_string(),
        (0, 3, _) => return "excluded fractions".to_string(),
        _ => return format!("refused {} {}", verdict.number, verdict.place),
    };
    let rank: String = rank.iter().map(|entry| format!("{entry} ")).collect();
    format!("{word} {rank}from {} down {}", verdict.start, verdict.fall)
}

pub fn sheet(input: &[u8]) -> String {
    if input.len() > LONGEST_INPUT {
        return "input too long\n".to_string();
    }
    let (loop_bytes, mut rest) = part(input);
    let (n, m) = match loop_record(loop_bytes) {
        Err(Refusal { number, place }) => return format!("loop refused {number} {place}\n"),
        Ok(record) => (record.shape.n, record.shape.m),
    };
    let mut text = format!("loop {n} {m}\n");
    let mut count = 0;
    while !rest.is_empty() {
        let (certificate, after) = part(rest);
        let mut rank = vec![0; n];
        let verdict = judge_on_sheet(loop_bytes, certificate, &mut rank);
        count += 1;
        text += &format!("{count} {}\n", line(verdict, &rank));
        rest = after;
    }
    text
}
