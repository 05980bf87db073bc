//! Samples of short rankings: the loop P of 01 with S1 moved to kind 7 and back; the order of the record's refusals; and the
//! calls and loops that don't take it.

use super::judging::{bound, judge, Verdict};
use super::record::{read_certificate, read_loop, write_record};
use super::sheet::sheet;
use super::short::{lengthen, short_bytes, shorten, Triple};

/// P: -p + q <= -2; -p + p' <= -1; q - q' <= 0.
const P: [u8; 46] = [
    42, 0, 0, 0, 1, 0, 2, 0, 3, 0, // L, kind, n, m
    255, 255, 1, 0, 0, 0, 0, 0, 254, 255, 255, 255, // the first row
    255, 255, 0, 0, 1, 0, 0, 0, 255, 255, 255, 255, // the second
    0, 0, 1, 0, 0, 0, 255, 255, 0, 0, 0, 0, // the third
];
const S1: [u8; 18] = [14, 0, 0, 0, 2, 0, 1, 0, 0, 0, 0, 0, 0, 0, 1, 0, 1, 0];
const S1_SHORT: [u8; 26] = [
    22, 0, 0, 0, 7, 0, 3, 0, // L, kind, triples
    0, 0, 1, 0, 0, 0, // row 0: Y 1, Z 0
    1, 0, 0, 0, 1, 0, // row 1: Y 0, Z 1
    2, 0, 0, 0, 1, 0, // row 2: Y 0, Z 1
];

fn short(triples: &[[i64; 3]]) -> Vec<u8> {
    let triple = |&[row, y, z]: &[i64; 3]| Triple { row, y, z };
    short_bytes(&triples.iter().map(triple).collect::<Vec<_>>())
}

fn judged(certificate: &[u8]) -> (u64, u64, u64) {
    let mut rank = [7; 2];
    let verdict = judge(&P, certificate, &mut rank);
    if verdict.number != 0 {
        assert_eq!(rank, [7; 2]);
    }
    (verdict.number, verdict.place, verdict.record)
}

/// Number, place and what the room holds afterwards.
fn moved(
    call: fn(&[u8], u64, u64, &mut [u8]) -> super::record::Writing,
    bytes: &[u8],
    m: u64,
    room: usize,
) -> (u64, u64, Vec<u8>) {
    let mut list = vec![170; room];
    let told = call(bytes, 2, m, &mut list);
    assert!(list[told.written as usize..]
        .iter()
        .all(|byte| *byte == 170));
    list.truncate(told.written as usize);
    (told.number, told.place, list)
}

#[test]
fn s1_is_moved_and_judged() {
    assert_eq!(moved(shorten, &S1, 3, 30), (0, 0, S1_SHORT.to_vec()));
    assert_eq!(moved(shorten, &S1, 3, 25), (7, 26, vec![]));
    assert_eq!(moved(lengthen, &S1_SHORT, 3, 18), (0, 0, S1.to_vec()));
    assert_eq!(moved(lengthen, &S1_SHORT, 3, 17), (7, 18, vec![]));
    assert_eq!(moved(shorten, &S1_SHORT, 3, 30), (4, 4, vec![]));
    assert_eq!(moved(lengthen, &S1, 3, 30), (4, 4, vec![]));
    assert_eq!(short(&[[0, 1, 0], [1, 0, 1], [2, 0, 1]]), S1_SHORT);

    let mut rank = [0; 2];
    let verdict = judge(&P, &S1_SHORT, &mut rank);
    let accepted = Verdict {
        outcome: 2,
        start: 2,
        fall: 1,
        ..Verdict::default()
    };
    assert_eq!((verdict, rank), (accepted, [1, -1]));
    assert_eq!(bound(&P, &S1_SHORT, &[5, 1]).bound, 3);
    let text = sheet(&[&P[..], &S1_SHORT, &S1].concat());
    assert_eq!(
        text,
        "loop 2 3\n1 rank 1 -1 from 2 down 1\n2 rank 1 -1 from 2 down 1\n"
    );
}

#[test]
fn rows_without_weight_are_left_out() {
    let zeros = [6, 0, 0, 0, 2, 0, 0, 0, 0, 0];
    let none = [4, 0, 0, 0, 7, 0, 0, 0];
    assert_eq!(moved(shorten, &zeros, 1, 8), (0, 0, none.to_vec()));
    assert_eq!(moved(lengthen, &none, 1, 10), (0, 0, zeros.to_vec()));
    assert_eq!(moved(lengthen, &none, 0, 6).2, [2, 0, 0, 0, 2, 0]);
    assert_eq!(judged(&none), (24, 0, 2));
    assert_eq!(judged(&short(&[[0, 1, 0], [1, 0, 1]])), (22, 1, 2));
}

#[test]
fn refusals_come_in_order() {
    assert_eq!(judged(&[2, 0, 0, 0, 7, 0]), (3, 0, 2));
    assert_eq!(judged(&[3, 0, 0, 0, 7, 0, 65]), (3, 0, 2));
    assert_eq!(judged(&[4, 0, 0, 0, 7, 0, 65, 0]), (5, 6, 2));
    assert_eq!(judged(&[4, 0, 0, 0, 7, 0, 64, 0]), (3, 0, 2));
    assert_eq!(judged(&S1_SHORT[..25]), (1, 25, 2));
    assert_eq!(judged(&[&S1_SHORT[..], &[0]].concat()), (2, 26, 2));
    // 15 for a row past the last, one that stays and one that falls back; before 16, triple by triple; and both before 6
    assert_eq!(judged(&short(&[[3, 1, 0]])), (15, 8, 2));
    assert_eq!(judged(&short(&[[0, 1, 0], [0, 0, 1]])), (15, 14, 2));
    assert_eq!(judged(&short(&[[1, 1, 0], [0, 0, 1]])), (15, 14, 2));
    assert_eq!(judged(&short(&[[3, 0, 0]])), (15, 8, 2));
    assert_eq!(judged(&short(&[[0, 0, 0], [0, 1, 0]])), (16, 8, 2));
    assert_eq!(judged(&short(&[[0, 60_001, 0], [1, 0, 0]])), (16, 14, 2));
    assert_eq!(judged(&short(&[[0, 60_001, 0], [0, 1, 0]])), (15, 14, 2));
    assert_eq!(judged(&short(&[[0, 60_001, 60_001]])), (6, 10, 2));
    assert_eq!(
        judged(&short(&[[0, 60_000, 60_001], [1, 60_001, 1]])),
        (6, 12, 2)
    );
    // the arguments of a conversion after the kind, and before all that the record says of itself
    assert_eq!(moved(lengthen, &[2, 0, 0, 0, 7, 0], 65, 0), (5, 0, vec![]));
    assert_eq!(moved(lengthen, &[2, 0, 0, 0, 2, 0], 65, 0), (4, 4, vec![]));
}

#[test]
fn others_do_not_take_it() {
    let mut list = [0; 9];
    assert_eq!(read_loop(&S1_SHORT, &mut list).number, 4);
    assert_eq!(read_certificate(&S1_SHORT, 2, 3, &mut list).number, 4);
    assert_eq!(write_record(7, 2, 3, &list, &mut [0; 99]).number, 4);
    let paths = [
        26, 0, 0, 0, 5, 0, 1, 0, 1, 0, 2, 0, // L, kind, n, paths, m
        255, 255, 0, 0, 255, 255, 255, 255, // -x <= -1
        255, 255, 1, 0, 255, 255, 255, 255, // -x + x' <= -1
    ];
    let certificate = short(&[[0, 1, 0], [1, 0, 1]]);
    let verdict = judge(&paths[..28], &certificate, &mut list);
    assert_eq!((verdict.number, verdict.record), (1, 1));
    let mut paths = paths;
    paths[0] = 24;
    let verdict = judge(&paths, &certificate, &mut list);
    assert_eq!((verdict.number, verdict.place, verdict.record), (4, 4, 2));
    let verdict = bound(&paths, &certificate, &[5]).verdict;
    assert_eq!((verdict.number, verdict.record), (4, 1));
    assert_eq!(sheet(&S1_SHORT), "loop refused 4 4\n");
}
