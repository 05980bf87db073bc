//! Samples of batches: the loop P of 01 with several certificates at once, the order of the refusals, and how bytes are parted.

use super::batch::{judge_all, records, Batch};
use super::judging::{judge, Verdict};

/// P: -p + q <= -2; -p + p' <= -1; q - q' <= 0.
const P: [u8; 46] = [
    42, 0, 0, 0, 1, 0, 2, 0, 3, 0, // L, kind, n, m
    255, 255, 1, 0, 0, 0, 0, 0, 254, 255, 255, 255, // the first row
    255, 255, 0, 0, 1, 0, 0, 0, 255, 255, 255, 255, // the second
    0, 0, 1, 0, 0, 0, 255, 255, 0, 0, 0, 0, // the third
];
/// P's first certificate, its second, all doubled, and an exclusion for a loop over one variable.
const S1: [u8; 18] = [14, 0, 0, 0, 2, 0, 1, 0, 0, 0, 0, 0, 0, 0, 1, 0, 1, 0];
const SECOND: [u8; 18] = [14, 0, 0, 0, 2, 0, 1, 0, 0, 0, 0, 0, 0, 0, 1, 0, 0, 0];
const S2: [u8; 18] = [14, 0, 0, 0, 2, 0, 2, 0, 0, 0, 0, 0, 0, 0, 2, 0, 2, 0];
const S7: [u8; 20] = [
    16, 0, 0, 0, 3, 0, 1, 0, 254, 255, 255, 255, 1, 0, 0, 0, 4, 0, 0, 0,
];

const FOUND: Verdict = Verdict {
    number: 99,
    place: 98,
    record: 97,
    outcome: 96,
    start: -95,
    fall: 94,
    grade: 93,
};

fn accepted(start: i64, fall: i64) -> Verdict {
    Verdict {
        outcome: 2,
        start,
        fall,
        ..Verdict::default()
    }
}

fn refused(number: u64, place: u64) -> Verdict {
    Verdict {
        number,
        place,
        record: 2,
        ..Verdict::default()
    }
}

/// What is told of a batch, and what the row and the rank numbers hold then.
fn batch(
    looped: &[u8],
    bytes: &[u8],
    places: usize,
    numbers: usize,
) -> (Batch, Vec<Verdict>, Vec<i64>) {
    let (mut row, mut ranks) = (vec![FOUND; places], vec![7; numbers]);
    let told = judge_all(looped, bytes, &mut row, &mut ranks);
    (told, row, ranks)
}

fn done(count: u64) -> Batch {
    Batch {
        count,
        ..Batch::default()
    }
}

#[test]
fn four_certificates_have_four_verdicts_and_four_stretches() {
    let bytes = [&S1[..], &SECOND, &S2, &S7].concat();
    let (told, row, ranks) = batch(&P, &bytes, 5, 9);
    assert_eq!(told, done(4));
    assert_eq!(
        row,
        [
            accepted(2, 1),
            refused(22, 1),
            accepted(4, 2),
            refused(3, 0),
            FOUND
        ]
    );
    assert_eq!(ranks, [1, -1, 7, 7, 2, -2, 7, 7, 7]);
}

/// A refused batch changes nothing.
fn refuses(looped: &[u8], bytes: &[u8], rooms: [usize; 2], told: (u64, u64, u64)) {
    let [places, numbers] = rooms;
    let (number, place, record) = told;
    let refused = Batch {
        number,
        place,
        record,
        count: 0,
    };
    let found = (refused, vec![FOUND; places], vec![7; numbers]);
    assert_eq!(batch(looped, bytes, places, numbers), found);
}

#[test]
fn refusals_come_in_order() {
    refuses(&P[..45], &S1.repeat(33), [0, 0], (1, 45, 1));
    refuses(&S1, &S1, [9, 9], (4, 4, 1));
    refuses(&P, &S1.repeat(33), [0, 0], (13, 33, 0));
    refuses(&P, &S1.repeat(40), [40, 80], (13, 40, 0));
    refuses(&P, &S1.repeat(32), [31, 63], (7, 32, 0));
    refuses(&P, &S1.repeat(32), [32, 63], (7, 64, 0));
    refuses(&P, &S7, [1, 1], (7, 2, 0));
    refuses(&P, &[0], [0, 2], (7, 1, 0));
    assert_eq!(batch(&P, &S1.repeat(32), 32, 64).0, done(32));
    assert_eq!(batch(&P, &[], 0, 0).0, done(0));
    let rest = [S1.repeat(32), vec![9]].concat();
    refuses(&P, &rest, [33, 66], (13, 33, 0));
}

#[test]
fn the_last_record_takes_the_rest() {
    let parted = |bytes: &[u8]| -> Vec<usize> { records(bytes).iter().map(|r| r.len()).collect() };
    assert_eq!(parted(&[]), [0; 0]);
    assert_eq!(parted(&[1]), [1]);
    assert_eq!(parted(&[S1, S1].concat()), [18, 18]);
    assert_eq!(parted(&[&S1[..], &S1[..17]].concat()), [18, 17]);
    assert_eq!(parted(&[&S1[..], &[0; 40]].concat()), [18, 40]);
    assert_eq!(parted(&[&[1, 0, 0, 0][..], &S1].concat()), [22]);
    assert_eq!(parted(&[&[2, 0, 0, 0, 9, 9][..], &S1].concat()), [6, 18]);
    assert_eq!(parted(&[255; 9]), [9]);
    let bytes = [&S1[..], &S1[..17]].concat();
    let (told, row, ranks) = batch(&P, &bytes, 2, 4);
    assert_eq!((told, ranks), (done(2), vec![1, -1, 7, 7]));
    assert_eq!(row, [accepted(2, 1), refused(1, 17)]);
}

#[test]
fn several_paths_ask_for_rank_numbers_and_fill_none() {
    // while x >= 1, x falls by 1: one path; its argument has r = x, at least 1 and falling by 1
    let looped = [
        24, 0, 0, 0, 5, 0, 1, 0, 1, 0, 2, 0, // L, kind, n, paths, m
        255, 255, 0, 0, 255, 255, 255, 255, // -x <= -1
        255, 255, 1, 0, 255, 255, 255, 255, // -x + x' <= -1
    ];
    let argument = [
        26, 0, 0, 0, 6, 0, 1, 0, 0, 0, // L, kind, components, the path's component
        1, 0, 0, 0, 1, 0, 0, 0, 1, 0, 0, 0, // r, start, fall
        1, 0, 0, 0, 0, 0, 1, 0, // bounded, ranking
    ];
    let bytes = [&argument[..], &S1, &argument].concat();
    refuses(&looped, &bytes, [3, 2], (7, 3, 0));
    let (told, row, ranks) = batch(&looped, &bytes, 3, 4);
    assert_eq!((told, ranks), (done(3), vec![7; 4]));
    assert_eq!(row[0], judge(&looped, &argument, &mut []));
    assert_eq!(
        (row[0].outcome, row[1], row[2].outcome),
        (6, refused(4, 4), 6)
    );
}
