//! The paper's own samples, S1 to S14, the sheet it prints, and the inputs that it asks to be run; right sides at their ends.

use super::judging::{bound, judge, Bounded, Verdict};
use super::record::{read_certificate, read_loop, write_record};
use super::sheet::sheet;

fn record(kind: u64, n: u64, m: u64, values: &[i64]) -> Vec<u8> {
    let mut room = vec![0; 20_000];
    let writing = write_record(kind, n, m, values, &mut room);
    assert_eq!(writing.number, 0);
    room.truncate(writing.written as usize);
    room
}

fn loop_p() -> Vec<u8> {
    let rows = [-1, 1, 0, 0, -2, -1, 0, 1, 0, -1, 0, 1, 0, -1, 0];
    record(1, 2, 3, &rows)
}

fn refused(number: u64, place: u64, record: u64) -> Verdict {
    Verdict {
        number,
        place,
        record,
        ..Verdict::default()
    }
}

fn ranking(start: i64, fall: i64) -> Verdict {
    Verdict {
        outcome: 2,
        start,
        fall,
        ..Verdict::default()
    }
}

fn excluded(grade: u64) -> Verdict {
    Verdict {
        outcome: 3,
        grade,
        ..Verdict::default()
    }
}

fn bounds(looped: &[u8], certificate: &[u8], states: &[&[i64]]) -> Vec<u64> {
    let bound_at = |state: &&[i64]| bound(looped, certificate, state).bound;
    states.iter().map(bound_at).collect()
}

#[test]
fn s1_to_s6_loop_p() {
    let mut rank = [9; 3];
    let s1 = record(2, 2, 3, &[1, 0, 0, 0, 1, 1]);
    assert_eq!(judge(&loop_p(), &s1, &mut rank), ranking(2, 1));
    assert_eq!(rank, [1, -1, 9]);
    let s2 = record(2, 2, 3, &[2, 0, 0, 0, 2, 2]);
    assert_eq!(judge(&loop_p(), &s2, &mut rank), ranking(4, 2));
    assert_eq!(rank, [2, -2, 9]);
    let s3 = record(2, 2, 3, &[0; 6]);
    assert_eq!(judge(&loop_p(), &s3, &mut rank), refused(24, 0, 2));
    let states: [&[i64]; 3] = [&[5, 1], &[3, 1], &[2, 1]];
    assert_eq!(bounds(&loop_p(), &s1, &states), [3, 1, 0]);
}

#[test]
fn s7_to_s9_exclusions() {
    let falling = record(1, 1, 3, &[-1, 0, 0, 2, 1, 10, -2, -1, -10]);
    let s7 = record(3, 1, 3, &[1, -2, 1, 4]);
    assert_eq!(judge(&falling, &s7, &mut []), excluded(1));
    let s8 = record(3, 1, 3, &[2, -4, 2, 8]);
    assert_eq!(judge(&falling, &s8, &mut []), excluded(1));
    let half = record(1, 1, 4, &[2, 0, 1, -2, 0, -1, -1, 1, 0, 1, -1, 0]);
    let s9 = record(3, 1, 4, &[2, 0, 0, 1]);
    assert_eq!(judge(&half, &s9, &mut []), excluded(2));
}

#[test]
fn an_exclusion_is_whole_where_q_divides_all_of_v_and_w() {
    let no_rows = record(1, 2, 0, &[]);
    let graded = |q: i64, u: [i64; 2], v: [i64; 2], w: [i64; 2]| {
        let values = [&[q], &u[..], &v, &w].concat();
        let verdict = judge(&no_rows, &record(3, 2, 0, &values), &mut []);
        assert_eq!(verdict, excluded(verdict.grade));
        verdict.grade
    };
    assert_eq!(graded(3, [1, 2], [3, -6], [0, 9]), 1); // U does not matter
    assert_eq!(graded(3, [3, 3], [3, -6], [9, 8]), 2); // all but the last of W
    assert_eq!(graded(3, [3, 3], [3, -5], [9, 0]), 2); // all but the last of V
    assert_eq!(graded(3, [3, 3], [3, -6], [-8, 9]), 2);
    assert_eq!(graded(3, [3, 3], [-1, 0], [0, 0]), 2);
    assert_eq!(graded(60_000, [1, 1], [0, 0], [0, 0]), 1);
    assert_eq!(graded(1, [7, 7], [-5, 3], [11, -1]), 1);
    let end = 60_000;
    assert_eq!(graded(end, [1, 0], [end, -end], [-end, end]), 1);
    assert_eq!(graded(end, [0, 0], [end, -end], [-end, end - 1]), 2);
    assert_eq!(graded(end, [0, 0], [end, 1 - end], [-end, end]), 2);

    // -2x + 2x' <= -1; 2x - 2x' <= 1: the step from 1/2 to 0, where q divides W and not V
    let by_half = record(1, 1, 2, &[-2, 2, -1, 2, -2, 1]);
    let half_down = record(3, 1, 2, &[2, -1, -1, 0]);
    assert_eq!(judge(&by_half, &half_down, &mut []), excluded(2));
}

#[test]
fn s10_and_s11_lasso_and_exclusion_of_one_loop() {
    let looped = record(1, 2, 3, &[-1, 0, 0, 0, 0, -1, 1, 1, 0, 0, 0, 1, 0, -1, 0]);
    let stem = [1, 0, 0, 0, -1, -1];
    let invariant = [0, 1, -1, 1, 1];
    let multipliers = [1, 0, 0, 1, 1, 1, 0, 0, 0, 0, 1, 0, 1];
    let s10 = record(4, 2, 3, &[&stem[..], &invariant, &multipliers].concat());
    let mut rank = [9; 2];
    let lasso = Verdict {
        outcome: 4,
        ..ranking(0, 1)
    };
    assert_eq!(judge(&looped, &s10, &mut rank), lasso);
    assert_eq!(rank, [1, 0]);
    assert_eq!(bounds(&looped, &s10, &[&[5, 1]]), [6]);
    let outside = Bounded {
        verdict: refused(11, 0, 2),
        bound: 0,
    };
    assert_eq!(bound(&looped, &s10, &[5, 0]), outside);
    let s11 = record(3, 2, 3, &[1, 0, 0, 0, 0, 0, 0]);
    assert_eq!(judge(&looped, &s11, &mut []), excluded(1));
}

#[test]
fn s12_to_s14_small_loops() {
    let no_rows = record(1, 1, 0, &[]);
    let mut rank = [9];
    let nothing = record(2, 1, 0, &[]);
    assert_eq!(judge(&no_rows, &nothing, &mut rank), refused(24, 0, 2));
    let zeros = record(3, 1, 0, &[1, 0, 0, 0]);
    assert_eq!(judge(&no_rows, &zeros, &mut []), excluded(1));

    let no_step = record(1, 1, 1, &[0, 0, -1]);
    let s13 = record(2, 1, 1, &[0, 1]);
    assert_eq!(judge(&no_step, &s13, &mut rank), ranking(0, 1));
    assert_eq!(rank, [0]);
    let states: [&[i64]; 3] = [&[-1_000_000], &[0], &[1_000_000]];
    assert_eq!(bounds(&no_step, &s13, &states), [1, 1, 1]);

    let by_two = record(1, 1, 2, &[-1, 0, 0, -1, 1, -2]);
    let s14 = record(2, 1, 2, &[1, 0, 0, 1]);
    assert_eq!(judge(&by_two, &s14, &mut rank), ranking(0, 2));
    let states: [&[i64]; 4] = [&[-1], &[0], &[1], &[2]];
    assert_eq!(bounds(&by_two, &s14, &states), [0, 1, 1, 2]);
}

/// The number and place that judging tells of a certificate.
fn told(looped: &[u8], certificate: &[u8]) -> (u64, u64) {
    let verdict = judge(looped, certificate, &mut [0; 2]);
    assert_eq!(verdict, refused(verdict.number, verdict.place, 2));
    (verdict.number, verdict.place)
}

#[test]
fn a_ranking_fails_all_columns_of_one_condition_before_the_next() {
    let tells = |values: &[i64]| told(&loop_p(), &record(2, 2, 3, values));
    assert_eq!(tells(&[0, 1, 0, 0, 1, 1]), (21, 0));
    assert_eq!(tells(&[0, 0, 1, 0, 1, 1]), (21, 1)); // 22 at 0 too
    assert_eq!(tells(&[0, 0, 0, 0, 1, 1]), (22, 0));
    assert_eq!(tells(&[1, 0, 0, 1, 0, 1]), (22, 1)); // 23 at 0 too
    assert_eq!(tells(&[1, 0, 0, 1, 0, 0]), (23, 0));
    let below = record(1, 2, 1, &[0, 1, 0, 0, 0]);
    assert_eq!(told(&below, &record(2, 2, 1, &[1, 1])), (23, 1)); // 24 too
    assert_eq!(tells(&[0; 6]), (24, 0));
}

#[test]
fn an_exclusion_fails_by_its_direction_in_any_row_before_its_step() {
    let tells = |values: &[i64]| told(&loop_p(), &record(3, 2, 3, values));
    assert_eq!(tells(&[1, 0, 0, 0, 1, 0, 0]), (31, 0));
    assert_eq!(tells(&[1, 0, -1, 0, 0, 0, 0]), (31, 2)); // 32 at 0 too
    assert_eq!(tells(&[1, 0, 0, 0, 0, 0, 0]), (32, 0));
    assert_eq!(tells(&[1, -1, -1, -1, -1, 2, 0]), (32, 2));
}

#[test]
fn a_lasso_fails_by_start_then_kept_then_as_a_ranking() {
    let looped = record(1, 2, 3, &[-1, 0, 0, 0, 0, -1, 1, 1, 0, 0, 0, 1, 0, -1, 0]);
    // S10, with a stem row, k, T, k2, H, h0 and Z of the test's own
    let tells = |stem: [i64; 5], kept: [i64; 7], z: [i64; 4]| {
        let values = [&[1], &stem[..], &[0, 1, -1], &kept, &[1, 0, 0, 0], &z].concat();
        told(&looped, &record(4, 2, 3, &values))
    };
    let (stem, kept, z) = ([0, 0, 0, -1, -1], [1, 1, 1, 0, 0, 1, 1], [0, 1, 0, 1]);
    assert_eq!(tells([1, 0, 0, -1, -1], kept, z), (41, 0));
    assert_eq!(tells([0, 1, 1, -1, -1], kept, z), (41, 1)); // 42 at 0 too
    assert_eq!(tells([0, 0, 1, -1, -1], kept, z), (42, 0));
    assert_eq!(tells([0, 0, 0, -2, 0], kept, z), (42, 1)); // 43 too
    assert_eq!(tells([0, 0, 0, -1, 0], [1, 1, 1, 1, 0, 1, 1], z), (43, 0)); // 44 at 0 too
    assert_eq!(tells(stem, [1, 1, 1, 1, 0, 1, 1], z), (44, 0));
    assert_eq!(tells(stem, [1, 1, 2, 0, 0, 1, 2], z), (44, 1)); // 45 at 1 too
    assert_eq!(tells(stem, [1, 1, 2, 0, 0, 1, 1], z), (45, 1)); // 46 too
    assert_eq!(tells(stem, kept, [0, 0, 0, 1]), (22, 0));
    assert_eq!(tells(stem, kept, [0, 1, 0, 0]), (22, 1)); // without the added row
    assert_eq!(tells(stem, kept, [1, 0, 0, 0]), (23, 0));

    // x' <= 0; y - y' <= 1
    let other = record(1, 2, 2, &[0, 0, 1, 0, 0, 0, 1, 0, -1, 1]);
    let tells = |h: [i64; 2]| {
        let values = [&[1], &stem[..], &[0, 1, -1, 1, 1, 1], &h, &[1], &[0; 6]].concat();
        told(&other, &record(4, 2, 2, &values))
    };
    assert_eq!(tells([1, 1]), (45, 0)); // 46 too
    assert_eq!(tells([0, 1]), (46, 0)); // 24 too
}

#[test]
fn the_sheet_of_p() {
    let mut input = loop_p();
    input.extend(record(2, 2, 3, &[1, 0, 0, 0, 1, 1]));
    input.extend(record(2, 2, 3, &[1, 0, 0, 0, 1, 0]));
    assert_eq!(input.len(), 82);
    let text = "loop 2 3\n1 rank 1 -1 from 2 down 1\n2 refused 22 1\n";
    assert_eq!(sheet(&input), text);
    assert_eq!(sheet(&[]), "loop refused 1 0\n");
    input.truncate(47);
    assert_eq!(sheet(&input), "loop 2 3\n1 refused 1 1\n");
    assert_eq!(sheet(&[0; 65_537]), "input too long\n");
}

#[test]
fn lengths_of_p() {
    let mut longer = loop_p();
    longer.push(0);
    let answers = [5, 6, 45, 46, 47].map(|length| {
        let reading = read_loop(&longer[..length], &mut [0; 15]);
        (reading.number, reading.place)
    });
    assert_eq!(answers, [(1, 5), (1, 6), (1, 45), (0, 0), (2, 46)]);
}

/// Right sides go to 2,000,000,000 either way; a state still goes to 1,000,000.
const END: i64 = 2_000_000_000;

/// A list of parts, each a number and how often it stands there.
fn repeated(parts: &[(i64, usize)]) -> Vec<i64> {
    parts
        .iter()
        .flat_map(|&(number, times)| vec![number; times])
        .collect()
}

/// So many rows with the same entries of A, the same of A', and this right side; n is 16.
fn rows_of(count: usize, now: i64, next: i64, right: i64) -> Vec<i64> {
    repeated(&[(now, 16), (next, 16), (right, 1)]).repeat(count)
}

#[test]
fn right_sides_end_at_two_thousand_million_in_reading_writing_and_judging() {
    let mut room = [0; 64];
    let mut told = |kind, values: &[i64]| {
        let writing = write_record(kind, 1, 1, values, &mut room);
        (writing.number, writing.place)
    };
    for (right, number) in [(END, 0), (-END, 0), (END + 1, 6), (-END - 1, 6)] {
        let place = |place| if number == 6 { place } else { 0 };
        assert_eq!(told(1, &[0, 0, right]), (number, place(14)));
        let d = [1, 0, 0, right, 0, 0, 1, 0, 1, 0, 0, 0, 0, 0, 0];
        assert_eq!(told(4, &d), (number, place(12)));
        let s0 = [1, 0, 0, 0, 0, right, 1, 0, 1, 0, 0, 0, 0, 0, 0];
        assert_eq!(told(4, &s0), (number, place(18)));

        let put = |mut record: Vec<u8>, at: usize| {
            record[at..at + 4].copy_from_slice(&(right as i32).to_le_bytes());
            record
        };
        let looped = record(1, 1, 1, &[0, 0, -1]);
        let b = put(looped.clone(), 14);
        let read = read_loop(&b, &mut [0; 3]);
        assert_eq!((read.number, read.place), (number, place(14)));
        let ranking = record(2, 1, 1, &[0, 1]);
        let judged = judge(&b, &ranking, &mut [0]);
        let by_its_sign = if right < 0 { 0 } else { 24 };
        let (of_b, of_loop) = if number == 6 {
            (6, 1)
        } else {
            (by_its_sign, 2)
        };
        assert_eq!((judged.number, judged.place), (of_b, place(14)));
        assert_eq!(judged.record, if of_b == 0 { 0 } else { of_loop });
        let lasso = record(4, 1, 1, &[1, 0, 0, 0, 0, 0, 1, 0, 1, 0, 0, 0, 0, 1, 0]);
        for at in [12, 18] {
            let lasso = put(lasso.clone(), at);
            let read = read_certificate(&lasso, 1, 1, &mut [0; 15]);
            assert_eq!((read.number, read.place), (number, place(at as u64)));
            let judged = judge(&looped, &lasso, &mut [0]);
            if number == 6 {
                assert_eq!(judged, refused(6, at as u64, 2));
            } else {
                // k s0 must not lie below Td: only a negative s0 fails
                let fails = at == 18 && right < 0;
                assert_eq!(judged.number, if fails { 43 } else { 0 });
            }
        }
    }
    let no_step = record(1, 1, 1, &[0, 0, 1_000_001 - END]);
    let s13 = record(2, 1, 1, &[0, 1]);
    assert_eq!(bound(&no_step, &s13, &[1_000_000]).bound, 1);
    assert_eq!(
        bound(&no_step, &s13, &[1_000_001]).verdict,
        refused(9, 0, 0)
    );
}

#[test]
fn the_largest_start_and_fall() {
    let looped = record(1, 16, 64, &rows_of(64, 0, 0, -END));
    let certificate = record(2, 16, 64, &[60_000; 128]);
    let told = ranking(7_680_000_000_000_000, 7_680_000_000_000_000);
    let mut rank = [9; 16];
    assert_eq!(judge(&looped, &certificate, &mut rank), told);
    assert_eq!(rank, [0; 16]);

    let looped = record(
        1,
        16,
        64,
        &[rows_of(63, 0, 0, END), rows_of(1, 0, 0, -END)].concat(),
    );
    let weights = repeated(&[(60_000, 63), (0, 64), (60_000, 1)]);
    let certificate = record(2, 16, 64, &weights);
    let told = ranking(-7_560_000_000_000_000, 120_000_000_000_000);
    assert_eq!(judge(&looped, &certificate, &mut rank), told);
}

#[test]
fn the_largest_start_and_fall_of_a_lasso_and_a_state_inside_its_invariant() {
    // s.x = 30,000 (x1 + .. + x16); the rows s.x <= b, -s.x' <= b and s.x' <= b, 61 rows 0 <= b, all b -2,000,000,000
    let rows = [
        rows_of(1, 30_000, 0, -END),
        rows_of(1, 0, -30_000, -END),
        rows_of(1, 0, 30_000, -END),
        rows_of(61, 0, 0, -END),
    ];
    let looped = record(1, 16, 64, &rows.concat());
    // the stem -s.x' <= -2,000,000,000; s, s0, k, T, k2, H on the second row, h0, and all of Y and Z
    let certificate = [
        vec![1],
        rows_of(1, 0, -30_000, -END),
        repeated(&[(30_000, 16), (-END, 1), (60_000, 3)]),
        repeated(&[(0, 1), (60_000, 1), (0, 62), (0, 1), (60_000, 130)]),
    ];
    let certificate = record(4, 16, 64, &certificate.concat());
    let lasso = Verdict {
        outcome: 4,
        ..ranking(7_800_000_000_000_000, 7_800_000_000_000_000)
    };
    assert_eq!(judge(&looped, &certificate, &mut [0; 16]), lasso);
    let bounded = |state: &[i64]| bound(&looped, &certificate, state);
    let inside = Bounded {
        verdict: lasso,
        bound: 0,
    };
    assert_eq!(bounded(&[1_000_000; 16]), inside);
    // 480,000 x is 2,000,000,000 between x = 4,166 and x = 4,167
    assert_eq!(bounded(&[4_167; 16]), inside);
    assert_eq!(bounded(&[4_166; 16]).verdict, refused(11, 0, 2));
}

#[test]
fn a_large_bound() {
    let rows = [
        rows_of(31, -30_000, 0, END),
        rows_of(31, -30_000, 30_000, 0),
        rows_of(1, 0, 0, -1),
        rows_of(1, 0, 0, END),
    ];
    let looped = record(1, 16, 64, &rows.concat());
    let y = repeated(&[(60_000, 31), (0, 32), (60_000, 1)]);
    let z = repeated(&[(0, 31), (60_000, 31), (1, 1), (0, 1)]);
    let certificate = record(2, 16, 64, &[y, z].concat());
    let told = Bounded {
        verdict: ranking(-3_840_000_000_000_000, 1),
        bound: 896_640_000_000_000_001,
    };
    assert_eq!(bound(&looped, &certificate, &[1_000_000; 16]), told);
}
