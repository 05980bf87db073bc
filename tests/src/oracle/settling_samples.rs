//! Samples of settlings: a curve that climbs before it falls, which has an exclusion as well; the order of the conditions and of
//! the record's refusals, the ends of its ranges, and the calls and loops that don't take it.

use super::judging::{bound, judge, Bounded, Verdict};
use super::layout::Form;
use super::record::{read_certificate, read_loop, write_record};
use super::sheet::sheet;

fn numbers(form: Form, list: &[i64]) -> Vec<u8> {
    let mut bytes = vec![0; list.len() * form.width()];
    for (i, &number) in list.iter().enumerate() {
        form.put(number, &mut bytes, i * form.width());
    }
    bytes
}

fn record(kind: i64, body: &[u8]) -> Vec<u8> {
    let length = (2 + body.len() as u32).to_le_bytes();
    [&length[..], &numbers(Form::U16, &[kind]), body].concat()
}

/// n, then the rows: A and A' together, and b.
fn looped(n: i64, rows: &[(&[i64], i64)]) -> Vec<u8> {
    let row = |(entries, right): &(&[i64], i64)| {
        [numbers(Form::I16, entries), numbers(Form::I32, &[*right])].concat()
    };
    let head = numbers(Form::U16, &[n, rows.len() as i64]);
    let body: Vec<u8> = rows.iter().flat_map(row).collect();
    record(1, &[head, body].concat())
}

/// g, t, k, and the multipliers E, Y, Z one after another.
fn settling(g: &[i64], t: i64, k: i64, multipliers: &[i64]) -> Vec<u8> {
    let body = [
        numbers(Form::I16, g),
        numbers(Form::I32, &[t]),
        numbers(Form::U16, &[k]),
        numbers(Form::U16, multipliers),
    ];
    record(8, &body.concat())
}

const CURVE_ROWS: [(&[i64], i64); 5] = [
    (&[-1, 0, 0, 0], 0),
    (&[-1, -1, 1, 0], 0),
    (&[1, 1, -1, 0], 0),
    (&[0, -1, 0, 1], -1),
    (&[0, 1, 0, -1], 1),
];
const CURVE_WEIGHTS: [i64; 17] = [0, 0, 0, 1, 0, 1, 0, 0, 0, 0, 0, 0, 1, 0, 0, 0, 1];

/// x' = x + y and y' = y - 1 while x >= 0.
fn curve() -> Vec<u8> {
    looped(2, &CURVE_ROWS)
}

/// -y rises to 1; from there on x falls.
fn curve_settles() -> Vec<u8> {
    settling(&[0, -1], 1, 1, &CURVE_WEIGHTS)
}

/// The curve's settling with another weight at some places.
fn with_weights(changes: &[(usize, i64)]) -> Vec<u8> {
    let mut weights = CURVE_WEIGHTS;
    for &(place, weight) in changes {
        weights[place] = weight;
    }
    settling(&[0, -1], 1, 1, &weights)
}

fn told(looped: &[u8], certificate: &[u8]) -> (u64, u64, u64) {
    let mut rank = [7; 16];
    let verdict = judge(looped, certificate, &mut rank);
    (verdict.number, verdict.place, verdict.record)
}

fn accepted(start: i64, fall: i64) -> Verdict {
    Verdict {
        outcome: 8,
        start,
        fall,
        ..Verdict::default()
    }
}

#[test]
fn the_curve_settles_and_has_no_rank_from_the_start() {
    let mut rank = [77; 3];
    let verdict = judge(&curve(), &curve_settles(), &mut rank);
    assert_eq!((verdict, rank), (accepted(0, 1), [1, 0, 77]));
    let exclusion = [
        &numbers(Form::U16, &[1])[..],
        &numbers(Form::I32, &[-1, -1, 0, -1, 0, -1]),
    ];
    let excluded = judge(&curve(), &record(3, &exclusion.concat()), &mut []);
    assert_eq!((excluded.outcome, excluded.grade), (3, 1));
}

#[test]
fn the_bound_counts_the_steps_before_the_threshold() {
    for (state, bounds) in [([0, 5], 6), ([9, 0], 1), ([9, -1], 0), ([3, -2], 0)] {
        let wanted = Bounded {
            verdict: accepted(0, 1),
            bound: bounds,
        };
        assert_eq!(bound(&curve(), &curve_settles(), &state), wanted);
    }
    let far = bound(
        &curve(),
        &settling(&[0, -1], 2_000_000_000, 1, &CURVE_WEIGHTS),
        &[0, 1_000_000],
    );
    assert_eq!(far.bound, 2_001_000_000);
    assert_eq!(far.verdict.fall, 2_000_000_000);
}

#[test]
fn refusals_come_in_their_order() {
    let (curve, settles) = (curve(), curve_settles());
    let short = judge(&curve, &with_weights(&[(3, 2)]), &mut [0]);
    assert_eq!((short.number, short.place, short.record), (7, 2, 0));
    let cut = judge(&curve, &settles[..49], &mut [0]);
    assert_eq!((cut.number, cut.place, cut.record), (1, 49, 2));
    let told_at = |certificate: &[u8], state: &[i64]| {
        let verdict = bound(&curve, certificate, state).verdict;
        (verdict.number, verdict.place, verdict.record)
    };
    let failing = with_weights(&[(3, 2)]);
    assert_eq!(told_at(&failing, &[1_000_001]), (10, 1, 0));
    assert_eq!(told_at(&failing, &[0, -1_000_001]), (9, 1, 0));
    assert_eq!(told_at(&failing, &[0, 0]), (61, 1, 2));
    assert_eq!(told_at(&settles, &[-1_000_000, 1_000_000]), (0, 0, 0));
}

#[test]
fn each_condition_is_told_by_its_number_and_column() {
    let row = |now: [i64; 2], next: [i64; 2], right: i64, first: i64| {
        let entries = [now, next].concat();
        let weights = [1, first, 0, 0, 0];
        told(
            &looped(2, &[(&entries, right)]),
            &settling(&[1, -3], 1, 2, &weights),
        )
    };
    assert_eq!(row([2, -6], [-2, 6], -2, 0), (24, 0, 2));
    assert_eq!(row([2, -6], [-2, 6], -3, 0), (24, 0, 2));
    assert_eq!(row([3, -6], [-1, 6], -1, 1), (61, 0, 2));
    assert_eq!(row([2, -5], [-1, 6], -1, 1), (61, 1, 2));
    assert_eq!(row([2, -6], [-1, 6], -1, 1), (62, 0, 2));
    assert_eq!(row([2, -6], [-2, 5], -1, 1), (62, 1, 2));
    assert_eq!(row([2, -6], [-2, 6], -1, 1), (63, 0, 2));
    assert_eq!(row([2, -6], [-2, 6], -2, 1), (21, 0, 2));
    let curve = curve();
    for (changes, wanted) in [
        (&[(5, 0), (6, 1), (10, 1)][..], (21, 0)),
        (&[(8, 1), (10, 1)], (21, 1)),
        (&[(5, 2)], (22, 0)),
        (&[(10, 1)], (22, 1)),
        (&[(5, 2), (11, 1)], (23, 0)),
        (&[(10, 1), (16, 2)], (23, 1)),
    ] {
        let (number, place) = wanted;
        assert_eq!(told(&curve, &with_weights(changes)), (number, place, 2));
    }
    for (t, number) in [(2, 0), (1, 0), (0, 24), (-1, 24)] {
        let certificate = settling(&[0, -1], t, 1, &CURVE_WEIGHTS);
        assert_eq!(told(&curve, &certificate).0, number);
    }
}

#[test]
fn values_have_their_ranges_and_places() {
    let curve = curve();
    let of_values = |g: i64, t: i64, k: i64, weight: (usize, i64)| {
        let mut weights = CURVE_WEIGHTS;
        weights[weight.0] = weight.1;
        told(&curve, &settling(&[g, -1], t, k, &weights))
    };
    let none = (0, 0);
    assert_eq!(of_values(30_000, 1, 1, none), (61, 0, 2));
    assert_eq!(of_values(30_001, 2_000_000_001, 0, none), (6, 6, 2));
    assert_eq!(of_values(-30_001, 1, 1, none), (6, 6, 2));
    assert_eq!(of_values(0, 2_000_000_000, 1, none), (0, 0, 0));
    assert_eq!(of_values(0, -2_000_000_000, 1, none), (24, 0, 2));
    assert_eq!(of_values(0, 2_000_000_001, 0, none), (6, 10, 2));
    assert_eq!(of_values(0, -2_000_000_001, 1, none), (6, 10, 2));
    assert_eq!(of_values(0, 1, 60_000, none), (61, 1, 2));
    assert_eq!(of_values(0, 1, 0, (0, 60_001)), (6, 14, 2));
    assert_eq!(of_values(0, 1, 60_001, none), (6, 14, 2));
    assert_eq!(of_values(0, 1, 1, (4, 60_000)), (61, 1, 2));
    assert_eq!(of_values(0, 1, 1, (0, 60_001)), (6, 16, 2));
    assert_eq!(of_values(0, 1, 1, (5, 60_001)), (6, 26, 2));
    assert_eq!(of_values(0, 1, 1, (16, 60_001)), (6, 48, 2));
}

#[test]
fn a_settling_goes_with_a_loop_of_kind_1_and_through_judging_and_bound_alone() {
    let (curve, settles) = (curve(), curve_settles());
    let paths = record(5, &numbers(Form::U16, &[2, 1, 0]));
    assert_eq!(told(&paths, &settles), (4, 4, 2));
    assert_eq!(told(&settles, &curve), (4, 4, 1));
    assert_eq!(bound(&paths, &settles, &[0, 0]).verdict.record, 1);
    let mut list = [0; 99];
    assert_eq!(read_loop(&settles, &mut list).number, 4);
    assert_eq!(read_certificate(&settles, 2, 5, &mut list).number, 4);
    let values = [&[0, -1, 1, 1], &CURVE_WEIGHTS[..]].concat();
    let writing = write_record(8, 2, 5, &values, &mut [0; 99]);
    assert_eq!((writing.number, writing.place), (4, 4));
    assert_eq!(
        sheet(&[&curve[..], &settles].concat()),
        "loop 2 5\n1 refused 4 4\n"
    );
    assert_eq!(sheet(&settles), "loop refused 4 4\n");
}

#[test]
fn without_rows_nothing_rises() {
    let empty = looped(1, &[]);
    assert_eq!(told(&empty, &settling(&[1], 0, 1, &[0, 0])), (61, 0, 2));
    assert_eq!(told(&empty, &settling(&[0], 0, 1, &[0, 0])), (63, 0, 2));
    assert_eq!(told(&empty, &settling(&[0], 0, 1, &[0, 0, 0])), (3, 0, 2));
}
