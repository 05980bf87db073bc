//! Samples of loops with several paths: two counters, which end by an argument of two components; ping-pong, which need not;
//! the order of refusals of both records, the ends of their ranges, and the calls and pairs that don't take them.

use super::judging::{bound, judge, Verdict};
use super::layout::Form;
use super::record::{read_certificate, read_loop, write_record};
use super::sheet::sheet;

fn numbers(form: Form, list: &[i64]) -> Vec<u8> {
    let mut bytes = vec![0; list.len() * form.width()];
    for (i, &number) in list.iter().enumerate() {
        form.put(number, &mut bytes, i * form.width());
    }
    bytes
}

fn record(kind: i64, body: &[u8]) -> Vec<u8> {
    let length = (2 + body.len() as u32).to_le_bytes();
    [&length[..], &numbers(Form::U16, &[kind]), body].concat()
}

/// n and the m's, then the rows: A and A' together, and b.
fn path_loop(n: i64, rows: &[&[(&[i64], i64)]]) -> Vec<u8> {
    let counts: Vec<i64> = rows.iter().map(|path| path.len() as i64).collect();
    let head = [&[n, rows.len() as i64], &counts[..]].concat();
    let row = |(entries, right): &(&[i64], i64)| {
        [numbers(Form::I16, entries), numbers(Form::I32, &[*right])].concat()
    };
    let body: Vec<u8> = rows.concat().iter().flat_map(row).collect();
    record(5, &[numbers(Form::U16, &head), body].concat())
}

/// The paths' component numbers, the components' numbers one after another, and the multipliers.
fn argument(components: i64, of_paths: &[i64], values: &[i64], multipliers: &[i64]) -> Vec<u8> {
    let head = [&[components], of_paths].concat();
    let body = [
        numbers(Form::U16, &head),
        numbers(Form::I32, values),
        numbers(Form::U16, multipliers),
    ];
    record(6, &body.concat())
}

/// While x >= 1 and y >= 1: either x falls, or y falls and x does not rise.
fn two_counters() -> Vec<u8> {
    let (x, y) = ((&[-1, 0, 0, 0][..], -1), (&[0, -1, 0, 0][..], -1));
    let first = [x, y, (&[-1, 0, 1, 0], -1)];
    let second = [x, y, (&[-1, 0, 1, 0], 0), (&[0, -1, 0, 1], -1)];
    path_loop(2, &[&first, &second])
}

const COMPONENTS: [i64; 8] = [1, 0, 1, 1, 0, 1, 1, 1];
const MULTIPLIERS: [i64; 18] = [1, 0, 0, 0, 0, 1, 0, 1, 0, 0, 0, 0, 0, 1, 0, 0, 1, 0];

fn counters_argument() -> Vec<u8> {
    argument(2, &[0, 1], &COMPONENTS, &MULTIPLIERS)
}

/// Either x falls and y rises by one, or the other way round.
fn ping_pong() -> Vec<u8> {
    let there: [(&[i64], i64); 5] = [
        (&[-1, 0, 0, 0], -1),
        (&[-1, 0, 1, 0], -1),
        (&[1, 0, -1, 0], 1),
        (&[0, -1, 0, 1], 1),
        (&[0, 1, 0, -1], -1),
    ];
    let back: [(&[i64], i64); 5] = [
        (&[0, -1, 0, 0], -1),
        (&[0, -1, 0, 1], -1),
        (&[0, 1, 0, -1], 1),
        (&[-1, 0, 1, 0], 1),
        (&[1, 0, -1, 0], -1),
    ];
    path_loop(2, &[&there, &back])
}

fn accepted() -> Verdict {
    Verdict {
        outcome: 6,
        ..Verdict::default()
    }
}

/// The number, place and record that judging tells of a refusal.
fn told(looped: &[u8], certificate: &[u8]) -> (u64, u64, u64) {
    let mut rank = [9; 3];
    let verdict = judge(looped, certificate, &mut rank);
    assert_eq!(rank, [9; 3]);
    assert_eq!(verdict.outcome, 0);
    (verdict.number, verdict.place, verdict.record)
}

#[test]
fn two_counters_end_and_no_rank_list_is_asked_for() {
    assert_eq!((two_counters().len(), counters_argument().len()), (98, 80));
    let mut rank = [9; 3];
    let verdict = judge(&two_counters(), &counters_argument(), &mut rank);
    assert_eq!(verdict, accepted());
    assert_eq!(rank, [9; 3]);
    assert_eq!(
        judge(&two_counters(), &counters_argument(), &mut []),
        accepted()
    );
}

#[test]
fn ping_pong_is_refused_since_the_second_path_raises_the_first_component() {
    let first = [1, 0, 0, 0, 0, 0, 1, 0, 0, 0];
    let second = [1, 0, 0, 0, 0, 0, 1, 0, 0, 0, 0, 0, 0, 1, 0];
    let certificate = argument(2, &[0, 1], &COMPONENTS, &[&first[..], &second].concat());
    assert_eq!(told(&ping_pong(), &certificate), (53, 1, 2));
}

#[test]
fn conditions_are_told_path_by_path() {
    let with = |changes: &[(usize, i64)]| {
        let mut multipliers = MULTIPLIERS;
        for &(place, multiplier) in changes {
            multipliers[place] = multiplier;
        }
        told(
            &two_counters(),
            &argument(2, &[0, 1], &COMPONENTS, &multipliers),
        )
    };
    // path 0: bounded at 0, ranking at 3; path 1: bounded at 6, ranking at 10, unaffecting at 14
    assert_eq!(with(&[(0, 0)]), (51, 0, 2));
    assert_eq!(with(&[(0, 0), (5, 0)]), (51, 0, 2));
    assert_eq!(with(&[(5, 2), (7, 0)]), (52, 0, 2));
    assert_eq!(with(&[(7, 2), (13, 0)]), (51, 1, 2));
    assert_eq!(with(&[(13, 0), (16, 0)]), (52, 1, 2));
    assert_eq!(with(&[(16, 0)]), (53, 1, 2));

    // right sides alone: δ0 and δ of either component one more than the rows give
    let with = |changes: &[usize]| {
        let mut components = COMPONENTS;
        changes.iter().for_each(|&place| components[place] += 1);
        told(
            &two_counters(),
            &argument(2, &[0, 1], &components, &MULTIPLIERS),
        )
    };
    assert_eq!(with(&[2]), (51, 0, 2));
    assert_eq!(with(&[3]), (52, 0, 2));
    assert_eq!(with(&[6]), (51, 1, 2));
    assert_eq!(with(&[7]), (52, 1, 2));
    assert_eq!(with(&[3, 6]), (52, 0, 2));
}

#[test]
fn a_path_without_rows_holds_nothing_down() {
    // 0 <= -1 is one path, no rows are the other
    let looped = path_loop(1, &[&[(&[0, 0], -1)], &[]]);
    let certificate = |start| argument(1, &[0, 0], &[0, start, 1], &[0, 1]);
    assert_eq!(told(&looped, &certificate(0)), (52, 1, 2));
    assert_eq!(told(&looped, &certificate(1)), (51, 0, 2));
    let alone = path_loop(1, &[&[(&[0, 0], -1)]]);
    let certificate = argument(1, &[0], &[0, 0, 1], &[0, 1]);
    assert_eq!(judge(&alone, &certificate, &mut []), accepted());
}

/// A record with bytes put at a place, of which L may be restated.
fn put(record: &[u8], place: usize, number: i64) -> Vec<u8> {
    let mut bytes = record.to_vec();
    Form::U16.put(number, &mut bytes, place);
    bytes
}

fn resized(record: &[u8], length: usize) -> Vec<u8> {
    let mut bytes = record.to_vec();
    bytes.resize(4 + length, 0);
    bytes[..4].copy_from_slice(&(length as u32).to_le_bytes());
    bytes
}

#[test]
fn the_order_of_a_loop_of_kind_5() {
    let looped = two_counters();
    let tells = |looped: &[u8]| told(looped, &counters_argument());
    assert_eq!(tells(&looped[..5]), (1, 5, 1));
    assert_eq!(tells(&[&looped[..], &[0]].concat()), (2, 98, 1));
    assert_eq!(tells(&resized(&put(&looped, 6, 17), 5)), (3, 0, 1));
    assert_eq!(tells(&resized(&put(&looped, 6, 17), 6)), (5, 6, 1));
    assert_eq!(tells(&put(&put(&looped, 6, 0), 8, 9)), (5, 6, 1));
    assert_eq!(tells(&resized(&put(&looped, 8, 9), 6)), (5, 8, 1));
    assert_eq!(tells(&put(&looped, 8, 0)), (5, 8, 1));
    assert_eq!(tells(&resized(&put(&looped, 10, 65), 9)), (3, 0, 1));
    assert_eq!(tells(&resized(&put(&looped, 10, 65), 10)), (5, 10, 1));
    assert_eq!(tells(&put(&put(&looped, 10, 65), 12, 66)), (5, 10, 1));
    assert_eq!(tells(&put(&looped, 12, 65)), (5, 12, 1));
    assert_eq!(tells(&put(&put(&looped, 12, 64), 14, 30_001)), (3, 0, 1));
    assert_eq!(tells(&put(&looped, 14, 30_001)), (6, 14, 1));
    assert_eq!(tells(&put(&looped, 96, -32_768)), (6, 94, 1)); // the last b
}

#[test]
fn the_order_of_an_argument() {
    let certificate = counters_argument();
    let tells = |certificate: &[u8]| told(&two_counters(), certificate);
    assert_eq!(tells(&certificate[..3]), (1, 3, 2));
    assert_eq!(tells(&[&certificate[..], &[0]].concat()), (2, 80, 2));
    assert_eq!(tells(&put(&certificate, 4, 2)), (4, 4, 2));
    assert_eq!(tells(&resized(&put(&certificate, 6, 9), 3)), (3, 0, 2));
    assert_eq!(tells(&resized(&put(&certificate, 6, 9), 4)), (5, 6, 2));
    assert_eq!(tells(&put(&certificate, 6, 0)), (5, 6, 2));
    assert_eq!(tells(&resized(&put(&certificate, 8, 2), 7)), (3, 0, 2));
    assert_eq!(tells(&resized(&put(&certificate, 8, 2), 8)), (14, 8, 2));
    assert_eq!(tells(&put(&put(&certificate, 8, 2), 10, 2)), (14, 8, 2));
    assert_eq!(tells(&put(&certificate, 10, 2)), (14, 10, 2));
    assert_eq!(tells(&put(&certificate, 10, 65_535)), (14, 10, 2));
    assert_eq!(tells(&put(&put(&certificate, 10, 0), 12, -1)), (3, 0, 2)); // the lists are fewer
    assert_eq!(tells(&put(&certificate, 78, 60_001)), (6, 78, 2)); // the last multiplier
}

#[test]
fn the_ends_of_the_ranges_of_an_argument() {
    // one path, 0 <= -1 and 0 <= -2,000,000,000, without a step; r, δ0, δ of one component
    let looped = path_loop(1, &[&[(&[0, 0], -1), (&[0, 0], -2_000_000_000)]]);
    let tells = |component: [i64; 3], multiplier: i64| {
        let multipliers = [0, 1, 0, multiplier];
        let verdict = judge(
            &looped,
            &argument(1, &[0], &component, &multipliers),
            &mut [],
        );
        (verdict.number, verdict.place)
    };
    assert_eq!(tells([0, 2_000_000_000, 1_000_000], 60_000), (0, 0));
    assert_eq!(tells([0, -2_000_000_000, 1], 1), (0, 0));
    assert_eq!(tells([60_000, 0, 1], 1), (51, 0));
    assert_eq!(tells([60_001, 0, 0], 1), (6, 10));
    assert_eq!(tells([-60_001, 0, 1], 1), (6, 10));
    assert_eq!(tells([0, 2_000_000_001, 1], 1), (6, 14));
    assert_eq!(tells([0, -2_000_000_001, 1], 1), (6, 14));
    assert_eq!(tells([0, 0, 0], 60_001), (6, 18));
    assert_eq!(tells([0, 0, 1_000_001], 1), (6, 18));
    assert_eq!(tells([0, 0, 1], 60_001), (6, 28));
}

#[test]
fn kinds_5_and_6_are_judged_only_together_and_taken_by_no_other_call() {
    let (paths, lexicographic) = (two_counters(), counters_argument());
    let looped = record(1, &numbers(Form::U16, &[2, 0]));
    let ranking = record(2, &[]);
    assert_eq!(told(&paths, &ranking), (4, 4, 2));
    assert_eq!(told(&paths, &paths), (4, 4, 2));
    assert_eq!(told(&looped, &lexicographic), (4, 4, 2));
    assert_eq!(told(&lexicographic, &lexicographic), (4, 4, 1));

    let refused = |looped: &[u8], certificate: &[u8]| {
        let verdict = bound(looped, certificate, &[1, 1]).verdict;
        (verdict.number, verdict.place, verdict.record)
    };
    assert_eq!(refused(&paths, &lexicographic), (4, 4, 1));
    assert_eq!(refused(&looped, &lexicographic), (4, 4, 2));

    let read = read_loop(&paths, &mut [0; 99]);
    assert_eq!((read.number, read.place), (4, 4));
    for bytes in [&paths, &lexicographic] {
        let read = read_certificate(bytes, 2, 3, &mut [0; 99]);
        assert_eq!((read.number, read.place), (4, 4));
    }
    for kind in [5, 6] {
        let written = write_record(kind, 2, 3, &[0; 20], &mut [0; 99]);
        assert_eq!((written.number, written.place), (4, 4));
    }
    assert_eq!(
        sheet(&[&paths[..], &lexicographic].concat()),
        "loop refused 4 4\n"
    );
    let text = sheet(&[&looped[..], &lexicographic, &ranking].concat());
    assert_eq!(text, "loop 2 0\n1 refused 4 4\n2 refused 24 0\n");
}
