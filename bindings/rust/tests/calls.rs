//! The wrapper's calls on the scope paper's own samples: what they give, what they refuse, and what people read.

use cushiedoo::{
    bound, judge, judge_all, judge_list, lengthen, raw, read_certificate, read_loop, sheet,
    sheet_text, shorten, write_record, Bounded, Fails, Grade, Judged, Outcome, Reading, Record,
    Refusal, Verdict, MOST_RECORDS,
};

fn record(kind: u64, n: u64, m: u64, values: &[i64]) -> Vec<u8> {
    let mut room = [0; 256];
    let written = write_record(kind, n, m, values, &mut room).expect("the sample is sound");
    room[..written].to_vec()
}

fn loop_p() -> Vec<u8> {
    record(1, 2, 3, &[-1, 1, 0, 0, -2, -1, 0, 1, 0, -1, 0, 1, 0, -1, 0])
}

fn first_certificate() -> Vec<u8> {
    record(2, 2, 3, &[1, 0, 0, 0, 1, 1])
}

#[test]
fn a_ranking_and_its_bound() {
    let mut rank = [9; 3];
    let outcome = Outcome::Ranking { start: 2, fall: 1 };
    let verdict = judge(&loop_p(), &first_certificate(), &mut rank);
    assert_eq!(verdict, Verdict::Accepted(outcome));
    assert_eq!(verdict.outcome(), Some(outcome));
    assert_eq!(rank, [1, -1, 9]);
    let at = |state: &[i64]| bound(&loop_p(), &first_certificate(), state);
    assert_eq!(at(&[5, 1]), Ok(Bounded { outcome, bound: 3 }));
    assert_eq!(at(&[2, 1]), Ok(Bounded { outcome, bound: 0 }));
    let once = at(&[3, 1]).expect("the state is in range");
    assert_eq!(once.to_string(), "rank from 2 down 1, at most 1 step");
}

#[test]
fn an_exclusion_of_either_grade() {
    let looped = record(1, 1, 3, &[-1, 0, 0, 2, 1, 10, -2, -1, -10]);
    let graded = |values: &[i64]| judge(&looped, &record(3, 1, 3, values), &mut []);
    let whole = graded(&[1, -2, 1, 4]);
    let grade = Grade::Whole;
    assert_eq!(whole, Verdict::Accepted(Outcome::Exclusion { grade }));
    assert_eq!(whole.to_string(), "accepted: excluded whole");
    assert_eq!(graded(&[2, -4, 2, 8]), whole);
    let half = record(1, 1, 4, &[2, 0, 1, -2, 0, -1, -1, 1, 0, 1, -1, 0]);
    let fractions = judge(&half, &record(3, 1, 4, &[2, 0, 0, 1]), &mut []);
    let grade = Grade::Fractions;
    assert_eq!(fractions, Verdict::Accepted(Outcome::Exclusion { grade }));
    assert_eq!(fractions.to_string(), "accepted: excluded fractions");
}

#[test]
fn an_exclusion_is_whole_exactly_when_q_divides_v_and_w() {
    let no_rows = record(1, 2, 0, &[]);
    let graded = |values: &[i64]| {
        let verdict = judge(&no_rows, &record(3, 2, 0, values), &mut []);
        match verdict.outcome() {
            Some(Outcome::Exclusion { grade }) => grade,
            _ => panic!("{verdict}"),
        }
    };
    let end = 60_000;
    assert_eq!(graded(&[3, 1, 2, 3, -6, 0, 9]), Grade::Whole); // q does not divide U
    assert_eq!(graded(&[end, 1, 0, end, -end, -end, end]), Grade::Whole);
    assert_eq!(graded(&[3, 3, 3, 3, -6, 9, 8]), Grade::Fractions); // the last of W
    assert_eq!(graded(&[3, 3, 3, 3, -5, 9, 0]), Grade::Fractions); // the last of V
}

#[test]
fn a_lasso_and_a_state_outside_its_invariant() {
    let looped = record(1, 2, 3, &[-1, 0, 0, 0, 0, -1, 1, 1, 0, 0, 0, 1, 0, -1, 0]);
    let stem = [1, 0, 0, 0, -1, -1];
    let rest = [0, 1, -1, 1, 1, 1, 0, 0, 1, 1, 1, 0, 0, 0, 0, 1, 0, 1];
    let lasso = record(4, 2, 3, &[&stem[..], &rest].concat());
    let outcome = Outcome::Lasso { start: 0, fall: 1 };
    let inside = bound(&looped, &lasso, &[5, 1]);
    assert_eq!(inside, Ok(Bounded { outcome, bound: 6 }));
    let outside = bound(&looped, &lasso, &[5, 0]).expect_err("the invariant fails");
    assert_eq!((outside.number, outside.record), (11, Record::Certificate));
    assert_eq!(outside.meaning(), "lasso state outside the invariant");
}

#[test]
fn refusals_tell_number_place_and_record() {
    let mut rank = [9; 2];
    let cut = judge(&loop_p()[..45], &first_certificate(), &mut rank);
    let refusal = Refusal {
        number: 1,
        place: 45,
        record: Record::Loop,
    };
    assert_eq!(cut, Verdict::Refused(refusal));
    assert_eq!(
        cut.to_string(),
        "refused 1, place 45 (number of bytes), in the loop: bytes end early"
    );
    let short = judge(&loop_p(), &first_certificate(), &mut rank[..1]);
    assert_eq!(
        short.to_string(),
        "refused 7, place 2 (room needed): room too small"
    );
    assert_eq!(rank, [9, 9]);
}

/// The refusal of a certificate that fails a condition.
fn failing(looped: &[u8], certificate: &[u8]) -> Refusal {
    let mut rank = [9; 2];
    let verdict = judge(looped, certificate, &mut rank);
    assert_eq!(rank, [9, 9]);
    verdict.into_result().expect_err("a condition fails")
}

#[test]
fn a_condition_that_fails_is_told_in_words() {
    let column = failing(&loop_p(), &record(2, 2, 3, &[1, 0, 0, 0, 1, 0]));
    assert_eq!(column.fails(), Some(Fails::InColumn(1)));
    assert_eq!(
        column.to_string(),
        "refused 22, place 1 (column, from 0), in the certificate: (Y - Z)A is not 0 in column 1"
    );
    let row = failing(&loop_p(), &record(3, 2, 3, &[1, 0, -1, 0, 0, 0, 0]));
    assert_eq!(row.fails(), Some(Fails::AtRow(2)));
    assert_eq!(
        row.to_string(),
        "refused 31, place 2 (row, from 0), in the certificate: at row 2 A·V + A'·U is above 0"
    );
    let zeros = record(2, 2, 3, &[0; 6]);
    let right_sides = failing(&loop_p(), &zeros);
    assert_eq!(right_sides.fails(), Some(Fails::OnRightSides));
    assert_eq!(
        right_sides.to_string(),
        "refused 24, place 0 (always 0), in the certificate: Zb is not below 0"
    );
    assert_eq!(bound(&loop_p(), &zeros, &[5, 1]), Err(right_sides));
}

#[test]
fn every_number_has_words() {
    let (place, record) = (0, Record::Certificate);
    let known = |number: u64| {
        let refusal = Refusal {
            number,
            place,
            record,
        };
        refusal.place_meaning() != "unknown"
    };
    let numbers: Vec<u64> = (0..100).filter(|&number| known(number)).collect();
    let given = [1..=7, 9..=16, 21..=24, 31..=32, 41..=46, 51..=53, 61..=63];
    let given: Vec<u64> = given.into_iter().flatten().collect();
    assert_eq!(numbers, given);
}

/// While x >= 1 and y >= 1 over (x, y): either x falls, or y falls and x does not rise. Each row: A, A', b.
fn two_counters() -> Vec<u8> {
    let guards = [([-1, 0, 0, 0], -1), ([0, -1, 0, 0], -1)];
    let first = [([-1, 0, 1, 0], -1)];
    let second = [([-1, 0, 1, 0], 0), ([0, -1, 0, 1], -1)];
    let rows = [&guards[..], &first, &guards, &second].concat();
    let mut bytes = vec![94, 0, 0, 0, 5, 0, 2, 0, 2, 0, 3, 0, 4, 0];
    for (entries, right) in rows {
        entries
            .iter()
            .for_each(|entry: &i16| bytes.extend(entry.to_le_bytes()));
        bytes.extend(i32::to_le_bytes(right));
    }
    bytes
}

/// An argument of two components, x and y, each at least `starts` of its own and falling by 1; of the first path x, of the
/// second y, which does not raise x.
fn counters_argument(components: [u16; 2], starts: [i32; 2], multipliers: [u16; 18]) -> Vec<u8> {
    let mut bytes = vec![76, 0, 0, 0, 6, 0, 2, 0];
    components
        .iter()
        .for_each(|number| bytes.extend(number.to_le_bytes()));
    for number in [1, 0, starts[0], 1, 0, 1, starts[1], 1] {
        bytes.extend(i32::to_le_bytes(number));
    }
    multipliers
        .iter()
        .for_each(|multiplier| bytes.extend(multiplier.to_le_bytes()));
    bytes
}

const COUNTERS: [u16; 18] = [1, 0, 0, 0, 0, 1, 0, 1, 0, 0, 0, 0, 0, 1, 0, 0, 1, 0];

#[test]
fn a_lexicographic_argument_needs_and_touches_no_rank_list() {
    let argument = counters_argument([0, 1], [1, 1], COUNTERS);
    let mut rank = [9; 2];
    let verdict = judge(&two_counters(), &argument, &mut rank);
    assert_eq!(verdict, Verdict::Accepted(Outcome::Lexicographic));
    assert_eq!(verdict.to_string(), "accepted: lexicographic");
    assert_eq!(rank, [9, 9]);
    assert_eq!(judge(&two_counters(), &argument, &mut []), verdict);
}

#[test]
fn a_path_that_fails_a_condition_is_told_in_words() {
    let told = |starts, changed: &[usize]| {
        let mut multipliers = COUNTERS;
        changed.iter().for_each(|&place| multipliers[place] = 0);
        let argument = counters_argument([0, 1], starts, multipliers);
        failing(&two_counters(), &argument)
    };
    let bounded = told([2, 1], &[]);
    assert_eq!(bounded.fails(), Some(Fails::OnPath(0)));
    assert_eq!(
        bounded.to_string(),
        "refused 51, place 0 (path, from 0), in the certificate: path 0: \
         the bounded rows do not sum to -r·x, or their right sides to more than -δ0"
    );
    assert_eq!(
        told([1, 1], &[13]).to_string(),
        "refused 52, place 1 (path, from 0), in the certificate: path 1: \
         the ranking rows do not sum to -r·x + r·x', or their right sides to more than -δ"
    );
    assert_eq!(
        told([1, 1], &[16]).to_string(),
        "refused 53, place 1 (path, from 0), in the certificate: path 1: \
         the unaffecting rows do not sum to -r·x + r·x' of an earlier component, or their right sides to more than 0"
    );
    let missing = failing(
        &two_counters(),
        &counters_argument([0, 2], [1, 1], COUNTERS),
    );
    assert_eq!(missing.fails(), None);
    assert_eq!(
        missing.to_string(),
        "refused 14, place 10 (its first byte), in the certificate: component number that doesn't exist, the first"
    );
}

#[test]
fn several_paths_and_arguments_for_them_go_only_together() {
    let argument = counters_argument([0, 1], [1, 1], COUNTERS);
    let unwanted = |record| Refusal {
        number: 4,
        place: 4,
        record,
    };
    let certificate = unwanted(Record::Certificate);
    assert_eq!(failing(&two_counters(), &first_certificate()), certificate);
    assert_eq!(failing(&loop_p(), &argument), certificate);
    let looped = unwanted(Record::Loop);
    assert_eq!(bound(&two_counters(), &argument, &[1, 1]), Err(looped));
    assert_eq!(bound(&loop_p(), &argument, &[1, 1]), Err(certificate));
    let neither = unwanted(Record::Neither);
    assert_eq!(read_loop(&two_counters(), &mut []), Err(neither));
    assert_eq!(read_certificate(&argument, 2, 3, &mut []), Err(neither));
    assert_eq!(write_record(5, 2, 3, &[], &mut []), Err(neither));
    assert_eq!(sheet_text(&two_counters()), "loop refused 4 4\n");
    let text = sheet_text(&[loop_p(), argument].concat());
    assert_eq!(text, "loop 2 3\n1 refused 4 4\n");
}

/// x' = x + y and y' = y - 1 while x >= 0.
fn curve() -> Vec<u8> {
    let rows = [
        -1, 0, 0, 0, 0, -1, -1, 1, 0, 0, 1, 1, -1, 0, 0, 0, -1, 0, 1, -1, 0, 1, 0, -1, 1,
    ];
    record(1, 2, 5, &rows)
}

/// g = (0, -1), the threshold and the scale; E = (0, 0, 0, e, 0); Y and Z lean on the first two rows and, Z, on the added one.
fn curve_settles(t: i32, k: u8, e: u8) -> Vec<u8> {
    let mut bytes = vec![46, 0, 0, 0, 8, 0, 0, 0, 255, 255];
    bytes.extend(t.to_le_bytes());
    bytes.extend([k, 0]);
    let multipliers = [0, 0, 0, e, 0, 1, 0, 0, 0, 0, 0, 0, 1, 0, 0, 0, 1];
    bytes.extend(multipliers.into_iter().flat_map(|weight| [weight, 0]));
    bytes
}

#[test]
fn a_curve_settles_before_it_falls() {
    let mut rank = [9; 3];
    let verdict = judge(&curve(), &curve_settles(1, 1, 1), &mut rank);
    let outcome = Outcome::Settling { start: 0, fall: 1 };
    assert_eq!((verdict, rank), (Verdict::Accepted(outcome), [1, 0, 9]));
    assert_eq!(verdict.to_string(), "accepted: settling from 0 down 1");
    for (state, steps) in [([0, 5], 6), ([9, 0], 1), ([9, -1], 0), ([3, -2], 0)] {
        let bounded = bound(&curve(), &curve_settles(1, 1, 1), &state);
        assert_eq!(bounded.map(|bounded| bounded.bound), Ok(steps));
    }
    let one = bound(&curve(), &curve_settles(1, 1, 1), &[9, 0]).expect("it is accepted");
    assert_eq!(
        one.to_string(),
        "settling from 0 down 1, at most 1 step before it settles"
    );
    let exclusion = record(3, 2, 5, &[1, -1, -1, 0, -1, 0, -1]);
    assert_eq!(
        judge(&curve(), &exclusion, &mut []).to_string(),
        "accepted: excluded whole"
    );
}

#[test]
fn a_settling_that_does_not_rise_is_told_in_words() {
    let now = failing(&curve(), &curve_settles(1, 2, 1));
    assert_eq!(now.fails(), Some(Fails::InColumn(1)));
    assert_eq!(
        now.to_string(),
        "refused 61, place 1 (column, from 0), in the certificate: EA is not k g in column 1"
    );
    let mut looped = curve();
    looped[52] = 2;
    assert_eq!(
        failing(&looped, &curve_settles(1, 1, 1)).to_string(),
        "refused 62, place 1 (column, from 0), in the certificate: EA' is not -k g in column 1"
    );
    let mut looped = curve();
    looped[54..58].fill(0);
    let right = failing(&looped, &curve_settles(1, 1, 1));
    assert_eq!(right.fails(), Some(Fails::OnRightSides));
    assert_eq!(
        right.to_string(),
        "refused 63, place 0 (always 0), in the certificate: Eb is above -k"
    );
    assert_eq!(failing(&curve(), &curve_settles(0, 1, 1)).number, 24);
    let short = judge(&curve(), &curve_settles(0, 1, 1), &mut [0]);
    assert_eq!(
        short.into_result().map_err(|refusal| refusal.number),
        Err(7)
    );
}

#[test]
fn a_settling_goes_through_judging_and_bound_alone() {
    let settling = curve_settles(1, 1, 1);
    let unwanted = |record| Refusal {
        number: 4,
        place: 4,
        record,
    };
    assert_eq!(
        failing(&two_counters(), &settling),
        unwanted(Record::Certificate)
    );
    let looped = unwanted(Record::Loop);
    assert_eq!(bound(&two_counters(), &settling, &[1, 1]), Err(looped));
    let neither = unwanted(Record::Neither);
    assert_eq!(read_certificate(&settling, 2, 5, &mut []), Err(neither));
    assert_eq!(write_record(8, 2, 5, &[], &mut []), Err(neither));
    let text = sheet_text(&[curve(), settling].concat());
    assert_eq!(text, "loop 2 5\n1 refused 4 4\n");
}

/// The first certificate as kind 7.
const FIRST_SHORT: [u8; 26] = [
    22, 0, 0, 0, 7, 0, 3, 0, // L, kind, triples
    0, 0, 1, 0, 0, 0, 1, 0, 0, 0, 1, 0, 2, 0, 0, 0, 1, 0, // each a row, its Y, its Z
];

#[test]
fn a_ranking_is_moved_to_kind_7_and_back() {
    let mut room = [9; 28];
    assert_eq!(shorten(&first_certificate(), 2, 3, &mut room), Ok(26));
    assert_eq!((&room[..26], &room[26..]), (&FIRST_SHORT[..], &[9, 9][..]));
    let mut room = [9; 20];
    assert_eq!(lengthen(&FIRST_SHORT, 2, 3, &mut room), Ok(18));
    assert_eq!((&room[..18], room[18]), (&first_certificate()[..], 9));
    let refused = |number, place| {
        Err(Refusal {
            number,
            place,
            record: Record::Neither,
        })
    };
    let mut room = [9; 25];
    assert_eq!(
        shorten(&first_certificate(), 2, 3, &mut room),
        refused(7, 26)
    );
    assert_eq!(
        lengthen(&FIRST_SHORT, 2, 3, &mut room[..17]),
        refused(7, 18)
    );
    assert_eq!(shorten(&FIRST_SHORT, 2, 3, &mut room), refused(4, 4));
    assert_eq!(
        lengthen(&first_certificate(), 2, 3, &mut room),
        refused(4, 4)
    );
    assert_eq!(lengthen(&FIRST_SHORT, 17, 3, &mut room), refused(5, 0));
    assert_eq!(lengthen(&FIRST_SHORT, 2, 2, &mut room), refused(15, 20));
    assert_eq!(room, [9; 25]);
}

#[test]
fn a_short_ranking_is_judged_as_the_one_it_stands_for() {
    let mut rank = [9; 3];
    let outcome = Outcome::Ranking { start: 2, fall: 1 };
    let verdict = judge(&loop_p(), &FIRST_SHORT, &mut rank);
    assert_eq!((verdict, rank), (Verdict::Accepted(outcome), [1, -1, 9]));
    assert_eq!(
        bound(&loop_p(), &FIRST_SHORT, &[5, 1]),
        Ok(Bounded { outcome, bound: 3 })
    );
    let none = [4, 0, 0, 0, 7, 0, 0, 0];
    assert_eq!(failing(&loop_p(), &none).number, 24);
    let text = sheet_text(&[&loop_p()[..], &FIRST_SHORT, &none].concat());
    assert_eq!(
        text,
        "loop 2 3\n1 rank 1 -1 from 2 down 1\n2 refused 24 0\n"
    );
}

#[test]
fn a_short_ranking_s_triples_are_told_in_words() {
    let mut again = FIRST_SHORT;
    again[20] = 1;
    assert_eq!(
        failing(&loop_p(), &again).to_string(),
        "refused 15, place 20 (the triple's first byte), in the certificate: row of a short ranking not below m, or not above the row before it"
    );
    let mut zeros = FIRST_SHORT;
    zeros[10] = 0;
    assert_eq!(
        failing(&loop_p(), &zeros).to_string(),
        "refused 16, place 8 (the triple's first byte), in the certificate: Y and Z of a short ranking's row are both zero"
    );
    assert_eq!(failing(&loop_p(), &zeros).fails(), None);
}

#[test]
fn a_short_ranking_is_neither_read_nor_written() {
    let unwanted = |record| Refusal {
        number: 4,
        place: 4,
        record,
    };
    let neither = unwanted(Record::Neither);
    assert_eq!(read_loop(&FIRST_SHORT, &mut []), Err(neither));
    assert_eq!(read_certificate(&FIRST_SHORT, 2, 3, &mut []), Err(neither));
    assert_eq!(write_record(7, 2, 3, &[], &mut []), Err(neither));
    assert_eq!(
        failing(&two_counters(), &FIRST_SHORT),
        unwanted(Record::Certificate)
    );
    let looped = unwanted(Record::Loop);
    assert_eq!(bound(&two_counters(), &FIRST_SHORT, &[1, 1]), Err(looped));
}

/// A record that is accepted, with its rank.
fn ranked(start: i64, fall: i64, rank: &[i64]) -> Judged {
    Judged {
        verdict: Verdict::Accepted(Outcome::Ranking { start, fall }),
        rank: Some(rank.to_vec()),
    }
}

fn refused(number: u64, place: u64) -> Judged {
    Judged {
        verdict: Verdict::Refused(Refusal {
            number,
            place,
            record: Record::Certificate,
        }),
        rank: None,
    }
}

/// What [`judge`] says of each record by itself.
fn one_by_one(looped: &[u8], n: usize, records: &[Vec<u8>]) -> Vec<Judged> {
    let judged = |record: &Vec<u8>| {
        let mut rank = vec![i64::MIN; n];
        let verdict = judge(looped, record, &mut rank);
        let rank = (rank != vec![i64::MIN; n]).then_some(rank);
        Judged { verdict, rank }
    };
    records.iter().map(judged).collect()
}

#[test]
fn a_batch_gives_each_record_its_verdict_and_rank() {
    let second = record(2, 2, 3, &[1, 0, 0, 0, 1, 0]);
    let doubled = record(2, 2, 3, &[2, 0, 0, 0, 2, 2]);
    let other = record(3, 1, 3, &[1, -2, 1, 4]); // for a loop over one variable
    let records = [first_certificate(), second, doubled, other];
    let expected = [
        ranked(2, 1, &[1, -1]),
        refused(22, 1),
        ranked(4, 2, &[2, -2]),
        refused(3, 0),
    ];
    assert_eq!(
        judge_all(&loop_p(), &records.concat()),
        Ok(expected.to_vec())
    );
    assert_eq!(one_by_one(&loop_p(), 2, &records), expected);
    assert_eq!(judge_list(&loop_p(), &records), Ok(expected.to_vec()));
}

#[test]
fn a_batch_has_32_records_at_the_most_and_may_have_none() {
    let of = |count: usize| judge_all(&loop_p(), &first_certificate().repeat(count));
    assert_eq!(of(0), Ok(Vec::new()));
    assert_eq!(
        of(MOST_RECORDS),
        Ok(vec![ranked(2, 1, &[1, -1]); MOST_RECORDS])
    );
    for count in [33, 40] {
        let refusal = of(count).expect_err("there are too many");
        assert_eq!((refusal.number, refusal.place), (13, count as u64));
        assert_eq!(refusal.record, Record::Neither);
        assert_eq!(
            refusal.to_string(),
            format!("refused 13, place {count} (number of records): more than 32 records")
        );
    }
    let cut = [first_certificate(), first_certificate()].concat();
    let expected = vec![ranked(2, 1, &[1, -1]), refused(1, 17)];
    assert_eq!(judge_all(&loop_p(), &cut[..35]), Ok(expected));
    let looped = judge_all(&loop_p()[..45], &cut).expect_err("the loop ends early");
    assert_eq!(
        (looped.number, looped.place, looped.record),
        (1, 45, Record::Loop)
    );
}

#[test]
fn a_batch_takes_every_kind_with_its_loop() {
    let argument = counters_argument([0, 1], [1, 1], COUNTERS);
    let records = [argument.clone(), first_certificate(), argument];
    let of_paths = judge_all(&two_counters(), &records.concat());
    assert_eq!(of_paths, Ok(one_by_one(&two_counters(), 2, &records)));
    let outcomes = of_paths.map(|judged| judged[2].verdict.outcome());
    assert_eq!(outcomes, Ok(Some(Outcome::Lexicographic)));

    let exclusion = record(3, 2, 5, &[1, -1, -1, 0, -1, 0, -1]);
    let short = [4, 0, 0, 0, 7, 0, 0, 0].to_vec();
    let records = [
        curve_settles(1, 1, 1),
        exclusion,
        short,
        curve_settles(1, 2, 1),
    ];
    let judged = judge_all(&curve(), &records.concat());
    assert_eq!(judged, Ok(one_by_one(&curve(), 2, &records)));
    let ranks = judged.map(|judged| judged.into_iter().map(|one| one.rank).collect());
    assert_eq!(ranks, Ok(vec![Some(vec![1, 0]), None, None, None]));
}

/// The flat call, which lends rooms of its own: what it tells, and what they hold then.
fn batch_into(records: &[u8], verdicts: &mut [raw::Verdict], ranks: &mut [i64]) -> raw::Batch {
    let looped = loop_p();
    // SAFETY: the slices are valid for their lengths, and two of them are borrowed alone.
    unsafe {
        raw::cushiedoo_judge_all(
            looped.as_ptr(),
            looped.len(),
            records.as_ptr(),
            records.len(),
            verdicts.as_mut_ptr(),
            verdicts.len(),
            ranks.as_mut_ptr(),
            ranks.len(),
        )
    }
}

#[test]
fn a_batch_without_room_changes_nothing() {
    let records = first_certificate().repeat(3);
    let found = raw::Verdict {
        number: 99,
        ..raw::Verdict::default()
    };
    for (verdicts, numbers, place) in [(2, 5, 3), (2, 6, 3), (3, 5, 6), (3, 0, 6)] {
        let mut row = vec![found; verdicts];
        let mut ranks = vec![9; numbers];
        let told = batch_into(&records, &mut row, &mut ranks);
        assert_eq!(
            (told.number, told.place, told.record, told.count),
            (7, place, 0, 0)
        );
        assert_eq!((row, ranks), (vec![found; verdicts], vec![9; numbers]));
    }
    let mut row = [found; 4];
    let mut ranks = [9; 8];
    let told = batch_into(&records, &mut row, &mut ranks);
    assert_eq!((told.number, told.count), (0, 3));
    assert_eq!((row[2].fall, row[3]), (1, found));
    assert_eq!(ranks, [1, -1, 1, -1, 1, -1, 9, 9]);
}

#[test]
fn each_record_of_a_list_has_its_own_verdict() {
    let good = first_certificate();
    let with_length = |length: u8| {
        let mut bytes = first_certificate();
        bytes[0] = length;
        bytes
    };
    let strays = [
        Vec::new(),
        vec![14],
        good[..4].to_vec(),
        good[..5].to_vec(),
        good[..17].to_vec(),
        [&good[..], &[0]].concat(),
        [&good[..], &good].concat(),
        vec![0, 0, 0, 0],
        with_length(0),
        with_length(1),
        with_length(2),
        with_length(13),
        with_length(15),
        with_length(255),
        vec![255; 18],
    ];
    for stray in &strays {
        let around = [
            good.clone(),
            stray.clone(),
            good.clone(),
            stray.clone(),
            stray.clone(),
        ];
        let expected = one_by_one(&loop_p(), 2, &around);
        assert_eq!(
            judge_list(&loop_p(), &around),
            Ok(expected.clone()),
            "{stray:?}"
        );
        assert_eq!(expected[2], ranked(2, 1, &[1, -1]));
        assert_eq!(
            judge_list(&loop_p(), &around[1..2]),
            Ok(vec![expected[1].clone()])
        );
    }
    let mut many = vec![good; 40];
    many.extend(strays);
    many.extend(vec![record(2, 2, 3, &[2, 0, 0, 0, 2, 2]); 75]);
    assert_eq!(
        judge_list(&loop_p(), &many),
        Ok(one_by_one(&loop_p(), 2, &many))
    );
}

#[test]
fn a_list_is_refused_for_its_loop_alone() {
    let none: [&[u8]; 0] = [];
    assert_eq!(judge_list(&loop_p(), &none), Ok(Vec::new()));
    let stray: [&[u8]; 1] = [&[]];
    for looped in [&[][..], &first_certificate(), &loop_p()[..45]] {
        for records in [&none[..], &stray] {
            let refusal = judge_list(looped, records).expect_err("the loop is none");
            assert_eq!(refusal.record, Record::Loop);
        }
    }
}

#[test]
fn reading_gives_the_values_and_leaves_the_rest() {
    let mut values = [9; 16];
    let reading = read_loop(&loop_p(), &mut values);
    let expected = Reading {
        kind: 1,
        n: 2,
        m: 3,
        count: 15,
    };
    assert_eq!(reading, Ok(expected));
    assert_eq!((values[0], values[14], values[15]), (-1, 0, 9));
    let reading = read_certificate(&first_certificate(), 2, 3, &mut values);
    let counts = reading.map(|reading| (reading.kind, reading.count));
    assert_eq!(counts, Ok((2, 6)));
    let refused = read_certificate(&first_certificate(), 17, 3, &mut values);
    assert_eq!(refused.map_err(|refusal| refusal.number), Err(5));
}

#[test]
fn the_sheet_of_p() {
    let second = record(2, 2, 3, &[1, 0, 0, 0, 1, 0]);
    let input = [loop_p(), first_certificate(), second].concat();
    let text = "loop 2 3\n1 rank 1 -1 from 2 down 1\n2 refused 22 1\n";
    assert_eq!(sheet_text(&input), text);
    let refusal = sheet(&input, &mut []).expect_err("there is no room");
    assert_eq!(refusal.number, 7);
    assert!(refusal.place as usize >= text.len());
    let needs = |bytes: usize| {
        let refusal = sheet(&vec![0; bytes], &mut []).expect_err("there is no room");
        refusal.place
    };
    let rooms = [0, 1, 82, 65_536, 65_537].map(needs);
    assert_eq!(rooms, [306, 353, 4_160, 3_080_498, 3_080_498]);
}

#[test]
fn right_sides_go_to_their_ends_and_a_state_to_its_own() {
    let end = 2_000_000_000;
    let looped = record(1, 1, 2, &[0, 0, end, 0, 0, -end]);
    let ranking = record(2, 1, 2, &[60_000, 0, 0, 60_000]);
    let outcome = Outcome::Ranking {
        start: -120_000_000_000_000,
        fall: 120_000_000_000_000,
    };
    assert_eq!(
        judge(&looped, &ranking, &mut [0]),
        Verdict::Accepted(outcome)
    );
    assert_eq!(
        bound(&looped, &ranking, &[1_000_000]),
        Ok(Bounded { outcome, bound: 2 })
    );
    let refused = bound(&looped, &ranking, &[1_000_001]).expect_err("the state is too large");
    assert_eq!((refused.number, refused.record), (9, Record::Neither));

    for past in [end + 1, -end - 1] {
        let mut room = [0; 64];
        let refused = write_record(1, 1, 1, &[0, 0, past], &mut room).expect_err("b is too large");
        assert_eq!((refused.number, refused.place), (6, 14));
        let mut looped = looped.clone();
        looped[14..18].copy_from_slice(&(past as i32).to_le_bytes());
        let read = read_loop(&looped, &mut [0; 6]).expect_err("b is too large");
        assert_eq!((read.number, read.place), (6, 14));
        let judged = judge(&looped, &ranking, &mut [0]);
        assert_eq!(
            judged.to_string(),
            "refused 6, place 14 (its first byte), in the loop: value out of range, the first in layout order"
        );
    }
}
