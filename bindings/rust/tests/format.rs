//! The examples of `docs/FORMAT.md`: their bytes are taken from the page itself, judged, and the page must tell what is answered.

use cushiedoo::{bound, judge, judge_all, sheet_text, Judged, Verdict};

const PAGE: &str = include_str!("../../../docs/FORMAT.md");

/// The records of the page in their order: lines of hexadecimal digits, of which one that tells L starts a record.
fn records() -> Vec<Vec<u8>> {
    let mut records: Vec<Vec<u8>> = Vec::new();
    for line in PAGE.lines().filter_map(|line| line.strip_prefix("    ")) {
        let words = line.split_whitespace();
        let digits = |word: &&str| word.len() == 2 && word.bytes().all(|b| b.is_ascii_hexdigit());
        let bytes: Vec<u8> = words
            .take_while(digits)
            .map(|word| u8::from_str_radix(word, 16).expect("two digits"))
            .collect();
        if bytes.len() == 4 && line.contains(" L = ") {
            records.push(bytes);
        } else if let Some(last) = records.last_mut() {
            last.extend(bytes);
        }
    }
    records
}

/// The record at this place of the page, with some of its bytes changed.
fn record(place: usize, changes: &[(usize, u8)]) -> Vec<u8> {
    let mut bytes = records().swap_remove(place);
    changes.iter().for_each(|&(at, byte)| bytes[at] = byte);
    bytes
}

const P: usize = 0;
const RANKING: usize = 1;
const SHORT: usize = 2;
const EXCLUDED: usize = 3;
const EXCLUSION: usize = 4;
const LASSOED: usize = 5;
const LASSO: usize = 6;
const PATHS: usize = 7;
const ARGUMENT: usize = 8;
const CURVE: usize = 9;
const SETTLING: usize = 10;

#[test]
fn every_record_has_its_bytes_and_the_page_counts_them() {
    let records = records();
    assert_eq!(records.len(), 11);
    for bytes in &records {
        let stated = u32::from_le_bytes([bytes[0], bytes[1], bytes[2], bytes[3]]) as usize;
        assert_eq!(bytes.len(), 4 + stated);
        assert!(PAGE.contains(&format!("{} bytes", bytes.len())));
    }
    let kinds: Vec<u8> = records.iter().map(|bytes| bytes[4]).collect();
    assert_eq!(kinds, [1, 2, 7, 1, 3, 1, 4, 5, 6, 1, 8]);
}

/// The page has the text of a sheet as a block of its own.
fn shows(records: &[Vec<u8>]) {
    let lines = sheet_text(&records.concat());
    let block: String = lines.lines().map(|line| format!("    {line}\n")).collect();
    assert!(PAGE.contains(&format!("\n\n{block}\n")), "{lines}");
}

#[test]
fn what_the_program_prints_for_the_examples_stands_on_the_page() {
    shows(&[record(P, &[]), record(RANKING, &[])]);
    shows(&[record(EXCLUDED, &[]), record(EXCLUSION, &[])]);
    shows(&[record(LASSOED, &[]), record(LASSO, &[])]);
    let of_paths = [record(PATHS, &[]), record(ARGUMENT, &[])].concat();
    assert_eq!(sheet_text(&of_paths), "loop refused 4 4\n");
    let settled = [record(CURVE, &[]), record(SETTLING, &[])].concat();
    assert_eq!(sheet_text(&settled), "loop 2 5\n1 refused 4 4\n");
}

#[test]
fn the_table_of_parted_bytes_is_as_printed() {
    let ranking = record(RANKING, &[]);
    let longer = record(RANKING, &[(0, 15)]);
    let too_large = record(RANKING, &[(12, 0x61), (13, 0xea)]);
    let cases = [
        ("its ranking, twice", [&ranking[..], &ranking].concat()),
        (
            "its ranking and a newline, `0a`",
            [&ranking[..], b"\n"].concat(),
        ),
        (
            "`00 00 00 00`, then its ranking, twice",
            [&[0; 4][..], &ranking, &ranking].concat(),
        ),
        (
            "its ranking with L = 15 in place of 14, then its ranking",
            [&longer[..], &ranking].concat(),
        ),
        (
            "its ranking with the last byte left out",
            ranking[..17].to_vec(),
        ),
        (
            "`02 00 00 00 63 00`, then its ranking",
            [&[2, 0, 0, 0, 99, 0][..], &ranking].concat(),
        ),
        (
            "its ranking, then with 60,001 as the first of Z",
            [&ranking[..], &too_large].concat(),
        ),
    ];
    for (what, certificates) in cases {
        let text = sheet_text(&[record(P, &[]), certificates].concat());
        let lines: Vec<String> = text
            .lines()
            .skip(1)
            .map(|line| format!("`{line}`"))
            .collect();
        let told = format!("| {what} | {}", lines.join(", "));
        let row = PAGE.lines().find(|line| line.starts_with(&told));
        let rest = row.unwrap_or_else(|| panic!("{told}"))[told.len()..].to_string();
        assert!(!rest.starts_with(", `"), "{rest}");
    }
}

/// A verdict in the words of the page.
fn in_words(judged: &Judged) -> String {
    match judged.verdict {
        Verdict::Accepted(outcome) => format!("`{outcome}`"),
        Verdict::Refused(refusal) => format!("`refused {} {}`", refusal.number, refusal.place),
    }
}

#[test]
fn four_certificates_at_once_are_judged_as_the_page_says() {
    let records = [
        ("its ranking", record(RANKING, &[])),
        (
            "its ranking with 0 as the last of Z",
            record(RANKING, &[(16, 0)]),
        ),
        (
            "its ranking with every multiplier doubled",
            record(RANKING, &[(6, 2), (14, 2), (16, 2)]),
        ),
        (
            "the exclusion above, which is for n = 1",
            record(EXCLUSION, &[]),
        ),
    ];
    let bytes: Vec<u8> = records
        .iter()
        .flat_map(|(_, bytes)| bytes.clone())
        .collect();
    assert!(PAGE.contains(&format!("Four certificates for P, {} bytes", bytes.len())));
    let judged = judge_all(&record(P, &[]), &bytes).expect("P is a loop");
    assert_eq!(judged.len(), records.len());
    for ((what, _), one) in records.iter().zip(&judged) {
        let ranks = match &one.rank {
            Some(rank) => format!("{}, {}", rank[0], rank[1]),
            None => "as found".to_string(),
        };
        let row = format!("| {what} | {} | {ranks} |", in_words(one));
        assert!(PAGE.lines().any(|line| line == row), "{row}");
    }
}

#[test]
fn the_table_of_several_at_once_is_as_answered() {
    let ranking = record(RANKING, &[]);
    let longer = record(RANKING, &[(0, 15)]);
    let cases = [
        ("none", Vec::new()),
        ("its ranking, 32 times", ranking.repeat(32)),
        ("its ranking, 33 times", ranking.repeat(33)),
        ("its ranking, 40 times", ranking.repeat(40)),
        (
            "its ranking, 32 times, and a newline, `0a`",
            [ranking.repeat(32), vec![0x0a]].concat(),
        ),
        (
            "its ranking, then with the last byte left out",
            [&ranking[..], &ranking[..17]].concat(),
        ),
        (
            "its ranking, `00 00 00 00`, its ranking",
            [&ranking[..], &[0; 4], &ranking].concat(),
        ),
        (
            "its ranking with L = 15 in place of 14, then its ranking",
            [&longer[..], &ranking].concat(),
        ),
    ];
    for (what, records) in cases {
        let answer = match judge_all(&record(P, &[]), &records) {
            Err(refusal) => format!("{} at {}", refusal.number, refusal.place),
            Ok(judged) => match judged.len() {
                count @ (0 | 32) => format!("count {count}"),
                count => {
                    let verdicts: Vec<String> = judged.iter().map(in_words).collect();
                    format!("count {count}: {}", verdicts.join(", "))
                }
            },
        };
        let row = format!("| {what} | {answer} |");
        assert!(PAGE.lines().any(|line| line == row), "{row}");
    }
}

/// Number and place of a refusal, or the verdict's words.
fn told(looped: &[u8], certificate: &[u8]) -> String {
    match judge(looped, certificate, &mut [0; 2]).into_result() {
        Ok(outcome) => outcome.to_string(),
        Err(refusal) => format!("{} {}", refusal.number, refusal.place),
    }
}

#[test]
fn variants_of_the_examples_get_what_the_page_says() {
    let told = |looped, certificate, changes: &[(usize, u8)]| {
        told(&record(looped, &[]), &record(certificate, changes))
    };
    assert_eq!(told(P, SHORT, &[]), "rank from 2 down 1");
    assert_eq!(told(P, SHORT, &[(20, 1)]), "15 20");
    assert_eq!(told(P, SHORT, &[(10, 0)]), "16 8");
    assert_eq!(told(EXCLUDED, EXCLUSION, &[(16, 5)]), "32 1");
    assert_eq!(told(EXCLUDED, EXCLUSION, &[(8, 0xff)]), "31 1");
    let zero = [(24, 0), (25, 0), (26, 0), (27, 0)];
    assert_eq!(told(LASSOED, LASSO, &zero), "24 0");
    assert_eq!(told(PATHS, ARGUMENT, &[]), "lexicographic");
    assert_eq!(told(CURVE, SETTLING, &[]), "settling from 0 down 1");
    assert_eq!(told(CURVE, SETTLING, &[(14, 2)]), "61 1");
    assert_eq!(told(CURVE, SETTLING, &[(10, 0)]), "24 0");
}

#[test]
fn bounds_are_those_of_the_page() {
    let at = |looped, certificate, state: &[i64]| {
        bound(&record(looped, &[]), &record(certificate, &[]), state)
            .map(|bounded| bounded.bound)
            .map_err(|refusal| (refusal.number, refusal.place))
    };
    for certificate in [RANKING, SHORT] {
        assert_eq!(at(P, certificate, &[5, 1]), Ok(3));
        assert_eq!(at(P, certificate, &[3, 1]), Ok(1));
        assert_eq!(at(P, certificate, &[2, 1]), Ok(0));
    }
    assert_eq!(at(LASSOED, LASSO, &[5, 1]), Ok(6));
    assert_eq!(at(LASSOED, LASSO, &[5, 0]), Err((11, 0)));
    assert_eq!(at(CURVE, SETTLING, &[0, 5]), Ok(6));
    assert_eq!(at(CURVE, SETTLING, &[3, -2]), Ok(0));
    assert_eq!(at(EXCLUDED, EXCLUSION, &[3]), Err((4, 4)));
}

/// The record with every field of two bytes in this stretch times the factor; the fields there are small.
fn times(bytes: &mut [u8], from: usize, to: usize, factor: u8) {
    (from..to)
        .step_by(2)
        .for_each(|at| bytes[at] = bytes[at].wrapping_mul(factor));
}

#[test]
fn groups_of_numbers_go_by_a_factor_of_their_own() {
    // of a ranking Y and Z, and never one of them alone
    let third = [
        22, 0, 0, 0, 1, 0, 1, 0, 2, 0, 255, 255, 0, 0, 255, 255, 255, 255, 254, 255, 3, 0, 0, 0, 0,
        0,
    ];
    let ranking = |y, z| [10, 0, 0, 0, 2, 0, y, 0, 0, 0, z, 0, z, 0];
    assert_eq!(told(&third, &ranking(3, 1)), "rank from 3 down 1");
    assert_eq!(told(&third, &ranking(3, 2)), "22 0");
    assert_eq!(told(&third, &ranking(6, 2)), "rank from 6 down 2");
    for state in -5..50 {
        let at = |y, z| bound(&third, &ranking(y, z), &[state]).map(|bounded| bounded.bound);
        assert_eq!(at(3, 1), at(6, 2));
    }

    // of an exclusion q, U, V and W; -4 for -2 by hand
    let doubled = record(EXCLUSION, &[(6, 2), (8, 0xfc), (12, 2), (16, 8)]);
    assert_eq!(told(&record(EXCLUDED, &[]), &doubled), "excluded whole");

    // of a lasso k and T; k2, H and h0; Y and Z
    let mut lasso = record(LASSO, &[]);
    times(&mut lasso, 28, 32, 2);
    times(&mut lasso, 32, 42, 3);
    times(&mut lasso, 42, 58, 5);
    assert_eq!(told(&record(LASSOED, &[]), &lasso), "lasso from 0 down 5");
    lasso[28] = 1;
    assert_eq!(told(&record(LASSOED, &[]), &lasso), "42 1");

    // of an argument r, δ0 and δ of a component, here the first, y, and its lists on either path
    let mut argument = record(ARGUMENT, &[]);
    times(&mut argument, 12, 28, 2);
    times(&mut argument, 60, 80, 2);
    assert_eq!(told(&record(PATHS, &[]), &argument), "lexicographic");
    argument[66] = 1;
    assert_eq!(told(&record(PATHS, &[]), &argument), "53 0");

    // of a settling k and E; Y and Z
    let mut settling = record(SETTLING, &[]);
    times(&mut settling, 14, 26, 2);
    times(&mut settling, 26, 50, 7);
    assert_eq!(
        told(&record(CURVE, &[]), &settling),
        "settling from 0 down 7"
    );
}
