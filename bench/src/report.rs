//! The tables.

use crate::contenders::{Contender, CONTENDERS};
use crate::measure::{instructions, one_by_one, repeated, side_by_side, work, Time, ONE_BY_ONE};
use crate::subjects::{Answer, Call, Fill, Kind, Subject, BATCH, ROOM};
use std::hint::black_box;

/// A table of words, printed with blanks or as Markdown.
pub struct Table {
    markdown: bool,
    rows: Vec<Vec<String>>,
}

impl Table {
    pub fn new(markdown: bool, heads: &[&str]) -> Table {
        let heads = heads.iter().map(|head| head.to_string()).collect();
        Table {
            markdown,
            rows: vec![heads],
        }
    }

    pub fn add(&mut self, cells: Vec<String>) {
        self.rows.push(cells);
    }

    pub fn print(&self) {
        let columns = self.rows[0].len();
        let mut widths = vec![0; columns];
        for row in &self.rows {
            for (width, cell) in widths.iter_mut().zip(row) {
                *width = cell.len().max(*width);
            }
        }
        for (i, row) in self.rows.iter().enumerate() {
            if self.markdown {
                println!("| {} |", row.join(" | "));
            } else {
                let padded = row
                    .iter()
                    .zip(&widths)
                    .map(|(cell, width)| format!("{cell:>width$}"));
                println!("{}", padded.collect::<Vec<_>>().join("  "));
            }
            if self.markdown && i == 0 {
                println!("|{}", "---|".repeat(columns));
            }
        }
    }
}

fn subject_cells(subject: &Subject) -> Vec<String> {
    let words = [
        subject.call.name().to_string(),
        subject.kind.number().to_string(),
        subject.size(),
        format!("{:?}", subject.fill),
        format!("{:?}", subject.answer),
        subject.bytes().to_string(),
    ];
    words.iter().map(|word| word.to_lowercase()).collect()
}

const SUBJECT_HEADS: [&str; 6] = ["call", "kind", "n, m", "rows", "answer", "bytes"];

/// Nanoseconds a call and the archive's ratios to the others, by the minimum.
pub fn time_table(markdown: bool, measured: &[(Subject, Vec<Time>)]) {
    let own = [
        "archive min",
        "archive median",
        "plain min",
        "plain median",
        "c min",
        "c median",
        "archive/plain",
        "archive/c",
    ];
    let mut table = Table::new(markdown, &[&SUBJECT_HEADS[..], &own].concat());
    for (subject, times) in measured {
        let mut cells = subject_cells(subject);
        for time in times {
            cells.push(format!("{:.1}", time.minimum));
            cells.push(format!("{:.1}", time.median));
        }
        cells.push(format!("{:.2}", times[0].minimum / times[1].minimum));
        cells.push(format!("{:.2}", times[0].minimum / times[2].minimum));
        table.add(cells);
    }
    table.print();
}

/// The line through the points that leaves the least squares: what a call costs, and what a byte costs.
fn fitted_line(points: &[(f64, f64)]) -> (f64, f64) {
    let count = points.len() as f64;
    let (mut x, mut y, mut xx, mut xy) = (0.0, 0.0, 0.0, 0.0);
    for (bytes, time) in points {
        x += bytes;
        y += time;
        xx += bytes * bytes;
        xy += bytes * time;
    }
    let slope = (count * xy - x * y) / (count * xx - x * x);
    ((y - slope * x) / count, slope)
}

/// How cost grows with the bytes: a line fitted to the sizes, for accepted certificates with dense rows.
pub fn growth_table(markdown: bool, measured: &[(Subject, Vec<Time>)]) {
    let heads = [
        "call",
        "kind",
        "with",
        "ns a call",
        "ns a byte",
        "furthest from the line",
    ];
    let mut table = Table::new(markdown, &heads);
    for call in [Call::Judge, Call::Bound] {
        for kind in [
            Kind::Ranking,
            Kind::Exclusion,
            Kind::Lasso,
            Kind::Lexicographic,
            Kind::Short,
            Kind::Settling,
        ] {
            let wanted = (call, kind, Fill::Dense, Answer::Accepted);
            for (i, contender) in CONTENDERS.into_iter().enumerate() {
                let points: Vec<(f64, f64)> = measured
                    .iter()
                    .filter(|(subject, _)| subject.is(wanted))
                    .map(|(subject, times)| (subject.bytes() as f64, times[i].minimum))
                    .collect();
                if points.len() > 1 {
                    let named = [format!("{call:?}"), kind.number().to_string()];
                    table.add(growth_cells(named, contender, &points));
                }
            }
        }
    }
    table.print();
}

fn growth_cells(named: [String; 2], contender: Contender, points: &[(f64, f64)]) -> Vec<String> {
    let (fixed, slope) = fitted_line(points);
    let off = |(bytes, time): &(f64, f64)| (time - fixed - slope * bytes).abs();
    let furthest = points.iter().map(off).fold(0.0, f64::max);
    let [call, kind] = named;
    vec![
        call.to_lowercase(),
        kind,
        contender.name().to_string(),
        format!("{fixed:.1}"),
        format!("{slope:.3}"),
        format!("{furthest:.1} ns"),
    ]
}

/// A sheet of many certificates against judging them one by one, both through the archive. Sheets take no arguments for
/// several paths and no settlings.
pub fn sheet_table(markdown: bool, subjects: &[Subject], repeats: usize) {
    let heads = [
        "kind",
        "n, m",
        "certificates",
        "sheet, ns each",
        "judge, ns each",
        "sheet/judge",
    ];
    let mut table = Table::new(markdown, &heads);
    let accepted =
        |subject: &&Subject| subject.is((Call::Judge, subject.kind, Fill::Dense, Answer::Accepted));
    let on_sheets =
        |subject: &&Subject| !matches!(subject.kind, Kind::Lexicographic | Kind::Settling);
    for subject in subjects.iter().filter(accepted).filter(on_sheets) {
        let count = ((65_536 - subject.looped.len()) / subject.certificate.len()).min(500);
        let input = [&subject.looped[..], &subject.certificate.repeat(count)].concat();
        let room = cushiedoo::sheet(&input, &mut []).expect_err("an empty room is too small");
        let mut text = vec![0; room.place as usize];
        let sheet = repeated(|| cushiedoo::sheet(black_box(&input), &mut text));
        let mut one_by_one = work(subject, Contender::Archive);
        let judge = repeated(|| one_by_one(count as u32));
        let times = side_by_side(&mut [sheet, judge], repeats);
        table.add(vec![
            subject.kind.number().to_string(),
            subject.size(),
            count.to_string(),
            format!("{:.1}", times[0].minimum / count as f64),
            format!("{:.1}", times[1].minimum / count as f64),
            format!("{:.2}", times[0].minimum / times[1].minimum),
        ]);
    }
    table.print();
}

/// Short rankings, judged and bounded, beside the rankings that they stand for, both through the archive.
pub fn short_table(markdown: bool, subjects: &[Subject], repeats: usize) {
    let heads = [
        "call",
        "n, m",
        "weight",
        "answer",
        "bytes, kind 2",
        "kind 7",
        "kind 2, ns",
        "kind 7, ns",
        "kind 7/kind 2",
    ];
    let mut table = Table::new(markdown, &heads);
    let judged = |subject: &&Subject| {
        subject.kind == Kind::Short && [Call::Judge, Call::Bound].contains(&subject.call)
    };
    for short in subjects.iter().filter(judged) {
        let long = lengthened(short);
        let mut works = [&long, short].map(|subject| work(subject, Contender::Archive));
        let times = side_by_side(&mut works, repeats);
        table.add(vec![
            short.call.name().to_string(),
            short.size(),
            format!("{:?}", short.fill).to_lowercase(),
            format!("{:?}", short.answer).to_lowercase(),
            long.certificate.len().to_string(),
            short.certificate.len().to_string(),
            format!("{:.1}", times[0].minimum),
            format!("{:.1}", times[1].minimum),
            format!("{:.2}", times[1].minimum / times[0].minimum),
        ]);
    }
    table.print();
}

/// The subject with the ranking that a short one stands for.
fn lengthened(short: &Subject) -> Subject {
    let mut room = [0; ROOM];
    let (n, m) = (short.n as u64, short.m as u64);
    let written = cushiedoo::lengthen(&short.certificate, n, m, &mut room).expect("it is sound");
    Subject {
        kind: Kind::Ranking,
        certificate: room[..written].to_vec(),
        ..short.clone()
    }
}

/// Batches beside as many single judgings through the archive, and beside the others' batches.
pub fn batch_table(markdown: bool, subjects: &[Subject], repeats: usize) {
    let heads = [
        "kind",
        "n, m",
        "rows",
        "batch",
        "one by one",
        "plain batch",
        "c batch",
        "batch/one by one",
        "archive/plain",
        "archive/c",
    ];
    let mut table = Table::new(markdown, &heads);
    let batches = subjects
        .iter()
        .filter(|subject| subject.call == Call::JudgeAll);
    for subject in batches {
        let mut works = CONTENDERS.map(|contender| work(subject, contender)).into();
        let works: &mut Vec<_> = &mut works;
        works.push(one_by_one(subject));
        let times = side_by_side(works, repeats);
        let [archive, plain, c, singles] = [0, 1, 2, 3].map(|i| times[i].minimum);
        let each = |time: f64| format!("{:.1}", time / BATCH as f64);
        table.add(vec![
            subject.kind.number().to_string(),
            subject.size(),
            format!("{:?}", subject.fill).to_lowercase(),
            each(archive),
            each(singles),
            each(plain),
            each(c),
            format!("{:.3}", archive / singles),
            format!("{:.2}", archive / plain),
            format!("{:.2}", archive / c),
        ]);
    }
    table.print();
}

/// Instructions a call, as callgrind counts them. Of a batch those of as many single judgings stand last.
pub fn instruction_table(markdown: bool, subjects: &[Subject]) {
    let own = [
        "archive",
        "plain",
        "c",
        "archive/plain",
        "archive/c",
        "one by one",
        "batch/one by one",
    ];
    let mut table = Table::new(markdown, &[&SUBJECT_HEADS[..], &own].concat());
    for subject in subjects {
        let mut with = CONTENDERS.map(Contender::name).to_vec();
        if subject.call == Call::JudgeAll {
            with.push(ONE_BY_ONE);
        }
        let counts: Option<Vec<u64>> = with
            .iter()
            .map(|with| instructions(subject, with))
            .collect();
        let Some(counts) = counts else {
            println!("valgrind can't be run, so no instructions are counted");
            return;
        };
        let mut cells = subject_cells(subject);
        cells.extend(counts[..3].iter().map(u64::to_string));
        cells.push(format!("{:.2}", counts[0] as f64 / counts[1] as f64));
        cells.push(format!("{:.2}", counts[0] as f64 / counts[2] as f64));
        match counts.get(3) {
            Some(singles) => {
                cells.push(singles.to_string());
                cells.push(format!("{:.3}", counts[0] as f64 / *singles as f64));
            }
            None => cells.extend([String::new(), String::new()]),
        }
        table.add(cells);
    }
    table.print();
}
