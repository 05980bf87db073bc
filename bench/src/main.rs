//! Measures judging, bound, batches and the moving of rankings side by side on the same bytes: through the archive, in plain
//! Rust, and in one-pass C.
//!
//!     cargo run --release -- [--markdown] [--repeats N] [--only PART]    times, growth, sheets, short rankings, batches
//!     cargo run --release -- --instructions [--markdown] [--only PART]   instructions a call, by callgrind
//!     cargo run --release -- --list                                      the names of all cases
//!     cargo run --release -- --case NAME --with archive|plain|c|one-by-one --calls N
//!
//! `--only` takes the cases whose name has the part in it, such as `judge-2` or `16x64-dense-accepted`. The last form
//! makes so many calls of one case with one implementation and nothing else, for a profiler to watch; a batch also one by one
//! through the archive. All three must give the same answer on every case, or the run fails.

mod contenders;
mod measure;
mod plain;
mod report;
mod subjects;

use contenders::{Contender, CONTENDERS};
use std::process::ExitCode;
use std::str::FromStr;
use subjects::{subjects, Call, Subject};

struct Options {
    markdown: bool,
    repeats: usize,
    only: String,
    mode: Mode,
}

enum Mode {
    Times,
    Instructions,
    List,
    Case,
}

struct Alone {
    case: String,
    with: String,
    calls: u32,
}

fn options() -> Result<(Options, Alone), String> {
    let mut options = Options {
        markdown: false,
        repeats: 201,
        only: String::new(),
        mode: Mode::Times,
    };
    let mut alone = Alone {
        case: String::new(),
        with: "archive".to_string(),
        calls: 10,
    };
    let mut words = std::env::args().skip(1);
    while let Some(word) = words.next() {
        let mut value = || words.next().ok_or(format!("{word} needs a value"));
        match word.as_str() {
            "--markdown" => options.markdown = true,
            "--instructions" => options.mode = Mode::Instructions,
            "--list" => options.mode = Mode::List,
            "--only" => options.only = value()?,
            "--repeats" => options.repeats = number::<usize>(&value()?)?.max(1),
            "--calls" => alone.calls = number(&value()?)?,
            "--with" => alone.with = value()?,
            "--case" => {
                options.mode = Mode::Case;
                alone.case = value()?;
            }
            _ => return Err(format!("{word} is not known")),
        }
    }
    Ok((options, alone))
}

fn number<T: FromStr>(word: &str) -> Result<T, String> {
    word.parse().map_err(|_| format!("{word} is no number"))
}

/// All three contenders give the same answer, and it is the one that the case was built for.
fn agree(subject: &Subject) -> Result<(), String> {
    let answers = CONTENDERS.map(|contender| subject.ask(contender));
    let same = answers.iter().all(|answer| *answer == answers[0]);
    if same && answers[0].number_and_place() == subject.wanted() {
        return Ok(());
    }
    Err(format!("{}: the answers are {answers:?}", subject.name()))
}

fn run_alone(subjects: &[Subject], alone: &Alone) -> Result<(), String> {
    let subject = subjects.iter().find(|subject| subject.name() == alone.case);
    let subject = subject.ok_or("--case takes a name that --list prints")?;
    if alone.with == measure::ONE_BY_ONE && subject.call == Call::JudgeAll {
        measure::one_by_one(subject)(alone.calls);
        return Ok(());
    }
    let named = |contender: &&Contender| contender.name() == alone.with;
    let contender = CONTENDERS.iter().find(named);
    let contender = contender.ok_or("--with takes archive, plain or c; of a batch one-by-one")?;
    measure::work(subject, *contender)(alone.calls);
    Ok(())
}

fn report_times(options: &Options, subjects: Vec<Subject>) {
    let measured: Vec<_> = subjects
        .iter()
        .map(|subject| (subject.clone(), measure::times(subject, options.repeats)))
        .collect();
    println!("Nanoseconds a call; ratios of the minima.\n");
    report::time_table(options.markdown, &measured);
    println!("\nA line fitted to the sizes: accepted, dense rows.\n");
    report::growth_table(options.markdown, &measured);
    println!("\nSheets: accepted certificates, dense rows, through the archive.\n");
    report::sheet_table(options.markdown, &subjects, options.repeats.div_ceil(10));
    println!("\nShort rankings beside the rankings that they stand for, through the archive.\n");
    report::short_table(options.markdown, &subjects, options.repeats);
    println!("\nBatches of 32, nanoseconds a certificate.\n");
    report::batch_table(options.markdown, &subjects, options.repeats);
}

fn run() -> Result<(), String> {
    let (options, alone) = options()?;
    let mut subjects = subjects(&alone.case);
    if let Mode::Case = options.mode {
        return run_alone(&subjects, &alone);
    }
    subjects.retain(|subject| subject.name().contains(&options.only));
    subjects.iter().try_for_each(agree)?;
    match options.mode {
        Mode::Times => report_times(&options, subjects),
        Mode::Instructions => report::instruction_table(options.markdown, &subjects),
        _ => subjects
            .iter()
            .for_each(|subject| println!("{}", subject.name())),
    }
    Ok(())
}

fn main() -> ExitCode {
    match run() {
        Ok(()) => ExitCode::SUCCESS,
        Err(message) => {
            eprintln!("{message}");
            ExitCode::FAILURE
        }
    }
}
