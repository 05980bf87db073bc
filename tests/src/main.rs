//! Runs generated cases through the archive and the oracle and compares their answers.
//!
//!     cargo run --release -- [--cases N] [--seed S] [--first I]
//!
//! The last line is `cases N, disagreements D`. The exit is not 0 if there is a disagreement, or if a run of at least
//! 300,000 cases leaves a quota unmet. A case that disagrees is printed with its index; `--first INDEX --cases 1` runs
//! it again. The cases are shared out among the cores; what is counted and printed is the same with any number of them.

use second_opinion::cases::case;
use second_opinion::compare::{archive, difference, expected};
use second_opinion::random::Random;
use second_opinion::tally::Tally;
use std::ops::Range;
use std::process::ExitCode;
use std::thread;
use std::time::Instant;

/// Quotas are asked of runs of at least so many cases.
const WHOLE_RUN: u64 = 300_000;
/// So many disagreements are printed.
const PRINTED: usize = 10;

struct Options {
    cases: u64,
    seed: u64,
    first: u64,
}

fn options() -> Result<Options, String> {
    let mut options = Options {
        cases: 400_000,
        seed: 1,
        first: 0,
    };
    let mut words = std::env::args().skip(1);
    while let Some(word) = words.next() {
        let number = words.next().and_then(|value| value.parse().ok());
        let number = number.ok_or(format!("{word} needs a number"))?;
        match word.as_str() {
            "--cases" => options.cases = number,
            "--seed" => options.seed = number,
            "--first" => options.first = number,
            _ => return Err(format!("{word} is not known: --cases, --seed, --first")),
        }
    }
    Ok(options)
}

/// What came of some cases: counts, how many disagree, and the first of these in words.
#[derive(Default)]
struct Compared {
    tally: Tally,
    disagreements: u64,
    printed: Vec<String>,
}

impl Compared {
    /// Runs one case.
    fn run(&mut self, seed: u64, index: u64) {
        let mut random = Random::of_case(seed, index);
        let case = case(&mut random);
        let shift = random.below(8);
        let paper = expected(&case);
        let archive = archive(&case, shift);
        self.tally.count(&case, &paper);
        if paper == archive {
            return;
        }
        self.disagreements += 1;
        if self.printed.len() < PRINTED {
            let differs = difference(&paper, &archive);
            self.printed
                .push(format!("case {index}: {differs}\n{case:?}"));
        }
    }

    /// Runs cases one after another.
    fn of(seed: u64, indices: Range<u64>) -> Compared {
        let mut compared = Compared::default();
        indices.for_each(|index| compared.run(seed, index));
        compared
    }

    /// Adds what came of the cases that follow.
    fn add(&mut self, later: Compared) {
        self.tally.add_all(later.tally);
        self.disagreements += later.disagreements;
        self.printed.extend(later.printed);
        self.printed.truncate(PRINTED);
    }
}

/// Runs all cases, each core a stretch of them.
fn compare(options: &Options) -> Compared {
    let Options { cases, seed, first } = *options;
    let cores = thread::available_parallelism().map_or(1, |cores| cores.get() as u64);
    let start = |share: u64| first + cases * share / cores;
    thread::scope(|scope| {
        let running: Vec<_> = (0..cores)
            .map(|share| scope.spawn(move || Compared::of(seed, start(share)..start(share + 1))))
            .collect();
        let mut all = Compared::default();
        for share in running {
            all.add(share.join().expect("no case panics"));
        }
        all
    })
}

fn main() -> ExitCode {
    let options = match options() {
        Ok(options) => options,
        Err(message) => {
            eprintln!("{message}");
            return ExitCode::FAILURE;
        }
    };
    let begun = Instant::now();
    let Compared {
        tally,
        disagreements,
        printed,
    } = compare(&options);
    printed.iter().for_each(|lines| println!("{lines}"));
    tally.print();
    let mut unmet = Vec::new();
    if options.cases >= WHOLE_RUN {
        unmet = tally.unmet();
        unmet
            .iter()
            .for_each(|line| println!("quota not met: {line}"));
    }
    println!("seed {}, {} s", options.seed, begun.elapsed().as_secs());
    println!("cases {}, disagreements {disagreements}", options.cases);
    match disagreements == 0 && unmet.is_empty() {
        true => ExitCode::SUCCESS,
        false => ExitCode::FAILURE,
    }
}
