//! Compares the proved emulator with the second one. The work is divided into rounds, each with
//! its own seed, so that it is the same for the same seed and a difference can be replayed.
#![deny(unsafe_code)]

mod cuts;
mod damage;
mod direct;
mod every_word;
mod lent;
mod lines;
mod masked;
mod masks;
mod options;
mod pairs;
mod places;
mod program;
mod refusals;
mod row_access;
mod row_store;
mod runs;
mod scene;
mod shared;
mod tally;
mod texts;
mod turns;
mod words;

use options::{Options, HELP};
use std::panic::{catch_unwind, AssertUnwindSafe};
use std::process::ExitCode;
use std::time::{Duration, Instant, SystemTime};
use tally::{Check, Difference, Tally};
use testing::{mix, Random};

const SEED: u64 = 20_191_213;
/// How often a long comparison tells how far it is.
const PROGRESS: Duration = Duration::from_secs(600);

fn main() -> ExitCode {
    match Options::read(std::env::args().skip(1)) {
        Ok(Some(options)) => compare(&options),
        Ok(None) => {
            print!("{HELP}");
            ExitCode::SUCCESS
        }
        Err(problem) => {
            eprintln!("compare: {problem}\n\n{HELP}");
            ExitCode::from(2)
        }
    }
}

fn compare(options: &Options) -> ExitCode {
    let seed = options.seed.unwrap_or_else(|| own_seed(options));
    println!("compare: seed {seed}");
    let mut tally = Tally::default();
    if let Err(Difference(what)) = guarded(|| everything_once(&mut tally, options, seed)) {
        println!("compare: a difference, in what is compared before the rounds:\n{what}");
        println!("compare: replay it with {}", replay(options, seed));
        println!("{}", tally.summary(1, seed));
        return ExitCode::FAILURE;
    }
    let mut spoken = Instant::now();
    for round in rounds(options) {
        if spoken.elapsed() > PROGRESS {
            println!("{}", tally.summary(0, seed));
            spoken = Instant::now();
        }
        let own = round_seed(seed, round);
        if let Err(Difference(what)) = guarded(|| one_round(&mut tally, own)) {
            println!("compare: a difference, in round {round}:\n{what}");
            println!("compare: replay it with --seed {own} --rounds 1");
            println!("{}", tally.summary(1, seed));
            return ExitCode::FAILURE;
        }
    }
    println!("{}", tally.summary(0, seed));
    let missing = tally.missing();
    if options.rounds.is_none() && !missing.is_empty() {
        println!("compare: never reached: {}", missing.join(", "));
        return ExitCode::FAILURE;
    }
    ExitCode::SUCCESS
}

/// The fixed seed; for an endless comparison one from the clock.
fn own_seed(options: &Options) -> u64 {
    let clock = SystemTime::now().duration_since(SystemTime::UNIX_EPOCH);
    match clock {
        Ok(now) if options.seconds == 0 && options.rounds.is_none() => now.as_secs(),
        _ => SEED,
    }
}

/// The numbers of the rounds, until the time or their number is used up.
fn rounds(options: &Options) -> impl Iterator<Item = u64> {
    let start = Instant::now();
    let (rounds, seconds) = (options.rounds, options.seconds);
    (0..).take_while(move |round| match rounds {
        Some(rounds) => *round < rounds,
        None => seconds == 0 || start.elapsed() < Duration::from_secs(seconds),
    })
}

/// The first round has the main seed itself, so that a later round can be replayed as a first.
fn round_seed(seed: u64, round: u64) -> u64 {
    match round {
        0 => seed,
        _ => mix(seed ^ mix(round)),
    }
}

/// A panic of either emulator is a difference too.
fn guarded(work: impl FnOnce() -> Check) -> Check {
    let answer = catch_unwind(AssertUnwindSafe(work));
    answer.unwrap_or_else(|_| Err(Difference("a panic, see above".to_string())))
}

/// The options that compare again what is compared before the rounds, and nothing else.
fn replay(options: &Options, seed: u64) -> String {
    match options.seconds {
        0 => format!("--seed {seed} --seconds 0 --rounds 0"),
        _ => format!("--seed {seed} --rounds 0"),
    }
}

fn everything_once(tally: &mut Tally, options: &Options, seed: u64) -> Check {
    every_word::compare(every_word::parts(options.seconds == 0, seed))?;
    words::whole_chart(tally)?;
    words::all_halfwords(tally)?;
    runs::all_edges(tally)?;
    texts::all_halfwords(tally)?;
    lines::all_halfwords(tally)?;
    lines::all_shapes(tally)
}

fn one_round(tally: &mut Tally, seed: u64) -> Check {
    let mut random = Random::new(mix(seed));
    words::round(tally, &mut random)?;
    runs::round(tally, &mut random)?;
    masked::round(tally, &mut random)?;
    refusals::round(tally, &mut random)?;
    texts::round(tally, &mut random)?;
    lines::round(tally, &mut random)
}
