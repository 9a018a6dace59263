//! Compares a planner with the reference, call by call and byte by byte.
//!
//! `differential [--seed S] [--cases N] [--patience SECONDS] -- program arguments…`
//! puts calls to the program, framed as `reference::frame` says, and compares
//! number, length or counts, and every byte of the output buffer, of the records and
//! of the index or the report.
//! `differential --self` puts them to the reference itself.
//!
//! It fails on the first differences, and where an answer number that the
//! documents make possible for a call or a record, or one of `events`,
//! `second_events`, `posting_events` and `account_events`, was never reached.
//! `--cases` sets how many calls are thrown beside the fixed ones.

mod account_events;
mod damage;
mod dice;
mod driver;
mod events;
mod families;
mod planner;
mod posting_events;
mod requests;
mod second_events;
mod site;
mod tally;

use dice::Dice;
use driver::Driver;
use std::process::ExitCode;
use std::sync::mpsc::sync_channel;
use std::thread;
use std::time::{Duration, Instant};
use tally::Tally;

const USAGE: &str = "usage: differential [--seed S] [--cases N] [--patience SECONDS] \
                     (--self | -- program arguments...)";

struct Options {
    seed: u64,
    cases: u64,
    patience: Duration,
    command: Vec<String>,
}

fn main() -> ExitCode {
    let Some(options) = options(std::env::args().skip(1)) else {
        eprintln!("{USAGE}");
        return ExitCode::from(2);
    };
    let start = Instant::now();
    match run(&options) {
        Err(fault) => {
            println!("{fault}\nFAILED with seed {}", options.seed);
            ExitCode::FAILURE
        }
        Ok(tally) => report(&tally, options.seed, start.elapsed()),
    }
}

fn options(mut arguments: impl Iterator<Item = String>) -> Option<Options> {
    let mut options =
        Options { seed: 1, cases: 60_000, patience: Duration::from_secs(120), command: Vec::new() };
    while let Some(argument) = arguments.next() {
        match argument.as_str() {
            "--seed" => options.seed = arguments.next()?.parse().ok()?,
            "--cases" => options.cases = arguments.next()?.parse().ok()?,
            "--patience" => {
                options.patience = Duration::from_secs(arguments.next()?.parse().ok()?);
            }
            "--self" => options.command = vec![beside_this_program("reference_calls")?],
            "--" => options.command = arguments.by_ref().collect(),
            _ => return None,
        }
    }
    (!options.command.is_empty()).then_some(options)
}

/// A program in the folder of this one.
fn beside_this_program(name: &str) -> Option<String> {
    let path = std::env::current_exe().ok()?.with_file_name(name);
    path.into_os_string().into_string().ok()
}

/// Makes the calls in one thread and compares the answers in another.
fn run(options: &Options) -> Result<Tally, String> {
    let (batches, to_write) = sync_channel(4);
    let (seed, cases) = (options.seed, options.cases);
    let calls = thread::spawn(move || {
        let mut driver = Driver::new(batches);
        let mut dice = Dice::new(seed);
        families::fixed(&mut driver, &mut dice, seed);
        families::thrown(&mut driver, &mut dice, cases);
        driver.finish()
    });
    planner::compare(&options.command, options.patience, to_write)?;
    calls.join().map_err(|_| "the calls could not be made".to_string())
}

fn report(tally: &Tally, seed: u64, time: Duration) -> ExitCode {
    let total = tally.total();
    println!("{}", tally.families());
    println!("{}\n", tally.table());
    let seconds = time.as_secs_f64();
    let rate = total as f64 / seconds;
    println!("{total} calls in {seconds:.1} s, {rate:.0} a second, seed {seed}: all equal");
    let faults = tally.faults();
    for fault in &faults {
        println!("{fault}");
    }
    if faults.is_empty() { ExitCode::SUCCESS } else { ExitCode::FAILURE }
}
