//! Compares a program that reads images and prints lines with the reference, stream by stream and byte by byte.
//!
//! `streams KIND [--seed S] [--streams N] -- program arguments…` writes streams to the program, each to a run
//! of its own, and compares all that it prints. The kinds are `statement`, which has pairs of images, and
//! `salvage`, which has a damaged book. `streams KIND --self` compares the reference's own program. It fails
//! on the first difference, and where something that the streams of its kind must meet was never met.

mod books;
#[allow(dead_code)]
#[path = "../differential/damage.rs"]
mod damage;
#[allow(dead_code)]
#[path = "../differential/dice.rs"]
mod dice;
mod pairs;
mod program;
#[allow(dead_code)]
#[path = "../differential/site.rs"]
mod site;

use dice::Dice;
use std::collections::BTreeSet;
use std::process::ExitCode;

const USAGE: &str = "usage: streams (statement | salvage) [--seed S] [--streams N] \
                     (--self | -- program arguments...)";

/// A kind of program: what it is given, what it is to print, and what must have been met.
struct Kind {
    /// What it prints, which is its name.
    name: &'static str,
    /// What its streams are.
    streams: &'static str,
    /// Streams that are always tried.
    fixed: fn(&mut Dice) -> Vec<Vec<u8>>,
    /// A stream by chance.
    thrown: fn(&mut Dice) -> Vec<u8>,
    /// What the reference prints.
    printed: fn(&[u8]) -> String,
    /// What must have been met, and which of them a stream and its lines meet.
    all: &'static [&'static str],
    met: fn(&[u8], &str) -> Vec<bool>,
}

const KINDS: [Kind; 2] = [pairs::KIND, books::KIND];

struct Options {
    kind: &'static Kind,
    seed: u64,
    streams: usize,
    command: Vec<String>,
}

fn main() -> ExitCode {
    let Some(options) = options(std::env::args().skip(1)) else {
        eprintln!("{USAGE}");
        return ExitCode::from(2);
    };
    match compare(&options) {
        Err(fault) => {
            println!("{fault}\nFAILED with seed {}", options.seed);
            ExitCode::FAILURE
        }
        Ok(count) => {
            println!("{count} {}, seed {}: all equal", options.kind.streams, options.seed);
            ExitCode::SUCCESS
        }
    }
}

fn options(mut arguments: impl Iterator<Item = String>) -> Option<Options> {
    let name = arguments.next()?;
    let kind = KINDS.iter().find(|kind| kind.name == name)?;
    let mut options = Options { kind, seed: 1, streams: 300, command: Vec::new() };
    while let Some(argument) = arguments.next() {
        match argument.as_str() {
            "--seed" => options.seed = arguments.next()?.parse().ok()?,
            "--streams" => options.streams = arguments.next()?.parse().ok()?,
            "--self" => options.command = vec![beside_this_program(&format!("reference_{name}"))?],
            "--" => options.command = arguments.by_ref().collect(),
            _ => return None,
        }
    }
    (!options.command.is_empty()).then_some(options)
}

/// A program in the folder of this one.
fn beside_this_program(name: &str) -> Option<String> {
    let path = std::env::current_exe().ok()?.with_file_name(name);
    path.into_os_string().into_string().ok()
}

/// Puts the fixed streams and then the thrown ones to the program; how many there were.
fn compare(options: &Options) -> Result<usize, String> {
    let mut dice = Dice::new(options.seed);
    let kind = options.kind;
    let mut reached = BTreeSet::new();
    let fixed = (kind.fixed)(&mut dice);
    let count = fixed.len() + options.streams;
    let thrown = (0..options.streams).map(|_| (kind.thrown)(&mut dice));
    for stream in fixed.into_iter().chain(thrown) {
        let expected = (kind.printed)(&stream);
        let printed = program::run(&options.command, &stream)?;
        if printed != expected.as_bytes() {
            return Err(difference(&stream, expected.as_bytes(), &printed));
        }
        let met = (kind.met)(&stream, &expected);
        reached.extend(kind.all.iter().zip(met).filter(|(_, met)| *met).map(|(name, _)| *name));
    }
    let missing = kind.all.iter().find(|name| !reached.contains(*name));
    missing.map_or(Ok(count), |missing| Err(format!("never reached: {missing}")))
}

/// The stream, and the first line that differs.
fn difference(stream: &[u8], expected: &[u8], printed: &[u8]) -> String {
    let lines = |text: &[u8]| -> Vec<String> {
        text.split(|&byte| byte == b'\n').map(|line| line.escape_ascii().to_string()).collect()
    };
    let (good, bad) = (lines(expected), lines(printed));
    let place =
        good.iter().zip(&bad).position(|(a, b)| a != b).unwrap_or(good.len().min(bad.len()));
    let shown = |lines: &[String]| lines.get(place).cloned().unwrap_or_default();
    let hex: String = stream.iter().take(6000).map(|byte| format!("{byte:02X}")).collect();
    let (good, bad) = (shown(&good), shown(&bad));
    format!("line {place}: expected '{good}', printed '{bad}'\n{} bytes {hex}", stream.len())
}
