//! The clerk's tool: keeps the book of a site in a file, and asks the proved engine for every judgement.

mod account;
mod book;
mod colour;
mod commands;
mod describe;
mod dialogue;
mod difference;
mod engine;
mod files;
mod frame;
mod index;
mod json;
mod leftovers;
mod lines;
mod list;
mod loaded;
mod mains;
mod page;
mod pairs;
mod picture;
mod plan;
mod program;
mod refusals;
mod request;
mod salvage;
mod statement;
mod sys;
mod table;
mod tables;
mod text;
mod tiles;
mod trouble;
mod words;

use commands::{named, Command, Report};
use std::env;
use std::ffi::OsString;
use std::io::{self, Write};
use std::process::ExitCode;
use trouble::Trouble;
use words::{Words, JSON};

/// The exit statuses.
const DONE: u8 = 0;
const REFUSED: u8 = 1;
const FAILED: u8 = 2;

/// How one who wrote no command should have written it.
const USAGE: &str = "usage: lindurask COMMAND BOOK ...; lindurask help lists the commands";

/// Writes to standard output, all or an error.
fn print(bytes: &[u8]) -> io::Result<()> {
    let mut out = io::stdout().lock();
    out.write_all(bytes)?;
    out.flush()
}

/// Says a line on standard error; where that fails there is nobody to tell.
fn say(line: &str) {
    let _ = writeln!(io::stderr(), "{line}");
}

/// Prints what a command reports; the status says what became of the book.
fn tell(report: &Report) -> u8 {
    report.warnings.iter().for_each(|warning| say(&format!("lindurask: {warning}")));
    let status = if report.refused { REFUSED } else { DONE };
    match print(report.bytes()) {
        Ok(()) => status,
        Err(e) if report.changed => {
            say(&format!(
                "lindurask: it is done, but standard output failed: {}",
                text::reason(&e)
            ));
            status
        }
        Err(e) => {
            say(&format!("lindurask: standard output: {}", text::reason(&e)));
            FAILED
        }
    }
}

/// Says why a command is not done.
fn complain(trouble: &Trouble, in_json: bool) -> u8 {
    match json::trouble(trouble).filter(|_| in_json) {
        Some(object) if print(object.as_bytes()).is_err() => FAILED,
        Some(_) => trouble.status(),
        None => {
            say(&trouble.line());
            trouble.status()
        }
    }
}

/// Does what a command was asked for.
fn run(command: &Command, rest: Vec<OsString>) -> u8 {
    let Ok(words) = Words::sort(rest, command.choices) else {
        return complain(&command.misused(), false);
    };
    if words.help {
        return tell(&command.explained().into());
    }
    let [least, most] = command.takes;
    if !(least..=most).contains(&words.operands.len()) {
        return complain(&command.misused(), false);
    }
    match (command.run)(&words) {
        Ok(report) => tell(&report),
        Err(trouble) => complain(&trouble, words.has(&JSON)),
    }
}

/// What stands for a command by another name.
fn alias(word: OsString) -> OsString {
    match word.to_str() {
        Some("--help" | "-h") => "help".into(),
        _ => word,
    }
}

fn main() -> ExitCode {
    if sys::is_mute() {
        let said = "standard output is closed; nothing is changed";
        return complain(&Trouble::Failed(said.into()), false).into();
    }
    let mut words = env::args_os().skip(1);
    let Some(name) = words.next().filter(|word| !word.is_empty()).map(alias) else {
        return complain(&Trouble::Misused(USAGE.into()), false).into();
    };
    if name == "--version" {
        let version = env!("CARGO_PKG_VERSION");
        let text = format!("lindurask {version}, books of version {}\n", book::NEWEST);
        return tell(&text.into()).into();
    }
    match named(&name) {
        Ok(command) => run(command, words.collect()),
        Err(trouble) => complain(&trouble, false),
    }
    .into()
}
