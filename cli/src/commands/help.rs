//! Explains the commands.

use super::{named, Command, Report, COMMANDS};
use crate::refusals;
use crate::text::WIDTH;
use crate::trouble::Trouble;
use crate::words::Words;

pub const HELP: Command = Command {
    name: "help",
    operands: "[COMMAND]",
    takes: [0, 1],
    choices: &[],
    summary: "explain a command, with an example",
    explains: "Explains a command, or lists all commands and refusals.",
    example: "lindurask help open",
    run,
};

/// The column in which the list says what a command does.
const COLUMN: usize = 37;

/// A command in the list.
fn line(command: &Command) -> String {
    let usage = format!("  lindurask {} {}", command.name, command.operands);
    if usage.len() < COLUMN && COLUMN + command.summary.len() <= WIDTH {
        return format!("{usage:<COLUMN$}{}\n", command.summary);
    }
    let indent = COLUMN.min(WIDTH - command.summary.len());
    format!("{usage}\n{:indent$}{}\n", "", command.summary)
}

/// Everything: the commands, the options, the exit statuses and the refusals.
pub fn everything() -> String {
    let refusals = refusals::all().map(|(number, words)| format!("{number:>4}  {words}\n"));
    let commands = COMMANDS.iter().map(line);
    format!(
        "\
Lindurask keeps the book of a site: its tile plan, its accounts, its links, who
hears whom, and its streams.

{}
lindurask COMMAND --help explains a command and its options.
Exit status: 0 done, 1 refused, 2 not understood, or a file failed;
of diff: 0 the same, 1 they differ, 2 also where a book is refused;
of check --mains: 1 where a stream passes another node;
of salvage: 1 where something is dropped, lost or not as the head states.
The refusals by their number:
{}",
        commands.collect::<String>(),
        refusals.collect::<String>()
    )
}

fn run(words: &Words) -> Result<Report, Trouble> {
    let Some(name) = words.operands.first().filter(|name| !name.is_empty()) else {
        return Ok(everything().into());
    };
    let command = named(name)?;
    let is_help = command.name == HELP.name;
    Ok(if is_help { everything() } else { command.explained() }.into())
}
