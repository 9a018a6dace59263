//! The commands: how each is written, what it says of itself, and what it does.

mod accounts;
mod adopt;
mod balance;
mod buy;
mod check;
mod close;
mod diff;
mod help;
mod new;
mod open;
mod page;
mod post;
mod quote;
mod replan;
mod routes;
mod salvage;
mod show;
mod statement;
mod table;

use crate::trouble::Trouble;
use crate::words::{Choice, Words};

/// What a command that is done prints, and how it ends.
#[derive(Default)]
pub struct Report {
    pub text: String,
    /// Bytes for a program, in the place of the text.
    pub raw: Vec<u8>,
    pub warnings: Vec<String>,
    /// A file was made or changed.
    pub changed: bool,
    /// The answer is no, in full or in part, and was given.
    pub refused: bool,
}

impl Report {
    /// What is written to standard output.
    pub fn bytes(&self) -> &[u8] {
        if self.raw.is_empty() {
            self.text.as_bytes()
        } else {
            &self.raw
        }
    }
}

impl From<String> for Report {
    fn from(text: String) -> Report {
        Report { text, ..Report::default() }
    }
}

pub struct Command {
    pub name: &'static str,
    pub operands: &'static str,
    /// The fewest and the most operands.
    pub takes: [usize; 2],
    pub choices: &'static [Choice],
    pub summary: &'static str,
    pub explains: &'static str,
    pub example: &'static str,
    pub run: fn(&Words) -> Result<Report, Trouble>,
}

/// All commands, in the order in which help lists them.
pub const COMMANDS: [Command; 19] = [
    new::NEW,
    check::CHECK,
    show::SHOW,
    open::OPEN,
    close::CLOSE,
    post::POST,
    buy::BUY,
    quote::QUOTE,
    routes::ROUTES,
    table::TABLE,
    balance::BALANCE,
    accounts::ACCOUNTS,
    diff::DIFF,
    statement::STATEMENT,
    replan::REPLAN,
    adopt::ADOPT,
    salvage::SALVAGE,
    page::PAGE,
    help::HELP,
];

/// The command of this name; where there is none, that is said, and how to find it.
pub fn named(name: &std::ffi::OsStr) -> Result<&'static Command, Trouble> {
    const ALL: &[Command] = &COMMANDS;
    ALL.iter().find(|command| name == command.name).ok_or_else(|| {
        let said = format!("no command is called {}", crate::text::plain(name));
        Trouble::Failed(format!("{said}; lindurask help lists the commands"))
    })
}

impl Command {
    /// How it is written.
    pub fn usage(&self) -> String {
        let mut said = format!("lindurask {} {}", self.name, self.operands);
        for choice in self.choices {
            match choice.value {
                Some(value) => said += &format!(" [{} {value}]", choice.name),
                None => said += &format!(" [{}]", choice.name),
            }
        }
        said
    }

    /// What it says of itself.
    pub fn explained(&self) -> String {
        format!("{}\n{}\n\nExample: {}\n", self.usage(), self.explains, self.example)
    }

    /// Says how it is written, to one who wrote it otherwise.
    pub fn misused(&self) -> Trouble {
        Trouble::Misused(format!("usage: {}", self.usage()))
    }
}
