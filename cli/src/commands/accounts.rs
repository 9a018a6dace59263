//! Prints what each account has bought, drawn and left.

use super::{Command, Report};
use crate::describe;
use crate::json;
use crate::loaded::Loaded;
use crate::trouble::Trouble;
use crate::words::{Words, JSON};

pub const ACCOUNTS: Command = Command {
    name: "accounts",
    operands: "BOOK",
    takes: [1, 1],
    choices: &[JSON],
    summary: "print what each account has left",
    explains: "\
Prints for each account the hop uses in a cycle that it has bought, those that
its streams draw, and those that are left. A stream draws its hops times 1000/K,
K its period, over both its routes. A book that was made without accounts has
one, number 0, that has bought 4294967295.",
    example: "lindurask accounts mill.book",
    run,
};

fn run(words: &Words) -> Result<Report, Trouble> {
    let loaded = Loaded::read(words.path(0))?;
    loaded.engine.finish()?;
    let accounts = loaded.book.standings();
    if words.has(&JSON) {
        return Ok(json::answer([("accounts", json::accounts(&accounts))]).into());
    }
    Ok(describe::accounts("", &accounts).into())
}
