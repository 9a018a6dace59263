//! Prints data, used and free slots of nodes.

use super::{Command, Report};
use crate::book::Balance;
use crate::json;
use crate::loaded::Loaded;
use crate::trouble::Trouble;
use crate::words::{Words, JSON};

pub const BALANCE: Command = Command {
    name: "balance",
    operands: "BOOK [NODE]",
    takes: [1, 2],
    choices: &[JSON],
    summary: "print the balance of a node, or of all",
    explains: "\
Prints for a node, or for all, the data slots of a cycle of 1000 tiles, those it
uses, and those that are free. Free slots are not yet slots that can be sold: a
stream needs slots in turn on its whole route. What can be sold is what quote
says.",
    example: "lindurask balance kiln.book",
    run,
};

/// The line above balances.
const HEAD: &str = "node  data  used  free\n";

fn line((node, balance): (&u8, &Balance)) -> String {
    format!("{node:>4}{:>6}{:>6}{:>6}\n", balance.data, balance.used, balance.free)
}

fn run(words: &Words) -> Result<Report, Trouble> {
    let one = words.node_if(1)?;
    let mut loaded = Loaded::read(words.path(0))?;
    let nodes = loaded.nodes(one)?;
    let balances = loaded.balances(&nodes)?;
    loaded.engine.finish()?;
    let all = nodes.iter().zip(&balances);
    if words.has(&JSON) {
        let list = json::array(all.map(|(&node, &balance)| json::balance(node, balance)));
        return Ok(json::answer([("balances", list)]).into());
    }
    Ok((HEAD.to_string() + &all.map(line).collect::<String>()).into())
}
