//! Makes a book from a plan in words.

use super::{Command, Report};
use crate::describe;
use crate::engine::Engine;
use crate::files;
use crate::frame;
use crate::loaded::decode;
use crate::plan::Plan;
use crate::trouble::{Refusal, Trouble};
use crate::words::Words;
use std::path::Path;

pub const NEW: Command = Command {
    name: "new",
    operands: "BOOK PLAN",
    takes: [2, 2],
    choices: &[],
    summary: "make a book from a plan in words",
    explains: "\
Makes the book of a site without streams, from a plan in words. PLAN is a file,
or - for standard input. A file that is there already is never replaced.
The plan has a line for each of these; # starts a comment:

  slots 4          slots in a tile, 1 to 32
  tiles down up    the plan's tiles in turn: 1, 2, 4, 5 or 10 of them
  control 2 1      control slots of a downlink and of an uplink tile
  nodes 4          nodes of the site, 2 to 64, numbered from 0
  link 0 1         a link; one line for each
  hear 0 2         nodes that hear each other without a link; one line for each
  account 3 1000   an account and the hop uses in a cycle that it has bought

Linked nodes hear each other without a line. A node that receives hears no other
sender in that slot; streams go over links alone. A plan has a line for each of
at most 32 accounts; without one the book has account 0 with 4294967295.",
    example: "lindurask new kiln.book kiln.plan",
    run,
};

/// A refusal of a plan, with the line that it is about.
pub fn refused(path: &Path, plan: &Plan, number: u8) -> Trouble {
    match plan.explain(number) {
        None => Trouble::refused(number, files::called(path)),
        Some(fault) => {
            let about = fault.place(path);
            Trouble::Refused(Refusal { number, about, words: Some(fault.words) })
        }
    }
}

/// Reads a plan.
pub fn read_plan(path: &Path) -> Result<Plan, Trouble> {
    let plan = Plan::read(&files::read_text(path, "plan")?);
    plan.map_err(|fault| Trouble::Misused(fault.said_of(path)))
}

/// Reads a plan, and has the engine make the bytes of its book.
pub fn planned(engine: &mut Engine, path: &Path) -> Result<Vec<u8>, Trouble> {
    let plan = read_plan(path)?;
    let answer = engine.ask(frame::new(&plan.site()))?;
    match answer.number {
        0 => Ok(answer.bytes),
        number => Err(refused(path, &plan, number)),
    }
}

/// A line for each node that no link reaches.
pub fn warnings(book: &crate::book::Book) -> Vec<String> {
    book.cut_off().map(|node| format!("warning: node {node} has no link")).collect()
}

fn run(words: &Words) -> Result<Report, Trouble> {
    let mut engine = Engine::start()?;
    let bytes = planned(&mut engine, words.path(1))?;
    let book = decode(&bytes)?;
    engine.finish()?;
    files::make(words.path(0), &bytes)?;
    let text = format!("made: {}", describe::counts(&book));
    Ok(Report { text, warnings: warnings(&book), changed: true, ..Report::default() })
}
