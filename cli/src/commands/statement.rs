//! Prints the month's statement of many sites.

use super::{Command, Report};
use crate::files;
use crate::pairs::{said_of, Pair};
use crate::statement::{Month, Site, Statement};
use crate::text::{plain, row};
use crate::trouble::{meaning, Trouble};
use crate::words::{Words, RAW};
use std::ffi::OsStr;
use std::os::unix::ffi::OsStrExt;
use std::path::Path;

/// At most so many sites are read.
const MOST_SITES: usize = 1000;

pub const STATEMENT: Command = Command {
    name: "statement",
    operands: "LAST THIS [LAST THIS ..]",
    takes: [2, 2 * MOST_SITES],
    choices: &[RAW],
    summary: "print the month's statement of sites",
    explains: "\
Prints the month's statement of a site or of many, up to 1000, from two books
for each: last month's and this month's. Of each book it has the fewest free
slots of any node, the sum of used slots over the nodes, and the longest latency
of a route, or 0 with no streams; behind movement, where both months have as
many nodes, each node's free slots this month less last month's. A site has the
name of this month's file. The last line has the two sums and the longest
latency over the books that are accepted. --raw prints the lines of the proved
program as they are. The exit status is 0 where every book is accepted, 1 where
one is refused, and 2 where a file or the program failed.",
    example: "lindurask statement june/kiln.book july/kiln.book",
    run,
};

/// The columns of a site's name, and of a month's figures.
const NAME: usize = 24;
const FEWEST: usize = 12;
const OTHERS: usize = 8;
const MONTH: usize = FEWEST + 2 * OTHERS;
/// The months, last month's before this month's.
const MONTHS: [&str; 2] = ["last month", "this month"];
/// How the name of a book's file ends.
const ENDING: &[u8] = b".book";

/// The name of a site: that of its file, without the ending.
fn name(path: &Path) -> String {
    let file = path.file_name().unwrap_or(path.as_os_str());
    let short = file.as_bytes().strip_suffix(ENDING).filter(|short| !short.is_empty());
    plain(short.map_or(file, OsStr::from_bytes))
}

/// What stands in a month's columns.
fn columns(fewest: impl ToString, used: impl ToString, latency: impl ToString) -> String {
    let [fewest, used, latency] = [fewest.to_string(), used.to_string(), latency.to_string()];
    format!("{fewest:>FEWEST$}{used:>OTHERS$}{latency:>OTHERS$}")
}

fn figures(month: &Month) -> String {
    match month {
        Ok(own) => columns(own.fewest, own.used, own.latency),
        Err(number) => format!("{:>MONTH$}", format!("refused {number}")),
    }
}

/// The months and what their columns are.
fn head() -> String {
    let titles = columns("fewest free", "used", "latency");
    let [last, this] = MONTHS;
    format!("{:NAME$}{last:>MONTH$}{this:>MONTH$}\n{:<NAME$}{titles}{titles}\n", "", "site")
}

/// Why a month's book is refused, in words.
fn refusal((when, month): (&str, &Month)) -> String {
    month.err().map_or(String::new(), |number| {
        row(&format!("  {when}: refused {number}:"), meaning(number).split(' '))
    })
}

/// What the nodes gained or lost, or why that is not said.
fn movement(site: &Site) -> String {
    match &site.movement {
        Some(words) => row("  movement", words),
        None if site.months.iter().all(Result::is_ok) => {
            let [last, this] = site.nodes;
            format!("  no movement: {last} nodes last month, {this} this month\n")
        }
        None => MONTHS.into_iter().zip(&site.months).map(refusal).collect(),
    }
}

/// The lines of a site; a long name has a line of its own.
fn lines(name: &str, site: &Site) -> String {
    let own = figures(&site.months[0]) + &figures(&site.months[1]);
    let first = match name.chars().count() {
        0..NAME => format!("{name:<NAME$}{own}\n"),
        _ => format!("{name}\n{:NAME$}{own}\n", ""),
    };
    first + &movement(site)
}

fn text(statement: &Statement, names: &[String]) -> String {
    let all = statement.totals;
    let sites = names.iter().zip(&statement.sites).map(|(name, site)| lines(name, site));
    let sums = format!("sum of fewest free {}, sum of used {}", all.fewest, all.used);
    format!("{}{}{sums}, longest latency {}\n", head(), sites.collect::<String>(), all.latency)
}

/// Reads the books of a site.
fn read([last, this]: [&Path; 2]) -> Result<Pair, Trouble> {
    let read = |path| files::read_image(path, "a statement");
    Ok([read(last)?, read(this)?])
}

fn run(words: &Words) -> Result<Report, Trouble> {
    let places = (0..words.operands.len()).step_by(2);
    if words.operands.len() % 2 != 0 {
        return Err(STATEMENT.misused());
    }
    let pairs = places.clone().map(|place| [words.path(place), words.path(place + 1)]);
    let pairs = pairs.map(read).collect::<Result<Vec<Pair>, Trouble>>()?;
    let said = said_of(&pairs)?;
    let statement = Statement::read(&said, &pairs)?;
    let names: Vec<String> = places.map(|place| name(words.path(place + 1))).collect();
    let text = if words.has(&RAW) { said } else { text(&statement, &names) };
    Ok(Report { text, refused: statement.is_refused(), ..Report::default() })
}
