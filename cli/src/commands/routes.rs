//! Lists the short routes between two nodes; nothing is changed.

use super::{Command, Report};
use crate::frame;
use crate::json;
use crate::loaded::{accepted, unreadable, Loaded};
use crate::mains::Mains;
use crate::request::about_ends;
use crate::text::count;
use crate::trouble::Trouble;
use crate::words::{Number, Words, JSON, MAINS};

pub const ROUTES: Command = Command {
    name: "routes",
    operands: "BOOK SOURCE DESTINATION",
    takes: [3, 3],
    choices: &[MAINS, JSON],
    summary: "list the short routes between two nodes",
    explains: "\
Lists every route of at most 6 hops from node SOURCE to node DESTINATION, in
order of their nodes, and says where there are more than the 32 that it lists.
A stream takes the shortest route there is, of at most 15 hops; quote says
which. With --mains it lists the routes with no other than these NODES in the
middle: numbers with commas, as in 0,3,5 or 0-3,5, or none. The book is not
changed.",
    example: "lindurask routes yard.book 0 5",
    run,
};

/// The most hops of a route that is listed.
const MOST_HOPS: usize = 6;

/// The line above routes.
const HEAD: &str = "hops route\n";

/// What a list of routes was asked for.
struct Wanted {
    source: u8,
    destination: u8,
    /// How many nodes the site has.
    nodes: u8,
    mains: Mains,
}

impl Wanted {
    /// The nodes can be those of a route that is listed.
    fn fits(&self, route: &[u8]) -> bool {
        let [source, middle @ .., destination] = route else { return false };
        [source, destination] == [&self.source, &self.destination]
            && route.iter().all(|&node| node < self.nodes)
            && middle.iter().all(|&node| self.mains.has(node))
            && middle.len() < MOST_HOPS
    }
}

/// Reads a list: for each route a byte with its hops and then its nodes. None where it cannot be one.
fn decode(mut list: &[u8], wanted: &Wanted) -> Option<Vec<Vec<u8>>> {
    let mut routes = Vec::new();
    while let Some((&hops, rest)) = list.split_first() {
        let (route, rest) = rest.split_at_checked(usize::from(hops) + 1)?;
        if !wanted.fits(route) {
            return None;
        }
        routes.push(route.to_vec());
        list = rest;
    }
    Some(routes)
}

fn line(route: &Vec<u8>) -> String {
    let nodes: Vec<String> = route.iter().map(u8::to_string).collect();
    format!("{:>4} {}\n", route.len() - 1, nodes.join(" "))
}

/// How many there are.
fn foot(routes: &[Vec<u8>], more: bool) -> String {
    match (routes.len(), more) {
        (0, _) => format!("no route of at most {MOST_HOPS} hops\n"),
        (most, true) => {
            format!("the first {most} routes of at most {MOST_HOPS} hops; more exist\n")
        }
        (all, false) => format!("{} of at most {MOST_HOPS} hops\n", count(all, "route")),
    }
}

/// What of the words a refusal is about.
fn about(number: u8, source: Number, destination: Number, wanted: &Wanted) -> String {
    let missing = if u64::from(wanted.nodes) <= source.0 { source } else { destination };
    match number {
        4 => format!("node {}", missing.0),
        5 => format!("node {}", source.0),
        _ => about_ends(source.0, destination.0, wanted.mains),
    }
}

fn run(words: &Words) -> Result<Report, Trouble> {
    let (source, destination, mains) = (words.node(1)?, words.node(2)?, words.mains()?);
    let mut loaded = Loaded::read(words.path(0))?;
    let (from, to, nodes) = (source.node(), destination.node(), loaded.book.nodes());
    let set = mains.set(&loaded.bytes);
    let answer = loaded.engine.ask(frame::routes(&loaded.bytes, set, from, to))?;
    let answer = mains.taken(answer, &loaded.bytes)?;
    let wanted = Wanted { source: from, destination: to, nodes, mains };
    let about = about(answer.number, source, destination, &wanted);
    let answer = accepted(answer, about)?;
    let routes = decode(&answer.bytes, &wanted).ok_or_else(unreadable)?;
    let more = answer.counts[1] == 1;
    loaded.engine.finish()?;
    if words.has(&JSON) {
        return Ok(json::answer([
            ("source", from.to_string()),
            ("destination", to.to_string()),
            ("routes", json::array(routes.iter().map(json::array))),
            ("more", more.to_string()),
        ])
        .into());
    }
    let head = about_ends(source.0, destination.0, mains) + "\n";
    let list = if routes.is_empty() { String::new() } else { HEAD.to_string() };
    Ok((head + &list + &routes.iter().map(line).collect::<String>() + &foot(&routes, more)).into())
}
