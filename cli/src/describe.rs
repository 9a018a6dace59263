//! A book and its streams in lines for a person.

use crate::account::Standing;
use crate::book::{Book, Loss, Stream, Way, MOST_HOPS, MOST_ROUTES};
use crate::text::{count, row};

/// What stands before a line that belongs to the one above it.
pub const INDENT: &str = "     ";

/// What stands above the pairs of nodes that hear each other without a link.
pub const HEARD: &str = "Heard without a link";

/// The line above accounts.
const ACCOUNTS_HEAD: &str = "account      bought   drawn        left";

/// How much a book holds; where its clerk keeps accounts, a second line sums these up.
pub fn counts(book: &Book) -> String {
    format!(
        "{}, {}{} of at most {MOST_ROUTES}, {} of at most {MOST_HOPS}\n{}",
        count(book.nodes(), "node"),
        count(book.streams().count(), "stream"),
        with_routes(book),
        count(book.hops(), "hop"),
        if book.keeps_accounts() { in_all(&book.standings()) } else { String::new() },
    )
}

/// What all accounts have bought and drawn together, and what is left.
fn in_all(accounts: &[Standing]) -> String {
    let sum = |part: fn(&Standing) -> u32| accounts.iter().map(part).map(u64::from).sum::<u64>();
    format!(
        "{}: {} bought, {} drawn, {} left\n",
        count(accounts.len(), "account"),
        count(sum(|own| own.bought), "hop use"),
        sum(|own| own.drawn),
        sum(Standing::left),
    )
}

/// Every account in its line behind these blanks, under what the columns are.
pub fn accounts(before: &str, accounts: &[Standing]) -> String {
    let line = |own: &Standing| {
        let Standing { number, bought, drawn } = own;
        format!("{before}{number:>7}{bought:>12}{drawn:>8}{:>12}\n", own.left())
    };
    format!("{before}{ACCOUNTS_HEAD}\n") + &accounts.iter().map(line).collect::<String>()
}

/// An account with what it has bought, drawn and left.
pub fn standing(own: &Standing) -> String {
    format!(
        "account {}: bought {}, drawn {}, left {}",
        own.number,
        own.bought,
        own.drawn,
        own.left()
    )
}

/// What a stream draws, in words.
fn hop_uses(stream: Stream) -> String {
    format!("{} in a cycle", count(stream.draws(), "hop use"))
}

/// The account of a stream, where its clerk keeps accounts.
pub fn account(book: &Book, stream: Stream) -> String {
    if !book.keeps_accounts() {
        return String::new();
    }
    format!("{INDENT}account {}, draws {}\n", stream.account(), hop_uses(stream))
}

/// What a stream that was opened draws from its account, which is kept.
pub fn draws(account: Option<Standing>, stream: Stream) -> String {
    account.map_or(String::new(), |own| {
        let (draws, left) = (hop_uses(stream), own.left());
        format!("{INDENT}draws {draws} from account {}, {left} left\n", own.number)
    })
}

/// What a stream that was closed gives back to its account, which is kept.
pub fn gives_back(account: Option<Standing>, stream: Stream) -> String {
    account.map_or(String::new(), |own| {
        let (draws, left) = (hop_uses(stream), own.left());
        format!("{INDENT}gives back {draws} to account {}, {left} left\n", own.number)
    })
}

/// How many routes the streams have, where that is not one each.
pub fn with_routes(book: &Book) -> String {
    if !book.has_second() {
        return String::new();
    }
    format!(" with {}", count(book.ways.len(), "route"))
}

/// Pairs of nodes in lines.
pub fn pairs(pairs: &[(usize, usize)]) -> String {
    row(" ", pairs.iter().map(|(a, b)| format!("{a}-{b}")))
}

/// A stream in its line, with its routes and their offsets below.
pub fn stream(before: &str, stream: Stream) -> String {
    let before = |way: &Way| if way.is_second() { INDENT } else { before };
    stream.ways.iter().map(|way| route(before(way), way)).collect()
}

/// A route of a stream in its line, with its nodes and its offsets below.
pub fn route(before: &str, route: &Way) -> String {
    let what = if route.is_second() {
        "second route:".to_string()
    } else {
        format!("stream {}: period {},", route.id, count(route.period, "tile"))
    };
    format!("{before}{what} {}\n{}", latency(route), way(route))
}

pub fn latency(way: &Way) -> String {
    format!("latency {}", count(way.latency(), "slot"))
}

/// A route's nodes and its offsets.
pub fn way(way: &Way) -> String {
    row("     route  ", &way.nodes) + &row("     offsets", &way.offsets)
}

/// Whether a stream survives the loss of any one relay.
pub fn loss(stream: Stream) -> &'static str {
    match stream.loss() {
        Loss::NoRelay => "has no relay that could be lost",
        Loss::Survived => "survives the loss of any one relay",
        Loss::Ends => "does not survive the loss of a relay",
    }
}
