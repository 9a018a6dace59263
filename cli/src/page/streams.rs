//! The table of streams.

use super::identity::{colour, name, MARKED};
use super::markup::{joined, scrolling, table};
use crate::book::{Book, Way};

/// Between two nodes of a route; a line may end behind the arrow, not before it.
const ONWARD: &str = "\u{a0}→ ";

/// Every route of the book with its stream's period, its nodes, offsets and latency.
pub fn streams(book: &Book) -> String {
    let rows = book
        .ways
        .iter()
        .enumerate()
        .map(|(row, way)| line(way, &colour(book, row), &account(book, way)))
        .collect::<String>();
    let second = if book.has_second() { format!("; {MARKED}") } else { String::new() };
    let caption = format!(
        "Period in tiles; route by nodes; offsets and latency in slots{second}. The latency runs \
         from the first hop’s slot to the last’s, both counted."
    );
    let columns = ["Stream", "Period", "Route", "Offsets", "Latency", "Account", "Draws"];
    let columns = if book.keeps_accounts() { &columns[..] } else { &columns[..5] };
    scrolling("Table of streams", "", &table("streams", &caption, columns, &rows))
}

/// The account of a route and what it draws, where the clerk keeps accounts.
fn account(book: &Book, way: &Way) -> String {
    if !book.keeps_accounts() {
        return String::new();
    }
    let (number, draws) = (way.account, way.draws());
    format!("<td class=\"number\">{number}</td><td class=\"number\">{draws}</td>")
}

fn line(way: &Way, colour: &str, account: &str) -> String {
    format!(
        "<tr><th scope=\"row\" class=\"{colour}\"><span class=\"chip\">{}</span></th>\
         <td class=\"number\">{}</td><td class=\"path\">{}</td><td class=\"path\">{}</td>\
         <td class=\"number\">{}</td>{account}</tr>\n",
        name(way),
        way.period,
        joined(&way.nodes, ONWARD),
        joined(&way.offsets, " "),
        way.latency()
    )
}
