//! The table of accounts.

use super::markup::{joined, scrolling, section, table};
use crate::account::Standing;
use crate::book::{Book, CYCLE};

/// Where the section stands.
const ANCHOR: &str = "accounts";

/// What each account has bought, drawn and left; nothing where the clerk keeps none.
pub fn accounts(book: &Book) -> String {
    if !book.keeps_accounts() {
        return String::new();
    }
    let rows = book.standings().iter().map(line).collect::<String>();
    let caption = format!(
        "Hop uses in a cycle of {CYCLE} tiles. A stream draws its hops times {CYCLE} by its period, \
         over both its routes."
    );
    let columns = ["Account", "Bought", "Drawn", "Left"];
    let body = scrolling("Table of accounts", "", &table("accounts", &caption, &columns, &rows));
    section(ANCHOR, "Accounts: bought, drawn and left hop uses", &body)
}

/// The way there, from the contents.
pub fn entry(book: &Book) -> String {
    if !book.keeps_accounts() {
        return String::new();
    }
    format!(" <a href=\"#{ANCHOR}\">Accounts</a>")
}

fn line(own: &Standing) -> String {
    let numbers = [own.bought, own.drawn, own.left()];
    let cells = joined(numbers.map(|number| format!("<td class=\"number\">{number}</td>")), "");
    format!("<tr><th scope=\"row\">{}</th>{cells}</tr>\n", own.number)
}
