//! Answers for programs, in JSON.

use crate::account::Standing;
use crate::book::{Balance, Book, Loss, Stream, Way};
use crate::trouble::{Refusal, Trouble};
use std::fmt::Display;

/// A text in quotes.
pub fn string(text: &str) -> String {
    let mut said = String::from('"');
    for c in text.chars() {
        match c {
            '"' | '\\' => said.extend(['\\', c]),
            c if c.is_control() => said.push_str(&format!("\\u{:04x}", c as u32)),
            c => said.push(c),
        }
    }
    said.push('"');
    said
}

/// Values in a row.
pub fn array(values: impl IntoIterator<Item = impl Display>) -> String {
    let values: Vec<String> = values.into_iter().map(|value| value.to_string()).collect();
    format!("[{}]", values.join(","))
}

/// Values by name.
pub fn object<'a>(fields: impl IntoIterator<Item = (&'a str, String)>) -> String {
    let field = |(name, value): (&str, String)| format!("{}:{value}", string(name));
    let fields: Vec<String> = fields.into_iter().map(field).collect();
    format!("{{{}}}", fields.join(","))
}

/// How many nodes, streams, routes and hops a book has, and how many accounts where its clerk keeps them.
pub fn counts(book: &Book) -> Vec<(&'static str, String)> {
    let mut counts = vec![
        ("version", book.version.to_string()),
        ("nodes", book.nodes().to_string()),
        ("streams", book.streams().count().to_string()),
        ("routes", book.ways.len().to_string()),
        ("hops", book.hops().to_string()),
    ];
    counts.extend(book.keeps_accounts().then(|| ("accounts", book.accounts.len().to_string())));
    counts
}

/// Every account with what it has bought, drawn and left.
pub fn accounts(accounts: &[Standing]) -> String {
    array(accounts.iter().map(|own| {
        object([
            ("account", own.number.to_string()),
            ("bought", own.bought.to_string()),
            ("drawn", own.drawn.to_string()),
            ("left", own.left().to_string()),
        ])
    }))
}

/// The nodes, offsets and latency of a route.
pub fn way(way: &Way) -> Vec<(&'static str, String)> {
    vec![
        ("route", array(&way.nodes)),
        ("offsets", array(&way.offsets)),
        ("latency", way.latency().to_string()),
    ]
}

/// A stream of a book, with its account where the clerk of that book keeps accounts.
pub fn stream(book: &Book, stream: Stream) -> String {
    let first = stream.first();
    let second = stream.second().map_or("null".to_string(), |second| object(way(second)));
    let head = [("id", first.id.to_string()), ("period", first.period.to_string())];
    let survives = (stream.loss() != Loss::Ends).to_string();
    let mut rest = vec![("second", second), ("survives", survives)];
    if book.keeps_accounts() {
        rest.push(("account", stream.account().to_string()));
        rest.push(("draws", stream.draws().to_string()));
    }
    object(head.into_iter().chain(way(first)).chain(rest))
}

pub fn plan(book: &Book) -> String {
    let kind = |tile| string(if book.is_down(tile) { "down" } else { "up" });
    let control = object([("down", book.down.to_string()), ("up", book.up.to_string())]);
    object([
        ("slots", book.slots.to_string()),
        ("tiles", array((0..book.tiles.into()).map(kind))),
        ("control", control),
    ])
}

/// Pairs of nodes.
pub fn pairs(pairs: &[(usize, usize)]) -> String {
    array(pairs.iter().map(|(a, b)| array([a, b])))
}

pub fn balance(node: u8, balance: Balance) -> String {
    object([
        ("node", node.to_string()),
        ("data", balance.data.to_string()),
        ("used", balance.used.to_string()),
        ("free", balance.free.to_string()),
    ])
}

/// A refusal's number and words.
pub fn refusal(number: u8, words: &str) -> Vec<(&'static str, String)> {
    vec![("refused", number.to_string()), ("words", string(words))]
}

/// A refusal with what it is about.
pub fn refused(said: &Refusal) -> Vec<(&'static str, String)> {
    let mut fields = refusal(said.number, said.meaning());
    if !said.about.is_empty() {
        fields.push(("about", string(&said.about)));
    }
    fields
}

/// The object that stands for an answer that is a refusal; none for other trouble.
pub fn trouble(trouble: &Trouble) -> Option<String> {
    Some(answer(refused(trouble.refusal()?)))
}

/// A whole answer: one object in a line.
pub fn answer<'a>(fields: impl IntoIterator<Item = (&'a str, String)>) -> String {
    object(fields) + "\n"
}
