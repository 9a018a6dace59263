//! Which streams go over which link, in which direction.

use super::heard;
use super::hops::hops;
use super::identity::name;
use super::markup::joined;
use crate::book::{Book, Way};
use crate::text::count;
use std::collections::BTreeMap;

/// For each direction of a link that is in use: the rows of the book whose routes go there.
pub type Traffic = BTreeMap<(usize, usize), Vec<usize>>;

pub fn traffic(book: &Book) -> Traffic {
    let mut traffic = Traffic::new();
    for (row, way) in book.ways.iter().enumerate() {
        for hop in hops(way) {
            traffic.entry((hop.from.into(), hop.to.into())).or_default().push(row);
        }
    }
    traffic
}

/// The slots of a cycle that these rows take on one link.
pub fn slots_in_use(book: &Book, rows: &[usize]) -> usize {
    rows.iter().map(|&row| usize::from(book.ways[row].repeats())).sum()
}

/// The names of these rows' streams, ids that follow each other as a range.
pub fn names(book: &Book, rows: &[usize]) -> String {
    let streams = rows.iter().map(|&row| &book.ways[row]).collect::<Vec<_>>();
    let follows = |a: &&Way, b: &&Way| !a.is_second() && !b.is_second() && a.id + 1 == b.id;
    let range = |run: &[&Way]| match run {
        [first, _, .., last] => format!("{}–{}", name(first), name(last)),
        few => joined(few.iter().map(|way| name(way)), ", "),
    };
    joined(streams.chunk_by(follows).map(range), ", ")
}

/// All of it as text: each direction with its streams, the links that no stream takes, and who hears whom without one.
pub fn listing(book: &Book, traffic: &Traffic) -> String {
    let item = |(&(from, to), rows): (&(usize, usize), &Vec<usize>)| {
        let slots = count(slots_in_use(book, rows), "slot");
        format!("<li><b>{from} → {to}</b> {} <small>({slots})</small></li>\n", names(book, rows))
    };
    let used = traffic.iter().map(item).collect::<String>();
    let is_idle = |&&(a, b): &&(usize, usize)| {
        !traffic.contains_key(&(a, b)) && !traffic.contains_key(&(b, a))
    };
    let links = book.pairs();
    let idle = links.iter().filter(is_idle).map(|(a, b)| format!("{a}–{b}")).collect::<Vec<_>>();
    let list = if used.is_empty() {
        String::new()
    } else {
        format!("<ul class=\"traffic\">\n{used}</ul>\n")
    };
    let rest = if idle.is_empty() { "none".to_string() } else { idle.join(", ") };
    format!(
        "<h3>Streams on each link</h3>\n<p class=\"note\">From node → to node, the ids of the \
         streams that go there, and the slots of a cycle that they take.</p>\n{list}\
         <p class=\"note\">Links without a stream: {rest}.</p>\n{}",
        heard::listing(book)
    )
}

#[cfg(test)]
mod tests {
    use super::super::samples::{kiln, line_book, stream};
    use super::*;

    #[test]
    fn each_direction_has_its_streams() {
        let book = kiln();
        let traffic = traffic(&book);
        assert_eq!(names(&book, &traffic[&(2, 1)]), "1, 3, 4");
        assert_eq!(slots_in_use(&book, &traffic[&(2, 1)]), 100 + 200 + 500);
        assert_eq!(names(&book, &traffic[&(6, 7)]), "2, 5");
        assert_eq!(traffic.len(), 14);
    }

    #[test]
    fn the_listing_names_streams_and_idle_links() {
        let rows = [3, 4, 5, 8].map(|id| stream(id, 50, &[1, 2], &[id]));
        let book = line_book(4, rows.into());
        let listed = listing(&book, &traffic(&book));
        assert!(listed.contains("<li><b>1 → 2</b> 3–5, 8 <small>(80 slots)</small></li>"));
        assert!(listed.contains("Links without a stream: 0–1, 2–3."));
    }
}
