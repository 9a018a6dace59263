//! The nodes that hear each other without a link: arcs in the graph, and the same in words.

use super::canvas::{pair, Canvas};
use super::layout::Point;
use super::markup::joined;
use crate::book::Book;
use crate::text::count;

/// How far the middle of an arc stands off the straight line: this part of its length, at most so far, which is less
/// than the room around the outermost nodes.
const BOW: f64 = 0.2;
const MOST_BOW: f64 = 40.0;

/// The pairs as thin dashed arcs, each by the name of its nodes; nothing where there are none.
pub fn arcs(book: &Book, canvas: &Canvas) -> String {
    let arc = |(a, b): (usize, usize)| {
        let path = bowed(canvas.spots[a], canvas.spots[b]);
        let meaning = format!("Nodes {a} and {b} hear each other without a link");
        format!("<path class=\"heard\" d=\"{path}\"><title>{meaning}</title></path>\n")
    };
    book.heard_pairs().into_iter().map(arc).collect()
}

/// An arc on the left hand of one who goes from the first point, so that nodes in a row do not hide it.
fn bowed(from: Point, to: Point) -> String {
    let way = to.less(from);
    let bow = f64::min(way.length() * BOW, MOST_BOW);
    // A curve comes half as near to the point that draws it.
    let drawn = way.unit().right_hand().times(-2.0 * bow);
    let middle = from.plus(to).times(0.5).plus(drawn);
    format!("M{}Q{} {}", pair(from), pair(middle), pair(to))
}

/// How many pairs there are, behind other counts; nothing where there are none.
pub fn counted(book: &Book) -> String {
    match book.heard_pairs().len() {
        0 => String::new(),
        pairs => format!(", {} heard without a link", count(pairs, "pair")),
    }
}

/// What a node hears, behind what it is linked to.
pub fn of_node(book: &Book, node: usize) -> String {
    let heard = book.heard_by(node as u8).collect::<Vec<_>>();
    match heard.is_empty() {
        true => String::new(),
        false => format!("; hears {} without a link", joined(heard, ", ")),
    }
}

/// What an arc means, where there is one.
pub fn legend(book: &Book) -> &'static str {
    match book.heard_pairs().is_empty() {
        true => "",
        false => {
            " A thin dashed arc joins two nodes that hear each other without a link: no stream goes \
             there, but neither receives from others while the other sends."
        }
    }
}

/// Every pair in a line of text.
pub fn listing(book: &Book) -> String {
    let heard = book.heard_pairs();
    if heard.is_empty() {
        return String::new();
    }
    let pairs = joined(heard.iter().map(|(a, b)| format!("{a}–{b}")), ", ");
    format!("<p class=\"note\">Heard without a link: {pairs}.</p>\n")
}

#[cfg(test)]
mod tests {
    use super::super::graph::graph;
    use super::super::layout::places;
    use super::super::samples::{kiln, links_of, ring};
    use super::*;

    /// The kilns with pairs that hear each other beside their links.
    fn heard(pairs: &[(usize, usize)]) -> Book {
        let kiln = kiln();
        let more = links_of(kiln.links.len(), pairs);
        let hearing = kiln.links.iter().zip(more).map(|(linked, more)| linked | more).collect();
        Book { hearing, ..kiln }
    }

    #[test]
    fn an_arc_bows_from_node_to_node_beside_the_row() {
        let arc = bowed(Point::new(46.0, 46.0), Point::new(246.0, 46.0));
        assert_eq!(arc, "M46 46Q146 -34 246 46");
        assert_eq!(bowed(Point::ORIGIN, Point::new(0.0, 100.0)), "M0 0Q40 50 0 100");
    }

    #[test]
    fn pairs_that_hear_are_drawn_apart_from_links_and_named() {
        let book = heard(&[(0, 2), (3, 7)]);
        let drawn = graph(&book, &places(&book.links));
        assert_eq!(drawn.matches("<path class=\"heard\"").count(), 2);
        for (a, b) in [(0, 2), (3, 7)] {
            let title = format!("<title>Nodes {a} and {b} hear each other without a link</title>");
            assert_eq!(drawn.matches(&title).count(), 1, "{title}");
        }
        assert!(drawn.contains("<title>Node 3, linked to 2, 4; hears 7 without a link</title>"));
        assert!(drawn.contains("7 links, 2 pairs heard without a link;"));
        let links = |drawn: &str| {
            drawn.split("class=\"link\" d=\"").nth(1)?.split('"').next().map(str::to_string)
        };
        let without = kiln();
        assert_eq!(links(&drawn), links(&graph(&without, &places(&without.links))));
        assert_eq!(listing(&book), "<p class=\"note\">Heard without a link: 0–2, 3–7.</p>\n");
    }

    #[test]
    fn nothing_is_said_where_every_heard_pair_is_linked() {
        for book in [kiln(), ring()] {
            let drawn = graph(&book, &places(&book.links));
            assert!(
                !drawn.contains("hear") && listing(&book).is_empty() && counted(&book).is_empty()
            );
        }
    }
}
