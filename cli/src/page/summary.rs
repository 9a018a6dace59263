//! The book in a few figures: its size and its tile plan.

use super::heard::counted;
use super::markup::joined;
use crate::book::{Book, CYCLE, MOST_HOPS, MOST_ROUTES};
use crate::describe::with_routes;
use crate::text::count;

/// What the book holds, and its tile plan.
pub fn summary(book: &Book) -> String {
    let (nodes, links) = (count(book.links.len(), "node"), count(book.pairs().len(), "link"));
    let size = format!("{nodes}, {links}{}", counted(book));
    let streams = book.streams().count();
    let sold = format!("{streams}{} of at most {MOST_ROUTES}", with_routes(book));
    let used = format!("{} of at most {MOST_HOPS}", book.hops());
    let tiles = u16::from(book.tiles);
    let cycle = format!("{CYCLE} tiles of {}", count(book.slots, "slot"));
    let kinds = (0..tiles).map(|tile| book.kind(tile)).collect::<Vec<_>>();
    let run = |run: &[&str]| {
        if run.len() == 1 {
            run[0].to_string()
        } else {
            format!("{} {}", run.len(), run[0])
        }
    };
    let plan = joined(kinds.chunk_by(|a, b| a == b).map(run), ", ");
    let facts =
        [("Site", size), ("Streams", sold), ("Hops", used), ("Cycle", cycle), ("Tile plan", plan)];
    let fact =
        |(term, text): &(&str, String)| format!("<div><dt>{term}</dt><dd>{text}</dd></div>\n");
    format!(
        "<dl class=\"facts\">\n{}{}</dl>\n",
        facts.iter().map(fact).collect::<String>(),
        control(book)
    )
}

/// The control slots of each kind of tile that the plan has.
fn control(book: &Book) -> String {
    let of_kind = |wanted: &str| (0..u16::from(book.tiles)).find(|&tile| book.kind(tile) == wanted);
    let words = |tile| format!("{} {}", book.kind(tile), book.control(tile));
    let both = joined(["downlink", "uplink"].into_iter().filter_map(of_kind).map(words), ", ");
    format!("<div><dt>Control slots of a tile</dt><dd>{both}</dd></div>\n")
}

#[cfg(test)]
mod tests {
    use super::super::samples::{full_site, kiln};
    use super::*;

    fn assert_says(summary: &str, facts: &[(&str, &str)]) {
        for (term, text) in facts {
            let fact = format!("<dt>{term}</dt><dd>{text}</dd>");
            assert!(summary.contains(&fact), "{fact}");
        }
    }

    #[test]
    fn a_book_is_summed_up() {
        assert_says(
            &summary(&kiln()),
            &[
                ("Site", "8 nodes, 7 links"),
                ("Streams", "5 of at most 64"),
                ("Hops", "20 of at most 512"),
                ("Cycle", "1000 tiles of 8 slots"),
                ("Tile plan", "downlink, uplink"),
                ("Control slots of a tile", "downlink 2, uplink 1"),
            ],
        );
    }

    #[test]
    fn tiles_of_one_kind_are_counted_in_the_plan() {
        let plan = "downlink, 4 uplink, downlink, 4 uplink";
        assert_says(&summary(&full_site()), &[("Tile plan", plan)]);
        let only_uplink = Book { kinds: 0, ..kiln() };
        assert_says(&summary(&only_uplink), &[("Control slots of a tile", "uplink 1")]);
    }
}
