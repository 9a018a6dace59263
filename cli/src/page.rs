//! The page of a book: one HTML file with the site, its streams, the slots of the cycle, each node's
//! balance, and the accounts where its clerk keeps any.

mod accounts;
mod agreement;
mod arrows;
mod bars;
mod canvas;
mod graph;
mod grid;
mod heard;
mod hops;
mod identity;
mod layout;
mod markup;
#[cfg(test)]
mod read_back;
mod routes;
#[cfg(test)]
pub mod samples;
mod streams;
mod style;
mod summary;
mod traffic;
#[cfg(test)]
mod wellformed;

use crate::book::{Balance, Book};
pub use agreement::agrees;
use markup::{escape, section};

/// The page of a lawful book with the balance of each of its nodes; the same book gives the same
/// bytes.
pub fn page(title: &str, book: &Book, balances: &[Balance]) -> String {
    let title = escape(title);
    let places = layout::places(&book.links);
    let site = format!(
        "{}{}",
        graph::graph(book, &places),
        traffic::listing(book, &traffic::traffic(book))
    );
    let streams = if book.ways.is_empty() {
        "<p>No stream is in the book.</p>\n".to_string()
    } else {
        format!(
            "{}<h3>Each stream’s route</h3>\n{}",
            streams::streams(book),
            routes::routes(book, &places)
        )
    };
    let sections = [
        section("site", "The site", &site),
        section("streams", "Streams", &streams),
        section("slots", "Slots of the cycle", &grid::grid(book)),
        section("balances", "Nodes: data, used and free slots", &bars::bars(balances)),
        accounts::accounts(book),
    ];
    format!(
        "<!DOCTYPE html>\n<html lang=\"en\">\n{}<body>\n\
         <header>\n<h1><bdi>{title}</bdi></h1>\n{}{CONTENTS}{}</p></nav>\n</header>\n\
         <main>\n{}</main>\n</body>\n</html>\n",
        head(&title),
        summary::summary(book),
        accounts::entry(book),
        sections.concat()
    )
}

/// What stands on every page, to go there.
const CONTENTS: &str =
    "<nav aria-label=\"Contents\"><p><a href=\"#site\">Site</a> <a href=\"#streams\">Streams</a> \
                        <a href=\"#slots\">Slots</a> <a href=\"#balances\">Nodes</a>";

/// The page's head: nothing is fetched from anywhere, and nothing runs.
fn head(title: &str) -> String {
    format!(
        "<head>\n<meta charset=\"utf-8\">\n\
         <meta http-equiv=\"Content-Security-Policy\" \
         content=\"default-src 'none'; style-src 'unsafe-inline'\">\n\
         <meta name=\"viewport\" content=\"width=device-width, initial-scale=1\">\n\
         <meta name=\"color-scheme\" content=\"light dark\">\n<title>{title} – Lindurask</title>\n\
         <style>\n{}</style>\n</head>\n",
        style::style()
    )
}

#[cfg(test)]
mod tests {
    use super::samples::{balances, bare, full_site, kiln, kiln_balances, ring};
    use super::wellformed::{assert_well_formed, tags};
    use super::*;
    use crate::account::Account;

    /// The most bytes of a page.
    const MOST_BYTES: usize = 1_000_000;

    fn page_of(book: &Book) -> String {
        page("a.book", book, &balances(book))
    }

    #[test]
    fn every_page_is_well_formed() {
        for book in [kiln(), full_site(), bare()] {
            assert_well_formed(&page_of(&book));
        }
    }

    #[test]
    fn the_sample_in_the_docs_is_the_page_of_the_kilns() {
        let sample = include_str!("../../docs/sample/kiln.html");
        let page = page("kiln.book", &kiln(), &kiln_balances());
        assert!(page == sample, "make docs/sample/kiln.html anew from books/kiln.book");
    }

    #[test]
    fn a_title_may_hold_anything() {
        let book = bare();
        for title in [
            "</title><script>alert(1)</script>",
            "\"'&amp;\0\x1b[2J\n",
            "",
            &"w".repeat(255),
            "\u{202e}koob",
        ] {
            let page = page(title, &book, &balances(&book));
            assert_well_formed(&page);
            assert!(!page.contains("<script") && !page.contains('\0') && !page.contains('\x1b'));
            assert!(page.contains(&format!("<h1><bdi>{}</bdi></h1>", escape(title))));
        }
    }

    #[test]
    fn the_same_book_gives_the_same_bytes() {
        assert_eq!(page_of(&full_site()), page_of(&full_site()));
    }

    #[test]
    fn a_full_site_stays_small() {
        assert!(page_of(&full_site()).len() < MOST_BYTES);
    }

    #[test]
    fn nothing_is_fetched_and_nothing_runs() {
        let page = page_of(&full_site());
        for tag in tags(&page) {
            assert!(!["script", "link", "img", "iframe", "object"].contains(&tag.name.as_str()));
            assert!(tag.attributes.keys().all(|name| name != "src" && !name.starts_with("on")));
        }
        assert!(!page.contains("//"));
    }

    #[test]
    fn every_stream_has_its_row_its_card_and_its_latency() {
        let page = page_of(&kiln());
        for [id, period, route, offsets, latency] in [
            ["1", "10", "7 6 5 4 3 2 1 0", "2 3 4 5 6 7 9", "8"],
            ["2", "20", "0 1 2 3 4 5 6 7", "2 3 4 7 9 10 11", "10"],
            ["3", "5", "4 3 2 1 0", "2 10 11 12", "11"],
            ["4", "2", "2 1", "13", "1"],
            ["5", "2", "6 7", "4", "1"],
        ] {
            let row = format!(
                ">{id}</span></th><td class=\"number\">{period}</td><td class=\"path\">{}</td>\
                 <td class=\"path\">{offsets}</td><td class=\"number\">{latency}</td></tr>",
                route.replace(' ', "\u{a0}→ ")
            );
            assert!(page.contains(&row), "{row}");
        }
        for id in 1..=5 {
            assert!(page.contains(&format!("aria-label=\"Route of stream {id}: nodes ")));
        }
    }

    #[test]
    fn every_node_is_in_the_graph_in_the_grid_and_in_the_balances() {
        let book = full_site();
        let page = page_of(&book);
        for node in 0..book.links.len() {
            assert!(page.contains(&format!("<title>Node {node}, linked to ")));
            assert!(page.contains(&format!("\">{node}</text>")));
            let numbers = format!(
                "{node}</th><td class=\"number\">1000</td><td class=\"number\">{}</td>",
                100 + node
            );
            assert!(page.contains(&numbers), "{numbers}");
        }
    }

    #[test]
    fn headings_go_down_one_level_at_a_time() {
        let level = |name: &str| name.strip_prefix('h').and_then(|rest| rest.parse::<u8>().ok());
        let page = page_of(&kiln());
        let levels = tags(&page)
            .iter()
            .filter(|tag| !tag.closes)
            .filter_map(|tag| level(&tag.name))
            .collect::<Vec<_>>();
        assert_eq!(levels[0], 1);
        assert!(levels.windows(2).all(|two| two[1] <= two[0] + 1 && two[1] > 1));
    }

    #[test]
    fn every_picture_has_a_label_or_is_hidden() {
        for tag in tags(&page_of(&kiln())).iter().filter(|tag| tag.name == "svg" && !tag.closes) {
            let is_labelled = tag.attributes.get("role").is_some_and(|role| role == "img")
                && tag.attributes.contains_key("aria-label");
            assert!(is_labelled || tag.attributes.contains_key("aria-hidden"), "{tag:?}");
        }
    }

    #[test]
    fn a_second_route_is_named_and_dashed() {
        let page = page_of(&ring());
        assert_well_formed(&page);
        assert_eq!(page.matches("<path class=\"way second\"").count(), 2);
        assert!(page.contains(">7′</span>") && page.contains("streams 7, 7′"));
        assert_eq!(page.matches("<g class=\"arrow k0 second\"").count(), 3);
        assert_eq!(page.matches("<li class=\"k").count(), 2);
        assert_eq!(page.matches("latency 3 slots and 3 slots; survives the loss of").count(), 1);
        assert!(page.contains("<dt>Streams</dt><dd>2 with 4 routes of at most 64</dd>"));
    }
    #[test]
    fn accounts_stand_on_the_page_of_a_book_that_keeps_them() {
        let kept = |bought| Book { accounts: vec![Account { number: 0, bought }], ..ring() };
        let page = page_of(&kept(2000));
        assert_well_formed(&page);
        assert!(page.contains("<a href=\"#accounts\">Accounts</a>"));
        let cell = |number: u32| format!("<td class=\"number\">{number}</td>");
        let row = |cells: &[u32]| cells.iter().copied().map(cell).collect::<String>() + "</tr>";
        assert!(page.contains(&format!("<th scope=\"row\">0</th>{}", row(&[2000, 1600, 400]))));
        assert_eq!(page.matches(&row(&[0, 600])).count(), 2);
        assert_eq!(page.matches(&row(&[0, 100])).count(), 1);
        assert!(!page_of(&kept(u32::MAX)).contains("Account"));
    }
}
