//! How a stream is told apart: by its id, and by a colour that comes again where streams are many.

use super::style::COLOURS;
use crate::book::{Book, Way};

/// The mark behind the id on a stream's second route.
const SECOND_ROUTE: &str = "′";

/// What a reader is told of that mark.
pub const MARKED: &str = "the id of a second route is marked ′";

/// The class of what is drawn of a second route, behind another.
pub fn dashes(way: &Way) -> &'static str {
    if way.is_second() {
        " second"
    } else {
        ""
    }
}

/// The id as it is written into pictures, marked on a second route.
pub fn name(way: &Way) -> String {
    format!("{}{}", way.id, if way.is_second() { SECOND_ROUTE } else { "" })
}

/// The stream in words.
pub fn title(way: &Way) -> String {
    format!("stream {}{}", way.id, if way.is_second() { ", second route" } else { "" })
}

/// The stream's source and destination.
pub fn journey(way: &Way) -> String {
    let ends = way.nodes.first().zip(way.nodes.last());
    let (from, to) = ends.map_or((0, 0), |(&from, &to)| (from, to));
    format!("{from} to {to}")
}

/// The class that gives a row of the book its colour; both routes of a stream have the same.
pub fn colour(book: &Book, row: usize) -> String {
    let new_ids = (1..=row).filter(|&at| book.ways[at].id != book.ways[at - 1].id).count();
    format!("k{}", new_ids % COLOURS)
}

#[cfg(test)]
mod tests {
    use super::super::samples::{full_site, line_book, stream};
    use super::*;

    #[test]
    fn neighbours_in_the_book_differ_in_colour_and_all_in_name() {
        let book = full_site();
        for row in 1..book.ways.len() {
            assert_ne!(colour(&book, row), colour(&book, row - 1));
            assert!(book.ways[..row].iter().all(|other| name(other) != name(&book.ways[row])));
        }
    }

    #[test]
    fn a_second_route_has_its_streams_colour_and_a_name_of_its_own() {
        let second = Way { number: 2, ..stream(7, 2, &[0, 2, 1], &[4, 5]) };
        let book =
            line_book(3, vec![stream(7, 2, &[0, 1], &[2]), second, stream(9, 2, &[1, 2], &[6])]);
        assert_eq!([0, 1, 2].map(|row| colour(&book, row)), ["k0", "k0", "k1"]);
        assert_eq!(book.ways.iter().map(name).collect::<Vec<_>>(), ["7", "7′", "9"]);
    }
}
