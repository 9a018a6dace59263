//! The picture of a book: a row for each node, its slots tile by tile, and who sends when.

use crate::book::{Book, Way, CYCLE};
use crate::colour::Colour;
use crate::table::{Entry, Work};
use crate::text::{count, WIDTH};
use crate::tiles::Tiles;

/// Columns before the first tile of a row.
const MARGIN: usize = 14;
/// Letters of the alphabet: with more routes a route has two letters.
const LETTERS: usize = 26;
/// A tile narrower than this has its number only where that ends in 0 or 5.
const NARROW: usize = 3;

/// A node of a picture, how many links it has, and what it does in the tiles of the picture.
pub struct Row<'a> {
    pub node: u8,
    pub links: u8,
    pub table: &'a [Entry],
}

/// What a picture shows: a row for each node in it, and the tiles.
pub struct Picture<'a> {
    pub book: &'a Book,
    pub rows: Vec<Row<'a>>,
    pub tiles: Tiles,
    pub colour: Colour,
}

/// How many letters stand for a route of the book.
fn letters(book: &Book) -> usize {
    if book.ways.len() <= LETTERS {
        1
    } else {
        2
    }
}

/// The letters of the route at a place.
pub fn label(book: &Book, place: usize) -> String {
    let letter = |n: usize| char::from(b'A' + (n % LETTERS) as u8);
    match letters(book) {
        1 => letter(place).to_string(),
        _ => [letter(place / LETTERS), letter(place)].iter().collect(),
    }
}

/// Columns of a tile.
fn width(book: &Book) -> usize {
    usize::from(book.slots) * letters(book)
}

/// The tiles of a picture that starts at one of them: as many as fit, up to where it repeats.
pub fn shown(book: &Book, first: u16) -> Tiles {
    let most = (WIDTH - MARGIN) / (width(book) + 1);
    let whole = book.repeats_after();
    let stop = if whole <= first { CYCLE } else { whole };
    Tiles { first, count: (stop - first).min(most as u16) }
}

impl Picture<'_> {
    /// Columns of a tile.
    fn width(&self) -> usize {
        width(self.book)
    }

    /// The first tile that is not shown.
    fn end(&self) -> u16 {
        self.tiles.first + self.tiles.count
    }

    /// A line above the rows: a text for each tile. One that is wider than its tile goes on over the borders behind it.
    fn heading(&self, title: &str, text: impl Fn(u16) -> String) -> String {
        let width = self.width();
        let tiles = self.tiles.first..self.end();
        let mut cells = format!("{:width$}|", "").repeat(tiles.len());
        for (place, tile) in tiles.enumerate() {
            let (text, start) = (text(tile), place * (width + 1));
            if start + text.len() <= cells.len() {
                cells.replace_range(start..start + text.len(), &text);
            }
        }
        format!("  {title:<11}|{cells}\n")
    }

    fn tile_number(&self, tile: u16) -> String {
        if self.width() < NARROW && tile % 5 != 0 {
            return String::new();
        }
        tile.to_string()
    }

    /// The mark of a slot.
    fn mark(&self, entry: Entry) -> String {
        let repeat = |mark: &str| mark.repeat(letters(self.book));
        let is_own = |way: &Way| way.id == entry.id && way.is_second() == entry.is_second();
        let place = self.book.ways.iter().position(is_own);
        let label = || place.map_or(repeat("?"), |place| label(self.book, place));
        let order = || self.book.streams().position(|stream| stream.first().id == entry.id);
        match entry.work() {
            Work::Sleep => repeat("."),
            Work::Control => self.colour.faint(&repeat("#")),
            Work::Sends => self.colour.stream(order(), &label()),
            Work::Receives => self.colour.stream(order(), &label().to_lowercase()),
        }
    }

    fn row(&self, &Row { node, links, table }: &Row) -> String {
        let tiles = table.chunks(self.book.slots.into());
        let marks = |tile: &[Entry]| tile.iter().map(|&entry| self.mark(entry)).collect::<String>();
        let tiles: String = tiles.map(|tile| marks(tile) + "|").collect();
        format!("  node {node:>2} {links:>2} |{tiles}\n")
    }

    /// What the marks mean.
    fn legend(&self) -> &'static str {
        match letters(self.book) {
            1 => "Who sends when: a capital sends, a small letter receives, # control, . sleep",
            _ => "Who sends when: capitals send, small letters receive, ## control, .. sleep",
        }
    }

    /// The whole picture.
    pub fn draw(&self) -> String {
        let kind = |tile| if self.book.is_down(tile) { "d" } else { "u" }.to_string();
        let mut said = format!("\n{}\n", self.colour.title(self.legend()));
        said += &self.heading("tile  links", |tile| self.tile_number(tile));
        said += &self.heading("kind", kind);
        said.extend(self.rows.iter().map(|row| self.row(row)));
        said
    }

    /// After how many tiles the picture repeats, and which tiles are left out.
    pub fn rest(&self) -> String {
        let whole = self.book.repeats_after();
        let mut said = format!("  The picture repeats after {}.\n", count(whole, "tile"));
        let end = self.end();
        if end < whole {
            said += &format!(
                "  Left out: the tiles from {end} on; lindurask show BOOK {end} goes on there.\n"
            );
        }
        said
    }
}
