//! The tiles of the grid, each put together from parts that are drawn once.

use crate::book::{Book, Way};
use crate::page::hops::tile_of;
use crate::page::identity::name;
use crate::page::traffic::names;

/// The height of a row.
pub const ROW: usize = 18;
/// The room above the rows: the tile's number, its slots in the cycle, and in the tile.
pub const HEAD: usize = 44;
/// The least width of a column, and what its longest name needs.
const COLUMN: usize = 16;
const CHARACTER: usize = 6;
const BESIDE_NAME: usize = 7;
/// The room for the number of a node.
const NODE_NAME: usize = 32;
/// The least width of a tile, so that its heading fits.
const NARROWEST: usize = 66;
/// The base lines of a tile's number and of its slots.
const FIRST_LINE: usize = 11;
const SECOND_LINE: usize = 25;

/// The measures of a book's grid.
pub struct Sketch<'a> {
    pub book: &'a Book,
    /// How many tiles are shown, from the first on.
    pub shown: u16,
    pub column: usize,
    pub width: usize,
    pub height: usize,
}

impl<'a> Sketch<'a> {
    pub fn new(book: &'a Book, shown: u16) -> Sketch<'a> {
        let names = book.ways.iter().map(|way| name(way).chars().count());
        let column = COLUMN.max(names.max().unwrap_or(0) * CHARACTER + BESIDE_NAME);
        let height = HEAD + book.links.len() * ROW;
        Sketch { book, shown, column, width: column * usize::from(book.slots), height }
    }

    /// The tile of its period in which a hop is has a place in the picture.
    pub fn is_shown(&self, offset: u16) -> bool {
        tile_of(self.book, offset) < self.shown
    }

    /// The rows of the book with a hop in a later tile than are shown.
    pub fn later(&self) -> Vec<usize> {
        let rows = self.book.ways.iter().enumerate();
        let later = rows.filter(|(_, way)| !way.offsets.iter().all(|&o| self.is_shown(o)));
        later.map(|(row, _)| row).collect()
    }

    /// The rows of the book with a hop in a tile.
    fn at_work(&self, tile: u16) -> Vec<usize> {
        let is_here = |way: &Way, &offset: &u16| tile_of(self.book, offset) == tile % way.period;
        let rows = self.book.ways.iter().enumerate();
        let at_work = rows.filter(|(_, way)| way.offsets.iter().any(|o| is_here(way, o)));
        at_work.map(|(row, _)| row).collect()
    }

    pub fn is_idle(&self, tile: u16) -> bool {
        self.at_work(tile).is_empty()
    }

    /// One tile: its heading, its ground, and the hops in it.
    pub fn tile(&self, tile: u16) -> String {
        let rows = self.at_work(tile);
        let first = usize::from(tile) * usize::from(self.book.slots);
        let last = first + usize::from(self.book.slots) - 1;
        let work = match names(self.book, &rows) {
            none if none.is_empty() => "no stream".to_string(),
            names => format!("streams {names}"),
        };
        let part = |&row: &usize| {
            let part = part_name(row, tile % self.book.ways[row].period);
            format!("<use href=\"#{part}\"/>")
        };
        format!(
            "<svg class=\"tile\" style=\"--w:{width}px\" viewBox=\"0 0 {width} {}\" role=\"img\" \
             aria-label=\"Tile {tile}, {kind}, slots {first} to {last}: {work}\">\
             <text class=\"tile-name\" y=\"{FIRST_LINE}\">tile {tile}</text>\
             <text y=\"{SECOND_LINE}\">{} {first}–{last}</text>\
             <use href=\"#{kind}\"/><use href=\"#nodes\" class=\"own\"/>{}</svg>\n",
            self.height,
            if self.book.is_down(tile) { "down" } else { "up" },
            rows.iter().map(part).collect::<String>(),
            width = self.width.max(NARROWEST),
            kind = self.book.kind(tile),
        )
    }

    /// The numbers of the nodes, which stay in sight while the tiles scroll.
    pub fn node_names(&self) -> String {
        format!(
            "<svg class=\"nodes\" style=\"--w:{NODE_NAME}px\" \
             viewBox=\"-{NODE_NAME} 0 {NODE_NAME} {}\" aria-hidden=\"true\">\
             <use href=\"#nodes\"/></svg>\n",
            self.height
        )
    }
}

/// The name of the hops of a row of the book in one tile of its period.
pub fn part_name(row: usize, tile: u16) -> String {
    format!("r{row}t{tile}")
}
