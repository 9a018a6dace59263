//! The parts of the tiles: the ground of each kind of tile, and the hops of each stream.

use super::sketch::{part_name, Sketch, HEAD, ROW};
use crate::book::Way;
use crate::page::hops::{hops, slot_of, tile_of, Hop};
use crate::page::identity::{colour, dashes, name, title};
use crate::page::markup::{joined, length};
use std::collections::BTreeSet;

/// The base line of a text within its row, and of the numbers above the rows.
const BASE: usize = 13;
const NUMBERS: usize = HEAD - 5;
/// The room between a node's number and its row.
const BESIDE_ROW: usize = 5;
/// The room between a cell and the lines around it.
const INSET: usize = 1;

/// The strokes of control slots.
const HATCH: &str = "<pattern id=\"hatch\" width=\"5\" height=\"5\" \
    patternUnits=\"userSpaceOnUse\" patternTransform=\"rotate(45)\">\
    <rect class=\"hatch-ground\" width=\"5\" height=\"5\"/>\
    <path class=\"hatch\" d=\"M0 0V5\"/></pattern>\n";

impl Sketch<'_> {
    /// Everything that the tiles use, drawn once.
    pub fn parts(&self) -> String {
        let number = |node: usize| {
            let base = HEAD + node * ROW + BASE;
            format!("<text x=\"-{BESIDE_ROW}\" y=\"{base}\">{node}</text>")
        };
        let nodes = (0..self.book.links.len()).map(number).collect::<String>();
        let grounds = [true, false].map(|downlink| self.ground(downlink)).concat();
        let ways = (0..self.book.ways.len()).map(|row| self.way(row)).collect::<String>();
        format!(
            "<svg class=\"defs\" width=\"0\" height=\"0\" aria-hidden=\"true\"><defs>\n{HATCH}\
             <g id=\"nodes\" class=\"node-names\">\
             <text x=\"-{BESIDE_ROW}\" y=\"{NUMBERS}\">node</text>{nodes}</g>\n\
             {grounds}{ways}</defs></svg>\n"
        )
    }

    /// The ground of a tile of one kind, if the plan has it: control first, then sleep.
    fn ground(&self, downlink: bool) -> String {
        let mut plan = 0..u16::from(self.book.tiles);
        let Some(tile) = plan.find(|&tile| self.book.is_down(tile) == downlink) else {
            return String::new();
        };
        let rows = self.height - HEAD;
        let control = usize::from(self.book.control(tile)) * self.column;
        format!(
            "<g id=\"{}\"><g class=\"sleep\">\
             <rect y=\"{HEAD}\" width=\"{}\" height=\"{rows}\"/></g>\
             <g class=\"control\"><rect y=\"{HEAD}\" width=\"{control}\" height=\"{rows}\"/></g>\
             <path class=\"rules\" d=\"{}\"/><g class=\"slot-numbers\">{}</g></g>\n",
            self.book.kind(tile),
            self.width,
            self.rules(),
            self.slot_numbers(),
        )
    }

    /// The lines between columns and between rows.
    fn rules(&self) -> String {
        let (width, bottom) = (self.width, self.height);
        let slots = 0..=usize::from(self.book.slots);
        let upright = slots.map(|slot| format!("M{} {HEAD}V{bottom}", slot * self.column));
        let nodes = 0..=self.book.links.len();
        let level = nodes.map(|node| format!("M0 {}H{width}", HEAD + node * ROW));
        joined(upright.chain(level), "")
    }

    /// The numbers of a tile's slots above their columns.
    fn slot_numbers(&self) -> String {
        let number = |slot: usize| {
            let middle = length((slot as f64 + 0.5) * self.column as f64);
            format!("<text x=\"{middle}\" y=\"{NUMBERS}\">{slot}</text>")
        };
        (0..usize::from(self.book.slots)).map(number).collect()
    }

    /// The hops of a route that are shown, in one group for each tile of its period that has any.
    fn way(&self, row: usize) -> String {
        let way = &self.book.ways[row];
        let tile_of = |offset: u16| tile_of(self.book, offset);
        let shown = way.offsets.iter().filter(|&&offset| self.is_shown(offset));
        let tiles = shown.map(|&offset| tile_of(offset)).collect::<BTreeSet<_>>();
        let class = colour(self.book, row) + dashes(way);
        let part = |&tile: &u16| {
            let within = hops(way).filter(|hop| tile_of(hop.offset) == tile);
            let cells = within.map(|hop| self.hop(way, &hop)).collect::<String>();
            format!("<g id=\"{}\" class=\"{class}\">{cells}</g>\n", part_name(row, tile))
        };
        tiles.iter().map(part).collect()
    }

    /// The two cells of a hop: one node sends, the other receives.
    fn hop(&self, way: &Way, hop: &Hop) -> String {
        let is_last = hop.place + 1 == way.offsets.len();
        let sends = if hop.place == 0 { "sends from above" } else { "forwards from buffer" };
        let receives = if is_last { "receives for above" } else { "receives to buffer" };
        let Hop { from, to, offset, .. } = *hop;
        let slot = slot_of(self.book, offset);
        format!(
            "<g><title>{}, offset {offset}: node {from} {sends}, node {to} {receives}</title>\
             {}{}</g>",
            title(way),
            self.cell("sends", slot, from, way),
            self.cell("receives", slot, to, way)
        )
    }

    fn cell(&self, class: &str, slot: u16, node: u8, way: &Way) -> String {
        let (left, top) = (usize::from(slot) * self.column, HEAD + usize::from(node) * ROW);
        format!(
            "<g class=\"{class}\"><rect x=\"{}\" y=\"{}\" width=\"{}\" height=\"{}\"/>\
             <text x=\"{}\" y=\"{}\">{}</text></g>",
            left + INSET,
            top + INSET,
            self.column - 2 * INSET,
            ROW - 2 * INSET,
            length(left as f64 + self.column as f64 / 2.0),
            top + BASE,
            name(way)
        )
    }
}
