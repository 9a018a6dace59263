//! Tables of a site in one file, one for each node, node 0 first: how long they are, and the first entry at fault where the
//! engine refuses them.

mod no_book;
mod unsound;

use crate::book::MOST_NODES;
use crate::frame::{Site, ENTRY};
use crate::table::Entry;

/// The tiles that tables cover, which is also the longest period in them.
pub const TILES: u16 = 100;
/// Bytes of the longest tables: of 64 nodes with 32 slots in a tile.
pub const LONGEST: usize = ENTRY * TILES as usize * 32 * MOST_NODES;

/// The numbers by which the engine refuses tables.
pub const UNSOUND: u8 = 19;
pub const FULL: u8 = 8;
pub const NO_BOOK: u8 = 20;

/// What is wrong with an entry, and where it stands.
#[derive(Debug, PartialEq, Eq)]
pub struct Fault {
    pub place: String,
    pub words: String,
}

/// Tables that are as long as the site's.
pub struct Tables<'a> {
    site: &'a Site,
    /// The entries of node 0, then those of node 1 and so on.
    entries: Vec<Entry>,
}

/// The bytes of a site's tables.
pub fn length(site: &Site) -> usize {
    ENTRY * usize::from(TILES) * usize::from(site.slots) * usize::from(site.nodes)
}

impl Tables<'_> {
    /// Reads tables; none where they are not as long as the site's, or where the site is none.
    pub fn read<'a>(site: &'a Site, bytes: &[u8]) -> Option<Tables<'a>> {
        let rows = 8 * usize::from(site.nodes);
        let is_site = site.tiles > 0
            && usize::from(site.nodes) <= MOST_NODES
            && [site.links.len(), site.hearing.len()] == [rows; 2];
        let entries = bytes.chunks_exact(ENTRY).map(Entry::read).collect();
        (is_site && bytes.len() == length(site)).then_some(Tables { site, entries })
    }

    /// The first entry that a refusal is about, where one can be told.
    pub fn explain(&self, number: u8) -> Option<Fault> {
        match number {
            UNSOUND => unsound::first(self),
            FULL => unsound::too_many(self),
            NO_BOOK => no_book::first(self),
            _ => None,
        }
    }

    /// The slots of the tiles that a table covers.
    fn slots(&self) -> usize {
        usize::from(TILES) * usize::from(self.site.slots)
    }

    /// The node and the slot of the cycle of an entry.
    fn node_and_slot(&self, at: usize) -> (u8, usize) {
        ((at / self.slots()) as u8, at % self.slots())
    }

    /// The place of a node's entry in a slot of the cycle.
    fn at(&self, node: u8, slot: usize) -> usize {
        usize::from(node) * self.slots() + slot
    }

    /// The entry stands in a control slot.
    fn is_control(&self, at: usize) -> bool {
        let per_tile = usize::from(self.site.slots);
        let (tile, slot) = (self.node_and_slot(at).1 / per_tile, at % per_tile);
        let is_down = self.site.kinds >> (tile % usize::from(self.site.tiles)).min(15) & 1 == 1;
        slot < usize::from(if is_down { self.site.down } else { self.site.up })
    }

    /// These words of an entry, with the node, the tile and the slot where it stands.
    fn fault(&self, at: usize, words: String) -> Fault {
        let per_tile = usize::from(self.site.slots);
        let (node, slot) = self.node_and_slot(at);
        let (tile, slot) = (slot / per_tile, slot % per_tile);
        Fault { place: format!("node {node}, tile {tile}, slot {slot}"), words }
    }
}
