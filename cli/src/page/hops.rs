//! The hops of a stream, and in which tile and slot an offset lies.

use crate::book::{Book, Way};

/// One hop of a stream: who sends to whom, in which slot first, and its place on the route.
pub struct Hop {
    pub place: usize,
    pub from: u8,
    pub to: u8,
    pub offset: u16,
}

/// The hops of a stream from its source to its destination.
pub fn hops(way: &Way) -> impl Iterator<Item = Hop> + '_ {
    let ends = way.nodes.windows(2).zip(&way.offsets).enumerate();
    ends.map(|(place, (ends, &offset))| Hop { place, from: ends[0], to: ends[1], offset })
}

/// The tile of the stream's period in which an offset lies.
pub fn tile_of(book: &Book, offset: u16) -> u16 {
    offset / u16::from(book.slots)
}

/// The slot of its tile in which an offset lies.
pub fn slot_of(book: &Book, offset: u16) -> u16 {
    offset % u16::from(book.slots)
}
