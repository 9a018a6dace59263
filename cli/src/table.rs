//! A node's slot table, as the engine expands it.

use crate::frame::ENTRY;
use std::ops::RangeInclusive;

/// The operations of a table; those of a hop are 16 more on a second route.
const ON_FIRST: RangeInclusive<u8> = 0..=5;
const ON_SECOND: RangeInclusive<u8> = 17..=20;
const SECOND: u8 = 16;

/// What a node does in a slot.
#[derive(Clone, Copy, PartialEq, Eq)]
pub struct Entry {
    pub operation: u8,
    /// The stream's id, 0 where there is none.
    pub id: u16,
}

/// What an operation is to a reader.
#[derive(Clone, Copy, PartialEq, Eq)]
pub enum Work {
    Sleep,
    Sends,
    Receives,
    Control,
}

impl Entry {
    /// Reads an entry, be it an operation or not.
    pub fn read(bytes: &[u8]) -> Entry {
        Entry { operation: bytes[0], id: u16::from_be_bytes([bytes[1], bytes[2]]) }
    }

    /// The entry in bytes.
    pub fn bytes(self) -> [u8; ENTRY] {
        let [high, low] = self.id.to_be_bytes();
        [self.operation, high, low]
    }

    /// The operation is one.
    pub fn is_known(self) -> bool {
        ON_FIRST.contains(&self.operation) || ON_SECOND.contains(&self.operation)
    }

    /// The operation of a hop by its place on a route: only the first sends from above, and only the last receives for above.
    pub fn of_hop(id: u16, second: bool, sends: bool, at_end: bool) -> Entry {
        let plain = match (sends, at_end) {
            (true, true) => 1,
            (false, false) => 2,
            (true, false) => 3,
            (false, true) => 4,
        };
        Entry { operation: plain + if second { SECOND } else { 0 }, id }
    }

    /// A packet comes from above.
    pub fn starts(self) -> bool {
        self.plain() == 1
    }

    /// The operation belongs to a second route.
    pub fn is_second(self) -> bool {
        ON_SECOND.contains(&self.operation)
    }

    /// The operation as it is on a first route.
    fn plain(self) -> u8 {
        self.operation - if self.is_second() { SECOND } else { 0 }
    }

    /// The letter of the operation, as the command `table` explains it.
    pub fn letter(self) -> char {
        let letter = match self.plain() {
            0 => '.',
            1 => 'S',
            2 => 'R',
            3 => 'F',
            4 => 'A',
            _ => '#',
        };
        if self.is_second() {
            letter.to_ascii_lowercase()
        } else {
            letter
        }
    }

    /// What the node does, in words.
    pub fn words(self) -> String {
        let (does, how) = match self.plain() {
            0 => return "sleeps".into(),
            1 => ("sends", "from above"),
            2 => ("receives", "to buffer"),
            3 => ("forwards", "from buffer"),
            4 => ("receives", "for above"),
            _ => return "control slot".into(),
        };
        let way = if self.is_second() { ", on its second route" } else { "" };
        format!("{does} stream {} {how}{way}", self.id)
    }

    pub fn work(self) -> Work {
        match self.plain() {
            0 => Work::Sleep,
            1 | 3 => Work::Sends,
            2 | 4 => Work::Receives,
            _ => Work::Control,
        }
    }
}

/// Reads a table of so many entries; none where the bytes are no such table.
pub fn decode(bytes: &[u8], entries: usize) -> Option<Vec<Entry>> {
    let table: Vec<Entry> = bytes.chunks_exact(ENTRY).map(Entry::read).collect();
    let known = table.iter().all(|entry| entry.is_known());
    (bytes.len() == ENTRY * entries && known).then_some(table)
}
