//! A node's slot table and its balance.

use crate::book::Book;
use crate::plan::repeats;
use crate::row::{Row, SECOND_ROUTE};

/// What a node does in a slot; the value is the operation's number on a first
/// route.
#[derive(Clone, Copy, Debug, PartialEq, Eq)]
#[repr(u8)]
pub enum Operation {
    Sleep = 0,
    SendFromAbove = 1,
    ReceiveToBuffer = 2,
    ForwardFromBuffer = 3,
    ReceiveForAbove = 4,
    ControlSlot = 5,
}

/// One entry of a table.
#[derive(Clone, Copy, Debug, PartialEq, Eq)]
pub struct Entry {
    pub operation: Operation,
    /// The operation is one of a second route.
    pub second: bool,
    /// The stream's id, 0 where there is none.
    pub id: u16,
}

/// What an operation's number gains on a second route.
const SECOND_ROUTE_GAIN: u8 = 16;

impl Operation {
    const ALL: [Operation; 6] = [
        Operation::Sleep,
        Operation::SendFromAbove,
        Operation::ReceiveToBuffer,
        Operation::ForwardFromBuffer,
        Operation::ReceiveForAbove,
        Operation::ControlSlot,
    ];

    /// The operation may be one of a second route.
    fn has_second(self) -> bool {
        !matches!(self, Operation::Sleep | Operation::ControlSlot)
    }
}

/// Bytes of an entry: the operation's number and the id.
pub const ENTRY_BYTES: usize = 3;

impl Entry {
    /// Reads an entry of 3 bytes; none if it is no operation.
    pub fn read(bytes: &[u8]) -> Option<Entry> {
        let id = u16::from_be_bytes([bytes[1], bytes[2]]);
        let first = Operation::ALL.map(|operation| Entry { operation, second: false, id });
        let seconds = first.into_iter().filter(|entry| entry.operation.has_second());
        let mut all = first.into_iter().chain(seconds.map(|entry| Entry { second: true, ..entry }));
        all.find(|entry| entry.number() == bytes[0])
    }

    /// The number in the table.
    pub fn number(self) -> u8 {
        self.operation as u8 + if self.second { SECOND_ROUTE_GAIN } else { 0 }
    }
}

/// The node's table: an entry for each slot of the cycle.
pub fn table(book: &Book, node: u8) -> Vec<Entry> {
    let mut entries = idle_table(book);
    for row in &book.rows {
        let hops = row.placed_hops(&book.plan);
        let second = row.route == SECOND_ROUTE;
        for (place, placed) in hops.iter().enumerate() {
            let first = place == 0;
            let last = place + 1 == hops.len();
            let operation = if placed.hop.sender == node {
                send(first)
            } else if placed.hop.receiver == node {
                receive(last)
            } else {
                continue;
            };
            for slot in placed.slots.iter() {
                entries[slot] = Entry { operation, second, id: row.id };
            }
        }
    }
    entries
}

/// The table of a node that no row touches.
fn idle_table(book: &Book) -> Vec<Entry> {
    let plan = &book.plan;
    let entry = |slot| {
        let operation = if plan.is_data(slot) { Operation::Sleep } else { Operation::ControlSlot };
        Entry { operation, second: false, id: 0 }
    };
    (0..book.plan.cycle_slots()).map(entry).collect()
}

/// Only the first hop's sender has the packet from above.
fn send(first: bool) -> Operation {
    if first { Operation::SendFromAbove } else { Operation::ForwardFromBuffer }
}

/// Only the last hop's receiver hands the packet up.
fn receive(last: bool) -> Operation {
    if last { Operation::ReceiveForAbove } else { Operation::ReceiveToBuffer }
}

/// Some entries as bytes, three each.
pub fn write(entries: &[Entry]) -> Vec<u8> {
    let bytes = |entry: &Entry| {
        let [high, low] = entry.id.to_be_bytes();
        [entry.number(), high, low]
    };
    entries.iter().flat_map(bytes).collect()
}

/// A node's balance, in slots of the cycle.
#[derive(Clone, Copy, Debug, PartialEq, Eq)]
pub struct Balance {
    pub data: u32,
    pub used: u32,
    pub free: u32,
}

pub fn balance(book: &Book, node: u8) -> Balance {
    let asleep = |entry: &Entry| entry.operation == Operation::Sleep;
    Balance {
        data: (0..book.plan.cycle_slots()).filter(|&slot| book.plan.is_data(slot)).count() as u32,
        used: used(book, node),
        free: table(book, node).into_iter().filter(asleep).count() as u32,
    }
}

/// The sum over hops touching the node of 1000/K.
fn used(book: &Book, node: u8) -> u32 {
    let of_row =
        |row: &Row| row.hops().filter(|hop| hop.touches(node)).count() * repeats(row.period);
    book.rows.iter().map(of_row).sum::<usize>() as u32
}
