//! A book: a site's tile plan, its topology, its accounts and the rows of its
//! streams.

use crate::account::Account;
use crate::plan::Plan;
use crate::row::Row;
use crate::topology::Topology;

/// The most rows in a book.
pub const MAX_ROWS: usize = 64;

/// The most hops in a book.
pub const MAX_HOPS: usize = 512;

/// The most hops in a route.
pub const MAX_ROUTE_HOPS: usize = 15;

/// The most hops in a second route, and in a route of the list.
pub const MAX_SHORT_HOPS: usize = 6;

#[derive(Clone, Debug, PartialEq, Eq)]
pub struct Book {
    pub plan: Plan,
    pub topology: Topology,
    /// In a lawful book, 1 to 32 rising strictly by number.
    pub accounts: Vec<Account>,
    /// In a lawful book, rising strictly by id and then route.
    pub rows: Vec<Row>,
}

impl Book {
    /// Hops in all.
    pub fn hops(&self) -> usize {
        self.rows.iter().map(|row| row.offsets.len()).sum()
    }

    /// A stream with this id is in the book.
    pub fn holds(&self, id: u16) -> bool {
        self.rows.iter().any(|row| row.id == id)
    }

    /// Puts a row in its place.
    pub fn add(&mut self, row: Row) {
        self.rows.push(row);
        self.rows.sort_by_key(Row::key);
    }

    /// Takes every row with this id out.
    pub fn remove(&mut self, id: u16) {
        self.rows.retain(|row| row.id != id);
    }
}
