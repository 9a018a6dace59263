//! The versions of an image, and what each of them stores.

use crate::account::{ACCOUNT_BYTES, MAX_ACCOUNTS, ONLY_ACCOUNT};
use crate::book::{Book, MAX_HOPS, MAX_ROWS};
use crate::plan::LONGEST_QUICK_PERIOD;
use crate::row::{FIRST_ROUTE, Row};
use crate::topology::NODES;

/// Bytes before all else.
pub const HEADER_LENGTH: usize = 16;

/// Bytes of a row for each of its hops: a node and an offset.
pub const HOP_BYTES: usize = 3;

/// Bytes of the links of a site with so many nodes.
pub fn links_bytes(nodes: u8) -> usize {
    8 * usize::from(nodes)
}

/// A version of the image; the value is its number.
#[derive(Clone, Copy, Debug, PartialEq, Eq, PartialOrd, Ord)]
#[repr(u16)]
pub enum Version {
    /// Document 01's image.
    One = 1,
    /// Rows say which route of their stream they are.
    Two = 2,
    /// Who hears whom is stored beside the links.
    Three = 3,
    /// K has two bytes.
    Four = 4,
    /// Accounts follow the header, and rows say whose they are.
    Five = 5,
}

impl Version {
    pub const ALL: [Version; 5] =
        [Version::One, Version::Two, Version::Three, Version::Four, Version::Five];

    /// The version in which new and changed books are written.
    pub const NEWEST: Version = Version::Five;

    pub fn of_number(number: u16) -> Option<Version> {
        Version::ALL.into_iter().find(|&version| version as u16 == number)
    }

    /// A byte for the route follows the id.
    pub fn stores_route(self) -> bool {
        self >= Version::Two
    }

    /// Rows of hearing follow those of the links.
    pub fn stores_hearing(self) -> bool {
        self >= Version::Three
    }

    /// Bytes of a period.
    pub fn period_bytes(self) -> usize {
        if self >= Version::Four { 2 } else { 1 }
    }

    /// The longest period of a row.
    fn longest_period(self) -> u16 {
        if self >= Version::Four { u16::MAX } else { LONGEST_QUICK_PERIOD }
    }

    /// The row's period can be said in this version.
    pub fn fits_period(self, row: &Row) -> bool {
        row.period <= self.longest_period()
    }

    /// A count byte and the accounts follow the header, and an account number
    /// stands at the end of every row.
    pub fn stores_accounts(self) -> bool {
        self >= Version::Five
    }

    /// What the book holds can be said in this version.
    pub fn fits(self, book: &Book) -> bool {
        book.rows.iter().all(|row| self.fits_period(row))
            && (self.stores_route() || book.rows.iter().all(|row| row.route == FIRST_ROUTE))
            && (self.stores_hearing() || book.topology.hearing == book.topology.links)
            && (self.stores_accounts() || has_only_account(book))
    }

    /// Bytes of so many accounts with their count.
    pub fn accounts_bytes(self, accounts: usize) -> usize {
        if self.stores_accounts() { 1 + ACCOUNT_BYTES * accounts } else { 0 }
    }

    /// Bytes of a row before its hop count: id, route and K.
    pub fn bytes_before_hop_count(self) -> usize {
        2 + usize::from(self.stores_route()) + self.period_bytes()
    }

    /// Bytes of a row beside those of its hops: the hop count, the source and
    /// the account follow.
    pub fn row_bytes(self) -> usize {
        self.bytes_before_hop_count() + 1 + 1 + if self.stores_accounts() { 2 } else { 0 }
    }

    /// Bytes of the links, and if they are stored of the hearing, of a site with
    /// so many nodes.
    pub fn topology_bytes(self, nodes: u8) -> usize {
        let sets = 1 + usize::from(self.stores_hearing());
        sets * links_bytes(nodes)
    }

    /// The length of an image with so many accounts, nodes, rows and hops.
    pub fn image_length(self, accounts: usize, nodes: u8, rows: usize, hops: usize) -> usize {
        let before_rows = self.accounts_bytes(accounts) + self.topology_bytes(nodes);
        HEADER_LENGTH + before_rows + self.row_bytes() * rows + HOP_BYTES * hops
    }

    /// The length of the longest image.
    pub fn longest_image(self) -> usize {
        self.image_length(MAX_ACCOUNTS, *NODES.end(), MAX_ROWS, MAX_HOPS)
    }
}

/// One account, number 0, that has bought the largest number, and every row is
/// of it.
fn has_only_account(book: &Book) -> bool {
    book.accounts == [ONLY_ACCOUNT]
        && book.rows.iter().all(|row| row.account == ONLY_ACCOUNT.number)
}
