//! A request record: an open or a close in a list, and its answer.

use crate::book::Book;
use crate::change::{self, Open};
use crate::node_set::NodeSet;
use crate::refusal::{DONE, Refusal};

/// Bytes of a record in a frame.
pub const RECORD_BYTES: usize = 11;

#[derive(Clone, Copy, Debug, PartialEq, Eq)]
pub struct Record {
    /// Asks for an open; otherwise for a close.
    pub opens: bool,
    pub second: bool,
    pub source: u8,
    pub destination: u8,
    pub id: u16,
    pub period: u16,
    pub account: u16,
    pub answer: u8,
}

impl Record {
    pub fn open(asked: Open) -> Record {
        let Open { id, source, destination, period, second, account } = asked;
        Record { opens: true, second, source, destination, id, period, account, answer: DONE }
    }

    pub fn close(id: u16) -> Record {
        let nothing = Open { id, source: 0, destination: 0, period: 0, second: false, account: 0 };
        Record { opens: false, ..Record::open(nothing) }
    }

    /// The book after this request; only nodes on mains stand in the middle of
    /// the routes it opens.
    pub fn change(&self, book: &Book, mains: NodeSet) -> Result<Book, Refusal> {
        let Record { opens, second, source, destination, id, period, account, .. } = *self;
        if opens {
            change::open(book, mains, Open { id, source, destination, period, second, account })
        } else {
            change::close(book, id)
        }
    }

    pub fn read(bytes: &[u8]) -> Record {
        Record {
            opens: bytes[0] != 0,
            second: bytes[1] != 0,
            source: bytes[2],
            destination: bytes[3],
            id: u16::from_be_bytes([bytes[4], bytes[5]]),
            period: u16::from_be_bytes([bytes[6], bytes[7]]),
            account: u16::from_be_bytes([bytes[8], bytes[9]]),
            answer: bytes[10],
        }
    }

    pub fn write(&self) -> [u8; RECORD_BYTES] {
        let [id_high, id_low] = self.id.to_be_bytes();
        let [period_high, period_low] = self.period.to_be_bytes();
        let [account_high, account_low] = self.account.to_be_bytes();
        [
            u8::from(self.opens),
            u8::from(self.second),
            self.source,
            self.destination,
            id_high,
            id_low,
            period_high,
            period_low,
            account_high,
            account_low,
            self.answer,
        ]
    }
}
