//! Frames: calls and answers as bytes between two programs.
//!
//! A planner under test is a program that reads request frames on standard
//! input and writes one answer frame for each, in order, on standard output.
//! All numbers are big-endian.
//!
//! A request is a header of 44 bytes, then its bytes: first the book or the
//! links, then the hearing, then the further bytes.
//!
//! | Bytes | Field                                                          |
//! |-------|----------------------------------------------------------------|
//! | 0     | call: 0 new, 1 check, 2 rewrite, 3 open, 4 close, 5 expand,    |
//! |       | 6 balance, 7 routes, 8 post, 9 keeps to, 10 purchase,          |
//! |       | 11 salvage, 12 book of, 13 links, 255 end                      |
//! | 1–2   | id (open, close)                                               |
//! | 3     | source (open, routes) or node (expand, balance, links)         |
//! | 4     | destination (open, routes)                                     |
//! | 5–6   | period (open)                                                  |
//! | 7, 8  | S, C (new, book of)                                            |
//! | 9–10  | tile kinds (new, book of)                                      |
//! | 11–13 | D, U, N (new, book of)                                         |
//! | 14–15 | length of the links (new, book of), at most 1,024, or of the   |
//! |       | book (all others), at most 4,096                               |
//! | 16–17 | length of the output buffer, at most 16,384; 0 for check,      |
//! |       | balance, keeps to and links, which have none                   |
//! | 18    | fill byte of the output buffer                                 |
//! | 19    | 1 to ask for a second route, otherwise 0 (open)                |
//! | 20–21 | account (open, purchase)                                       |
//! | 22–23 | first tile (expand)                                            |
//! | 24–25 | number of tiles (expand)                                       |
//! | 26–33 | mains set (routes, post, keeps to)                             |
//! | 34–37 | amount (purchase)                                              |
//! | 38–39 | length of the hearing (new, book of), at most 1,024            |
//! | 40–41 | length of the further bytes, which are the accounts (new), at  |
//! |       | most 1,024, the records (post) or the tables (book of), at     |
//! |       | most 620,000                                                   |
//! | 42–43 | length of the index (post), in words of 8 bytes, at most       |
//! |       | 6,500, or of the report (salvage), in bytes, at most 4,096, or |
//! |       | how many 65,536s the tables have beside 40–41 (book of)        |
//!
//! A field that the call does not use is 0. The planner is called with an
//! output buffer and an index or a report of the stated lengths, each byte of
//! them the fill byte.
//!
//! A record has 11 bytes, and a posting has at most 100 records:
//!
//! | Bytes | Field                                                          |
//! |-------|----------------------------------------------------------------|
//! | 0     | 1 for an open, 0 for a close                                   |
//! | 1     | 1 to ask for a second route, otherwise 0                       |
//! | 2, 3  | source, destination                                            |
//! | 4–5   | id                                                             |
//! | 6–7   | period                                                         |
//! | 8–9   | account                                                        |
//! | 10    | what the answer is before the call                             |
//!
//! An answer is 13 bytes, then what the call was lent, as it left it:
//!
//! | Bytes | Field                                                          |
//! |-------|----------------------------------------------------------------|
//! | 0     | number                                                         |
//! | 1–4   | length, data (balance), the number of links (links), or 1 if   |
//! |       | every row keeps to the set (keeps to)                          |
//! | 5–8   | used (balance); 1 if more routes exist than are listed         |
//! |       | (routes); rows cut (salvage); otherwise 0                      |
//! | 9–12  | free (balance), bytes lost (salvage), otherwise 0              |
//! | then  | the output buffer, as long as the request says                 |
//! | then  | the records, then the index (post), or the report (salvage)    |
//!
//! The accounts of a new book are 6 bytes each, as they stand in an image
//! without the count. The tables are those of node 0 first, 300×S bytes each.
//!
//! A request with call 255 is a header only, has no answer and ends the
//! stream, as does the end of the input between two frames. Answers may be
//! held back, up to 64 KiB of them, so a planner may buffer its output; all
//! are written before it ends.

pub use crate::request::Request;
use std::io::{self, Read, Write};

/// Bytes of a request before its book or links.
pub const REQUEST_HEADER: usize = 44;

/// Bytes of an answer before its output buffer.
pub const ANSWER_HEADER: usize = 13;

/// Bytes of a word of the index.
pub const WORD_BYTES: usize = 8;

/// The call number that ends the stream.
pub const END: u8 = 255;

/// The calls; the value is the call number.
#[derive(Clone, Copy, Debug, PartialEq, Eq)]
#[repr(u8)]
pub enum Call {
    New = 0,
    Check = 1,
    Rewrite = 2,
    Open = 3,
    Close = 4,
    Expand = 5,
    Balance = 6,
    Routes = 7,
    Post = 8,
    KeepsTo = 9,
    Purchase = 10,
    Salvage = 11,
    BookOf = 12,
    Links = 13,
}

impl Call {
    pub const ALL: [Call; 14] = [
        Call::New,
        Call::Check,
        Call::Rewrite,
        Call::Open,
        Call::Close,
        Call::Expand,
        Call::Balance,
        Call::Routes,
        Call::Post,
        Call::KeepsTo,
        Call::Purchase,
        Call::Salvage,
        Call::BookOf,
        Call::Links,
    ];

    /// The call has an output buffer.
    pub fn has_output(self) -> bool {
        !matches!(self, Call::Check | Call::Balance | Call::KeepsTo | Call::Links)
    }

    pub fn of_number(number: u8) -> io::Result<Call> {
        let call = Call::ALL.into_iter().find(|&call| call as u8 == number);
        call.ok_or_else(|| io::Error::other(format!("no call has number {number}")))
    }
}

/// Writes the frame that ends the stream.
pub fn write_end(output: &mut impl Write) -> io::Result<()> {
    let mut header = [0; REQUEST_HEADER];
    header[0] = END;
    output.write_all(&header)
}

/// What a call gave back, and what it was lent, afterwards.
#[derive(Clone, Debug, PartialEq, Eq)]
pub struct Answer {
    pub number: u8,
    /// The length, the mark that more exist and a zero, or data, used and free,
    /// or length, rows cut and bytes lost, or the number of links, or a yes, and
    /// two zeros.
    pub counts: [u32; 3],
    pub out: Vec<u8>,
    /// The records of a posting.
    pub records: Vec<u8>,
    /// The index of a posting, in bytes, or the report of a salvage.
    pub beside: Vec<u8>,
}

impl Answer {
    pub fn write(&self, output: &mut impl Write) -> io::Result<()> {
        output.write_all(&[self.number])?;
        for count in self.counts {
            output.write_all(&count.to_be_bytes())?;
        }
        output.write_all(&self.out)?;
        output.write_all(&self.records)?;
        output.write_all(&self.beside)
    }

    /// Reads the answer to this request.
    pub fn read(input: &mut impl Read, request: &Request) -> io::Result<Answer> {
        let mut header = [0; ANSWER_HEADER];
        input.read_exact(&mut header)?;
        let count = |place: usize| {
            u32::from_be_bytes(header[place..place + 4].try_into().expect("four bytes"))
        };
        let counts = [count(1), count(5), count(9)];
        let mut rest = |length: usize| {
            let mut bytes = vec![0; length];
            input.read_exact(&mut bytes).map(|()| bytes)
        };
        let out = rest(usize::from(request.room))?;
        let records = rest(request.records().len())?;
        let beside = rest(request.beside_bytes())?;
        Ok(Answer { number: header[0], counts, out, records, beside })
    }

    /// The bytes the call wrote: the first `length` of its output buffer.
    pub fn written(&self) -> &[u8] {
        &self.out[..self.counts[0] as usize]
    }
}

/// Answers every request of a stream.
pub fn serve(input: &mut impl Read, output: &mut impl Write) -> io::Result<()> {
    while let Some(request) = Request::read(input)? {
        request.answer().write(output)?;
    }
    output.flush()
}
