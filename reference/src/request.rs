//! A request: one call with all its arguments, and what the reference says.

use crate::calls::{self, Site};
use crate::change::Open;
use crate::frame::{Answer, Call, END, REQUEST_HEADER, WORD_BYTES};
use crate::plan::Plan;
use crate::record::{RECORD_BYTES, Record};
use std::io::{self, Read, Write};

/// One call with all its arguments.
#[derive(Clone, Debug, PartialEq, Eq)]
pub struct Request {
    pub call: Call,
    pub id: u16,
    /// The source of an open or a route list, the node of an expand, a balance
    /// or a count of links.
    pub node: u8,
    pub destination: u8,
    pub period: u16,
    /// An open asks for a second route.
    pub second: bool,
    pub account: u16,
    /// What a purchase adds.
    pub amount: u32,
    /// The first tile of an expand, and how many.
    pub first: u16,
    pub tiles: u16,
    pub mains: u64,
    pub s: u8,
    pub c: u8,
    pub kinds: u16,
    pub d: u8,
    pub u: u8,
    pub n: u8,
    /// The links of a new book, the book of any other call.
    pub bytes: Vec<u8>,
    /// The hearing of a new book.
    pub hearing: Vec<u8>,
    /// The accounts of a new book, the records of a posting, tables.
    pub further: Vec<u8>,
    /// Length of the output buffer.
    pub room: u16,
    /// Length of the index of a posting, in words, or of the report of a salvage,
    /// in bytes.
    pub beside: u16,
    /// What every byte of the buffers is before the call.
    pub fill: u8,
}

impl Request {
    /// A request with every field 0 and no bytes.
    pub fn blank(call: Call) -> Request {
        Request {
            call,
            id: 0,
            node: 0,
            destination: 0,
            period: 0,
            second: false,
            account: 0,
            amount: 0,
            first: 0,
            tiles: 0,
            mains: 0,
            s: 0,
            c: 0,
            kinds: 0,
            d: 0,
            u: 0,
            n: 0,
            bytes: Vec::new(),
            hearing: Vec::new(),
            further: Vec::new(),
            room: 0,
            beside: 0,
            fill: 0,
        }
    }

    pub fn write(&self, output: &mut impl Write) -> io::Result<()> {
        let mut header = [0; REQUEST_HEADER];
        let mut put = |place: usize, field: &[u8]| {
            header[place..place + field.len()].copy_from_slice(field);
        };
        put(0, &[self.call as u8]);
        put(1, &self.id.to_be_bytes());
        put(3, &[self.node, self.destination]);
        put(5, &self.period.to_be_bytes());
        put(7, &[self.s, self.c]);
        put(9, &self.kinds.to_be_bytes());
        put(11, &[self.d, self.u, self.n]);
        put(14, &(self.bytes.len() as u16).to_be_bytes());
        put(16, &self.room.to_be_bytes());
        put(18, &[self.fill, u8::from(self.second)]);
        put(20, &self.account.to_be_bytes());
        put(22, &self.first.to_be_bytes());
        put(24, &self.tiles.to_be_bytes());
        put(26, &self.mains.to_be_bytes());
        put(34, &self.amount.to_be_bytes());
        put(38, &(self.hearing.len() as u16).to_be_bytes());
        put(40, &(self.further.len() as u16).to_be_bytes());
        put(42, &(self.beside + (self.further.len() / 65_536) as u16).to_be_bytes());
        output.write_all(&header)?;
        output.write_all(&self.bytes)?;
        output.write_all(&self.hearing)?;
        output.write_all(&self.further)
    }

    /// Reads a request; none at the end of the stream.
    pub fn read(input: &mut impl Read) -> io::Result<Option<Request>> {
        let mut header = [0; REQUEST_HEADER];
        if !fill_or_end(input, &mut header)? || header[0] == END {
            return Ok(None);
        }
        let number = |place: usize| u16::from_be_bytes([header[place], header[place + 1]]);
        let bytes = read_bytes(input, usize::from(number(14)))?;
        let hearing = read_bytes(input, usize::from(number(38)))?;
        let more = if header[0] == Call::BookOf as u8 { usize::from(number(42)) } else { 0 };
        let further = read_bytes(input, more * 65_536 + usize::from(number(40)))?;
        Ok(Some(Request {
            call: Call::of_number(header[0])?,
            id: number(1),
            node: header[3],
            destination: header[4],
            period: number(5),
            second: header[19] != 0,
            account: number(20),
            amount: u32::from_be_bytes(header[34..38].try_into().expect("four bytes")),
            first: number(22),
            tiles: number(24),
            mains: u64::from_be_bytes(header[26..34].try_into().expect("eight bytes")),
            s: header[7],
            c: header[8],
            kinds: number(9),
            d: header[11],
            u: header[12],
            n: header[13],
            bytes,
            hearing,
            further,
            room: number(16),
            beside: if more == 0 { number(42) } else { 0 },
            fill: header[18],
        }))
    }

    /// What the reference says to this request.
    pub fn answer(&self) -> Answer {
        let mut out = vec![self.fill; usize::from(self.room)];
        let mut records: Vec<Record> =
            self.records().chunks_exact(RECORD_BYTES).map(Record::read).collect();
        let mut beside = vec![self.fill; self.beside_bytes()];
        let (number, counts) = self.call_reference(&mut out, &mut records, &mut beside);
        let records = records.iter().flat_map(Record::write).collect();
        Answer { number, counts, out, records, beside }
    }

    /// Bytes of the index or the report.
    pub fn beside_bytes(&self) -> usize {
        let words = if self.call == Call::Post { WORD_BYTES } else { 1 };
        words * usize::from(self.beside)
    }

    /// The records of a posting; no other call has any.
    pub fn records(&self) -> &[u8] {
        if self.call == Call::Post { &self.further } else { &[] }
    }

    /// Makes the call: the number, and the length or the three counts.
    fn call_reference(
        &self,
        out: &mut [u8],
        records: &mut [Record],
        beside: &mut [u8],
    ) -> (u8, [u32; 3]) {
        let book = &self.bytes;
        let (number, length) = match self.call {
            Call::New => calls::new(&self.site(), &self.further, out),
            Call::BookOf => calls::book_of(&self.site(), &self.further, out),
            Call::Check => calls::check(book),
            Call::Rewrite => calls::rewrite(book, out),
            Call::Open => calls::open(book, self.open(), out),
            Call::Close => calls::close(book, self.id, out),
            Call::Expand => calls::expand(book, self.node, self.first, self.tiles, out),
            Call::Balance => {
                let (number, data, used, free) = calls::balance(book, self.node);
                return (number, [data, used, free]);
            }
            Call::Routes => {
                let (number, length, more) =
                    calls::routes(book, self.mains, self.node, self.destination, out);
                return (number, [length as u32, u32::from(more), 0]);
            }
            Call::Post => self.post(records, beside, out),
            Call::Salvage => {
                let said = calls::salvage(book, out, beside);
                let counts = [said.length, said.rows, said.lost];
                return (said.number, counts.map(|count| count as u32));
            }
            Call::Purchase => calls::purchase(book, self.account, self.amount, out),
            Call::KeepsTo => {
                let (number, keeps) = calls::keeps_to(book, self.mains);
                return (number, [u32::from(keeps), 0, 0]);
            }
            Call::Links => {
                let (number, links) = calls::links(book, self.node);
                return (number, [u32::from(links), 0, 0]);
            }
        };
        (number, [length as u32, 0, 0])
    }

    /// Posts with an index of words.
    fn post(&self, records: &mut [Record], beside: &mut [u8], out: &mut [u8]) -> (u8, usize) {
        let mut index = vec![u64::from_be_bytes([self.fill; WORD_BYTES]); usize::from(self.beside)];
        let said = calls::post(&self.bytes, self.mains, records, &mut index, out);
        for (bytes, word) in beside.chunks_exact_mut(WORD_BYTES).zip(index) {
            bytes.copy_from_slice(&word.to_be_bytes());
        }
        said
    }

    /// The site of a new book.
    fn site(&self) -> Site<'_> {
        Site {
            plan: Plan { s: self.s, c: self.c, kinds: self.kinds, d: self.d, u: self.u },
            nodes: self.n,
            links: &self.bytes,
            hearing: &self.hearing,
        }
    }

    /// The stream that an open asks for.
    fn open(&self) -> Open {
        Open {
            id: self.id,
            source: self.node,
            destination: self.destination,
            period: self.period,
            second: self.second,
            account: self.account,
        }
    }
}

fn read_bytes(input: &mut impl Read, length: usize) -> io::Result<Vec<u8>> {
    let mut bytes = vec![0; length];
    input.read_exact(&mut bytes)?;
    Ok(bytes)
}

/// Fills the buffer; false if the input ends before its first byte.
fn fill_or_end(input: &mut impl Read, buffer: &mut [u8]) -> io::Result<bool> {
    let first = input.read(&mut buffer[..1])?;
    if first == 0 {
        return Ok(false);
    }
    input.read_exact(&mut buffer[1..])?;
    Ok(true)
}
