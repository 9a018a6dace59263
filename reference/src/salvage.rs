//! Salvage: the rows of a damaged image that are lawful beside one another.

use crate::book::{Book, MAX_HOPS, MAX_ROUTE_HOPS, MAX_ROWS};
use crate::image::{read_head, read_row, read_topology};
use crate::law::{meets_another, row_may_follow};
use crate::refusal::{DONE, Refusal};
use crate::row::Row;
use crate::version::Version;

/// What came out of a damaged image.
pub struct Salvaged {
    pub version: Version,
    /// The rows kept, on the image's own site.
    pub book: Book,
    /// For each row cut, 0 if it was kept or the reason, and its id.
    pub cuts: Vec<(u8, u16)>,
    /// The bytes after the last row cut.
    pub lost: usize,
}

/// Cuts out the rows in stored order while one can be cut, and keeps each that
/// is lawful beside those kept.
pub fn salvage(image: &[u8]) -> Result<Salvaged, Refusal> {
    let head = read_head(image)?;
    let before_rows = head.before_rows();
    let topology = image.get(head.before_topology()..before_rows).ok_or(Refusal::WrongLength)?;
    let topology = read_topology(head.version, head.nodes, topology)?;
    let version = head.version;
    let mut book = Book { plan: head.plan, topology, accounts: head.accounts, rows: Vec::new() };
    let (mut cuts, mut rest) = (Vec::new(), &image[before_rows..]);
    while let Some((row, left)) = cut(version, rest) {
        rest = left;
        let id = row.id;
        match fault(version, &book, &row) {
            Some(refusal) => cuts.push((refusal as u8, id)),
            None => {
                cuts.push((DONE, id));
                book.rows.push(row);
            }
        }
    }
    Ok(Salvaged { version, book, cuts, lost: rest.len() })
}

/// The first row and the bytes after it; none where the hop count is not 1 to
/// 15, or the bytes end before the row does.
fn cut(version: Version, bytes: &[u8]) -> Option<(Row, &[u8])> {
    let hops = usize::from(*bytes.get(version.bytes_before_hop_count())?);
    let mut rest = bytes;
    let row = read_row(version, &mut rest).filter(|_| (1..=MAX_ROUTE_HOPS).contains(&hops))?;
    Some((row, rest))
}

/// The reason why a row may not stand behind those kept.
fn fault(version: Version, kept: &Book, row: &Row) -> Option<Refusal> {
    if !(version.fits_period(row) && row_may_follow(kept, row)) {
        Some(Refusal::UnlawfulRows)
    } else if kept.rows.len() + 1 > MAX_ROWS || kept.hops() + row.offsets.len() > MAX_HOPS {
        Some(Refusal::BookIsFull)
    } else if meets_another(kept, row) {
        Some(Refusal::ClashingHopsMeet)
    } else {
        None
    }
}

/// The lines that the tool prints.
pub fn lines(image: &[u8]) -> String {
    match salvage(image) {
        Err(refusal) => format!("refused {}\n", refusal as u8),
        Ok(salvaged) => {
            let cuts: String = salvaged.cuts.iter().map(line).collect();
            format!("{cuts}lost {}\n", salvaged.lost)
        }
    }
}

/// The line of a row.
fn line(&(reason, id): &(u8, u16)) -> String {
    if reason == DONE { format!("kept {id}\n") } else { format!("dropped {id} {reason}\n") }
}
