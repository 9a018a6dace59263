//! Tables made elsewhere: the lawful book that expands to exactly these.

use crate::book::{Book, MAX_HOPS, MAX_ROWS};
use crate::index::INDEX_TILES;
use crate::law::{clashing_hops_meet, rows_are_lawful};
use crate::plan::{LONGEST_QUICK_PERIOD, PERIODS};
use crate::refusal::{Refusal, refuse_if};
use crate::row::{FIRST_ROUTE, Row, SECOND_ROUTE};
use crate::table::{ENTRY_BYTES, Entry, Operation, table};
use std::collections::BTreeSet;

/// The tiles that the tables cover.
const TABLE_TILES: usize = INDEX_TILES;

/// One table for each node, node 0 first.
type Tables = Vec<Vec<Entry>>;

/// The book on this empty one that expands to the tables. Its rows are told
/// from the tables, and then it must be lawful and expand to them.
pub fn book_of(empty: Book, bytes: &[u8]) -> Result<Book, Refusal> {
    let tables = read_tables(&empty, bytes).ok_or(Refusal::UnsoundTables)?;
    let keys: BTreeSet<(u16, u8)> = tables.iter().flatten().filter_map(key).collect();
    refuse_if(keys.len() > MAX_ROWS, Refusal::BookIsFull)?;
    let slots = empty.plan.tile_slots();
    let rows: Option<Vec<Row>> = keys.into_iter().map(|key| row_of(key, &tables, slots)).collect();
    let book = Book { rows: rows.ok_or(Refusal::NoSuchBook)?, ..empty };
    let lawful = book.hops() <= MAX_HOPS && rows_are_lawful(&book) && !clashing_hops_meet(&book);
    refuse_if(!lawful || first_tiles(&book) != tables, Refusal::NoSuchBook)?;
    Ok(book)
}

/// The tables of a book, cut after the tiles that tables cover.
fn first_tiles(book: &Book) -> Tables {
    let entries = TABLE_TILES * book.plan.tile_slots();
    (0..book.topology.nodes()).map(|node| table(book, node)[..entries].to_vec()).collect()
}

/// Reads the tables; none if their length is wrong, an entry is no operation, an
/// id stands where there is none or the other way about, or control stands
/// anywhere but in the control slots.
fn read_tables(empty: &Book, bytes: &[u8]) -> Option<Tables> {
    let entries = TABLE_TILES * empty.plan.tile_slots();
    let nodes = usize::from(empty.topology.nodes());
    if bytes.len() != ENTRY_BYTES * entries * nodes {
        return None;
    }
    let read = |(place, bytes): (usize, &[u8])| {
        let entry = Entry::read(bytes)?;
        let idle = matches!(entry.operation, Operation::Sleep | Operation::ControlSlot);
        let control = entry.operation == Operation::ControlSlot;
        let sound = idle == (entry.id == 0) && control != empty.plan.is_data(place % entries);
        sound.then_some(entry)
    };
    let all: Option<Vec<Entry>> = bytes.chunks(ENTRY_BYTES).enumerate().map(read).collect();
    Some(all?.chunks(entries).map(<[Entry]>::to_vec).collect())
}

/// The id and the route that an entry belongs to.
fn key(entry: &Entry) -> Option<(u16, u8)> {
    (entry.id != 0).then_some((entry.id, if entry.second { SECOND_ROUTE } else { FIRST_ROUTE }))
}

/// The row that these entries of the tables can come from, if from any. It
/// repeats as often as it is sent from above, and its first period has every
/// hop once.
fn row_of(of: (u16, u8), tables: &Tables, slots: usize) -> Option<Row> {
    let found: Vec<(usize, u8, Operation)> = (0..tables[0].len())
        .flat_map(|slot| (0..tables.len()).map(move |node| (slot, node)))
        .filter(|&(slot, node)| key(&tables[node][slot]) == Some(of))
        .map(|(slot, node)| (slot, node as u8, tables[node][slot].operation))
        .collect();
    let repeats = found.iter().filter(|entry| entry.2 == Operation::SendFromAbove).count();
    let mut quick = PERIODS.into_iter().filter(|&period| period <= LONGEST_QUICK_PERIOD);
    let period = quick.find(|&period| usize::from(period) * repeats == TABLE_TILES)?;
    let (mut senders, mut receivers) = (Vec::new(), Vec::new());
    for (slot, node, operation) in found {
        if slot < usize::from(period) * slots {
            let sends =
                matches!(operation, Operation::SendFromAbove | Operation::ForwardFromBuffer);
            if sends { &mut senders } else { &mut receivers }.push((slot as u16, node));
        }
    }
    let source = senders.first()?.1;
    let nodes = [source].into_iter().chain(receivers.iter().map(|&(_, node)| node)).collect();
    let offsets: Vec<u16> = senders.iter().map(|&(slot, _)| slot).collect();
    let paired = offsets.len() == receivers.len();
    paired.then_some(Row { id: of.0, route: of.1, period, nodes, offsets, account: 0 })
}
