//! What the program salvage says of an image, held to the rows that can be cut out of it.

use crate::book::{Layout, HEAD, MOST_HOPS, MOST_ROUTES};
use crate::dialogue::{self, number, Lines};
use crate::program::SALVAGE;
use crate::trouble::Trouble;
use std::io::Write;
use std::ops::RangeInclusive;

/// The hops of a row that can be cut out.
const HOPS: RangeInclusive<u8> = 1..=15;
/// Where the head states the routes, in a byte, and then the hops, in two.
const ROUTES_AT: usize = 12;
const HOPS_AT: usize = 13;
/// The numbers by which an image is refused: its head or its topologies are not sound, or cut short.
const REFUSALS: [u64; 4] = [10, 11, 13, 14];
/// Why a row is dropped: not lawful behind those kept, too many, or a clash with one of them.
pub const UNLAWFUL: u8 = 15;
pub const FULL: u8 = 8;
pub const CLASHES: u8 = 16;

/// A row that was cut out of an image.
pub struct Cut<'a> {
    pub id: u16,
    /// Why it is dropped; none where it is kept.
    pub reason: Option<u8>,
    hops: u8,
    bytes: &'a [u8],
}

/// What became of an image.
pub struct Salvage<'a> {
    /// What stands before the rows: the head and the topologies.
    before: &'a [u8],
    /// The rows in their stored order.
    pub cuts: Vec<Cut<'a>>,
    /// The bytes behind the last row.
    pub lost: usize,
}

/// All that the program says of an image.
pub fn said_of(image: &[u8]) -> Result<String, Trouble> {
    // Where the program has ended before it took all, what it said tells.
    dialogue::said(&SALVAGE, |mut input, _| drop(input.write_all(image)), |_| {})
}

/// The number by which the image is refused, where that is what was said.
pub fn refusal(said: &str) -> Option<u8> {
    let number = number(said.strip_prefix("refused ")?.strip_suffix('\n')?)?;
    REFUSALS.contains(&number).then_some(number as u8)
}

/// The first row and the bytes behind it; none where its hop count is none, or it is cut short.
fn cut<'a>(layout: &Layout, bytes: &'a [u8]) -> Option<(Cut<'a>, &'a [u8])> {
    let &hops = bytes.get(layout.before_hops()).filter(|hops| HOPS.contains(hops))?;
    let (row, rest) = bytes.split_at_checked(layout.row(hops))?;
    let id = u16::from_be_bytes([row[0], row[1]]);
    Some((Cut { id, reason: None, hops, bytes: row }, rest))
}

/// What a line says of the row that was cut: kept, or dropped and why. The outer is none where it says no such thing.
fn judged(line: &str, id: u16) -> Option<Option<u8>> {
    let words: Vec<&str> = line.split(' ').collect();
    let is_own = |word: &str| number(word) == Some(id.into());
    match words[..] {
        ["kept", word] if is_own(word) => Some(None),
        ["dropped", word, reason] if is_own(word) => {
            let reasons = [UNLAWFUL, FULL, CLASHES];
            reasons.into_iter().find(|own| number(reason) == Some((*own).into())).map(Some)
        }
        _ => None,
    }
}

impl<'a> Salvage<'a> {
    /// Cuts rows out of an image as long as one can be, and none is judged yet; none where it ends before its rows.
    fn of(image: &'a [u8]) -> Option<Salvage<'a>> {
        let layout = Layout::of(image)?;
        let (before, mut rest) = image.split_at_checked(layout.before_rows(image))?;
        let mut cuts = Vec::new();
        while let Some((row, behind)) = cut(layout, rest) {
            cuts.push(row);
            rest = behind;
        }
        Some(Salvage { before, cuts, lost: rest.len() })
    }

    /// Reads what was said of an image: a line for each row, and what is lost.
    pub fn read(said: &str, image: &'a [u8]) -> Result<Salvage<'a>, Trouble> {
        let mut salvage = Salvage::of(image).ok_or_else(|| SALVAGE.no_answer())?;
        let mut lines = Lines::new(&SALVAGE, said);
        for row in &mut salvage.cuts {
            row.reason = judged(lines.next()?, row.id).ok_or_else(|| SALVAGE.no_answer())?;
        }
        let lost = lines.next()?.strip_prefix("lost ").and_then(number);
        let is_told = lost == Some(salvage.lost as u64) && lines.is_read();
        let fits = salvage.kept().count() <= MOST_ROUTES && salvage.hops() <= MOST_HOPS;
        (is_told && fits).then_some(salvage).ok_or_else(|| SALVAGE.no_answer())
    }

    pub fn kept(&self) -> impl Iterator<Item = &Cut<'a>> {
        self.cuts.iter().filter(|row| row.reason.is_none())
    }

    /// The hops of the rows kept.
    fn hops(&self) -> usize {
        self.kept().map(|row| usize::from(row.hops)).sum()
    }

    /// The routes and the hops that the head states.
    pub fn stated(&self) -> [usize; 2] {
        let hops = u16::from_be_bytes([self.before[HOPS_AT], self.before[HOPS_AT + 1]]);
        [self.before[ROUTES_AT].into(), hops.into()]
    }

    /// The book of the rows kept, in the version of the image.
    pub fn book(&self) -> Vec<u8> {
        let mut book = self.before.to_vec();
        book[ROUTES_AT] = self.kept().count() as u8;
        book[HOPS_AT..HEAD - 1].copy_from_slice(&(self.hops() as u16).to_be_bytes());
        book.extend(self.kept().flat_map(|row| row.bytes));
        book
    }
}

#[cfg(test)]
mod tests {
    use super::*;

    #[test]
    fn only_what_the_program_prints_is_read() {
        assert_eq!(judged("kept 7", 7), Some(None));
        for (reason, line) in [(15, "dropped 7 15"), (8, "dropped 7 8"), (16, "dropped 7 16")] {
            assert_eq!(judged(line, 7), Some(Some(reason)));
        }
        let wrong = ["kept 8", "kept 07", "kept 7 ", "kept", "dropped 7", "dropped 8 15", "lost 7"];
        for line in wrong.into_iter().chain(["dropped 7 9", "dropped 7 0", "dropped 7 015", ""]) {
            assert_eq!(judged(line, 7), None, "{line}");
        }
        let refusals = ["refused 14\n", "refused 12\n", "refused 14", "refused 014\n", "lost 3\n"];
        assert_eq!(refusals.map(refusal), [Some(14), None, None, None, None]);
    }
}
