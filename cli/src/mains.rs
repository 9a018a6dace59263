//! The nodes on mains: those that alone may stand in the middle of a route, as a clerk names them.

use crate::book::{stated_nodes, Stream, MOST_NODES};
use crate::frame::{self, Answer, Record, Request, Wish};
use crate::lines::number;
use crate::loaded::unreadable;
use crate::trouble::Trouble;

/// The word for a set without nodes.
const NONE: &[u8] = b"none";
/// How a set is written, for one who wrote it otherwise.
const AS_SET: &str =
    "write mains nodes with commas, as in: --mains 0,3,5 or --mains 0-3,5, or --mains none";
/// The number by which the engine refuses a set.
const NO_SUCH_NODE: u8 = 25;

/// Which nodes may stand in the middle of a route.
#[derive(Clone, Copy, Debug, PartialEq, Eq)]
pub enum Mains {
    /// All: no set is given.
    All,
    /// Those whose bits are set.
    Only(u64),
}

/// The nodes from the first number to the last one, of one or two with a dash between them.
fn run(part: &[u8]) -> Result<u64, String> {
    let ends: Option<Vec<u64>> = part.split(|&b| b == b'-').map(number).collect();
    let (first, last) = match ends.as_deref() {
        Some([node]) => (*node, *node),
        Some([first, last]) if first <= last => (*first, *last),
        _ => return Err(AS_SET.into()),
    };
    if MOST_NODES as u64 <= last {
        return Err(format!("no site has a node {last}; they count from 0 to {}", MOST_NODES - 1));
    }
    Ok((first..=last).fold(0, |set, node| set | 1 << node))
}

impl Mains {
    /// Reads a set: numbers and runs of them with commas between them, or the word for none.
    pub fn read(word: &[u8]) -> Result<Mains, String> {
        if word == NONE {
            return Ok(Mains::Only(0));
        }
        let mut set = 0;
        for part in word.split(|&b| b == b',') {
            set |= run(part)?;
        }
        Ok(Mains::Only(set))
    }

    /// The set as the engine takes it beside a book: all that the book states where none is given.
    pub fn set(self, book: &[u8]) -> u64 {
        let beyond = (MOST_NODES as u32).saturating_sub(stated_nodes(book).into());
        match self {
            Mains::All => u64::MAX.checked_shr(beyond).unwrap_or(0),
            Mains::Only(set) => set,
        }
    }

    pub fn has(self, node: u8) -> bool {
        match self {
            Mains::All => true,
            Mains::Only(set) => set >> node & 1 == 1,
        }
    }

    /// No route of the stream passes a node that is not in the set.
    pub fn keeps(self, stream: Stream) -> bool {
        stream.ways.iter().flat_map(|way| way.relays()).all(|&node| self.has(node))
    }

    /// What is said behind two ends where not every node may stand between them.
    pub fn between(self) -> &'static str {
        match self {
            Mains::All => "",
            Mains::Only(_) => " over mains nodes",
        }
    }

    /// Opens a stream: by the plain planner, or, with a set, by a list of one.
    pub fn open(self, book: &[u8], wish: Wish) -> Request {
        match self {
            Mains::All => frame::open(book, wish),
            Mains::Only(set) => frame::post(book, set, &[Record::Open(wish)]),
        }
    }

    /// The answer, if it does not refuse the set; otherwise which is its first node that the site has not.
    pub fn taken(self, answer: Answer, book: &[u8]) -> Result<Answer, Trouble> {
        if answer.number != NO_SUCH_NODE {
            return Ok(answer);
        }
        let set = self.set(book);
        let beyond = (stated_nodes(book)..MOST_NODES as u8).find(|node| set >> node & 1 == 1);
        let about = |node| Trouble::refused(NO_SUCH_NODE, format!("node {node}"));
        Err(beyond.map_or_else(unreadable, about))
    }
}

#[cfg(test)]
mod tests {
    use super::*;

    #[test]
    fn a_set_is_numbers_and_runs_or_none() {
        let sets: [(&str, u64); 7] = [
            ("0,3,5", 0b101001),
            ("0-3,5", 0b101111),
            ("5,3,3,0", 0b101001),
            ("7-7", 0b10000000),
            ("007", 0b10000000),
            ("0-63", u64::MAX),
            ("none", 0),
        ];
        for (word, set) in sets {
            assert_eq!(Mains::read(word.as_bytes()), Ok(Mains::Only(set)), "{word}");
        }
        for word in ["", ",", "0,", ",0", "0,,3", "3-0", "1-2-3", "-1", "1-", "x", "0, 3", "none,3"]
        {
            assert_eq!(Mains::read(word.as_bytes()), Err(AS_SET.into()), "{word}");
        }
        for (word, node) in [("64", "64"), ("0-64", "64"), ("3,99999999999", "99999999999")] {
            let said = format!("no site has a node {node}; they count from 0 to 63");
            assert_eq!(Mains::read(word.as_bytes()), Err(said), "{word}");
        }
    }

    #[test]
    fn where_none_is_given_the_set_is_the_nodes_that_the_book_states() {
        let book = |nodes: u8| [vec![0; 11], vec![nodes, 0]].concat();
        for (nodes, set) in [(0, 0), (1, 1), (2, 3), (63, u64::MAX >> 1), (64, u64::MAX)] {
            assert_eq!(Mains::All.set(&book(nodes)), set);
        }
        assert_eq!(Mains::All.set(&book(255)), u64::MAX);
        assert_eq!(Mains::All.set(&[0; 11]), 0);
        assert_eq!(Mains::Only(5).set(&book(2)), 5);
    }
}
