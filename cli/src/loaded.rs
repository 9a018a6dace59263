//! A book that the engine called lawful, with the engine still there to be asked.

use crate::book::{Balance, Book, Stream};
use crate::engine::Engine;
use crate::files;
use crate::frame::{self, Answer, Request, Wish};
use crate::mains::Mains;
use crate::table::{self, Entry};
use crate::text::plain;
use crate::tiles::Tiles;
use crate::trouble::Trouble;
use std::path::Path;

pub struct Loaded {
    pub bytes: Vec<u8>,
    pub book: Book,
    pub engine: Engine,
}

/// What the engine gave, or its refusal.
pub fn accepted(answer: Answer, about: impl Into<String>) -> Result<Answer, Trouble> {
    match answer.number {
        0 => Ok(answer),
        number => Err(Trouble::refused(number, about)),
    }
}

/// The engine called bytes good that cannot be read here, or that it then contradicts.
pub fn unreadable() -> Trouble {
    Trouble::Failed("the engine says what is no answer; nothing is changed".into())
}

/// Reads bytes that the engine gave or called lawful.
pub fn decode(bytes: &[u8]) -> Result<Book, Trouble> {
    Book::decode(bytes).ok_or_else(unreadable)
}

/// The account of a stream that names none, by the book in these bytes, be they lawful or not.
pub fn usual_account(bytes: &[u8]) -> u16 {
    Book::decode(bytes).map_or(0, |book| book.usual_account())
}

/// The stream that an open gave, with a second route exactly if one was asked for, of the account that was asked for, and
/// over no other nodes than it may.
pub fn opened(book: &Book, mains: Mains, wish: Wish) -> Result<Stream<'_>, Trouble> {
    let stream = book.stream(wish.id).filter(|stream| stream.second().is_some() == wish.second);
    stream
        .filter(|stream| stream.account() == wish.account)
        .filter(|&stream| mains.keeps(stream))
        .ok_or_else(|| Trouble::Failed("the engine opened another stream".into()))
}

/// A refusal is about the book itself and not about what was asked of it.
pub fn is_of_book(number: u8) -> bool {
    matches!(number, 10 | 11 | 13..=16)
}

impl Loaded {
    /// Reads the book of this name, and has it checked.
    pub fn read(path: &Path) -> Result<Loaded, Trouble> {
        let mut engine = Engine::start()?;
        let bytes = files::read_book(path)?;
        let answer = engine.ask(frame::check(&bytes))?;
        accepted(answer, plain(path))?;
        let book = decode(&bytes)?;
        Ok(Loaded { bytes, book, engine })
    }

    /// The nodes that were asked for: one, or all. The engine says whether the site has that one.
    pub fn nodes(&mut self, one: Option<crate::words::Number>) -> Result<Vec<u8>, Trouble> {
        let Some(number) = one else { return Ok((0..self.book.nodes()).collect()) };
        let answer = self.engine.ask(frame::balance(&self.bytes, number.node()))?;
        accepted(answer, format!("node {}", number.0))?;
        Ok(vec![number.node()])
    }

    /// Asks the same of several nodes.
    fn ask_of(
        &mut self,
        nodes: &[u8],
        request: fn(&[u8], u8) -> Request,
    ) -> Result<Vec<Answer>, Trouble> {
        let requests: Vec<_> = nodes.iter().map(|&node| request(&self.bytes, node)).collect();
        let answers = self.engine.ask_all(&requests)?;
        answers.into_iter().map(|answer| accepted(answer, "")).collect()
    }

    pub fn balances(&mut self, nodes: &[u8]) -> Result<Vec<Balance>, Trouble> {
        let balance = |answer: Answer| {
            let [data, used, free] = answer.counts;
            Balance { data, used, free }
        };
        Ok(self.ask_of(nodes, frame::balance)?.into_iter().map(balance).collect())
    }

    /// How many links each of the nodes has: fewer than the site has nodes.
    pub fn links(&mut self, nodes: &[u8]) -> Result<Vec<u8>, Trouble> {
        let most = u32::from(self.book.nodes());
        let links = |answer: Answer| match answer.counts[0] {
            links if links < most => Ok(links as u8),
            _ => Err(unreadable()),
        };
        self.ask_of(nodes, frame::links)?.into_iter().map(links).collect()
    }

    /// These tiles of each node's table, asked for in parts and joined; a refusal is about these words.
    pub fn tables(
        &mut self,
        nodes: &[u8],
        tiles: Tiles,
        about: &str,
    ) -> Result<Vec<Vec<Entry>>, Trouble> {
        let parts = tiles.parts();
        let of_node = |&node: &u8| parts.iter().map(move |&part| (node, part));
        let asked = nodes.iter().flat_map(of_node);
        let requests: Vec<_> =
            asked.map(|(node, part)| frame::expand(&self.bytes, node, part)).collect();
        let mut answers = self.engine.ask_all(&requests)?.into_iter();
        let slots = usize::from(self.book.slots);
        let mut part = |part: &Tiles| {
            let answer = accepted(answers.next().expect("an answer for each"), about)?;
            table::decode(&answer.bytes, usize::from(part.count) * slots).ok_or_else(unreadable)
        };
        let mut table = |_: &u8| parts.iter().map(&mut part).collect::<Result<Vec<_>, _>>();
        nodes.iter().map(|node| Ok(table(node)?.concat())).collect()
    }
}
