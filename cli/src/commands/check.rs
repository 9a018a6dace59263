//! Says whether a book is lawful, and whether its routes keep to the nodes on mains.

use super::{Command, Report};
use crate::book::{Book, Way};
use crate::describe;
use crate::engine::Engine;
use crate::frame;
use crate::json;
use crate::loaded::{accepted, unreadable, Loaded};
use crate::mains::Mains;
use crate::text::{count, row};
use crate::trouble::Trouble;
use crate::words::{Words, JSON, MAINS};

pub const CHECK: Command = Command {
    name: "check",
    operands: "BOOK",
    takes: [1, 1],
    choices: &[MAINS, JSON],
    summary: "say whether a book is lawful",
    explains: "\
Says whether the file holds a lawful book, or the number of its refusal.
With --mains it says too which streams pass a node that is not among NODES: that
have it in the middle of a route. NODES are numbers with commas, as in 0,3,5 or
0-3,5, or none. The exit status is then 0 where no stream does, and 1 where one
does.",
    example: "lindurask check kiln.book",
    run,
};

/// A route that passes nodes that are not on mains, and these in turn.
struct Passage<'a> {
    way: &'a Way,
    nodes: Vec<u8>,
}

impl Passage<'_> {
    fn line(&self) -> String {
        let which = if self.way.is_second() { "the second route of " } else { "" };
        let (what, are) = if self.nodes.len() == 1 { ("node", "is") } else { ("nodes", "are") };
        let nodes: Vec<String> = self.nodes.iter().map(u8::to_string).collect();
        let said = format!("{}, which {are} not on mains", nodes.join(" "));
        row(&format!("{which}stream {} passes {what}", self.way.id), said.split(' '))
    }

    fn in_json(&self) -> String {
        json::object([
            ("id", self.way.id.to_string()),
            ("second", self.way.is_second().to_string()),
            ("nodes", json::array(&self.nodes)),
        ])
    }
}

/// What each route passes that is not on mains, where it does.
fn passages(book: &Book, mains: Mains) -> Vec<Passage<'_>> {
    let off = |way: &Way| way.relays().iter().copied().filter(|&node| !mains.has(node)).collect();
    let all = book.ways.iter().map(|way| Passage { way, nodes: off(way) });
    all.filter(|passage| !passage.nodes.is_empty()).collect()
}

/// What the engine says: every route of the book keeps to the set.
fn keeps(engine: &mut Engine, image: &[u8], mains: Mains) -> Result<bool, Trouble> {
    let answer = engine.ask(frame::keeps_to(image, mains.set(image)))?;
    let answer = accepted(mains.taken(answer, image)?, "")?;
    Ok(answer.counts[0] == 1)
}

/// How many streams pass a node that is not on mains.
fn summary(book: &Book, mains: Mains) -> String {
    let passing = book.streams().filter(|&stream| !mains.keeps(stream)).count();
    match passing {
        0 => "every stream keeps to the mains nodes\n".into(),
        some => {
            let all = count(book.streams().count(), "stream");
            let verb = if some == 1 { "passes" } else { "pass" };
            format!("{some} of {all} {verb} a node that is not on mains\n")
        }
    }
}

fn run(words: &Words) -> Result<Report, Trouble> {
    let (mains, in_json, with_mains) = (words.mains()?, words.has(&JSON), words.has(&MAINS));
    let Loaded { bytes, book, mut engine } = Loaded::read(words.path(0))?;
    let passages = passages(&book, mains);
    if with_mains && keeps(&mut engine, &bytes, mains)? != passages.is_empty() {
        return Err(unreadable());
    }
    engine.finish()?;
    let text = if in_json {
        let mut fields = vec![("lawful", "true".to_string())];
        fields.extend(json::counts(&book));
        if with_mains {
            fields.push(("keeps", passages.is_empty().to_string()));
            fields.push(("passes", json::array(passages.iter().map(Passage::in_json))));
        }
        json::answer(fields)
    } else {
        let mut said = format!("lawful: {}", describe::counts(&book));
        if with_mains {
            said.extend(passages.iter().map(Passage::line));
            said += &summary(&book, mains);
        }
        said
    };
    Ok(Report { text, refused: !passages.is_empty(), ..Report::default() })
}
