//! Opens a stream.

use super::{Command, Report};
use crate::describe;
use crate::engine::Engine;
use crate::files::Held;
use crate::loaded::{decode, is_of_book, opened, usual_account};
use crate::request::Asked;
use crate::text::plain;
use crate::trouble::Trouble;
use crate::words::{as_account, Words, MAINS};

pub const OPEN: Command = Command {
    name: "open",
    operands: "BOOK ID SOURCE DESTINATION PERIOD [second] [account N]",
    takes: [5, 8],
    choices: &[MAINS],
    summary: "open a stream",
    explains: "\
Opens a stream from node SOURCE to node DESTINATION that sends every PERIOD
tiles: 1, 2, 5, 10, 20, 50, 100, 200, 500 or 1000. It takes the shortest route
and the first free slots on it. ID is a number from 1 to 65535 that no stream
has yet.
With the word second it takes a second route too, of at most 6 hops and with no
relay of the first: whichever relay is lost, one of the two is left. It takes
both or none. With --mains only NODES may stand in the middle of its routes, be
its ends among them or not: numbers with commas, as in 0,3,5 or 0-3,5, or none.
The stream belongs to account N, which must have enough left; without that word
to account 0, or to the only one that the book has.",
    example: "lindurask open pond.book 7 4 9 20 second",
    run,
};

/// What the words ask for.
fn asked(words: &Words) -> Result<Asked, Trouble> {
    let (id, source, destination) = (words.id(1)?, words.node(2)?, words.node(3)?);
    let period = words.period(4)?;
    let extras = words.extras(5).ok_or_else(|| OPEN.misused())?;
    let account = extras.account.map(as_account).transpose()?;
    Ok(Asked { id, source, destination, period, second: extras.second, account })
}

fn run(words: &Words) -> Result<Report, Trouble> {
    let (asked, mains) = (asked(words)?, words.mains()?);
    let mut engine = Engine::start()?;
    let held = Held::open(&words.operands[0])?;
    let wish = asked.wish(usual_account(&held.bytes));
    let answer = engine.ask(mains.open(&held.bytes, wish))?;
    let answer = mains.taken(answer.of_one(), &held.bytes)?;
    match answer.number {
        0 => {}
        number if is_of_book(number) => {
            return Err(Trouble::refused(number, plain(words.path(0))));
        }
        number => {
            let refusal = asked.refusal(number, &decode(&held.bytes)?, mains);
            return Err(Trouble::Refused(refusal));
        }
    }
    let book = decode(&answer.bytes)?;
    engine.finish()?;
    let stream = opened(&book, mains, wish)?;
    let draws = describe::draws(book.kept(wish.account), stream);
    let text = describe::stream("opened ", stream) + &draws;
    held.replace(&answer.bytes)?;
    Ok(Report { text, changed: true, ..Report::default() })
}
