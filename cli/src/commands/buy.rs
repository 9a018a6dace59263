//! Buys hop uses for an account.

use super::{Command, Report};
use crate::book::Book;
use crate::describe;
use crate::engine::Engine;
use crate::files::Held;
use crate::frame;
use crate::loaded::{accepted, decode, is_of_book};
use crate::text::plain;
use crate::trouble::Trouble;
use crate::words::Words;

pub const BUY: Command = Command {
    name: "buy",
    operands: "BOOK ACCOUNT AMOUNT",
    takes: [3, 3],
    choices: &[],
    summary: "buy hop uses for an account",
    explains: "\
Raises what ACCOUNT has bought by AMOUNT hop uses in a cycle, and says what it
has now: bought, drawn by its streams, and left. A hop of a stream with period
K is used 1000/K times in a cycle. An account holds at most 4294967295. Nothing
else of the book changes.",
    example: "lindurask buy mill.book 3 500",
    run,
};

/// What of the words a refusal is about.
fn about(number: u8, image: &[u8], words: &Words, account: u16) -> Result<String, Trouble> {
    if is_of_book(number) {
        return Ok(plain(words.path(0)));
    }
    let bought = decode(image)?.standing(account).map(|own| format!(", {} bought", own.bought));
    Ok(format!("account {account}{}", bought.unwrap_or_default()))
}

fn run(words: &Words) -> Result<Report, Trouble> {
    let (account, amount) = (words.account(1)?, words.amount(2)?);
    let mut engine = Engine::start()?;
    let held = Held::open(&words.operands[0])?;
    let answer = engine.ask(frame::purchase(&held.bytes, account, amount))?;
    let about = match answer.number {
        0 => String::new(),
        number => about(number, &held.bytes, words, account)?,
    };
    let bytes = accepted(answer, about)?.bytes;
    let (before, after) = (decode(&held.bytes)?, decode(&bytes)?);
    engine.finish()?;
    let raised = before.after_purchase(account, amount);
    let raised = raised.map(|book| Book { version: after.version, ..book });
    let own = after.standing(account).filter(|_| raised.as_ref() == Some(&after));
    let text = own
        .map(|own| describe::standing(&own) + "\n")
        .ok_or_else(|| Trouble::Failed("the engine made another purchase".into()))?;
    held.replace(&bytes)?;
    Ok(Report { text, changed: true, ..Report::default() })
}
