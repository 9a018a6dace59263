//! Says what a stream could get now, for each period; nothing is changed.

use super::{Command, Report};
use crate::account::Standing;
use crate::book::{Way, PERIODS};
use crate::describe::{self, INDENT};
use crate::frame::{Answer, Wish};
use crate::json;
use crate::loaded::{decode, opened, Loaded};
use crate::mains::Mains;
use crate::request::{about_ends, Asked};
use crate::text::count;
use crate::trouble::{meaning, Trouble};
use crate::words::{as_account, Number, Words, JSON, MAINS};

pub const QUOTE: Command = Command {
    name: "quote",
    operands: "BOOK SOURCE DESTINATION [account N]",
    takes: [3, 5],
    choices: &[MAINS, JSON],
    summary: "say which periods a stream could have now",
    explains: "\
Says for each period whether a stream from node SOURCE to node DESTINATION can
be had now, with its route, offsets and latency, or why not; and which second
route it would get with the word second of open, or why none. This is what is
left to sell. The book is not changed. With --mains it says what open and post
would get with these NODES. In a book with accounts it says what account N can
pay for, without that word account 0 or the only one, and what each period
draws from it. The exit status is 0 where a period can be had, and 1 where none
can.",
    example: "lindurask quote kiln.book 3 0",
    run,
};

/// What a stream of a period would get.
struct Offer {
    period: u16,
    first: Got,
    /// Its second route, if it asked for one.
    second: Got,
}

/// A route, or the number of the refusal.
type Got = Result<Way, u8>;

/// The numbers by which slots are wanting or hop uses; every other refusal is the same for all periods.
const BY_PERIOD: [u8; 2] = [9, 23];

/// The last route of the stream that an open gave, or the number of its refusal.
fn got(answer: &Answer, mains: Mains, wish: Wish) -> Result<Got, Trouble> {
    if answer.number != 0 {
        return Ok(Err(answer.number));
    }
    let book = decode(&answer.bytes)?;
    let stream = opened(&book, mains, wish)?;
    Ok(Ok(stream.second().unwrap_or(stream.first()).clone()))
}

fn offers(
    loaded: &mut Loaded,
    mains: Mains,
    asked: &dyn Fn(u16) -> Asked,
) -> Result<Vec<Offer>, Trouble> {
    let usual = loaded.book.usual_account();
    let wishes =
        |&period: &u16| [false, true].map(|second| Wish { second, ..asked(period).wish(usual) });
    let wishes: Vec<_> = PERIODS.iter().flat_map(wishes).collect();
    let book = &loaded.bytes;
    let requests: Vec<_> = wishes.iter().map(|&wish| mains.open(book, wish)).collect();
    let answers = loaded.engine.ask_all(&requests)?;
    let routes = answers
        .into_iter()
        .zip(wishes)
        .map(|(answer, wish)| got(&mains.taken(answer.of_one(), book)?, mains, wish));
    let mut routes = routes.collect::<Result<Vec<_>, _>>()?.into_iter();
    let mut next = || routes.next().expect("two answers for each period");
    Ok(PERIODS.map(|period| Offer { period, first: next(), second: next() }).into())
}

fn refused(number: u8) -> String {
    format!("refused {number}: {}\n", meaning(number))
}

/// What routes draw together, where accounts are kept.
fn draws(kept: bool, who: &str, ways: &[&Way]) -> String {
    if !kept {
        return String::new();
    }
    let all = ways.iter().map(|way| way.draws()).sum();
    format!("{INDENT}{who} {} in a cycle\n", count::<u32>(all, "hop use"))
}

fn lines(offer: &Offer, kept: bool) -> String {
    let period = format!("period {:>4}:", offer.period);
    let first = match &offer.first {
        Err(number) => return format!("{period} {}", refused(*number)),
        Ok(first) => first,
    };
    let second = match &offer.second {
        Ok(second) => {
            describe::route(INDENT, second) + &draws(kept, "both routes draw", &[first, second])
        }
        Err(number) => format!("{INDENT}second route: {}", refused(*number)),
    };
    let own = describe::way(first) + &draws(kept, "draws", &[first]);
    format!("{period} {}\n{own}{second}", describe::latency(first))
}

/// What a route gets, and what it draws where accounts are kept, with the route beside it.
fn fields(got: &Got, kept: bool, beside: u32) -> Vec<(&'static str, String)> {
    match got {
        Ok(way) => {
            let draws = kept.then(|| ("draws", (beside + way.draws()).to_string()));
            json::way(way).into_iter().chain(draws).collect()
        }
        Err(number) => json::refusal(*number, meaning(*number)),
    }
}

fn in_json(offer: &Offer, kept: bool) -> String {
    let own = offer.first.as_ref().map(Way::draws);
    let second = own.map(|own| ("second", json::object(fields(&offer.second, kept, own))));
    let period = [("period", offer.period.to_string())];
    json::object(period.into_iter().chain(fields(&offer.first, kept, 0)).chain(second.ok()))
}

/// The account that is named, where one is.
fn account(words: &Words) -> Result<Option<u16>, Trouble> {
    let extras = words.extras(3).filter(|extras| !extras.second).ok_or_else(|| QUOTE.misused())?;
    extras.account.map(as_account).transpose()
}

/// The ends, and the account where accounts are kept.
fn head(ends: String, account: Option<Standing>) -> String {
    let account = account.map(|own| format!(", account {}, {} left", own.number, own.left()));
    format!("{ends}{}\n", account.unwrap_or_default())
}

fn run(words: &Words) -> Result<Report, Trouble> {
    let (source, destination, mains) = (words.node(1)?, words.node(2)?, words.mains()?);
    let account = account(words)?;
    let mut loaded = Loaded::read(words.path(0))?;
    let id = loaded.book.free_id();
    let asked = |period: u16| {
        let period = Number(period.into());
        Asked { id, source, destination, period, second: false, account }
    };
    let offers = offers(&mut loaded, mains, &asked)?;
    loaded.engine.finish()?;
    let (book, ends) = (&loaded.book, about_ends(source.0, destination.0, mains));
    let mut numbers = offers.iter().filter_map(|offer| offer.first.as_ref().err());
    if let Some(&number) = numbers.find(|number| !BY_PERIOD.contains(number)) {
        return Err(match number {
            4 | 5 | 22 => Trouble::Refused(asked(PERIODS[0]).refusal(number, book, mains)),
            _ => Trouble::refused(number, ends),
        });
    }
    let refused = offers.iter().all(|offer| offer.first.is_err());
    let paying = book.kept(account.unwrap_or(book.usual_account()));
    let kept = paying.is_some();
    let text = if words.has(&JSON) {
        let ends = [("source", source.0.to_string()), ("destination", destination.0.to_string())];
        let account = paying.map(|own| ("account", own.number.to_string()));
        let periods = json::array(offers.iter().map(|offer| in_json(offer, kept)));
        json::answer(ends.into_iter().chain(account).chain([("periods", periods)]))
    } else {
        head(ends, paying) + &offers.iter().map(|offer| lines(offer, kept)).collect::<String>()
    };
    Ok(Report { text, refused, ..Report::default() })
}
