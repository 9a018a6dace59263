//! What must have happened in a run with accounts.

use reference::book::Book;
use reference::calls;
use reference::frame::{Answer, Call, Request};
use reference::image;
use reference::refusal::{DONE, Refusal};
use reference::version::{HEADER_LENGTH, Version};

const LAST_USE: &str = "opens that leave an account nothing";
const ONE_SHORT: &str = "23 where one hop use is missing";
const SECOND_SHORT: &str = "23 where the first route alone could be paid";
const MOST_BOUGHT: &str = "purchases up to the largest number";
const ONE_PAST: &str = "24 where the amount is one too much";
const NOTHING_BOUGHT: &str = "purchases of nothing";
const OLDER_BOUGHT: &str = "older versions written in the newest by a purchase";
const OVERDRAWN: &str = "15 where one hop use more would be lawful";
const SALVAGED_UNPAID: &str = "salvages of an account list that does not pay for all rows";
const LIST_CUT: &str = "14 inside an account list";
const LIST_LONG: &str = "10 of an account list whose image would have its length";

pub const ACCOUNT_EVENTS: [&str; 11] = [
    LAST_USE,
    ONE_SHORT,
    SECOND_SHORT,
    MOST_BOUGHT,
    ONE_PAST,
    NOTHING_BOUGHT,
    OLDER_BOUGHT,
    OVERDRAWN,
    SALVAGED_UNPAID,
    LIST_CUT,
    LIST_LONG,
];

/// The events of one call.
pub fn account_events(request: &Request, answer: &Answer) -> Vec<&'static str> {
    match (request.call, answer.number) {
        (Call::Open, DONE) => opened_event(request, answer),
        (Call::Open, 23) => unpaid_events(request),
        (Call::Purchase, DONE) => bought_events(request, answer),
        (Call::Purchase, 24) => which([(past_by_one(request), ONE_PAST)]),
        (Call::Check, 10 | 14 | 15) => image_events(&request.bytes, answer.number),
        (Call::Salvage, DONE) => which([(has_unpaid(request, answer), SALVAGED_UNPAID)]),
        _ => Vec::new(),
    }
}

/// What an account of the book has left.
fn left(book: &Book, number: u16) -> u64 {
    book.account(number).map_or(0, |account| u64::from(account.bought) - book.drawn(number))
}

fn opened_event(request: &Request, answer: &Answer) -> Vec<&'static str> {
    let (_, after) = image::read(answer.written()).expect("an open writes a lawful book");
    which([(left(&after, request.account) == 0, LAST_USE)])
}

/// The open again, without its second route and with one hop use more.
fn unpaid_events(request: &Request) -> Vec<&'static str> {
    let (_, mut book) = image::read(&request.bytes).expect("23 is not the image's");
    let first = Request { second: false, ..request.clone() };
    let alone = request.second && first.answer().number == DONE;
    for account in book.accounts.iter_mut().filter(|account| account.number == request.account) {
        account.bought += 1;
    }
    let bytes = image::write(Version::NEWEST, &book);
    let richer = Request { bytes, ..request.clone() };
    which([(alone, SECOND_SHORT), (richer.answer().number == DONE, ONE_SHORT)])
}

fn bought_events(request: &Request, answer: &Answer) -> Vec<&'static str> {
    let (version, _) = image::read(&request.bytes).expect("a purchase has a lawful book");
    let (_, after) = image::read(answer.written()).expect("a purchase writes a lawful book");
    let bought = after.account(request.account).map(|account| account.bought);
    which([
        (bought == Some(u32::MAX) && request.amount > 0, MOST_BOUGHT),
        (request.amount == 0, NOTHING_BOUGHT),
        (version < Version::NEWEST, OLDER_BOUGHT),
    ])
}

fn past_by_one(request: &Request) -> bool {
    request.amount > 0
        && Request { amount: request.amount - 1, ..request.clone() }.answer().number != 24
}

/// An image that is refused around its accounts.
fn image_events(image: &[u8], number: u8) -> Vec<&'static str> {
    let newest = image.get(3..5) == Some(&(Version::NEWEST as u16).to_be_bytes()[..]);
    let Some(count) = image.get(HEADER_LENGTH).map(|&count| usize::from(count)) else {
        return which([(newest && number == 14, LIST_CUT)]);
    };
    let end = HEADER_LENGTH + Version::NEWEST.accounts_bytes(count);
    let length = Version::NEWEST.image_length(
        count,
        image[11],
        usize::from(image[12]),
        usize::from(u16::from_be_bytes([image[13], image[14]])),
    );
    which([
        (newest && number == 14 && image.len() < end, LIST_CUT),
        (newest && number == 10 && image.len() == length && image[15] == 0, LIST_LONG),
        (newest && number == 15 && pays_with_one_more(image, count), OVERDRAWN),
    ])
}

/// With one hop use more in one of so many accounts the image is lawful.
fn pays_with_one_more(image: &[u8], count: usize) -> bool {
    (0..count).any(|place| {
        let last = HEADER_LENGTH + Version::NEWEST.accounts_bytes(place + 1) - 1;
        let mut richer = image.to_vec();
        richer[last] = richer[last].wrapping_add(1);
        calls::check(&richer).0 == DONE
    })
}

/// A row that was dropped for 15 is kept where accounts have bought more.
fn has_unpaid(request: &Request, answer: &Answer) -> bool {
    let Ok(head) = image::read_head(&request.bytes) else { return false };
    if !head.version.stores_accounts() {
        return false;
    }
    let mut richer = request.bytes.clone();
    for place in 0..head.accounts.len() {
        let end = HEADER_LENGTH + head.version.accounts_bytes(place + 1);
        richer[end - 4..end].fill(u8::MAX);
    }
    let reasons = |report: &[u8]| -> Vec<u8> { report.chunks(3).map(|line| line[0]).collect() };
    let again = Request { bytes: richer, room: 16384, ..request.clone() }.answer();
    let unlawful = Refusal::UnlawfulRows as u8;
    let pairs = reasons(&answer.beside).into_iter().zip(reasons(&again.beside));
    pairs.take(answer.counts[1] as usize).any(|(one, other)| one == unlawful && other == DONE)
}

fn which<const N: usize>(happened: [(bool, &'static str); N]) -> Vec<&'static str> {
    happened.into_iter().filter(|(so, _)| *so).map(|(_, event)| event).collect()
}
