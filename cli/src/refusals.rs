//! The answers by number, in words.

/// What each number says; document 01 has the numbers, and document 02 those from 17 on.
const WORDS: [(u8, &str); 27] = [
    (0, "done"),
    (1, "a stream's id is never 0"),
    (2, "a stream of this id is in the book already"),
    (3, "no stream of this id is in the book"),
    (4, "the site has no node of this number"),
    (5, "source and destination are the same node"),
    (6, "a period is 1, 2, 5, 10, 20, 50, 100, 200, 500 or 1000 tiles"),
    (7, "no route exists between these nodes"),
    (8, "the book is full: 64 routes or 512 hops"),
    (9, "no free slots for this stream"),
    (10, "a number of the plan, of the head or of the accounts is out of its range"),
    (11, "links or hearing not sound: a self-link, one-way, unheard or no such node"),
    (12, "no room for the answer"),
    (13, "this is no book of version 1 to 5: its mark or its version is wrong"),
    (14, "the book is cut short, or not as long as its head says"),
    (15, "the rows of the book's streams are not lawful"),
    (16, "hops of two routes clash and meet in a slot"),
    (17, "every route has over 15 hops"),
    (18, "no second route of at most 6 hops by other relays"),
    (19, "tables not sound: their length, an operation, an id or a control slot"),
    (20, "no lawful book with periods up to 100 expands to these tables"),
    (21, "the tiles are not in the cycle of 1000, or are none, or over 100 at once"),
    (22, "the book has no account of this number"),
    (23, "not enough left on the account"),
    (24, "an account holds at most 4294967295 hop uses"),
    (25, "the mains set names a node that the site has not"),
    (26, "a list has at most 64 requests"),
];

/// What the number says; none where no answer has it.
pub fn words(number: u8) -> Option<&'static str> {
    WORDS.iter().find(|(own, _)| *own == number).map(|(_, words)| *words)
}

/// Every refusal with its words.
pub fn all() -> impl Iterator<Item = (u8, &'static str)> {
    WORDS.into_iter().skip(1)
}

#[cfg(test)]
mod tests {
    use super::*;
    use crate::book::NEWEST;

    #[test]
    fn a_book_of_no_version_is_told_which_there_are() {
        let versions = format!("version 1 to {NEWEST}:");
        assert!(words(13).is_some_and(|words| words.contains(&versions)));
    }
}
