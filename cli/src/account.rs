//! The accounts of a book: how many hop uses in a cycle each has bought, and how many its streams draw.

use crate::book::{Book, Stream, Way};
use std::collections::BTreeMap;

/// The most accounts of a book.
pub const MOST_ACCOUNTS: usize = 32;
/// The one account of a book whose clerk keeps none: it never comes to its end.
pub const ENDLESS: Account = Account { number: 0, bought: u32::MAX };
/// What an account and an amount are, for one who wrote another.
pub const WHAT_ACCOUNT: &str = "an account is a number from 0 to 65535";
pub const WHAT_AMOUNT: &str = "an amount of hop uses is a number from 0 to 4294967295";

/// An account as a book holds it.
#[derive(Clone, Copy, Debug, PartialEq, Eq)]
pub struct Account {
    pub number: u16,
    /// The hop uses in a cycle that it has bought.
    pub bought: u32,
}

/// An account and what its streams draw.
#[derive(Clone, Copy, Debug, PartialEq, Eq)]
pub struct Standing {
    pub number: u16,
    pub bought: u32,
    pub drawn: u32,
}

impl Standing {
    /// What can still be drawn.
    pub fn left(&self) -> u32 {
        self.bought.saturating_sub(self.drawn)
    }
}

impl Way {
    /// The hop uses in a cycle that it draws.
    pub fn draws(&self) -> u32 {
        self.hops() as u32 * u32::from(self.repeats())
    }
}

impl Stream<'_> {
    /// The account that it belongs to.
    pub fn account(&self) -> u16 {
        self.first().account
    }

    /// The hop uses in a cycle that it draws over its routes.
    pub fn draws(&self) -> u32 {
        self.ways.iter().map(Way::draws).sum()
    }
}

impl Book {
    /// Its clerk keeps accounts: it has others than the endless one.
    pub fn keeps_accounts(&self) -> bool {
        self.accounts != [ENDLESS]
    }

    /// The account of a stream that names none: the only one, or else account 0.
    pub fn usual_account(&self) -> u16 {
        match self.accounts[..] {
            [only] => only.number,
            _ => ENDLESS.number,
        }
    }

    /// Every account with what its streams draw, by their numbers.
    pub fn standings(&self) -> Vec<Standing> {
        let mut drawn = BTreeMap::<u16, u32>::new();
        for way in &self.ways {
            *drawn.entry(way.account).or_default() += way.draws();
        }
        let standing = |&Account { number, bought }: &Account| {
            let drawn = drawn.get(&number).copied().unwrap_or(0);
            Standing { number, bought, drawn }
        };
        self.accounts.iter().map(standing).collect()
    }

    /// The account of this number.
    pub fn standing(&self, number: u16) -> Option<Standing> {
        self.standings().into_iter().find(|own| own.number == number)
    }

    /// The account of this number, for one whose clerk keeps accounts.
    pub fn kept(&self, number: u16) -> Option<Standing> {
        self.standing(number).filter(|_| self.keeps_accounts())
    }

    /// Their numbers rise, every row is of one of them, and none is overdrawn.
    pub fn has_sound_accounts(&self) -> bool {
        let place = |way: &Way| self.accounts.binary_search_by_key(&way.account, |own| own.number);
        (1..=MOST_ACCOUNTS).contains(&self.accounts.len())
            && self.accounts.windows(2).all(|two| two[0].number < two[1].number)
            && self.ways.iter().all(|way| place(way).is_ok())
            && self.standings().iter().all(|own| own.drawn <= own.bought)
    }

    /// The same book after a purchase; none where it has no such account, or that would hold too much.
    pub fn after_purchase(&self, number: u16, amount: u32) -> Option<Book> {
        let mut book = self.clone();
        let own = book.accounts.iter_mut().find(|own| own.number == number)?;
        own.bought = own.bought.checked_add(amount)?;
        Some(book)
    }
}

#[cfg(test)]
mod tests {
    use super::*;
    use crate::page::samples::{kiln, ring};

    fn paid(book: Book, accounts: &[(u16, u32)], of: impl Fn(u16) -> u16) -> Book {
        let accounts = accounts.iter().map(|&(number, bought)| Account { number, bought });
        let ways = book.ways.iter().map(|way| Way { account: of(way.id), ..way.clone() });
        Book { accounts: accounts.collect(), ways: ways.collect(), ..book }
    }

    #[test]
    fn an_account_is_drawn_by_both_routes_of_its_streams() {
        let book = paid(ring(), &[(3, 1600), (9, 400)], |id| if id == 7 { 3 } else { 9 });
        let drawn: Vec<_> = book.standings().iter().map(|own| (own.drawn, own.left())).collect();
        assert_eq!(drawn, [(1200, 400), (400, 0)]);
        assert!(book.has_sound_accounts() && book.keeps_accounts() && !ring().keeps_accounts());
        assert_eq!([book.usual_account(), ring().usual_account()], [0, 0]);
    }

    #[test]
    fn accounts_that_fall_are_unknown_or_overdrawn_are_not_sound() {
        let sound =
            |accounts: &[(u16, u32)], of: u16| paid(kiln(), accounts, |_| of).has_sound_accounts();
        assert!(sound(&[(4, 2850)], 4) && sound(&[(0, 0), (65535, 2850)], 65535));
        assert!(!sound(&[(4, 2849)], 4) && !sound(&[(4, 2850)], 5) && !sound(&[], 0));
        assert!(!sound(&[(4, 0), (4, 2850)], 4) && !sound(&[(5, 2850), (4, 2850)], 4));
    }
}
