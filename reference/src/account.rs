//! Prepaid accounts: what each has bought and what its streams draw.

use crate::book::Book;
use crate::plan::repeats;

/// The most accounts in a book.
pub const MAX_ACCOUNTS: usize = 32;

/// Bytes of an account: its number in 2, what it bought in 4.
pub const ACCOUNT_BYTES: usize = 6;

/// An account, in hop uses per cycle.
#[derive(Clone, Copy, Debug, PartialEq, Eq)]
pub struct Account {
    pub number: u16,
    pub bought: u32,
}

/// The account of a book that knows of none.
pub const ONLY_ACCOUNT: Account = Account { number: 0, bought: u32::MAX };

/// Reads a list of accounts; none if it is not 1 to 32 of them, rising strictly
/// by number.
pub fn read_accounts(bytes: &[u8]) -> Option<Vec<Account>> {
    let accounts: Option<Vec<Account>> = bytes.chunks(ACCOUNT_BYTES).map(read_account).collect();
    accounts.filter(|accounts| {
        (1..=MAX_ACCOUNTS).contains(&accounts.len())
            && accounts.windows(2).all(|pair| pair[0].number < pair[1].number)
    })
}

fn read_account(bytes: &[u8]) -> Option<Account> {
    let (number, bought) = bytes.split_at_checked(2)?;
    Some(Account {
        number: u16::from_be_bytes(number.try_into().ok()?),
        bought: u32::from_be_bytes(bought.try_into().ok()?),
    })
}

pub fn write_accounts(accounts: &[Account]) -> Vec<u8> {
    let mut bytes = Vec::new();
    for account in accounts {
        bytes.extend(account.number.to_be_bytes());
        bytes.extend(account.bought.to_be_bytes());
    }
    bytes
}

/// The hop uses of so many hops of a period: hops × 1000/K.
pub fn draw(hops: usize, period: u16) -> u64 {
    (hops * repeats(period)) as u64
}

impl Book {
    /// The account of this number.
    pub fn account(&self, number: u16) -> Option<Account> {
        self.accounts.iter().copied().find(|account| account.number == number)
    }

    /// What the rows of this account draw.
    pub fn drawn(&self, account: u16) -> u64 {
        let rows = self.rows.iter().filter(|row| row.account == account);
        rows.map(|row| draw(row.offsets.len(), row.period)).sum()
    }
}
