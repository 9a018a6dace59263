//! A site's plan, its links, who hears whom and its accounts as a person types them: read line by line, and explained where
//! the engine refuses it.

use crate::account::{Account, ENDLESS, MOST_ACCOUNTS, WHAT_ACCOUNT, WHAT_AMOUNT};
use crate::book::MOST_NODES;
use crate::frame::Site;
use crate::lines::{fault, lines, numbers, Fault};
use std::collections::BTreeMap;

/// The numbers by which the engine refuses a plan, and its links or its hearing.
const OUT_OF_RANGE: u8 = 10;
const UNSOUND_PAIRS: u8 = 11;
/// What a line may start with.
const STARTS: &str = "a line starts with slots, tiles, control, nodes, link, hear or account";

/// How the line of an account is written, for one who wrote it otherwise.
const AS_ACCOUNT: &str =
    "write account, its number and the hop uses that it has bought, as in: account 3 1000";

/// What is said of an account in the plan of a book that is found by its tables.
const ONE_ACCOUNT: &str =
    "a book made from tables has the one account 0; take the account lines out of the plan";

/// Two nodes that a line joins.
type Pair = Said<(u64, u64)>;

/// A value and the line that says it.
#[derive(Clone)]
struct Said<T> {
    line: usize,
    value: T,
}

/// What all lines say together.
#[derive(Default)]
pub struct Plan {
    slots: Option<Said<u64>>,
    tiles: Option<Said<Vec<bool>>>,
    control: Option<Said<(u64, u64)>>,
    nodes: Option<Said<u64>>,
    links: Vec<Pair>,
    /// The pairs that hear each other; linked ones do without being named here.
    hears: Vec<Pair>,
    /// What each account has bought, by its number.
    accounts: BTreeMap<u16, Said<u32>>,
}

/// The kinds of tiles that words name: true for downlink.
fn kinds(words: &[&[u8]]) -> Option<Vec<bool>> {
    let kind = |word: &&[u8]| match *word {
        b"down" | b"downlink" => Some(true),
        b"up" | b"uplink" => Some(false),
        _ => None,
    };
    words.iter().map(kind).collect()
}

/// Keeps a value that is said once.
fn keep<T>(place: &mut Option<Said<T>>, line: usize, value: T) -> Result<(), Fault> {
    if let Some(before) = place {
        return fault(line, format!("this was said in line {} before", before.line));
    }
    *place = Some(Said { line, value });
    Ok(())
}

/// Keeps a pair of nodes; one that is said again is the same.
fn join(pairs: &mut Vec<Pair>, line: usize, value: (u64, u64)) -> Result<(), Fault> {
    pairs.push(Said { line, value });
    Ok(())
}

/// The account that numbers say.
fn account(line: usize, [number, bought]: [u64; 2]) -> Result<Account, Fault> {
    let Ok(number) = u16::try_from(number) else { return fault(line, WHAT_ACCOUNT) };
    let Ok(bought) = u32::try_from(bought) else { return fault(line, WHAT_AMOUNT) };
    Ok(Account { number, bought })
}

/// A row for each node with those that it is joined to. A node that no row can hold makes a row too many, which the
/// engine refuses.
fn rows<'a>(nodes: u64, pairs: impl Iterator<Item = &'a Pair>) -> Vec<u8> {
    let count = nodes.min(MOST_NODES as u64) as usize;
    let mut rows = vec![0u64; count];
    for (from, to) in pairs.map(|pair| pair.value).flat_map(|(a, b)| [(a, b), (b, a)]) {
        match rows.get_mut(from as usize) {
            Some(row) if to < MOST_NODES as u64 => *row |= 1 << to,
            _ => rows.resize(rows.len().max(count + 1), 0),
        }
    }
    rows.iter().flat_map(|row| row.to_be_bytes()).collect()
}

impl Plan {
    /// Reads a plan.
    pub fn read(text: &[u8]) -> Result<Plan, Fault> {
        let mut plan = Plan::default();
        for (line, words) in lines(text) {
            plan.take(line, &words)?;
        }
        plan.whole()
    }

    /// Takes what one line says.
    fn take(&mut self, line: usize, words: &[&[u8]]) -> Result<(), Fault> {
        let Some((&head, rest)) = words.split_first() else { return Ok(()) };
        match head {
            b"slots" => match numbers(rest) {
                Some([n]) => keep(&mut self.slots, line, n),
                None => fault(line, "write slots and one number, as in: slots 4"),
            },
            b"tiles" => match kinds(rest) {
                Some(kinds) => keep(&mut self.tiles, line, kinds),
                None => fault(line, "write down or up for each tile, as in: tiles down up"),
            },
            b"control" => match numbers(rest) {
                Some([down, up]) => keep(&mut self.control, line, (down, up)),
                None => fault(
                    line,
                    "write control and two numbers, for downlink and uplink tiles, as in: control 2 1",
                ),
            },
            b"nodes" => match numbers(rest) {
                Some([n]) => keep(&mut self.nodes, line, n),
                None => fault(line, "write nodes and one number, as in: nodes 4"),
            },
            b"link" => match numbers(rest) {
                Some([a, b]) => join(&mut self.links, line, (a, b)),
                None => fault(line, "write link and two nodes, as in: link 0 1"),
            },
            b"hear" => match numbers(rest) {
                Some([a, b]) => join(&mut self.hears, line, (a, b)),
                None => fault(line, "write hear and two nodes, as in: hear 0 2"),
            },
            b"account" => match numbers(rest) {
                Some(said) => self.keep_account(line, account(line, said)?),
                None => fault(line, AS_ACCOUNT),
            },
            _ => fault(line, STARTS),
        }
    }

    /// Keeps an account that is said once.
    fn keep_account(&mut self, line: usize, account: Account) -> Result<(), Fault> {
        let Account { number, bought } = account;
        if let Some(before) = self.accounts.insert(number, Said { line, value: bought }) {
            return fault(
                line,
                format!("account {number} was said in line {} before", before.line),
            );
        }
        Ok(())
    }

    /// The plan, if it says no account: for a book that has the endless one alone.
    pub fn without_accounts(self) -> Result<Plan, Fault> {
        match self.accounts.values().map(|said| said.line).min() {
            Some(line) => fault(line, ONE_ACCOUNT),
            None => Ok(self),
        }
    }

    /// The accounts as in a book, without their count: the endless one where none is said. Of too many the first one too
    /// many is the last.
    fn accounts(&self) -> Vec<u8> {
        let said = self.accounts.iter().map(|(&number, said)| (number, said.value));
        let endless = self.accounts.is_empty().then_some((ENDLESS.number, ENDLESS.bought));
        let all = said.chain(endless).take(MOST_ACCOUNTS + 1);
        all.flat_map(|(number, bought)| {
            number.to_be_bytes().into_iter().chain(bought.to_be_bytes())
        })
        .collect()
    }

    /// The line with the first account too many, where there is one.
    fn too_many_accounts(&self) -> Option<usize> {
        let mut lines: Vec<usize> = self.accounts.values().map(|said| said.line).collect();
        lines.sort_unstable();
        lines.get(MOST_ACCOUNTS).copied()
    }

    /// The plan, if nothing is missing.
    fn whole(self) -> Result<Plan, Fault> {
        let there = [
            ("slots", self.slots.is_some()),
            ("tiles", self.tiles.is_some()),
            ("control", self.control.is_some()),
            ("nodes", self.nodes.is_some()),
        ];
        match there.iter().find(|(_, there)| !there) {
            Some((name, _)) => fault(0, format!("there is no line {name}")),
            None => Ok(self),
        }
    }

    /// What the engine makes a book of. A number that a field cannot hold is the largest that it holds, which no
    /// site has.
    pub fn site(&self) -> Site {
        let byte = |n: u64| u8::try_from(n).unwrap_or(u8::MAX);
        let (Some(slots), Some(tiles)) = (&self.slots, &self.tiles) else { unreachable!() };
        let (Some(control), Some(nodes)) = (&self.control, &self.nodes) else { unreachable!() };
        let kinds =
            tiles.value.iter().take(16).rev().fold(0, |bits, &down| bits << 1 | u16::from(down));
        Site {
            slots: byte(slots.value),
            tiles: byte(tiles.value.len() as u64),
            kinds,
            down: byte(control.value.0),
            up: byte(control.value.1),
            nodes: byte(nodes.value),
            links: rows(nodes.value, self.links.iter()),
            hearing: rows(nodes.value, self.links.iter().chain(&self.hears)),
            accounts: self.accounts(),
        }
    }

    /// The line that the engine's refusal is about, and what is wrong with it.
    pub fn explain(&self, number: u8) -> Option<Fault> {
        match number {
            OUT_OF_RANGE => self.out_of_range(),
            UNSOUND_PAIRS => self.unsound_pair(),
            _ => None,
        }
    }

    /// The first line that joins nodes as none may be joined.
    fn unsound_pair(&self) -> Option<Fault> {
        let links =
            self.links.iter().filter_map(|pair| self.unsound(pair, "no node links to itself"));
        let hears = self.hears.iter().filter_map(|pair| self.unsound(pair, "no node hears itself"));
        links.chain(hears).min_by_key(|fault| fault.line)
    }

    fn out_of_range(&self) -> Option<Fault> {
        let slots = self.slots.as_ref()?;
        let tiles = self.tiles.as_ref()?;
        let control = self.control.as_ref()?;
        let nodes = self.nodes.as_ref()?;
        let (down, up) = control.value;
        let mut faults = [
            (slots.line, !(1..=32).contains(&slots.value), "a tile has 1 to 32 slots"),
            (
                tiles.line,
                ![1, 2, 4, 5, 10].contains(&tiles.value.len()),
                "a plan has 1, 2, 4, 5 or 10 tiles",
            ),
            (
                nodes.line,
                !(2..=MOST_NODES as u64).contains(&nodes.value),
                "a site has 2 to 64 nodes",
            ),
            (
                control.line,
                down.max(up) > slots.value,
                "there are more control slots than slots in a tile",
            ),
            (
                self.too_many_accounts().unwrap_or(0),
                MOST_ACCOUNTS < self.accounts.len(),
                "a book has at most 32 accounts",
            ),
        ];
        faults.sort_by_key(|&(line, ..)| line);
        let (line, _, words) = faults.into_iter().find(|&(_, wrong, _)| wrong)?;
        Some(Fault { line, words: words.into() })
    }

    /// What is wrong with a pair; these words are said of a node joined to itself.
    fn unsound(&self, pair: &Pair, of_one: &str) -> Option<Fault> {
        let nodes = self.nodes.as_ref()?.value;
        let (a, b) = pair.value;
        let words = match [a, b].into_iter().find(|&node| nodes <= node) {
            Some(node) => {
                format!("the site has no node {node}; they count from 0 to {}", nodes - 1)
            }
            None if a == b => format!("{of_one} (node {a})"),
            None => return None,
        };
        Some(Fault { line: pair.line, words })
    }
}
