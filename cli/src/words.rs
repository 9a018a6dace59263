//! The words of the command line: operands, options, and what they are as numbers.

use crate::account::{WHAT_ACCOUNT, WHAT_AMOUNT};
use crate::book::CYCLE;
use crate::lines;
use crate::mains::Mains;
use crate::request::{self, Extras};
use crate::trouble::Trouble;
use std::ffi::{OsStr, OsString};
use std::os::unix::ffi::OsStrExt;
use std::path::Path;

/// An option of a command, with the name of its value where it has one.
pub struct Choice {
    pub name: &'static str,
    pub value: Option<&'static str>,
}

pub const JSON: Choice = Choice { name: "--json", value: None };
pub const STREAM: Choice = Choice { name: "--stream", value: Some("ID") };
pub const NODE: Choice = Choice { name: "--node", value: Some("NODE") };
pub const DRY_RUN: Choice = Choice { name: "--dry-run", value: None };
pub const NO_LISTS: Choice = Choice { name: "--no-lists", value: None };
pub const MAINS: Choice = Choice { name: "--mains", value: Some("NODES") };
pub const RAW: Choice = Choice { name: "--raw", value: None };

/// The options that every command has.
const HELP: [&str; 2] = ["--help", "-h"];
/// After this word every word is an operand.
const REST: &str = "--";

/// What an id is, for one who wrote another.
pub const WHAT_ID: &str = "an id is a number from 1 to 65535";

/// What follows a command.
#[derive(Default)]
pub struct Words {
    pub operands: Vec<OsString>,
    chosen: Vec<(&'static str, OsString)>,
    pub help: bool,
}

/// A number as it was typed; the engine's fields hold smaller ones.
#[derive(Clone, Copy)]
pub struct Number(pub u64);

impl Number {
    /// The number as a byte: one that is too large is the largest byte, which no node has.
    pub fn node(self) -> u8 {
        u8::try_from(self.0).unwrap_or(u8::MAX)
    }

    /// The number as one of tiles, a period or a tile of the cycle: one that is too large is the largest, which is neither.
    pub fn tiles(self) -> u16 {
        u16::try_from(self.0).unwrap_or(u16::MAX)
    }
}

impl Words {
    /// Sorts words into operands and the options that a command has.
    pub fn sort(
        words: impl IntoIterator<Item = OsString>,
        choices: &[Choice],
    ) -> Result<Words, ()> {
        let mut sorted = Words::default();
        let mut words = words.into_iter();
        let mut rest = false;
        while let Some(word) = words.next() {
            if rest || !(word.as_bytes().starts_with(b"--") || word == "-h") {
                sorted.operands.push(word);
            } else if word == REST {
                rest = true;
            } else if HELP.iter().any(|help| word == *help) {
                sorted.help = true;
            } else {
                let choice = choices.iter().find(|choice| word == choice.name).ok_or(())?;
                let value = if choice.value.is_some() { words.next().ok_or(())? } else { word };
                sorted.chosen.push((choice.name, value));
            }
        }
        Ok(sorted)
    }

    pub fn has(&self, choice: &Choice) -> bool {
        self.chosen.iter().any(|(name, _)| *name == choice.name)
    }

    fn value(&self, choice: &Choice) -> Option<&OsStr> {
        self.chosen.iter().rev().find(|(name, _)| *name == choice.name).map(|(_, v)| v.as_os_str())
    }

    /// The name of a file.
    pub fn path(&self, place: usize) -> &Path {
        Path::new(&self.operands[place])
    }

    /// The id at a place.
    pub fn id(&self, place: usize) -> Result<u16, Trouble> {
        as_id(&self.operands[place])
    }

    /// The node at a place.
    pub fn node(&self, place: usize) -> Result<Number, Trouble> {
        as_node(&self.operands[place])
    }

    /// The node at a place, where there is one.
    pub fn node_if(&self, place: usize) -> Result<Option<Number>, Trouble> {
        self.operands.get(place).map(|word| as_node(word)).transpose()
    }

    /// The period at a place.
    pub fn period(&self, place: usize) -> Result<Number, Trouble> {
        let said = "a period is a number of tiles: 1, 2, 5, 10, 20, 50, 100, 200, 500 or 1000";
        number(&self.operands[place]).ok_or_else(|| misused(said))
    }

    /// The account at a place.
    pub fn account(&self, place: usize) -> Result<u16, Trouble> {
        as_account(self.operands[place].as_bytes())
    }

    /// The hop uses at a place.
    pub fn amount(&self, place: usize) -> Result<u32, Trouble> {
        let amount = number(&self.operands[place]).and_then(|Number(n)| u32::try_from(n).ok());
        amount.ok_or_else(|| misused(WHAT_AMOUNT))
    }

    /// The words from a place on that stand behind the numbers of an open; none where there are others.
    pub fn extras(&self, place: usize) -> Option<Extras<'_>> {
        let words: Vec<&[u8]> = self.operands.iter().skip(place).map(|w| w.as_bytes()).collect();
        Extras::read(&words)
    }

    /// The tile at a place, where there is one.
    pub fn tile_if(&self, place: usize) -> Result<Option<Number>, Trouble> {
        self.number_if(place, "a tile is a number, from 0 on")
    }

    /// The number of tiles at a place, where there is one.
    pub fn count_if(&self, place: usize) -> Result<Option<Number>, Trouble> {
        self.number_if(place, "a count of tiles is a number")
    }

    /// The number at a place, where there is one; what it is, for one who wrote none.
    fn number_if(&self, place: usize, what: &str) -> Result<Option<Number>, Trouble> {
        let Some(word) = self.operands.get(place) else { return Ok(None) };
        number(word).map(Some).ok_or_else(|| misused(what))
    }

    /// The tile of the cycle at a place, where there is one.
    pub fn tile_of_cycle(&self, place: usize) -> Result<Option<u16>, Trouble> {
        let what = format!("a tile is a number from 0 to {}", CYCLE - 1);
        match self.number_if(place, &what)? {
            Some(Number(n)) if u64::from(CYCLE) <= n => Err(misused(&what)),
            tile => Ok(tile.map(Number::tiles)),
        }
    }

    /// The stream that an option names.
    pub fn chosen_stream(&self) -> Result<Option<u16>, Trouble> {
        self.value(&STREAM).map(as_id).transpose()
    }

    /// The nodes on mains that an option names; all where it is not there.
    pub fn mains(&self) -> Result<Mains, Trouble> {
        let set = self.value(&MAINS).map(|word| Mains::read(word.as_bytes()));
        set.unwrap_or(Ok(Mains::All)).map_err(|said| misused(&said))
    }

    /// The node that an option names.
    pub fn chosen_node(&self) -> Result<Option<Number>, Trouble> {
        self.value(&NODE).map(as_node).transpose()
    }
}

fn misused(said: &str) -> Trouble {
    Trouble::Misused(format!("lindurask: {said}"))
}

fn number(word: &OsStr) -> Option<Number> {
    lines::number(word.as_bytes()).map(Number)
}

fn as_id(word: &OsStr) -> Result<u16, Trouble> {
    let id = number(word).and_then(|Number(n)| u16::try_from(n).ok());
    id.ok_or_else(|| misused(WHAT_ID))
}

fn as_node(word: &OsStr) -> Result<Number, Trouble> {
    number(word).ok_or_else(|| misused("a node is a number, from 0 on"))
}

/// The account that a word names.
pub fn as_account(word: &[u8]) -> Result<u16, Trouble> {
    request::account(word).ok_or_else(|| misused(WHAT_ACCOUNT))
}
