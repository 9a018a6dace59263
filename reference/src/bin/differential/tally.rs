//! How often each answer number of each call was reached.

use crate::account_events::ACCOUNT_EVENTS;
use crate::events::EVENTS;
use crate::posting_events::POSTING_EVENTS;
use crate::second_events::SECOND_EVENTS;
use reference::frame::{Answer, Call};
use reference::record::{RECORD_BYTES, Record};
use std::collections::BTreeMap;
use std::fmt::Write;

/// Who gives a number: a call, or a record of a posting.
#[derive(Clone, Copy, Debug, PartialEq, Eq)]
enum Giver {
    Call(Call),
    Record,
}

impl Giver {
    fn all() -> Vec<Giver> {
        Call::ALL.into_iter().map(Giver::Call).chain([Giver::Record]).collect()
    }

    fn name(self) -> String {
        match self {
            Giver::Call(call) => format!("{call:?}").to_lowercase(),
            Giver::Record => "record".to_string(),
        }
    }

    /// The numbers the documents make possible.
    fn possible(self) -> &'static [u8] {
        match self {
            Giver::Call(call) => possible(call),
            Giver::Record => &[0, 1, 2, 3, 4, 5, 6, 7, 8, 9, 17, 18, 22, 23],
        }
    }
}

/// The numbers the documents make possible for a call.
fn possible(call: Call) -> &'static [u8] {
    match call {
        Call::New => &[0, 10, 11, 12],
        Call::Check => &[0, 10, 11, 13, 14, 15, 16],
        Call::Rewrite => &[0, 10, 11, 12, 13, 14, 15, 16],
        Call::Open => &[0, 1, 2, 4, 5, 6, 7, 8, 9, 10, 11, 12, 13, 14, 15, 16, 17, 18, 22, 23],
        Call::Close => &[0, 1, 3, 10, 11, 12, 13, 14, 15, 16],
        Call::Expand => &[0, 4, 10, 11, 12, 13, 14, 15, 16, 21],
        Call::Balance => &[0, 4, 10, 11, 13, 14, 15, 16],
        Call::Routes => &[0, 4, 5, 10, 11, 12, 13, 14, 15, 16, 25],
        Call::Post => &[0, 10, 11, 12, 13, 14, 15, 16, 25, 26],
        Call::KeepsTo => &[0, 10, 11, 13, 14, 15, 16, 25],
        Call::Purchase => &[0, 10, 11, 12, 13, 14, 15, 16, 22, 24],
        Call::Links => &[0, 4, 10, 11, 13, 14, 15, 16],
        Call::Salvage => &[0, 10, 11, 12, 13, 14],
        Call::BookOf => &[0, 8, 10, 11, 12, 19, 20],
    }
}

#[derive(Default)]
pub struct Tally {
    /// How often a giver, by name, gave a number.
    counts: BTreeMap<(String, u8), u64>,
    /// Calls of each family, in order of appearance.
    families: Vec<(&'static str, u64)>,
    events: BTreeMap<&'static str, u64>,
}

/// The events that every run must reach.
fn all_events() -> impl Iterator<Item = &'static str> {
    EVENTS.into_iter().chain(SECOND_EVENTS).chain(POSTING_EVENTS).chain(ACCOUNT_EVENTS)
}

impl Tally {
    pub fn add(&mut self, family: &'static str, call: Call, answer: &Answer) {
        self.count_number(Giver::Call(call), answer.number);
        if answer.number == 0 {
            for record in answer.records.chunks_exact(RECORD_BYTES).map(Record::read) {
                self.count_number(Giver::Record, record.answer);
            }
        }
        match self.families.last_mut() {
            Some((name, calls)) if *name == family => *calls += 1,
            _ => self.families.push((family, 1)),
        }
    }

    fn count_number(&mut self, giver: Giver, number: u8) {
        *self.counts.entry((giver.name(), number)).or_default() += 1;
    }

    pub fn add_events(&mut self, names: Vec<&'static str>) {
        for name in names {
            *self.events.entry(name).or_default() += 1;
        }
    }

    /// All calls so far.
    pub fn total(&self) -> u64 {
        self.families.iter().map(|(_, calls)| calls).sum()
    }

    /// The pairs that were not reached and are possible, or were reached and
    /// are not, and the events that were not reached.
    pub fn faults(&self) -> Vec<String> {
        let missed = all_events().filter(|name| !self.events.contains_key(name));
        let mut faults: Vec<String> = missed.map(|name| format!("never: {name}")).collect();
        for giver in Giver::all() {
            for number in 0..=u8::MAX {
                let reached = self.count(giver, number) > 0;
                match (giver.possible().contains(&number), reached) {
                    (true, false) => faults.push(format!("{} never gave {number}", giver.name())),
                    (false, true) => faults.push(format!("{} gave {number}", giver.name())),
                    _ => {}
                }
            }
        }
        faults
    }

    /// The table of givers and numbers; a dot where a pair is not possible.
    pub fn table(&self) -> String {
        let mut numbers: Vec<u8> =
            Giver::all().iter().flat_map(|giver| giver.possible()).copied().collect();
        numbers.sort();
        numbers.dedup();
        let mut text = format!("{:<9}", "number");
        for number in &numbers {
            write!(text, "{number:>7}").unwrap();
        }
        for giver in Giver::all() {
            write!(text, "\n{:<9}", giver.name()).unwrap();
            for &number in &numbers {
                match self.count(giver, number) {
                    0 if !giver.possible().contains(&number) => write!(text, "{:>7}", "."),
                    count => write!(text, "{count:>7}"),
                }
                .unwrap();
            }
        }
        text
    }

    /// One line for each family, and one for each event.
    pub fn families(&self) -> String {
        let line = |(name, calls): (&str, u64)| format!("{calls:>8} {name}\n");
        let events = all_events().map(|name| (name, self.events.get(name).copied().unwrap_or(0)));
        self.families.iter().copied().chain(events).map(line).collect()
    }

    fn count(&self, giver: Giver, number: u8) -> u64 {
        self.counts.get(&(giver.name(), number)).copied().unwrap_or(0)
    }
}
