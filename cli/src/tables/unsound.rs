//! The first entry that no table of this site has, and the first of a route too many.

use super::{Fault, Tables};
use crate::book::MOST_ROUTES;
use crate::table::{Entry, Work};
use std::collections::BTreeSet;

/// The first entry that is no operation, has an id where none belongs or none where one does, or is control in another slot
/// than a control slot, or something else in one.
pub fn first(tables: &Tables) -> Option<Fault> {
    let mut entries = tables.entries.iter().enumerate();
    entries.find_map(|(at, &entry)| Some(tables.fault(at, wrong(entry, tables.is_control(at))?)))
}

/// What is wrong with an entry by itself.
fn wrong(entry: Entry, in_control: bool) -> Option<String> {
    let Entry { operation, id } = entry;
    let is_idle = matches!(entry.work(), Work::Sleep | Work::Control);
    let is_control = entry.work() == Work::Control;
    let said = if !entry.is_known() {
        format!("{operation} is no operation")
    } else if is_idle && id != 0 {
        let what = if is_control { "control" } else { "sleep" };
        format!("operation {operation}, {what}, has no stream's id, and here it has {id}")
    } else if !is_idle && id == 0 {
        format!("operation {operation} has a stream's id, and here it has none")
    } else if is_control && !in_control {
        "control stands in a data slot".into()
    } else if !is_control && in_control {
        format!("this is a control slot, and operation {operation} is not control")
    } else {
        return None;
    };
    Some(said)
}

/// The first entry of the first route that is one too many.
pub fn too_many(tables: &Tables) -> Option<Fault> {
    let mut routes = BTreeSet::new();
    let at = tables.entries.iter().position(|entry| {
        entry.id != 0 && routes.insert((entry.id, entry.is_second())) && MOST_ROUTES < routes.len()
    })?;
    let words = format!("here starts route {}, and a book has at most {MOST_ROUTES}", routes.len());
    Some(tables.fault(at, words))
}
