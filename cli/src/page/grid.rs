//! The slots of the cycle as a grid: a row for each node, a column for each slot, tile by tile.

mod parts;
mod sketch;

use super::markup::{joined, scrolling};
use super::traffic::names;
use crate::book::{Book, CYCLE};
use crate::text::count;
use sketch::Sketch;

/// The most tiles of a repeat that are drawn.
const MOST_DRAWN: u16 = 100;
/// The most idle tiles in a row that are drawn all the same: those of the longest plan.
const IDLE_DRAWN: usize = 10;
/// The most nodes for which tiles go on in a further line, where there is room, and not sideways.
const FEW_NODES: usize = 24;

/// The grid with its legend and what it leaves out.
pub fn grid(book: &Book) -> String {
    let sketch = Sketch::new(book, book.repeats_after().min(MOST_DRAWN));
    let tiles = (0..sketch.shown).collect::<Vec<_>>();
    let runs = tiles.chunk_by(|&a, &b| sketch.is_idle(a) == sketch.is_idle(b)).collect::<Vec<_>>();
    let is_left_out = |run: &[u16]| sketch.is_idle(run[0]) && run.len() > IDLE_DRAWN;
    let left_out = runs.iter().filter(|run| is_left_out(run)).map(|run| span(run));
    let drawn = runs.iter().map(|run| {
        if is_left_out(run) {
            format!("<p class=\"idle\">{}: control and sleep only</p>\n", span(run))
        } else {
            run.iter().map(|&tile| sketch.tile(tile)).collect()
        }
    });
    let body = format!("{}{}", sketch.node_names(), drawn.collect::<String>());
    let class = if book.links.len() > FEW_NODES { "slots" } else { "slots few" };
    format!(
        "<p>{}{} {READING}</p>\n{}{}{}",
        extent(&sketch),
        omission(&left_out.collect::<Vec<_>>()),
        legend(book),
        sketch.parts(),
        scrolling("Slots of the cycle by node", class, &body)
    )
}

/// How the grid is read.
const READING: &str = "An offset of a stream counts slots from the start of the cycle; the hop \
    takes that slot and comes again after every period. The table of streams says the same in \
    numbers.";

/// How much of the cycle is shown, and whose hops are not.
fn extent(sketch: &Sketch) -> String {
    let repeat = sketch.book.repeats_after();
    let (tiles, times) = (count(repeat, "tile"), count(CYCLE / repeat, "repeat"));
    let shown = match sketch.shown == repeat {
        true => "one repeat is shown".to_string(),
        false => format!("the first {} of them are shown", sketch.shown),
    };
    let said = format!(
        "The picture repeats after {tiles}: {shown}, and a cycle of {CYCLE} tiles has {times}."
    );
    match names(sketch.book, &sketch.later()) {
        none if none.is_empty() => said,
        names => format!("{said} Hops in later tiles, not shown: streams {names}."),
    }
}

/// What the picture leaves out, if anything.
fn omission(spans: &[String]) -> String {
    if spans.is_empty() {
        return String::new();
    }
    format!(" Left out, for no stream is at work there: {}.", joined(spans, ", "))
}

/// Tiles that follow each other, in words.
fn span(tiles: &[u16]) -> String {
    format!("tiles {} to {}", tiles[0], tiles[tiles.len() - 1])
}

/// What the cells mean; each kind differs by more than its colour.
fn legend(book: &Book) -> String {
    let mut kinds = vec![
        ("control", "", "control: hatched"),
        ("sleep", "", "sleep: empty"),
        ("sends", "7", "sending: full, with the stream’s id"),
        ("receives", "7", "receiving: framed, with the stream’s id"),
    ];
    if book.has_second() {
        let meaning = "receiving on a second route: its frame is dashed, its id marked ′";
        kinds.push(("second receives", "7′", meaning));
    }
    let item = |(class, id, meaning): &(&str, &str, &str)| {
        format!(
            "<li><svg class=\"sample k0\" viewBox=\"0 0 26 18\" aria-hidden=\"true\">\
             <g class=\"{class}\"><rect x=\"1\" y=\"1\" width=\"24\" height=\"16\"/>\
             <text x=\"13\" y=\"13\">{id}</text></g></svg> {meaning}</li>\n"
        )
    };
    format!("<ul class=\"legend\">\n{}</ul>\n", kinds.iter().map(item).collect::<String>())
}
