//! The grid read back from the page, cell by cell, and compared with document 01 in every slot.

use super::samples::{bare, full_site, kiln, line_book, ring, stream};
use super::wellformed::{tags, Tag};
use super::{grid, style};
use crate::book::{Book, CYCLE};
use std::collections::BTreeMap;

/// The tiles of the cycle.
const TILES: usize = CYCLE as usize;

/// What a node does in a slot of the cycle, by node and slot.
type Table = Vec<Vec<String>>;

/// A rectangle of the grid: what it means, and where it lies.
#[derive(Clone)]
struct Cell {
    meaning: String,
    left: usize,
    top: usize,
    width: usize,
    height: usize,
}

/// The named parts of the drawing, each with its cells.
fn parts(tags: &[Tag]) -> BTreeMap<String, Vec<Cell>> {
    let mut parts = BTreeMap::<String, Vec<Cell>>::new();
    let (mut part, mut colour, mut class) = (String::new(), String::new(), String::new());
    for tag in tags.iter().filter(|tag| !tag.closes) {
        match (tag.name.as_str(), tag.value("id"), tag.value("class")) {
            ("svg", ..) | ("g", "", "") | ("g", "", "slot-numbers") => class.clear(),
            ("g", "", kind) => class = kind.to_string(),
            ("g", id, k) => (part, colour, class) = (id.to_string(), k.to_string(), String::new()),
            ("rect", ..) if !class.is_empty() => {
                let [left, top, width, height] =
                    ["x", "y", "width", "height"].map(|name| tag.number(name));
                parts.entry(part.clone()).or_default().push(Cell {
                    meaning: class.clone(),
                    left,
                    top,
                    width,
                    height,
                });
            }
            ("text", ..) if class == "sends" || class == "receives" => {
                let cell = parts
                    .get_mut(&part)
                    .and_then(|cells| cells.last_mut())
                    .expect("a name without a cell");
                cell.meaning = format!("{class} {colour} {}", tag.text);
            }
            _ => {}
        }
    }
    parts
}

/// The tiles that are drawn, each with the parts that it uses.
fn tiles(tags: &[Tag]) -> BTreeMap<usize, Vec<String>> {
    let mut tiles = BTreeMap::<usize, Vec<String>>::new();
    let mut tile = None;
    for tag in tags.iter().filter(|tag| !tag.closes) {
        if tag.name == "svg" {
            let label = tag.value("aria-label").strip_prefix("Tile ");
            tile = label.and_then(|label| label.split(',').next()?.parse::<usize>().ok());
        } else if let (Some(tile), "use") = (tile, tag.name.as_str()) {
            tiles
                .entry(tile)
                .or_default()
                .push(tag.value("href").trim_start_matches('#').to_string());
        }
    }
    tiles
}

/// A number of tiles that the page says behind these words.
fn said_behind(page: &str, words: &str) -> Option<usize> {
    let number = page.split(words).nth(1).and_then(|rest| rest.split(' ').next());
    number.map(|number| number.parse().expect("a number of tiles"))
}

/// After how many tiles the picture comes again, and how many of these are shown, as the page says it.
fn tiles_shown(page: &str) -> (usize, usize) {
    let repeat = said_behind(page, "repeats after ").expect("the repeat");
    (repeat, said_behind(page, "the first ").unwrap_or(repeat))
}

/// Marks a slot with a cell that is drawn over it; only the ground of a tile has others over it.
fn mark(place: &mut String, cell: &Cell) {
    let is_ground = place == "left out" || place == "sleep";
    assert!(is_ground, "a slot is both {place} and {}", cell.meaning);
    *place = cell.meaning.clone();
}

/// The table of the whole cycle as the picture shows it; what is left out of it is marked so, and what is not shown.
fn read_back(book: &Book) -> Table {
    let page = grid::grid(book);
    let tags = tags(&page);
    let (parts, tiles) = (parts(&tags), tiles(&tags));
    let grounds = ["downlink", "uplink"].into_iter().filter_map(|kind| parts.get(kind)).flatten();
    let ground =
        grounds.clone().find(|cell| cell.meaning == "sleep").expect("the ground of a tile");
    let (slots, nodes) = (usize::from(book.slots), book.links.len());
    let (column, row) = (ground.width / slots, ground.height / nodes);
    let (repeat, shown) = tiles_shown(&page);
    let mut table = vec![vec!["left out".to_string(); TILES * slots]; nodes];
    for tile in 0..TILES {
        let cells = tiles
            .get(&(tile % repeat))
            .into_iter()
            .flatten()
            .flat_map(|part| parts.get(part).into_iter().flatten());
        for cell in cells {
            let columns = cell.left / column..(cell.left + cell.width).div_ceil(column);
            let top = cell.top - ground.top;
            for row in &mut table[top / row..(top + cell.height).div_ceil(row)] {
                columns.clone().for_each(|slot| mark(&mut row[tile * slots + slot], cell));
            }
        }
        if shown <= tile % repeat {
            let places = table.iter_mut().flat_map(|row| &mut row[tile * slots..][..slots]);
            places.for_each(|place| mark(place, &not_shown()));
        }
    }
    table
}

/// What stands for a slot of a tile that is not shown.
fn not_shown() -> Cell {
    Cell { meaning: "not shown".into(), left: 0, top: 0, width: 0, height: 0 }
}

/// The table of the whole cycle by document 01: control by the plan, each hop in all its repeats.
fn by_the_document(book: &Book) -> Table {
    let slots = usize::from(book.slots);
    let is_control = |slot: usize| {
        let is_downlink = book.kinds & 1 << (slot / slots % usize::from(book.tiles)) != 0;
        slot % slots < usize::from(if is_downlink { book.down } else { book.up })
    };
    let ground = (0..TILES * slots)
        .map(|slot| if is_control(slot) { "control" } else { "sleep" }.to_string());
    let mut table = vec![ground.collect::<Vec<_>>(); book.links.len()];
    for way in &book.ways {
        let order = book.streams().position(|stream| stream.first().id == way.id).expect("its own");
        let (dashes, mark) = if way.number == 2 { (" second", "′") } else { ("", "") };
        let said = format!("k{}{dashes} {}{mark}", order % style::COLOURS, way.id);
        for (hop, &offset) in way.offsets.iter().enumerate() {
            let turns = usize::from(offset)..TILES * slots;
            for slot in turns.step_by(usize::from(way.period) * slots) {
                table[usize::from(way.nodes[hop])][slot] = format!("sends {said}");
                table[usize::from(way.nodes[hop + 1])][slot] = format!("receives {said}");
            }
        }
    }
    table
}

/// The picture agrees with the document in every slot of its tiles; only tiles without streams are left out.
fn assert_agrees(book: &Book) {
    let (drawn, wanted) = (read_back(book), by_the_document(book));
    for (node, (drawn, wanted)) in drawn.iter().zip(&wanted).enumerate() {
        for (slot, (drawn, wanted)) in drawn.iter().zip(wanted).enumerate() {
            let is_left_out = drawn == "left out" && (wanted == "sleep" || wanted == "control");
            assert!(
                drawn == wanted || is_left_out || drawn == "not shown",
                "node {node}, slot {slot}: drawn {drawn}, by the document {wanted}"
            );
        }
    }
}

#[test]
fn every_slot_of_the_line_of_kilns_is_drawn_as_the_book_says() {
    let book = kiln();
    assert_agrees(&book);
    assert!(read_back(&book).iter().flatten().all(|drawn| drawn != "left out"));
}

#[test]
fn every_slot_of_a_full_site_is_drawn_as_the_book_says() {
    assert_agrees(&full_site_without_clashes());
}

#[test]
fn every_slot_of_second_routes_is_drawn_as_the_book_says() {
    assert_agrees(&ring());
}

/// The full site with one stream for each row of nodes, so that no slot has two meanings.
fn full_site_without_clashes() -> Book {
    let mut book = full_site();
    book.ways.truncate(8);
    book
}

#[test]
fn idle_tiles_are_left_out_and_named() {
    let book = line_book(2, vec![stream(9, 100, &[1, 0], &[20])]);
    assert_agrees(&book);
    assert!(grid::grid(&book).contains("Left out, for no stream is at work there: tiles 3 to 99."));
}

#[test]
fn plans_at_the_ends_of_their_ranges_are_drawn() {
    assert_agrees(&bare());
    assert_agrees(&Book {
        slots: 32,
        down: 0,
        up: 32,
        tiles: 10,
        kinds: 0x155,
        ..line_book(64, vec![])
    });
    let early = vec![stream(65535, 1, &[0, 1], &[0])];
    assert_agrees(&Book { slots: 1, down: 0, up: 0, tiles: 1, kinds: 0, ..line_book(2, early) });
}

#[test]
fn the_page_says_after_how_many_tiles_the_picture_repeats() {
    assert!(grid::grid(&kiln()).contains(
        "The picture repeats after 20 tiles: one repeat is shown, and a cycle of 1000 tiles has 50 \
         repeats."
    ));
    assert!(grid::grid(&full_site()).contains(
        "The picture repeats after 100 tiles: one repeat is shown, and a cycle of 1000 tiles has 10 \
         repeats."
    ));
}

#[test]
fn of_a_long_repeat_the_first_tiles_are_shown_and_later_hops_are_named() {
    let quick = stream(1, 50, &[0, 1], &[5]);
    let slow = stream(9, 1000, &[1, 0], &[799]);
    let book = line_book(2, vec![quick.clone(), slow]);
    assert_agrees(&book);
    let shown = read_back(&book)[0].iter().filter(|drawn| *drawn != "not shown").count();
    assert_eq!(shown, 100 * 8);
    let drawn = grid::grid(&book);
    assert!(drawn.contains(
        "The picture repeats after 1000 tiles: the first 100 of them are shown, and a cycle of \
         1000 tiles has 1 repeat."
    ));
    assert!(!drawn.contains("Hops in later tiles"));
    // The next slot is in tile 100.
    let book = line_book(2, vec![quick, stream(9, 500, &[1, 0, 1], &[799, 800])]);
    assert_agrees(&book);
    let drawn = grid::grid(&book);
    assert!(drawn.contains(
        "a cycle of 1000 tiles has 2 repeats. Hops in later tiles, not shown: streams 9."
    ));
    assert!(drawn.contains("stream 9, offset 799:") && !drawn.contains("stream 9, offset 800:"));
}

#[test]
fn a_hop_is_called_by_its_operations() {
    let drawn = grid::grid(&kiln());
    for words in [
        "stream 3, offset 2: node 4 sends from above, node 3 receives to buffer",
        "stream 3, offset 10: node 3 forwards from buffer, node 2 receives to buffer",
        "stream 3, offset 12: node 1 forwards from buffer, node 0 receives for above",
        "stream 4, offset 13: node 2 sends from above, node 1 receives for above",
    ] {
        assert!(drawn.contains(&format!("<title>{words}</title>")), "{words}");
    }
}

#[test]
fn a_tile_is_headed_by_its_number_its_kind_and_its_slots() {
    let drawn = grid::grid(&kiln());
    assert!(drawn.contains("aria-label=\"Tile 0, downlink, slots 0 to 7: streams 1–3, 5\""));
    assert!(drawn.contains("aria-label=\"Tile 19, uplink, slots 152 to 159: streams 4\""));
    assert!(drawn.contains(">tile 19</text>") && drawn.contains(">up 152–159</text>"));
    assert!(drawn.contains(">down 144–151</text>"));
}
