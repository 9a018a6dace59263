//! The jobs: each makes its calls, and shows what every call gave back.

use crate::planners::{Plan, Planner, Request, Said, Stream};
use crate::site::{
    NODES, PLAN, SMALL_PLAN, doubled_streams, hearing, linked_topology, slow_streams,
    small_streams, small_topology, streams, topology,
};
use reference::image;
use reference::version::Version;
use std::cell::RefCell;
use std::slice;

/// A buffer that holds the longest image.
const LONGEST_IMAGE: usize = 3345;

/// A buffer that holds the longest table.
const LONGEST_TABLE: usize = 9600;

/// Words of the longest index: two for each slot of 100 tiles of 32 slots.
const LONGEST_INDEX: usize = 6400;

/// A buffer that holds the longest list of routes.
const LONGEST_LIST: usize = 256;

/// What the jobs start from.
pub struct Site {
    topology: Vec<u8>,
    streams: Vec<Stream>,
    /// Streams with a second route each.
    doubled: Vec<Stream>,
    empty: Vec<u8>,
    full: Vec<u8>,
    /// The full book in version 1.
    older: Vec<u8>,
    /// Last month's and this month's full book: a stream was closed, and opened again with another period.
    pub months: [Vec<u8>; 2],
    /// The book of the streams with second routes.
    both: Vec<u8>,
    /// The empty book of nodes that are all linked to each other.
    linked: Vec<u8>,
    /// The empty book of nodes that hear further than they talk.
    heard: Vec<u8>,
    /// The full book without its last stream.
    nearly: Vec<u8>,
    /// Streams of which some are slow, and the book of them.
    slow: Vec<Stream>,
    slow_full: Vec<u8>,
    /// The tables of the full book, and those of a small site with its links.
    tables: Vec<u8>,
    small_tables: Vec<u8>,
    small_topology: Vec<u8>,
    /// The index that is lent to postings.
    index: RefCell<Vec<u64>>,
}

impl Site {
    /// The site with its empty and its full book, which a planner makes.
    pub fn new(planner: &dyn Planner) -> Site {
        let mut site = Site {
            topology: topology(),
            streams: streams(),
            doubled: doubled_streams(),
            empty: Vec::new(),
            full: Vec::new(),
            older: Vec::new(),
            months: [Vec::new(), Vec::new()],
            both: Vec::new(),
            linked: empty_book(planner, &PLAN, &linked_topology(), &linked_topology()),
            heard: empty_book(planner, &PLAN, &topology(), &hearing()),
            nearly: Vec::new(),
            slow: slow_streams(),
            slow_full: Vec::new(),
            tables: Vec::new(),
            small_tables: Vec::new(),
            small_topology: small_topology(),
            index: RefCell::new(vec![0; LONGEST_INDEX]),
        };
        site.empty = empty_book(planner, &PLAN, &site.topology, &site.topology);
        let mut done = |number: u8, _: &[u8]| assert_eq!(number, 0, "every stream has a place");
        site.full = open_all(planner, &site.empty, &site.streams, &mut done);
        site.both = open_all(planner, &site.empty, &site.doubled, &mut done);
        site.nearly = open_all(planner, &site.empty, &site.streams[..63], &mut done);
        site.slow_full = open_all(planner, &site.empty, &site.slow, &mut done);
        site.tables = tables_of(planner, &PLAN, &site.full);
        let small = empty_book(planner, &SMALL_PLAN, &site.small_topology, &site.small_topology);
        let small = open_all(planner, &small, &small_streams(), &mut done);
        site.small_tables = tables_of(planner, &SMALL_PLAN, &small);
        let (_, book) = image::read(&site.full).expect("the full book is lawful");
        site.older = image::write(Version::One, &book);
        site.months = [site.full.clone(), reopened(planner, &site.full, &site.streams[0])];
        site
    }
}

/// The empty book of a plan, of the links and of who hears whom.
fn empty_book(planner: &dyn Planner, plan: &Plan, links: &[u8], hearing: &[u8]) -> Vec<u8> {
    let mut image = [0; LONGEST_IMAGE];
    let (number, length) = planner.new_book(plan, links, hearing, &mut image);
    assert_eq!(number, 0, "the empty book is made");
    image[..length].to_vec()
}

/// The tables of all nodes of a book, node 0 first.
fn tables_of(planner: &dyn Planner, plan: &Plan, book: &[u8]) -> Vec<u8> {
    let mut out = [0; LONGEST_TABLE];
    let mut table = |node| {
        let (number, length) = planner.expand(book, node, &mut out);
        assert_eq!(number, 0, "a table is expanded");
        out[..length].to_vec()
    };
    (0..plan.n).flat_map(&mut table).collect()
}

/// The book with a stream closed, and opened again with half its period.
fn reopened(planner: &dyn Planner, book: &[u8], stream: &Stream) -> Vec<u8> {
    let mut done = |number: u8, _: &[u8]| assert_eq!(number, 0, "the stream has a place again");
    let close = |book: &[u8], stream: &Stream, out: &mut [u8]| planner.close(book, stream.id, out);
    let without = in_turn(book, slice::from_ref(stream), close, &mut done);
    let again = Stream { period: stream.period / 2, ..*stream };
    open_all(planner, &without, slice::from_ref(&again), &mut done)
}

/// Takes the number and the answer of a call.
pub type Show<'a> = &'a mut dyn FnMut(u8, &[u8]);

pub struct Job {
    pub name: &'static str,
    pub run: fn(&dyn Planner, &Site, Show),
}

/// A check of one image.
pub const CHECK: Job = Job { name: "check: the full book", run: check };

/// The opens of a month's end, posted in one list.
pub const POST_OPENS: Job = Job { name: "post: 64 opens in one list", run: post_opens };

/// The same, one call after the other.
pub const OPENS: Job = Job { name: "open: 64 streams, one after the other", run: open };

pub const JOBS: [Job; 24] = [
    Job { name: "new: the empty book", run: new },
    Job { name: "open: the last of 64 streams", run: open_last },
    OPENS,
    Job { name: "open: 32 streams with a second route, one after the other", run: open_doubled },
    POST_OPENS,
    Job { name: "post: 32 opens with a second route in one list", run: post_doubled },
    Job { name: "post: the same where nodes hear across the corners", run: post_heard },
    Job { name: "post: 64 opens in one list, a third of them slow", run: post_slow },
    CHECK,
    Job { name: "check: the full book, a third of its streams slow", run: check_slow },
    Job { name: "rewrite: the full book", run: rewrite },
    Job { name: "purchase: for an account of the full book", run: purchase },
    Job { name: "expand: 100 tiles of every node of the full book", run: expand },
    Job { name: "balance: every node of the full book", run: balance },
    Job { name: "close: 64 streams, one after the other", run: close },
    Job { name: "close: 32 streams with a second route, one after the other", run: close_doubled },
    Job { name: "post: 64 closes in one list", run: post_closes },
    Job { name: "post: 32 closes, each followed by its open, in one list", run: post_in_turn },
    Job { name: "close: each stream of the full book in version 1", run: close_older },
    Job { name: "routes: from 32 nodes to one two across and two down", run: routes },
    Job { name: "routes: from every node to one 3 to 6 hops away, empty book", run: far_routes },
    Job { name: "routes: one list of 64 nodes all linked to each other", run: linked_routes },
    Job { name: "book of: the largest tables", run: book_of },
    Job { name: "book of: the tables of a small site", run: small_book_of },
];

fn new(planner: &dyn Planner, site: &Site, show: Show) {
    let mut out = [0; LONGEST_IMAGE];
    let said = planner.new_book(&PLAN, &site.topology, &site.topology, &mut out);
    show_bytes(show, said, &out);
}

fn open_last(planner: &dyn Planner, site: &Site, show: Show) {
    let mut out = [0; LONGEST_IMAGE];
    let said = planner.open(&site.nearly, &site.streams[63], &mut out);
    show_bytes(show, said, &out);
}

fn open(planner: &dyn Planner, site: &Site, show: Show) {
    open_all(planner, &site.empty, &site.streams, show);
}

fn open_doubled(planner: &dyn Planner, site: &Site, show: Show) {
    open_all(planner, &site.empty, &site.doubled, show);
}

fn open_all(planner: &dyn Planner, empty: &[u8], streams: &[Stream], show: Show) -> Vec<u8> {
    let call = |book: &[u8], stream: &Stream, out: &mut [u8]| planner.open(book, stream, out);
    in_turn(empty, streams, call, show)
}

fn post_opens(planner: &dyn Planner, site: &Site, show: Show) {
    post_all(planner, site, &site.empty, &site.streams, |stream| vec![Request::open(stream)], show);
}

fn post_doubled(planner: &dyn Planner, site: &Site, show: Show) {
    post_all(planner, site, &site.empty, &site.doubled, |stream| vec![Request::open(stream)], show);
}

fn post_heard(planner: &dyn Planner, site: &Site, show: Show) {
    post_all(planner, site, &site.heard, &site.doubled, |stream| vec![Request::open(stream)], show);
}

fn post_slow(planner: &dyn Planner, site: &Site, show: Show) {
    post_all(planner, site, &site.empty, &site.slow, |stream| vec![Request::open(stream)], show);
}

fn post_closes(planner: &dyn Planner, site: &Site, show: Show) {
    post_all(planner, site, &site.full, &site.streams, |stream| vec![Request::close(stream)], show);
}

fn post_in_turn(planner: &dyn Planner, site: &Site, show: Show) {
    let anew = |stream: &Stream| vec![Request::close(stream), Request::open(stream)];
    post_all(planner, site, &site.full, &site.streams[..32], anew, show);
}

/// Posts the requests of every stream in one list, and shows each of their answers and the index.
fn post_all(
    planner: &dyn Planner,
    site: &Site,
    book: &[u8],
    streams: &[Stream],
    requests: impl Fn(&Stream) -> Vec<Request>,
    show: Show,
) {
    let mut out = [0; LONGEST_IMAGE];
    let mut list: Vec<Request> = streams.iter().flat_map(requests).collect();
    let mut index = site.index.borrow_mut();
    let said = planner.post(book, &mut list, &mut index, &mut out);
    show_bytes(show, said, &out);
    for request in &list {
        show(request.answer, &[]);
    }
    show(said.0, bytes_of(&index));
}

/// The words of an index as they lie in memory.
fn bytes_of(index: &[u64]) -> &[u8] {
    // Safety: every byte of a word is a byte, and the slice is as long as they are.
    unsafe { slice::from_raw_parts(index.as_ptr().cast(), size_of_val(index)) }
}

fn check(planner: &dyn Planner, site: &Site, show: Show) {
    show_bytes(show, planner.check(&site.full), &[]);
}

fn check_slow(planner: &dyn Planner, site: &Site, show: Show) {
    show_bytes(show, planner.check(&site.slow_full), &[]);
}

fn rewrite(planner: &dyn Planner, site: &Site, show: Show) {
    let mut out = [0; LONGEST_IMAGE];
    let said = planner.rewrite(&site.full, &mut out);
    show_bytes(show, said, &out);
}

fn purchase(planner: &dyn Planner, site: &Site, show: Show) {
    let mut out = [0; LONGEST_IMAGE];
    let said = planner.purchase(&site.full, 2, 1000, &mut out);
    show_bytes(show, said, &out);
}

fn expand(planner: &dyn Planner, site: &Site, show: Show) {
    let mut out = [0; LONGEST_TABLE];
    for node in 0..NODES {
        let said = planner.expand(&site.full, node, &mut out);
        show_bytes(show, said, &out);
    }
}

fn balance(planner: &dyn Planner, site: &Site, show: Show) {
    for node in 0..NODES {
        let (number, counts) = planner.balance(&site.full, node);
        show(number, &counts.map(u32::to_be_bytes).concat());
    }
}

fn close(planner: &dyn Planner, site: &Site, show: Show) {
    close_all(planner, &site.full, &site.streams, show);
}

fn close_doubled(planner: &dyn Planner, site: &Site, show: Show) {
    close_all(planner, &site.both, &site.doubled, show);
}

fn close_all(planner: &dyn Planner, book: &[u8], streams: &[Stream], show: Show) {
    let call = |book: &[u8], stream: &Stream, out: &mut [u8]| planner.close(book, stream.id, out);
    in_turn(book, streams, call, show);
}

fn close_older(planner: &dyn Planner, site: &Site, show: Show) {
    let mut out = [0; LONGEST_IMAGE];
    for stream in &site.streams {
        let said = planner.close(&site.older, stream.id, &mut out);
        show_bytes(show, said, &out);
    }
}

fn routes(planner: &dyn Planner, site: &Site, show: Show) {
    for stream in &site.doubled {
        list(planner, &site.both, stream.source, stream.destination, show);
    }
}

fn far_routes(planner: &dyn Planner, site: &Site, show: Show) {
    for source in 0..NODES {
        list(planner, &site.empty, source, (source + 19) % NODES, show);
    }
}

fn linked_routes(planner: &dyn Planner, site: &Site, show: Show) {
    list(planner, &site.linked, 0, NODES - 1, show);
}

fn list(planner: &dyn Planner, book: &[u8], source: u8, destination: u8, show: Show) {
    let mut out = [0; LONGEST_LIST];
    let ((number, length), more) = planner.routes(book, source, destination, &mut out);
    show(number, &out[..length]);
    show(number, &[u8::from(more)]);
}

fn book_of(planner: &dyn Planner, site: &Site, show: Show) {
    let mut out = [0; LONGEST_IMAGE];
    let said = planner.book_of(&PLAN, &site.topology, &site.topology, &site.tables, &mut out);
    show_bytes(show, said, &out);
}

fn small_book_of(planner: &dyn Planner, site: &Site, show: Show) {
    let mut out = [0; LONGEST_IMAGE];
    let (links, tables) = (&site.small_topology, &site.small_tables);
    let said = planner.book_of(&SMALL_PLAN, links, links, tables, &mut out);
    show_bytes(show, said, &out);
}

/// Makes a call for each stream, each on the image that the one before wrote.
fn in_turn(
    start: &[u8],
    streams: &[Stream],
    call: impl Fn(&[u8], &Stream, &mut [u8]) -> Said,
    show: Show,
) -> Vec<u8> {
    let (mut book, mut out) = ([0; LONGEST_IMAGE], [0; LONGEST_IMAGE]);
    let mut length = start.len();
    book[..length].copy_from_slice(start);
    for stream in streams {
        let said = call(&book[..length], stream, &mut out);
        show_bytes(show, said, &out);
        std::mem::swap(&mut book, &mut out);
        length = said.1;
    }
    book[..length].to_vec()
}

fn show_bytes(show: Show, (number, length): Said, out: &[u8]) {
    show(number, &out[..length]);
}
