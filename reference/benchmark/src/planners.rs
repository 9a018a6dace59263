//! The three planners behind one interface, and plain C by the plain test.

use reference::calls::{self, Site};
use reference::change::Open;
use reference::record::Record;

/// The accounts of every new book: 0 to 3, each of which can pay for all streams of a job.
#[rustfmt::skip]
const ACCOUNTS: [u8; 24] = [
    0, 0, 0, 0xFF, 0xFF, 0xFF,
    0, 1, 0, 0xFF, 0xFF, 0xFF,
    0, 2, 0, 0xFF, 0xFF, 0xFF,
    0, 3, 0, 0xFF, 0xFF, 0xFF,
];

/// The account of a stream.
fn payer(id: u16) -> u16 {
    id % 4
}

/// What a call gives back: its number, and the length of its answer.
pub type Said = (u8, usize);

/// The tiles of a table that the jobs ask for, from the first of the cycle on.
const TILES: u16 = 100;

/// A planner's calls that the jobs make.
pub trait Planner {
    fn new_book(&self, plan: &Plan, links: &[u8], hearing: &[u8], out: &mut [u8]) -> Said;
    fn check(&self, book: &[u8]) -> Said;
    fn rewrite(&self, book: &[u8], out: &mut [u8]) -> Said;
    fn open(&self, book: &[u8], stream: &Stream, out: &mut [u8]) -> Said;
    fn close(&self, book: &[u8], id: u16, out: &mut [u8]) -> Said;
    fn post(
        &self,
        book: &[u8],
        requests: &mut [Request],
        index: &mut [u64],
        out: &mut [u8],
    ) -> Said;
    fn purchase(&self, book: &[u8], account: u16, amount: u32, out: &mut [u8]) -> Said;
    fn expand(&self, book: &[u8], node: u8, out: &mut [u8]) -> Said;
    fn balance(&self, book: &[u8], node: u8) -> (u8, [u32; 3]);
    fn routes(&self, book: &[u8], source: u8, destination: u8, out: &mut [u8]) -> (Said, bool);
    fn book_of(
        &self,
        plan: &Plan,
        links: &[u8],
        hearing: &[u8],
        tables: &[u8],
        out: &mut [u8],
    ) -> Said;
}

/// The arguments of a new book beside its links and who hears whom.
pub struct Plan {
    pub s: u8,
    pub c: u8,
    pub kinds: u16,
    pub d: u8,
    pub u: u8,
    pub n: u8,
}

/// The arguments of an open.
pub struct Stream {
    pub id: u16,
    pub source: u8,
    pub destination: u8,
    pub period: u16,
    pub second: bool,
}

/// A request of a list, as `include/lindurask.h` lays it out.
#[derive(Clone, Copy)]
#[repr(C)]
pub struct Request {
    pub opens: bool,
    pub second: bool,
    pub source: u8,
    pub destination: u8,
    pub id: u16,
    pub period: u16,
    pub account: u16,
    pub answer: u8,
}

impl Request {
    pub fn open(stream: &Stream) -> Request {
        let Stream { id, source, destination, period, second } = *stream;
        let (account, answer) = (payer(id), u8::MAX);
        Request { opens: true, second, source, destination, id, period, account, answer }
    }

    pub fn close(stream: &Stream) -> Request {
        Request { opens: false, ..Request::open(stream) }
    }
}

/// A planner with the C interface of `include/lindurask.h`, under these names.
macro_rules! planner_in_c {
    ($planner:ident, $module:ident, $new:literal, $check:literal, $rewrite:literal, $open:literal,
     $close:literal, $post:literal, $purchase:literal, $expand:literal, $balance:literal,
     $routes:literal, $book_of:literal) => {
        mod $module {
            use super::Request;

            unsafe extern "C" {
                #[link_name = $new]
                pub fn new(
                    s: u8,
                    c: u8,
                    kinds: u16,
                    d: u8,
                    u: u8,
                    n: u8,
                    links: *const u8,
                    links_len: usize,
                    hearing: *const u8,
                    hearing_len: usize,
                    accounts: *const u8,
                    accounts_len: usize,
                    out: *mut u8,
                    out_len: usize,
                    length: *mut usize,
                ) -> u8;
                #[link_name = $check]
                pub fn check(book: *const u8, book_len: usize, length: *mut usize) -> u8;
                #[link_name = $rewrite]
                pub fn rewrite(
                    book: *const u8,
                    book_len: usize,
                    out: *mut u8,
                    out_len: usize,
                    length: *mut usize,
                ) -> u8;
                #[link_name = $open]
                pub fn open(
                    book: *const u8,
                    book_len: usize,
                    id: u16,
                    source: u8,
                    destination: u8,
                    period: u16,
                    second: bool,
                    account: u16,
                    out: *mut u8,
                    out_len: usize,
                    length: *mut usize,
                ) -> u8;
                #[link_name = $close]
                pub fn close(
                    book: *const u8,
                    book_len: usize,
                    id: u16,
                    out: *mut u8,
                    out_len: usize,
                    length: *mut usize,
                ) -> u8;
                #[link_name = $post]
                pub fn post(
                    book: *const u8,
                    book_len: usize,
                    mains: u64,
                    requests: *mut Request,
                    count: usize,
                    index: *mut u64,
                    index_len: usize,
                    out: *mut u8,
                    out_len: usize,
                    length: *mut usize,
                ) -> u8;
                #[link_name = $purchase]
                pub fn purchase(
                    book: *const u8,
                    book_len: usize,
                    account: u16,
                    amount: u32,
                    out: *mut u8,
                    out_len: usize,
                    length: *mut usize,
                ) -> u8;
                #[link_name = $expand]
                pub fn expand(
                    book: *const u8,
                    book_len: usize,
                    node: u8,
                    first: u16,
                    tiles: u16,
                    out: *mut u8,
                    out_len: usize,
                    length: *mut usize,
                ) -> u8;
                #[link_name = $balance]
                pub fn balance(
                    book: *const u8,
                    book_len: usize,
                    node: u8,
                    data: *mut u32,
                    used: *mut u32,
                    free: *mut u32,
                ) -> u8;
                #[link_name = $routes]
                pub fn routes(
                    book: *const u8,
                    book_len: usize,
                    mains: u64,
                    source: u8,
                    destination: u8,
                    out: *mut u8,
                    out_len: usize,
                    length: *mut usize,
                    more: *mut u8,
                ) -> u8;
                #[link_name = $book_of]
                pub fn book_of(
                    s: u8,
                    c: u8,
                    kinds: u16,
                    d: u8,
                    u: u8,
                    n: u8,
                    links: *const u8,
                    links_len: usize,
                    hearing: *const u8,
                    hearing_len: usize,
                    tables: *const u8,
                    tables_len: usize,
                    out: *mut u8,
                    out_len: usize,
                    length: *mut usize,
                ) -> u8;
            }
        }

        pub struct $planner;

        // Safety, of every call: each pointer goes with the length of its own slice, and a
        // shared and a mutable slice never overlap.
        impl Planner for $planner {
            fn new_book(&self, plan: &Plan, links: &[u8], hearing: &[u8], out: &mut [u8]) -> Said {
                let Plan { s, c, kinds, d, u, n } = *plan;
                said(|length| unsafe {
                    $module::new(
                        s,
                        c,
                        kinds,
                        d,
                        u,
                        n,
                        links.as_ptr(),
                        links.len(),
                        hearing.as_ptr(),
                        hearing.len(),
                        ACCOUNTS.as_ptr(),
                        ACCOUNTS.len(),
                        out.as_mut_ptr(),
                        out.len(),
                        length,
                    )
                })
            }

            fn check(&self, book: &[u8]) -> Said {
                said(|length| unsafe { $module::check(book.as_ptr(), book.len(), length) })
            }

            fn rewrite(&self, book: &[u8], out: &mut [u8]) -> Said {
                said(|length| unsafe {
                    $module::rewrite(book.as_ptr(), book.len(), out.as_mut_ptr(), out.len(), length)
                })
            }

            fn open(&self, book: &[u8], stream: &Stream, out: &mut [u8]) -> Said {
                let Stream { id, source, destination, period, second } = *stream;
                let (image, size) = (book.as_ptr(), book.len());
                let (room, most) = (out.as_mut_ptr(), out.len());
                said(|length| unsafe {
                    $module::open(
                        image,
                        size,
                        id,
                        source,
                        destination,
                        period,
                        second,
                        payer(id),
                        room,
                        most,
                        length,
                    )
                })
            }

            fn close(&self, book: &[u8], id: u16, out: &mut [u8]) -> Said {
                let (image, size) = (book.as_ptr(), book.len());
                said(|length| unsafe {
                    $module::close(image, size, id, out.as_mut_ptr(), out.len(), length)
                })
            }

            fn post(
                &self,
                book: &[u8],
                requests: &mut [Request],
                index: &mut [u64],
                out: &mut [u8],
            ) -> Said {
                let (image, size) = (book.as_ptr(), book.len());
                let (list, count) = (requests.as_mut_ptr(), requests.len());
                let (words, most_words) = (index.as_mut_ptr(), index.len());
                let (room, most) = (out.as_mut_ptr(), out.len());
                let mains = all_nodes(book);
                said(|length| unsafe {
                    $module::post(
                        image, size, mains, list, count, words, most_words, room, most, length,
                    )
                })
            }

            fn purchase(&self, book: &[u8], account: u16, amount: u32, out: &mut [u8]) -> Said {
                let (image, size) = (book.as_ptr(), book.len());
                let (room, most) = (out.as_mut_ptr(), out.len());
                said(|length| unsafe {
                    $module::purchase(image, size, account, amount, room, most, length)
                })
            }

            fn expand(&self, book: &[u8], node: u8, out: &mut [u8]) -> Said {
                let (image, size) = (book.as_ptr(), book.len());
                said(|length| unsafe {
                    let (room, most) = (out.as_mut_ptr(), out.len());
                    $module::expand(image, size, node, 0, TILES, room, most, length)
                })
            }

            fn balance(&self, book: &[u8], node: u8) -> (u8, [u32; 3]) {
                let (mut data, mut used, mut free) = (0, 0, 0);
                let (image, size) = (book.as_ptr(), book.len());
                let number =
                    unsafe { $module::balance(image, size, node, &mut data, &mut used, &mut free) };
                (number, [data, used, free])
            }

            fn routes(
                &self,
                book: &[u8],
                source: u8,
                destination: u8,
                out: &mut [u8],
            ) -> (Said, bool) {
                let (image, size) = (book.as_ptr(), book.len());
                let (room, most) = (out.as_mut_ptr(), out.len());
                let (mains, mut more) = (all_nodes(book), u8::MAX);
                let said = said(|length| unsafe {
                    let more = &mut more;
                    $module::routes(
                        image,
                        size,
                        mains,
                        source,
                        destination,
                        room,
                        most,
                        length,
                        more,
                    )
                });
                (said, more == 1)
            }

            fn book_of(
                &self,
                plan: &Plan,
                links: &[u8],
                hearing: &[u8],
                tables: &[u8],
                out: &mut [u8],
            ) -> Said {
                let Plan { s, c, kinds, d, u, n } = *plan;
                let (linked, heard) = (links.as_ptr(), hearing.as_ptr());
                let (given, size) = (tables.as_ptr(), tables.len());
                let (room, most) = (out.as_mut_ptr(), out.len());
                said(|length| unsafe {
                    $module::book_of(
                        s,
                        c,
                        kinds,
                        d,
                        u,
                        n,
                        linked,
                        links.len(),
                        heard,
                        hearing.len(),
                        given,
                        size,
                        room,
                        most,
                        length,
                    )
                })
            }
        }
    };
}

planner_in_c!(
    Proved,
    lindurask,
    "lindurask_new",
    "lindurask_check",
    "lindurask_rewrite",
    "lindurask_open",
    "lindurask_close",
    "lindurask_post",
    "lindurask_purchase",
    "lindurask_expand",
    "lindurask_balance",
    "lindurask_routes",
    "lindurask_book_of"
);

planner_in_c!(
    PlainC,
    fast,
    "fast_new",
    "fast_check",
    "fast_rewrite",
    "fast_open",
    "fast_close",
    "fast_post",
    "fast_purchase",
    "fast_expand",
    "fast_balance",
    "fast_routes",
    "fast_book_of"
);

planner_in_c!(
    PlainTest,
    fast_by_test,
    "fast_new",
    "fast_check",
    "fast_rewrite",
    "fast_open",
    "fast_close",
    "fast_post_by_test",
    "fast_purchase",
    "fast_expand",
    "fast_balance",
    "fast_routes",
    "fast_book_of"
);

/// The number that a call gives, and the length that it sets.
fn said(call: impl FnOnce(&mut usize) -> u8) -> Said {
    let mut length = usize::MAX;
    let number = call(&mut length);
    (number, length)
}

pub struct Reference;

impl Planner for Reference {
    fn new_book(&self, plan: &Plan, links: &[u8], hearing: &[u8], out: &mut [u8]) -> Said {
        let Plan { s, c, kinds, d, u, n } = *plan;
        let plan = reference::plan::Plan { s, c, kinds, d, u };
        calls::new(&Site { plan, nodes: n, links, hearing }, &ACCOUNTS, out)
    }

    fn check(&self, book: &[u8]) -> Said {
        calls::check(book)
    }

    fn rewrite(&self, book: &[u8], out: &mut [u8]) -> Said {
        calls::rewrite(book, out)
    }

    fn open(&self, book: &[u8], stream: &Stream, out: &mut [u8]) -> Said {
        let Stream { id, source, destination, period, second } = *stream;
        calls::open(book, Open { id, source, destination, period, second, account: payer(id) }, out)
    }

    fn close(&self, book: &[u8], id: u16, out: &mut [u8]) -> Said {
        calls::close(book, id, out)
    }

    fn post(
        &self,
        book: &[u8],
        requests: &mut [Request],
        index: &mut [u64],
        out: &mut [u8],
    ) -> Said {
        let mut records: Vec<Record> = requests.iter().map(record).collect();
        let said = calls::post(book, all_nodes(book), &mut records, index, out);
        for (request, record) in requests.iter_mut().zip(records) {
            request.answer = record.answer;
        }
        said
    }

    fn purchase(&self, book: &[u8], account: u16, amount: u32, out: &mut [u8]) -> Said {
        calls::purchase(book, account, amount, out)
    }

    fn expand(&self, book: &[u8], node: u8, out: &mut [u8]) -> Said {
        calls::expand(book, node, 0, TILES, out)
    }

    fn balance(&self, book: &[u8], node: u8) -> (u8, [u32; 3]) {
        let (number, data, used, free) = calls::balance(book, node);
        (number, [data, used, free])
    }

    fn routes(&self, book: &[u8], source: u8, destination: u8, out: &mut [u8]) -> (Said, bool) {
        let (number, length, more) = calls::routes(book, all_nodes(book), source, destination, out);
        ((number, length), more)
    }

    fn book_of(
        &self,
        plan: &Plan,
        links: &[u8],
        hearing: &[u8],
        tables: &[u8],
        out: &mut [u8],
    ) -> Said {
        let Plan { s, c, kinds, d, u, n } = *plan;
        let plan = reference::plan::Plan { s, c, kinds, d, u };
        calls::book_of(&Site { plan, nodes: n, links, hearing }, tables, out)
    }
}

/// All nodes of a book.
fn all_nodes(book: &[u8]) -> u64 {
    u64::MAX >> (64 - u32::from(book[11]))
}

fn record(request: &Request) -> Record {
    let Request { opens, second, source, destination, id, period, account, answer } = *request;
    Record { opens, second, source, destination, id, period, account, answer }
}
