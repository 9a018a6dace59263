//! How the cost grows: lists of opens on the empty book, and a check of the book after them, with more streams, with longer
//! routes, and with more slots a tile.

use crate::planners::{PlainC, PlainTest, Plan, Planner, Proved, Request, Stream};
use crate::site::{PERIODS, PLAN, stream_on, topology};
use crate::{ROUNDS, median, time_of};
use std::hint::black_box;

/// Buffers that hold the longest image and the longest index.
const LONGEST_IMAGE: usize = 3345;
const LONGEST_INDEX: usize = 6400;

/// Marks of the longest bar.
const LONGEST_BAR: f64 = 24.0;

/// One step of a series: streams to open on a book without any.
struct Step {
    size: usize,
    plan: Plan,
    streams: Vec<Stream>,
}

/// Prints each series as a table.
pub fn print() {
    print_series("streams of 8 hops", by_streams());
    print_series("hops of each of 64 streams", by_hops());
    print_series("slots a tile, 64 streams of 2 hops", by_slots());
}

fn by_streams() -> Vec<Step> {
    let step = |count| {
        let all = (0..64).map(|i| stream_on(i, 4, 4, &PERIODS));
        Step { size: count, plan: PLAN, streams: all.take(count).collect() }
    };
    [1, 2, 4, 8, 16, 32, 64].map(step).into()
}

fn by_hops() -> Vec<Step> {
    let step = |(across, down): (u8, u8)| {
        let streams = (0..64).map(|i| stream_on(i, across, down, &PERIODS)).collect();
        Step { size: usize::from(across + down), plan: PLAN, streams }
    };
    [(1, 0), (1, 1), (2, 1), (2, 2), (3, 3), (4, 4)].map(step).into()
}

fn by_slots() -> Vec<Step> {
    let step = |s: u8| {
        let streams = (0..64).map(|i| stream_on(i, 1, 1, &[100, 50])).collect();
        Step { size: usize::from(s), plan: Plan { s, d: 0, u: 0, ..PLAN }, streams }
    };
    [1, 2, 4, 8, 16, 32].map(step).into()
}

/// Microseconds of one step: the list by the planner, by plain C and by the plain test, and a check by the first two.
fn times(step: &Step) -> [f64; 5] {
    let (empty, full) = books(step);
    let mut rounds: [Vec<f64>; 5] = Default::default();
    for _ in 0..ROUNDS {
        let took = [
            time_list(&Proved, &empty, &step.streams),
            time_list(&PlainC, &empty, &step.streams),
            time_list(&PlainTest, &empty, &step.streams),
            time_check(&Proved, &full),
            time_check(&PlainC, &full),
        ];
        rounds.iter_mut().zip(took).for_each(|(all, took)| all.push(took));
    }
    rounds.map(median)
}

/// The book of a step without streams and with all of them, on which the three agree.
fn books(step: &Step) -> (Vec<u8>, Vec<u8>) {
    let mut out = [0; LONGEST_IMAGE];
    let (number, length) = Proved.new_book(&step.plan, &topology(), &topology(), &mut out);
    assert_eq!(number, 0, "the empty book is made");
    let empty = out[..length].to_vec();
    let [ours, plain, tested] = [&Proved as &dyn Planner, &PlainC, &PlainTest].map(|planner| {
        let mut list: Vec<Request> = step.streams.iter().map(Request::open).collect();
        let mut index = vec![0; LONGEST_INDEX];
        let (number, length) = planner.post(&empty, &mut list, &mut index, &mut out);
        let all_done = number == 0 && list.iter().all(|request| request.answer == 0);
        assert!(all_done, "every stream has a place");
        (out[..length].to_vec(), index)
    });
    assert!(ours == plain && ours == tested, "they agree on {} streams", step.streams.len());
    (empty, ours.0)
}

fn time_list(planner: &dyn Planner, empty: &[u8], streams: &[Stream]) -> f64 {
    let mut out = [0; LONGEST_IMAGE];
    let mut index = vec![0; LONGEST_INDEX];
    let mut list: Vec<Request> = streams.iter().map(Request::open).collect();
    time_of(|| {
        black_box(planner.post(empty, &mut list, &mut index, &mut out));
    })
}

fn time_check(planner: &dyn Planner, full: &[u8]) -> f64 {
    time_of(|| {
        black_box(planner.check(full));
    })
}

/// Prints a series, with a bar as long as the planner takes for the list.
fn print_series(what: &str, steps: Vec<Step>) {
    println!("\n| {what} | list, µs | plain C | plain test | check, µs | plain C | the list |");
    println!("|--:|--:|--:|--:|--:|--:|---|");
    let rows: Vec<[f64; 5]> = steps.iter().map(times).collect();
    let longest = rows.iter().map(|row| row[0]).fold(0.0, f64::max);
    for (step, [list, plain, tested, check, plain_check]) in steps.iter().zip(rows) {
        let bar = "#".repeat((LONGEST_BAR * list / longest).ceil() as usize);
        println!(
            "| {} | {list:.1} | {plain:.1} | {tested:.1} | {check:.1} | {plain_check:.1} | `{bar}` |",
            step.size
        );
    }
}
