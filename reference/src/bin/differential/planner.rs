//! The planner under test: a program that is written requests and read
//! answers, each compared with the reference's.

use crate::driver::Exchange;
use reference::frame::{Answer, Call, Request, write_end};
use std::io::{self, BufReader, Read, Write};
use std::process::{Child, ChildStdin, ChildStdout, Command, ExitStatus, Stdio};
use std::sync::Arc;
use std::sync::atomic::{AtomicU64, Ordering};
use std::sync::mpsc::{Receiver, RecvTimeoutError, SyncSender, channel, sync_channel};
use std::thread;
use std::time::{Duration, Instant};

/// Batches that may be written before the first of them is answered. With the
/// shortest answers it makes up more than the 64 KiB a planner may hold back.
const BATCHES_AHEAD: usize = 16;

/// After so many differences the comparison ends.
const DIFFERENCES_SHOWN: usize = 3;

/// Puts every batch to the program; an error says what went wrong.
pub fn compare(
    command: &[String],
    patience: Duration,
    batches: Receiver<Vec<Exchange>>,
) -> Result<(), String> {
    let mut child = start(command)?;
    let input = child.stdin.take().expect("input is piped");
    let output = child.stdout.take().expect("output is piped");
    let answered = Arc::new(AtomicU64::new(0));
    let (written, to_compare) = sync_channel(BATCHES_AHEAD);
    let (finish, finished) = channel();
    thread::spawn(move || write_requests(input, batches, written));
    let watched = answered.clone();
    let watch = thread::spawn(move || watch(child, &watched, patience, finished));
    let result = compare_answers(output, to_compare, &answered);
    finish.send(result.is_ok()).expect("the watch waits for this");
    let status = watch.join().expect("the watch does not panic");
    result.and_then(|()| match status {
        Ok(status) if status.success() => Ok(()),
        Ok(status) => Err(format!("the planner ended with {status}")),
        Err(error) => Err(format!("the planner's end is unknown: {error}")),
    })
}

fn start(command: &[String]) -> Result<Child, String> {
    Command::new(&command[0])
        .args(&command[1..])
        .stdin(Stdio::piped())
        .stdout(Stdio::piped())
        .spawn()
        .map_err(|error| format!("{} does not start: {error}", command[0]))
}

/// Writes every request, then the end; each batch goes on to be compared.
/// Where the planner stops reading, the comparison finds out why.
fn write_requests(
    mut input: ChildStdin,
    batches: Receiver<Vec<Exchange>>,
    written: SyncSender<Vec<Exchange>>,
) {
    for batch in batches {
        let frames = frames_of(&batch);
        // Passed on first: the planner may wait for its answers to be read.
        if written.send(batch).is_err() || input.write_all(&frames).is_err() {
            return;
        }
    }
    let _ = write_end(&mut input);
}

fn frames_of(batch: &[Exchange]) -> Vec<u8> {
    let mut frames = Vec::new();
    for exchange in batch {
        exchange.request.write(&mut frames).expect("memory takes all writes");
    }
    frames
}

/// Reads the answers and compares each with what is expected.
fn compare_answers(
    output: ChildStdout,
    batches: Receiver<Vec<Exchange>>,
    answered: &AtomicU64,
) -> Result<(), String> {
    let mut output = BufReader::with_capacity(1 << 16, output);
    let mut differences = Vec::new();
    for exchange in batches.into_iter().flatten() {
        let call = answered.load(Ordering::Relaxed);
        let answer = Answer::read(&mut output, &exchange.request)
            .map_err(|error| no_answer(call, &exchange, &error))?;
        if answer != exchange.expected {
            differences.push(difference(call, &exchange, &answer));
        }
        if differences.len() == DIFFERENCES_SHOWN {
            break;
        }
        answered.fetch_add(1, Ordering::Relaxed);
    }
    if !differences.is_empty() {
        return Err(differences.join("\n"));
    }
    match output.read(&mut [0]) {
        Ok(0) => Ok(()),
        _ => Err("the planner wrote more than the answers".to_string()),
    }
}

/// Waits for the end of the program, and ends it where it has become useless:
/// when a comparison failed, or no answer came for as long as `patience`.
fn watch(
    mut child: Child,
    answered: &AtomicU64,
    patience: Duration,
    finished: Receiver<bool>,
) -> io::Result<ExitStatus> {
    let mut seen = 0;
    let mut since = Instant::now();
    loop {
        match finished.recv_timeout(Duration::from_millis(200)) {
            Err(RecvTimeoutError::Timeout) => {}
            Ok(true) => return child.wait(),
            _ => {
                child.kill()?;
                return child.wait();
            }
        }
        let now = answered.load(Ordering::Relaxed);
        if now != seen {
            (seen, since) = (now, Instant::now());
        } else if since.elapsed() > patience {
            eprintln!("no answer for {} seconds", patience.as_secs());
            child.kill()?;
            since = Instant::now();
        }
    }
}

/// The first call without an answer; where answers were held back, a later
/// one is to blame.
fn no_answer(call: u64, exchange: &Exchange, error: &io::Error) -> String {
    format!("no answer to call {call} or one soon after it: {error}\n{}", show(exchange))
}

/// What was asked, expected and given.
fn difference(call: u64, exchange: &Exchange, answer: &Answer) -> String {
    let expected = &exchange.expected;
    let mut text = format!("call {call} differs\n{}", show(exchange));
    text += &format!("expected {}, counts {:?}\n", expected.number, expected.counts);
    text += &format!("answer   {}, counts {:?}\n", answer.number, answer.counts);
    let place = expected.out.iter().zip(&answer.out).position(|(a, b)| a != b);
    if let Some(place) = place {
        let (good, bad) = (expected.out[place], answer.out[place]);
        text += &format!("byte {place} of the buffer: expected {good:02X}, answer {bad:02X}\n");
    }
    if expected.records != answer.records {
        let (good, bad) = (hex(&expected.records), hex(&answer.records));
        text += &format!("records: expected {good}\n         answer   {bad}\n");
    }
    if let Some(place) = expected.beside.iter().zip(&answer.beside).position(|(a, b)| a != b) {
        let (good, bad) = (expected.beside[place], answer.beside[place]);
        text += &format!("byte {place} beside it: expected {good:02X}, answer {bad:02X}\n");
    }
    text
}

fn hex(bytes: &[u8]) -> String {
    bytes.iter().map(|byte| format!("{byte:02X}")).collect()
}

/// The request in words, with its book.
fn show(exchange: &Exchange) -> String {
    let Request { call, id, node, destination, period, second, account, .. } = exchange.request;
    let Request { s, c, kinds, d, u, n, amount, first, tiles, .. } = exchange.request;
    let arguments = match call {
        Call::New => format!("S={s} C={c} kinds={kinds:#b} D={d} U={u} N={n}"),
        _ => format!(
            "id {id}, node or source {node}, destination {destination}, period {period}, \
             second {second}, account {account}, amount {amount}, {tiles} tiles from {first}"
        ),
    };
    let Request { bytes, further, mains, room, beside, fill, .. } = &exchange.request;
    format!(
        "family {}: {call:?} with {arguments}, mains {mains:016X}, \
         buffer of {room} bytes {fill:02X}, index or report of {beside}\n\
         {} bytes {}\nand {} bytes {}\n",
        exchange.family,
        bytes.len(),
        hex(bytes),
        further.len(),
        hex(further)
    )
}
