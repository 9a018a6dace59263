//! The driver: asks the reference, and passes request and answer on to be put
//! to the planner under test.

use crate::account_events::account_events;
use crate::dice::Dice;
use crate::events::events;
use crate::posting_events::posting_events;
use crate::second_events::second_events;
use crate::tally::Tally;
use reference::calls::MAX_LISTED;
use reference::frame::{Answer, Call, Request};
use reference::version::Version;
use std::sync::mpsc::SyncSender;

/// A request and what the reference says to it.
pub struct Exchange {
    pub family: &'static str,
    pub request: Request,
    pub expected: Answer,
}

/// Exchanges passed on together.
pub const BATCH: usize = 512;

/// Bytes of the longest table: 100 tiles of 32 slots, 3 bytes each.
const LONGEST_TABLE: u16 = 9600;

/// Bytes of the longest list of routes: a hop byte and 7 nodes each.
const LONGEST_LIST: u16 = 8 * MAX_LISTED as u16;

/// Bytes of the longest report.
const LONGEST_REPORT: u16 = 4096;

/// How long an output buffer to give.
#[derive(Clone, Copy)]
pub enum Room {
    /// None at all.
    Nothing,
    /// One byte short of what the call needs.
    OneShort,
    /// Just what the call needs.
    Exact,
    /// What the call needs and this much more.
    Spare(u16),
    /// As long as any answer of the call.
    Full,
    /// As long as a frame may have it.
    Most,
}

impl Room {
    pub fn any(dice: &mut Dice) -> Room {
        match dice.below(20) {
            0 => Room::Nothing,
            1..=3 => Room::OneShort,
            4..=7 => Room::Exact,
            8..=17 => Room::Spare(dice.between(1, 40) as u16),
            18 => Room::Full,
            _ => Room::Spare(dice.between(41, 3000) as u16),
        }
    }

    /// The length in bytes, for a call that needs `needed` bytes.
    fn bytes(self, call: Call, needed: u16) -> u16 {
        match self {
            Room::Nothing => 0,
            Room::OneShort => needed.saturating_sub(1),
            Room::Exact => needed,
            Room::Spare(more) => needed + more,
            Room::Full if call == Call::Expand => LONGEST_TABLE,
            Room::Full if call == Call::Routes => LONGEST_LIST,
            Room::Full => Version::NEWEST.longest_image() as u16,
            Room::Most => 16384,
        }
    }
}

/// The buffer that a call needs: a change has room for the longest book, any
/// other call for its answer.
fn needed(request: &Request) -> u16 {
    match request.call {
        Call::Open | Call::Close | Call::Post => Version::NEWEST.longest_image() as u16,
        _ => {
            let beside = if request.call == Call::Salvage { LONGEST_REPORT } else { 0 };
            let answer = Request { room: LONGEST_TABLE, beside, ..request.clone() }.answer();
            answer.counts[0] as u16
        }
    }
}

/// The longest topology or book a frame may have.
fn most_bytes(call: Call) -> usize {
    if matches!(call, Call::New | Call::BookOf) { 1024 } else { 4096 }
}

pub struct Driver {
    pub tally: Tally,
    family: &'static str,
    batch: Vec<Exchange>,
    batches: SyncSender<Vec<Exchange>>,
}

impl Driver {
    pub fn new(batches: SyncSender<Vec<Exchange>>) -> Driver {
        Driver { tally: Tally::default(), family: "", batch: Vec::new(), batches }
    }

    /// Names the calls that follow.
    pub fn family(&mut self, name: &'static str) {
        self.family = name;
    }

    /// Asks, with a buffer of this room; gives the reference's answer.
    pub fn ask(&mut self, mut request: Request, room: Room) -> Answer {
        assert!(request.bytes.len() <= most_bytes(request.call), "the frame is too long");
        request.fill = self.next_fill();
        if request.call.has_output() {
            request.room = room.bytes(request.call, needed(&request));
        }
        let expected = request.answer();
        self.tally.add(self.family, request.call, &expected);
        self.tally.add_events(events(&request, &expected));
        self.tally.add_events(second_events(&request, &expected));
        self.tally.add_events(posting_events(&request, &expected));
        self.tally.add_events(account_events(&request, &expected));
        let exchange = Exchange { family: self.family, request, expected: expected.clone() };
        self.batch.push(exchange);
        if self.batch.len() == BATCH {
            self.pass_on();
        }
        expected
    }

    /// Passes the last calls on and gives the tally.
    pub fn finish(mut self) -> Tally {
        self.pass_on();
        self.tally
    }

    fn pass_on(&mut self) {
        // When nobody listens any more, the comparison has ended with a fault.
        let _ = self.batches.send(std::mem::take(&mut self.batch));
    }

    /// A fill byte that differs from call to call.
    fn next_fill(&self) -> u8 {
        (self.tally.total() * 167 + 91) as u8
    }
}
