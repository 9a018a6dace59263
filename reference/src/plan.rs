//! The tile plan: which slots of the cycle are control and which are data.

use crate::slots::Slots;
use std::ops::RangeInclusive;

/// Tiles in a cycle.
pub const CYCLE_TILES: usize = 1000;

/// The fewest and the most slots of a tile.
pub const TILE_SLOTS: RangeInclusive<u8> = 1..=32;

/// The periods a stream may have, in tiles.
pub const PERIODS: [u16; 10] = [1, 2, 5, 10, 20, 50, 100, 200, 500, 1000];

/// The longest period that document 01 knows.
pub const LONGEST_QUICK_PERIOD: u16 = 100;

/// The tile counts after which a plan may repeat.
pub const PLAN_TILES: [u8; 5] = [1, 2, 4, 5, 10];

/// How often a stream of period K repeats in a cycle.
pub fn repeats(period: u16) -> usize {
    CYCLE_TILES / usize::from(period)
}

/// A tile plan, with the letters of document 01.
#[derive(Clone, Debug, PartialEq, Eq)]
pub struct Plan {
    /// S, the slots in a tile.
    pub s: u8,
    /// C, the tiles after which the plan repeats.
    pub c: u8,
    /// Bit b is set if tile b of the plan is downlink.
    pub kinds: u16,
    /// D, the control slots at the head of a downlink tile.
    pub d: u8,
    /// U, the control slots at the head of an uplink tile.
    pub u: u8,
}

impl Plan {
    /// Every field is in its range.
    pub fn is_in_range(&self) -> bool {
        TILE_SLOTS.contains(&self.s)
            && PLAN_TILES.contains(&self.c)
            && (self.c..16).all(|tile| !self.is_downlink(tile))
            && self.d <= self.s
            && self.u <= self.s
    }

    /// S as a slot count.
    pub fn tile_slots(&self) -> usize {
        usize::from(self.s)
    }

    /// Slots in a cycle.
    pub fn cycle_slots(&self) -> usize {
        CYCLE_TILES * self.tile_slots()
    }

    /// Slots in a period of K tiles: K×S.
    pub fn period_slots(&self, period: u16) -> usize {
        usize::from(period) * self.tile_slots()
    }

    /// The slots a hop with this offset takes: o, o + K×S, o + 2×K×S and so on
    /// to the end of the cycle.
    pub fn slots_of(&self, offset: usize, period: u16) -> Slots {
        Slots { first: offset, step: self.period_slots(period), end: self.cycle_slots() }
    }

    /// The slot follows the control slots of its tile.
    pub fn is_data(&self, slot: usize) -> bool {
        slot % self.tile_slots() >= self.control_slots(slot / self.tile_slots())
    }

    /// Control slots at the head of this tile of the cycle.
    fn control_slots(&self, tile: usize) -> usize {
        let tile_of_plan = (tile % usize::from(self.c)) as u8;
        if self.is_downlink(tile_of_plan) { usize::from(self.d) } else { usize::from(self.u) }
    }

    /// Bit `tile` of the tile kinds.
    fn is_downlink(&self, tile: u8) -> bool {
        self.kinds >> tile & 1 == 1
    }
}
