//! Tiles of the cycle that follow each other, and the parts in which the engine is asked for them.

use crate::book::{Book, CYCLE};

/// The most tiles that the engine is asked for at once.
pub const AT_ONCE: u16 = 100;

/// So many tiles, from the first on; they may lie outside the cycle, and be none.
#[derive(Clone, Copy, Debug, PartialEq, Eq)]
pub struct Tiles {
    pub first: u16,
    pub count: u16,
}

impl Tiles {
    /// One repeat of books, and of several the first that ends one of each: what nodes do in it says it of the whole cycle.
    pub fn repeat(books: &[&Book]) -> Tiles {
        let ends = |count: &u16| books.iter().all(|book| count % book.repeats_after() == 0);
        Tiles { first: 0, count: (1..CYCLE).find(ends).unwrap_or(CYCLE) }
    }

    /// These tiles in turn, at most so many at once; no tiles are one part.
    pub fn parts(self) -> Vec<Tiles> {
        let part = |done: u16| {
            let first = self.first.saturating_add(done);
            Tiles { first, count: AT_ONCE.min(self.count - done) }
        };
        (0..self.count.max(1)).step_by(AT_ONCE.into()).map(part).collect()
    }
}

#[cfg(test)]
mod tests {
    use super::*;

    #[test]
    fn parts_follow_each_other_and_are_the_whole() {
        let parts = |first, count| Tiles { first, count }.parts();
        let of = |first, count| Tiles { first, count };
        assert_eq!(parts(7, 0), [of(7, 0)]);
        assert_eq!(parts(7, 100), [of(7, 100)]);
        assert_eq!(parts(7, 201), [of(7, 100), of(107, 100), of(207, 1)]);
        assert_eq!(parts(65500, 101), [of(65500, 100), of(65535, 1)]);
        assert_eq!(parts(0, 1000).len(), 10);
    }
}
