//! The numbers of document 01's list of answers, and of document 02's requests.

/// The number of a call that was done.
pub const DONE: u8 = 0;

/// Why a call was refused; the value is the number given back.
#[derive(Clone, Copy, Debug, PartialEq, Eq)]
#[repr(u8)]
pub enum Refusal {
    /// The id is 0.
    IdIsZero = 1,
    /// Open: the id is already in the book.
    IdInBook = 2,
    /// Close: the id is not in the book.
    IdNotInBook = 3,
    /// A node number is N or more.
    NoSuchNode = 4,
    /// The source is the destination.
    SourceIsDestination = 5,
    /// The period is none of the ten.
    NoSuchPeriod = 6,
    /// No allowed route exists.
    NoRoute = 7,
    /// The rows would pass 64, or the hops 512.
    BookIsFull = 8,
    /// No placing exists.
    NoPlacing = 9,
    /// A field of bytes 5 to 15, the account list, or an argument of a new book,
    /// out of its range.
    OutOfRange = 10,
    /// Topology: wrong length, a bit from N up, a self-link, a one-way link, a
    /// link missing from the hearing.
    UnsoundTopology = 11,
    /// The output buffer is shorter than the answer; for a posting, than the
    /// longest book, or the index is too short for 100 tiles.
    BufferTooShort = 12,
    /// Wrong mark or version.
    WrongMark = 13,
    /// Under 16 bytes, or not the length the header gives.
    WrongLength = 14,
    /// Not n lawful rows, rising strictly by id and then route, with the stated
    /// hops, filling the image.
    UnlawfulRows = 15,
    /// Two clashing hops of different rows meet.
    ClashingHopsMeet = 16,
    /// Allowed routes exist, and every one has over 15 hops.
    TooFar = 17,
    /// No such second route.
    NoSecondRoute = 18,
    /// Tables of the wrong length, with an entry that is no operation, an id
    /// where there is none or none where there is one, or control out of place.
    UnsoundTables = 19,
    /// No lawful book expands to the tables.
    NoSuchBook = 20,
    /// Tiles outside the cycle, or a count of 0 or over 100.
    TilesOutOfRange = 21,
    /// The account is unknown.
    UnknownAccount = 22,
    /// The account has not enough left.
    NotEnoughLeft = 23,
    /// A purchase past 32 bits.
    PastLargestNumber = 24,
    /// A mains set with a bit from N up.
    MainsOutOfRange = 25,
    /// Over 64 records.
    TooManyRecords = 26,
}

/// Refuses if the condition applies.
pub fn refuse_if(applies: bool, refusal: Refusal) -> Result<(), Refusal> {
    if applies { Err(refusal) } else { Ok(()) }
}
