//! Calls and answers, and the status numbers.

/// The caller that stands for the outside; also the elected and the displaced task where there is none.
pub const OUTSIDE: u8 = 255;

/// A status number. Which of two refusals goes first is said in `calls`, and is not the order of the numbers.
#[derive(Clone, Copy, Debug, PartialEq, Eq, PartialOrd, Ord)]
#[repr(u8)]
pub enum Status {
    Done = 0,
    Waits = 1,
    NotValid = 10,
    NoOperation = 11,
    NotElected = 12,
    NotForCaller = 13,
    NoObject = 14,
    WrongState = 15,
    InRegion = 16,
    QueueFull = 17,
    NothingFits = 18,
    NoOperator = 19,
    Configuration = 20,
    Malformed = 21,
    TooManyEntries = 22,
    NotHeld = 23,
    ClosesCircle = 24,
    HoldsOpen = 25,
}

/// One call: who, what, and three numbers, of which the operation reads those it needs.
#[derive(Clone, Copy, Debug, PartialEq, Eq)]
pub struct Call {
    pub caller: u8,
    pub operation: u8,
    pub a: u32,
    pub b: u32,
    pub c: u32,
}

/// The answer to a call, a query or a line. `elected` and `displaced` are the numbers that are reported, 255 for none.
#[derive(Clone, Copy, Debug, PartialEq, Eq)]
pub struct Answer {
    pub status: Status,
    pub value: u32,
    pub key: u8,
    pub elected: u8,
    pub displaced: u8,
}

impl Answer {
    /// A status alone: nobody was displaced.
    pub fn bare(status: Status, elected: u8) -> Self {
        Answer {
            status,
            value: 0,
            key: 0,
            elected,
            displaced: OUTSIDE,
        }
    }

    /// The answer as one number: status, elected, key and displaced a byte each, then the value.
    pub fn packed(self) -> u64 {
        let bytes = u32::from_le_bytes([self.status as u8, self.elected, self.key, self.displaced]);
        u64::from(bytes) | u64::from(self.value) << 32
    }
}
