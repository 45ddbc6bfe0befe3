//! A block that always holds a valid table.
use crate::answer::{Answer, Status};
use crate::calls::{Operation, Outside, Query};
use crate::numbers::{Mark, Task};
use crate::{raw, SIZE};

/// The executive's table in its packed block. There is no way to one that isn't valid: a fresh table is, and every call keeps it so.
#[derive(Clone, Debug, PartialEq, Eq)]
pub struct Block {
    bytes: [u8; SIZE],
}

const OUTSIDE: u8 = 255;
const MOST_REGIONS: usize = 16;

/// A count that a list has; one too long for a byte is out of range in any case, as 255 is.
fn count<T>(list: &[T]) -> u8 {
    u8::try_from(list.len()).unwrap_or(u8::MAX)
}

impl Block {
    /// The fresh table: a task for each priority, a queue for each bound, a region for each mark. [`Status::BadConfiguration`] where it is
    /// out of range.
    pub fn fresh(priorities: &[u8], bounds: &[u8], marks: &[Mark]) -> Result<Block, Status> {
        let mut bytes = [0; SIZE];
        // Marks past the most regions are left out: their count is out of range in any case.
        let mut numbers = [0; MOST_REGIONS];
        numbers.iter_mut().zip(marks).for_each(|(number, &mark)| *number = mark as u8);
        let answer = raw::fresh(&mut bytes, count(priorities), count(marks), count(bounds), priorities, bounds, &numbers);
        answer.accepted().map(|_| Block { bytes })
    }

    /// The table in these bytes. [`Status::NotATable`] where there is none.
    pub fn from_bytes(bytes: &[u8]) -> Result<Block, Status> {
        let bytes = <[u8; SIZE]>::try_from(bytes).map_err(|_| Status::NotATable)?;
        // Task 0 is in every table, so that this query is refused by what is none alone.
        let (number, caller, a, b) = Query::State { task: Task::FIRST }.numbers();
        raw::query(&bytes, number, caller, a, b).accepted().map(|_| Block { bytes })
    }

    /// The block as it can be stored or lent to C.
    pub fn as_bytes(&self) -> &[u8; SIZE] {
        &self.bytes
    }

    /// One call by a task.
    pub fn call(&mut self, caller: Task, operation: Operation) -> Answer {
        let (number, a, b, c) = operation.numbers();
        raw::call(&mut self.bytes, caller.number(), number, a, b, c)
    }

    /// One call from outside.
    pub fn outside(&mut self, happening: Outside) -> Answer {
        let (number, a, b, c) = happening.numbers();
        raw::call(&mut self.bytes, OUTSIDE, number, a, b, c)
    }

    /// One query.
    pub fn query(&self, query: Query) -> Answer {
        let (number, caller, a, b) = query.numbers();
        raw::query(&self.bytes, number, caller, a, b)
    }
}
