//! A table as packed bytes, little-endian, and the three calls on such a block.

use crate::answer::{Answer, Call, Status, OUTSIDE};
use crate::configuration::Configuration;
use crate::queries::Query;
use crate::table::{Awaited, Mark, State, Table, Timer, PLACES};

/// The size of a block.
pub const SIZE: usize = 3272;

/// Takes numbers off the front of a block.
struct Reader<'a> {
    rest: &'a [u8],
}

impl Reader<'_> {
    fn bytes<const N: usize>(&mut self) -> [u8; N] {
        let (bytes, rest) = self.rest.split_first_chunk().expect("the size was checked");
        self.rest = rest;
        *bytes
    }

    fn byte(&mut self) -> u8 {
        let [byte] = self.bytes();
        byte
    }

    fn half(&mut self) -> u16 {
        u16::from_le_bytes(self.bytes())
    }

    fn word(&mut self) -> u32 {
        u32::from_le_bytes(self.bytes())
    }
}

fn holder_byte(holder: Option<u8>) -> u8 {
    holder.map_or(0, |task| task.wrapping_add(1))
}

impl Table {
    /// The table in a block, valid or not; none if the size is wrong or an unused byte is not 0.
    pub fn unpacked(block: &[u8]) -> Option<Table> {
        if block.len() != SIZE {
            return None;
        }
        let mut from = Reader { rest: block };
        let mut table = Table::zeros();
        table.task_count = from.byte();
        table.region_count = from.byte();
        table.queue_count = from.byte();
        let elected = from.byte();
        table.elected = (elected != OUTSIDE).then_some(elected);
        table.tasks.iter_mut().for_each(|task| task.priority = from.byte());
        table.tasks.iter_mut().for_each(|task| task.state = State(from.byte()));
        table.tasks.iter_mut().for_each(|task| task.arrived = from.half());
        table.tasks.iter_mut().for_each(|task| task.list = from.half());
        table.tasks.iter_mut().for_each(|task| task.operator = from.byte());
        table.tasks.iter_mut().for_each(|task| task.awaits = Awaited(from.byte()));
        table
            .regions
            .iter_mut()
            .for_each(|region| region.holder = from.byte().checked_sub(1));
        table.regions.iter_mut().for_each(|region| region.entries = from.byte());
        table.regions.iter_mut().for_each(|region| region.mark = Mark(from.byte()));
        table.queues.iter_mut().for_each(|queue| queue.bound = from.byte());
        table.queues.iter_mut().for_each(|queue| queue.length = from.byte());
        for queue in &mut table.queues {
            queue.elements.iter_mut().for_each(|element| *element = from.word());
        }
        for queue in &mut table.queues {
            queue.criteria = from.bytes::<PLACES>();
        }
        table.ticks = from.word();
        for timer in &mut table.timers {
            let [armed, owner, event, unused] = from.bytes();
            if unused != 0 {
                return None;
            }
            *timer = Timer {
                armed,
                owner,
                event,
                date: from.word(),
            };
        }
        Some(table)
    }

    /// The block of a table.
    pub fn packed(&self) -> Vec<u8> {
        let mut block = Vec::with_capacity(SIZE);
        block.extend([self.task_count, self.region_count, self.queue_count, self.reported()]);
        block.extend(self.tasks.iter().map(|task| task.priority));
        block.extend(self.tasks.iter().map(|task| task.state.0));
        block.extend(self.tasks.iter().flat_map(|task| task.arrived.to_le_bytes()));
        block.extend(self.tasks.iter().flat_map(|task| task.list.to_le_bytes()));
        block.extend(self.tasks.iter().map(|task| task.operator));
        block.extend(self.tasks.iter().map(|task| task.awaits.0));
        block.extend(self.regions.iter().map(|region| holder_byte(region.holder)));
        block.extend(self.regions.iter().map(|region| region.entries));
        block.extend(self.regions.iter().map(|region| region.mark.0));
        block.extend(self.queues.iter().map(|queue| queue.bound));
        block.extend(self.queues.iter().map(|queue| queue.length));
        block.extend(self.queues.iter().flat_map(|queue| queue.elements).flat_map(u32::to_le_bytes));
        block.extend(self.queues.iter().flat_map(|queue| queue.criteria));
        block.extend(self.ticks.to_le_bytes());
        for timer in &self.timers {
            block.extend([timer.armed, timer.owner, timer.event, 0]);
            block.extend(timer.date.to_le_bytes());
        }
        debug_assert_eq!(block.len(), SIZE);
        block
    }
}

fn refused(status: Status) -> u64 {
    Answer::bare(status, OUTSIDE).packed()
}

/// Makes a fresh table in the block.
pub fn fresh(block: &mut [u8], configuration: &Configuration) -> u64 {
    if block.len() != SIZE {
        return refused(Status::NotValid);
    }
    match configuration.fresh() {
        Some(table) => {
            block.copy_from_slice(&table.packed());
            Answer::bare(Status::Done, table.reported()).packed()
        }
        None => {
            block.fill(0);
            refused(Status::Configuration)
        }
    }
}

/// One call on the table in the block.
pub fn call(block: &mut [u8], call: &Call) -> u64 {
    match Table::unpacked(block) {
        Some(mut table) => {
            let answer = table.call(call);
            block.copy_from_slice(&table.packed());
            answer.packed()
        }
        None => refused(Status::NotValid),
    }
}

/// One query of the table in the block.
pub fn query(block: &[u8], number: u8, caller: u8, a: u32, b: u32) -> u64 {
    match (Table::unpacked(block), Query::numbered(number, caller, a, b)) {
        (Some(table), Some(query)) => table.query(query).packed(),
        (Some(table), None) if table.is_valid() => Answer::bare(Status::NoOperation, table.reported()).packed(),
        _ => refused(Status::NotValid),
    }
}
