//! A configuration, and the fresh table that it gives.

use crate::table::{Mark, State, Table, PLACES, QUEUES, REGIONS, TASKS};

/// Counts, priorities, bounds, and a mark for each region. Entries past a count are not read.
#[derive(Clone, Copy, Debug, PartialEq, Eq)]
pub struct Configuration<'a> {
    pub tasks: u8,
    pub regions: u8,
    pub queues: u8,
    pub priorities: &'a [u8],
    pub bounds: &'a [u8],
    pub marks: &'a [u8],
}

/// Whether the three counts are in range.
pub fn counts_fit(tasks: u8, regions: u8, queues: u8) -> bool {
    (1..=TASKS).contains(&tasks.into()) && usize::from(regions) <= REGIONS && usize::from(queues) <= QUEUES
}

impl Configuration<'_> {
    /// The fresh table, unless the configuration is out of range.
    pub fn fresh(&self) -> Option<Table> {
        if !counts_fit(self.tasks, self.regions, self.queues) {
            return None;
        }
        let priorities = self.priorities.get(..self.tasks.into())?;
        let bounds = self.bounds.get(..self.queues.into())?;
        let marks = self.marks.get(..self.regions.into())?;
        if !bounds.iter().all(|&bound| (1..=PLACES).contains(&bound.into())) || marks.iter().any(|&mark| mark > Mark::OPEN.0) {
            return None;
        }
        let mut table = Table {
            task_count: self.tasks,
            region_count: self.regions,
            queue_count: self.queues,
            elected: Some(0),
            ..Table::zeros()
        };
        for (task, &priority) in table.tasks.iter_mut().zip(priorities) {
            task.priority = priority;
        }
        for (queue, &bound) in table.queues.iter_mut().zip(bounds) {
            queue.bound = bound;
        }
        for (region, &mark) in table.regions.iter_mut().zip(marks) {
            region.mark = Mark(mark);
        }
        table.tasks[0].state = State::READY;
        Some(table)
    }
}
