//! When a table is valid: document 01's list, with T-01's rules on timers, T-04's on entries and T-09's on regions that are waited for.

use crate::calls::LONGEST_DELAY;
use crate::table::{is_met, operator, Mark, Queue, Region, State, Table, Task, Timer, CRITERIA, EVENTS, PLACES, QUEUES, REGIONS, TASKS};

impl Table {
    pub fn is_valid(&self) -> bool {
        self.counts_are_valid()
            && self.tasks_are_valid()
            && self.regions_are_valid()
            && self.lines_are_valid()
            && self.queues_are_valid()
            && self.timers_are_valid()
            && self.elected == self.election()
    }

    fn counts_are_valid(&self) -> bool {
        (1..=TASKS).contains(&usize::from(self.task_count))
            && usize::from(self.region_count) <= REGIONS
            && usize::from(self.queue_count) <= QUEUES
    }

    fn tasks_are_valid(&self) -> bool {
        let (used, unused) = self.tasks.split_at(self.task_count.into());
        // All of them, and no way out in between: the compiler then takes several tasks at once.
        used.iter().fold(true, |valid, task| valid & task.is_valid()) && unused.iter().all(|task| *task == Task::default())
    }

    /// Every holder of a closed region is the elected task, so there is one; being elected, it must be ready.
    fn regions_are_valid(&self) -> bool {
        let (used, unused) = self.regions.split_at(self.region_count.into());
        used.iter().all(|region| self.region_is_valid(region)) && unused.iter().all(|region| *region == Region::default())
    }

    fn region_is_valid(&self, region: &Region) -> bool {
        let marked = region.mark == Mark::CLOSED || region.mark == Mark::OPEN;
        marked
            && match region.holder {
                None => region.entries == 0,
                Some(holder) => region.entries > 0 && self.may_hold(region.mark, holder),
            }
    }

    fn may_hold(&self, mark: Mark, holder: u8) -> bool {
        // Stored as ready: it is ready, or waits for a region.
        self.state_of(holder) == Some(State::READY)
            && (mark == Mark::OPEN || self.elected == Some(holder) && self.tasks[usize::from(holder)].is_ready())
    }

    /// Mostly nobody waits for a region, which is seen at once.
    fn lines_are_valid(&self) -> bool {
        !self.anybody_is_suspended() || (0..TASKS).all(|task| self.line_is_valid(task)) && self.chains_end()
    }

    /// Whoever waits for a region is stored as ready, and waits for an open one that another task holds.
    fn line_is_valid(&self, number: usize) -> bool {
        let task = &self.tasks[number];
        task.awaits.region().is_none_or(|region| {
            let region = self.regions.get(region).filter(|region| region.is_open());
            let holder = region.and_then(|region| region.holder);
            task.state == State::READY && holder.is_some_and(|holder| usize::from(holder) != number)
        })
    }

    /// Each chain is followed to a task that is known to end, and then all of it is known.
    fn chains_end(&self) -> bool {
        let mut ends = 0u64;
        (0..TASKS).all(|task| {
            let mut chain = 0u64;
            let mut next = Some(task);
            while let Some(number) = next.filter(|number| ends >> number & 1 == 0) {
                if chain >> number & 1 != 0 {
                    return false;
                }
                chain |= 1 << number;
                next = self.held_up_by(number);
            }
            ends |= chain;
            true
        })
    }

    fn queues_are_valid(&self) -> bool {
        let (used, unused) = self.queues.split_at(self.queue_count.into());
        used.iter().all(Queue::is_valid) && unused.iter().all(|queue| *queue == Queue::NONE)
    }

    fn timers_are_valid(&self) -> bool {
        self.timers.iter().all(|timer| self.timer_is_valid(timer))
    }

    fn timer_is_valid(&self, timer: &Timer) -> bool {
        match timer.armed {
            0 => *timer == Timer::default(),
            1 => {
                self.state_of(timer.owner).is_some_and(|state| state != State::STOPPED)
                    && u32::from(timer.event) < EVENTS
                    && (1..=LONGEST_DELAY).contains(&timer.date.wrapping_sub(self.ticks))
            }
            _ => false,
        }
    }

    fn state_of(&self, task: u8) -> Option<State> {
        (task < self.task_count).then(|| self.tasks[usize::from(task)].state)
    }
}

impl Task {
    /// All three states are looked at without a branch: which one a task is in cannot be guessed.
    fn is_valid(&self) -> bool {
        let waits_for_nothing = (self.list == 0) & (self.operator == 0);
        let waits = (self.list != 0) & (self.operator <= operator::ANY) & !is_met(self.list, self.operator, self.arrived);
        (self.state == State::STOPPED) & (self.arrived == 0) & waits_for_nothing
            | (self.state == State::READY) & waits_for_nothing
            | (self.state == State::WAITING) & waits
    }
}

impl Queue {
    fn is_valid(&self) -> bool {
        if !(1..=PLACES).contains(&usize::from(self.bound)) || self.length > self.bound {
            return false;
        }
        let length = usize::from(self.length);
        u32::from(self.criteria.iter().fold(0, |all, criterion| all | criterion)) < CRITERIA
            && self.criteria[length..] == Queue::NONE.criteria[length..]
            && self.elements[length..] == Queue::NONE.elements[length..]
    }
}
