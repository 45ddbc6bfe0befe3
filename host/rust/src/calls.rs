//! Operations and queries, each with what it reads and nothing else, and the numbers that they go by.
use crate::numbers::{Criterion, Delay, Event, EventList, Operator, Queue, Region, Task, Timer};

/// What the elected task may call.
#[derive(Clone, Copy, Debug, PartialEq, Eq)]
pub enum Operation {
    /// A stopped task becomes ready.
    Start {
        /// The task to start.
        task: Task,
    },
    /// A task becomes stopped, the caller itself too.
    Stop {
        /// The task to stop.
        task: Task,
    },
    /// The caller becomes stopped.
    End,
    /// An event arrives.
    Signal {
        /// The event.
        event: Event,
        /// Whose event it is.
        task: Task,
    },
    /// The caller waits, unless the condition is met.
    Wait {
        /// The events to wait for.
        list: EventList,
        /// All of them, or any.
        operator: Operator,
    },
    /// The caller's events become not arrived.
    Clear {
        /// Which events.
        list: EventList,
    },
    /// The caller becomes a region's holder, and the region counts one entry more. An open region that another task holds is waited for.
    Enter {
        /// The region.
        region: Region,
    },
    /// A region that the caller holds counts one entry less; when none is left it is free, or goes to the most urgent task that waits for it.
    Exit {
        /// The region.
        region: Region,
    },
    /// An element is added to a queue.
    Send {
        /// The queue.
        queue: Queue,
        /// Any number.
        element: u32,
        /// Its criterion.
        criterion: Criterion,
    },
    /// An element is taken from a queue.
    Retrieve {
        /// The queue.
        queue: Queue,
        /// Which element.
        wanted: Wanted,
    },
    /// A timer is to signal the caller.
    Arm {
        /// The timer.
        timer: Timer,
        /// The event that it signals.
        event: Event,
        /// After how many ticks.
        delay: Delay,
    },
    /// A timer becomes idle.
    Disarm {
        /// The timer.
        timer: Timer,
    },
}

/// The element that RETRIEVE takes.
#[derive(Clone, Copy, Debug, PartialEq, Eq)]
pub enum Wanted {
    /// The oldest of this criterion.
    Of(Criterion),
    /// The oldest of the largest criterion present.
    Largest,
}

/// What may come from outside.
#[derive(Clone, Copy, Debug, PartialEq, Eq)]
pub enum Outside {
    /// An event arrives.
    Signal {
        /// The event.
        event: Event,
        /// Whose event it is.
        task: Task,
    },
    /// The clock goes one on.
    Tick,
}

/// What may be asked.
#[derive(Clone, Copy, Debug, PartialEq, Eq)]
pub enum Query {
    /// 1 if the condition is met by the caller's events, else 0.
    Arrived {
        /// Who asks: the elected task.
        caller: Task,
        /// The events.
        list: EventList,
        /// All of them, or any.
        operator: Operator,
    },
    /// 1 if the queue holds nothing, else 0.
    Empty {
        /// The queue.
        queue: Queue,
    },
    /// 1 if the queue is at its bound, else 0.
    Full {
        /// The queue.
        queue: Queue,
    },
    /// The task's priority.
    Priority {
        /// The task.
        task: Task,
    },
    /// 0 stopped, 1 ready, 2 waiting for events, 3 waiting for a region.
    State {
        /// The task.
        task: Task,
    },
}

/// The number of an operation, and its a, b and c.
pub(crate) type Numbers = (u8, u32, u32, u32);

impl Operation {
    pub(crate) fn numbers(self) -> Numbers {
        match self {
            Operation::Start { task } => (0, task.into(), 0, 0),
            Operation::Stop { task } => (1, task.into(), 0, 0),
            Operation::End => (2, 0, 0, 0),
            Operation::Signal { event, task } => (3, event.into(), task.into(), 0),
            Operation::Wait { list, operator } => (4, list.into(), operator as u32, 0),
            Operation::Clear { list } => (5, list.into(), 0, 0),
            Operation::Enter { region } => (6, region.into(), 0, 0),
            Operation::Exit { region } => (7, region.into(), 0, 0),
            Operation::Send { queue, element, criterion } => (8, queue.into(), element, criterion.into()),
            Operation::Retrieve { queue, wanted: Wanted::Of(criterion) } => (9, queue.into(), 0, criterion.into()),
            Operation::Retrieve { queue, wanted: Wanted::Largest } => (9, queue.into(), 0, 16),
            Operation::Arm { timer, event, delay } => (10, timer.into(), event.into(), delay.into()),
            Operation::Disarm { timer } => (11, timer.into(), 0, 0),
        }
    }
}

impl Outside {
    pub(crate) fn numbers(self) -> Numbers {
        match self {
            Outside::Signal { event, task } => (3, event.into(), task.into(), 0),
            Outside::Tick => (12, 0, 0, 0),
        }
    }
}

impl Query {
    /// The number of the query, its caller, a and b.
    pub(crate) fn numbers(self) -> (u8, u8, u32, u32) {
        match self {
            Query::Arrived { caller, list, operator } => (0, caller.number(), list.into(), operator as u32),
            Query::Empty { queue } => (1, 0, queue.into(), 0),
            Query::Full { queue } => (2, 0, queue.into(), 0),
            Query::Priority { task } => (3, 0, task.into(), 0),
            Query::State { task } => (4, 0, task.into(), 0),
        }
    }
}
