//! The table: everything that the executive knows, and who is to be elected.
//!
//! Every number keeps its whole range, also where a valid table uses less of it, so that a damaged table can be held and found out.

pub const TASKS: usize = 64;
pub const REGIONS: usize = 16;
pub const QUEUES: usize = 8;
pub const PLACES: usize = 64;
pub const TIMERS: usize = 16;
pub const EVENTS: u32 = 16;
pub const CRITERIA: u32 = 16;

/// A task's state. Not an `enum`, since a damaged table may hold any number.
#[derive(Clone, Copy, Debug, Default, PartialEq, Eq)]
pub struct State(pub u8);

impl State {
    pub const STOPPED: State = State(0);
    pub const READY: State = State(1);
    pub const WAITING: State = State(2);
    /// Waiting for a region. It is never stored: such a task is stored as ready, with the region it waits for.
    pub const SUSPENDED: State = State(3);
}

/// The region that a task waits for: 0 for none, else its number plus 1. A byte, so that a task has eight.
#[derive(Clone, Copy, Debug, Default, PartialEq, Eq)]
pub struct Awaited(pub u8);

impl Awaited {
    pub const NONE: Awaited = Awaited(0);

    pub fn of(region: usize) -> Awaited {
        Awaited(region as u8 + 1)
    }

    pub fn region(self) -> Option<usize> {
        self.0.checked_sub(1).map(usize::from)
    }
}

/// What is waited for: `all` of a list's events, or `any` of them.
pub mod operator {
    pub const ALL: u8 = 0;
    pub const ANY: u8 = 1;
}

/// Whether `arrived` meets the condition of a list and an operator.
pub fn is_met(list: u16, operator: u8, arrived: u16) -> bool {
    if operator == operator::ANY {
        arrived & list != 0
    } else {
        arrived & list == list
    }
}

#[derive(Clone, Copy, Debug, Default, PartialEq, Eq)]
pub struct Task {
    pub arrived: u16,
    pub list: u16,
    pub operator: u8,
    pub state: State,
    pub priority: u8,
    pub awaits: Awaited,
}

impl Task {
    /// The state that a query tells.
    pub fn told_state(&self) -> State {
        match self.awaits {
            Awaited::NONE => self.state,
            _ => State::SUSPENDED,
        }
    }

    /// Whether it could be elected. Without a branch: which of many tasks are ready cannot be guessed.
    pub fn is_ready(&self) -> bool {
        (self.state == State::READY) & (self.awaits == Awaited::NONE)
    }

    /// The event arrives, and wakes the task if that is what it waits for.
    pub fn signal(&mut self, event: u8) {
        self.arrived |= 1 << event;
        if self.state == State::WAITING && is_met(self.list, self.operator, self.arrived) {
            self.state = State::READY;
            self.list = 0;
            self.operator = 0;
        }
    }

    /// The same task in another state, with no event arrived and nothing waited for.
    pub fn blank(self, state: State) -> Task {
        Task {
            priority: self.priority,
            state,
            ..Task::default()
        }
    }
}

/// A region's mark: closed, or open to be waited for. Not an `enum`, since a damaged table may hold any number.
#[derive(Clone, Copy, Debug, Default, PartialEq, Eq)]
pub struct Mark(pub u8);

impl Mark {
    pub const CLOSED: Mark = Mark(0);
    pub const OPEN: Mark = Mark(1);
}

#[derive(Clone, Copy, Debug, Default, PartialEq, Eq)]
pub struct Region {
    pub holder: Option<u8>,
    pub entries: u8,
    pub mark: Mark,
}

impl Region {
    pub fn is_open(&self) -> bool {
        self.mark != Mark::CLOSED
    }
}

/// A queue: its first `length` places, oldest first.
#[derive(Clone, Copy, Debug, PartialEq, Eq)]
pub struct Queue {
    pub bound: u8,
    pub length: u8,
    pub criteria: [u8; PLACES],
    pub elements: [u32; PLACES],
}

impl Queue {
    pub const NONE: Queue = Queue {
        bound: 0,
        length: 0,
        criteria: [0; PLACES],
        elements: [0; PLACES],
    };

    pub fn is_full(&self) -> bool {
        self.length == self.bound
    }

    pub fn push(&mut self, element: u32, criterion: u8) {
        let end = usize::from(self.length);
        self.elements[end] = element;
        self.criteria[end] = criterion;
        self.length += 1;
    }

    /// The place of the oldest element of a criterion; of the largest criterion present if none is named.
    pub fn find(&self, criterion: Option<u8>) -> Option<usize> {
        let present = &self.criteria[..usize::from(self.length)];
        let wanted = criterion.or_else(|| present.iter().max().copied())?;
        present.iter().position(|&c| c == wanted)
    }

    /// Takes out what stands at a place; those behind it move up.
    pub fn remove(&mut self, place: usize) -> (u32, u8) {
        let taken = (self.elements[place], self.criteria[place]);
        let last = usize::from(self.length) - 1;
        self.elements.copy_within(place + 1..=last, place);
        self.criteria.copy_within(place + 1..=last, place);
        self.elements[last] = 0;
        self.criteria[last] = 0;
        self.length -= 1;
        taken
    }
}

#[derive(Clone, Copy, Debug, Default, PartialEq, Eq)]
pub struct Timer {
    pub date: u32,
    pub armed: u8,
    pub owner: u8,
    pub event: u8,
}

#[derive(Clone, Debug, PartialEq, Eq)]
pub struct Table {
    pub task_count: u8,
    pub region_count: u8,
    pub queue_count: u8,
    pub elected: Option<u8>,
    pub ticks: u32,
    pub tasks: [Task; TASKS],
    pub regions: [Region; REGIONS],
    pub timers: [Timer; TIMERS],
    pub queues: [Queue; QUEUES],
}

impl Table {
    /// The table of zeros, which stands for a refused configuration and is not valid.
    pub fn zeros() -> Self {
        Table {
            task_count: 0,
            region_count: 0,
            queue_count: 0,
            elected: Some(0),
            ticks: 0,
            tasks: [Task::default(); TASKS],
            regions: [Region::default(); REGIONS],
            timers: [Timer::default(); TIMERS],
            queues: [Queue::NONE; QUEUES],
        }
    }

    /// Who holds the occupied closed regions, if any is occupied.
    pub fn holder(&self) -> Option<u8> {
        self.regions
            .iter()
            .find_map(|region| region.holder.filter(|_| region.mark == Mark::CLOSED))
    }

    /// Whether a task holds an open region.
    pub fn holds_open(&self, task: u8) -> bool {
        self.regions.iter().any(|region| region.is_open() && region.holder == Some(task))
    }

    /// Who holds the region that a task waits for, if it waits for one.
    pub fn held_up_by(&self, task: usize) -> Option<usize> {
        let region = self.tasks[task].awaits.region()?;
        self.regions[region].holder.map(usize::from)
    }

    /// A task, who holds it up, who holds that one up, and so on: without end on a circle.
    pub fn chain(&self, task: usize) -> impl Iterator<Item = usize> + '_ {
        std::iter::successors(Some(task), |&task| self.held_up_by(task))
    }

    /// Whether any task could have been made to wait for a region. There are fewer regions than tasks, so that this is asked first.
    fn an_open_region_is_held(&self) -> bool {
        self.regions
            .iter()
            .fold(false, |any, region| any | (region.is_open() & region.holder.is_some()))
    }

    /// Whether any task waits for a region. All are looked at, so that the compiler takes several at once.
    pub fn anybody_is_suspended(&self) -> bool {
        self.tasks.iter().fold(0, |any, task| any | task.awaits.0) != 0
    }

    /// Each task's urgency: the smallest priority number of its own and of those that it holds up, through any chain.
    pub fn urgencies(&self) -> [u8; TASKS] {
        let mut urgencies = self.tasks.map(|task| task.priority);
        if self.anybody_is_suspended() {
            self.lend_priorities(&mut urgencies);
        }
        urgencies
    }

    /// Every suspended task lends its priority along its chain, as far as somebody in it is less urgent than that. Behind one that is not,
    /// nobody is: whoever gave it that urgency lends it further. So a circle is gone round once.
    fn lend_priorities(&self, urgencies: &mut [u8; TASKS]) {
        for (number, task) in self.tasks.iter().enumerate() {
            let mut behind = self.held_up_by(number);
            while let Some(holder) = behind.filter(|&holder| urgencies[holder] > task.priority) {
                urgencies[holder] = task.priority;
                behind = self.held_up_by(holder);
            }
        }
    }

    /// The ready task of the smallest urgency number, and of equals the one of the lowest number.
    pub fn most_urgent(&self) -> Option<u8> {
        // Where nobody waits for a region, and so nobody lends, whoever is stored as ready is, and as urgent as its priority says.
        if self.an_open_region_is_held() && self.anybody_is_suspended() {
            let urgencies = self.urgencies();
            self.least(|number, task| task.is_ready().then_some(urgencies[usize::from(number)]))
        } else {
            self.least(|_, task| (task.state == State::READY).then_some(task.priority))
        }
    }

    /// The task of the smallest urgency, and of equals the one of the lowest number, where those are left out that have none.
    fn least(&self, urgency: impl Fn(u8, &Task) -> Option<u8>) -> Option<u8> {
        // Urgency before number in one word: the smallest word is the answer, and none of a task that is left out is as small.
        let rank = |(number, task): (u8, &Task)| match urgency(number, task) {
            Some(urgency) => u16::from_be_bytes([urgency, number]),
            None => u16::MAX,
        };
        let least = (0u8..).zip(&self.tasks).map(rank).fold(u16::MAX, u16::min);
        (least != u16::MAX).then_some(least as u8)
    }

    /// The most urgent of the tasks that wait for a region, and of equals the one of the lowest number.
    pub fn first_in_line(&self, region: usize) -> Option<u8> {
        let awaited = Awaited::of(region);
        let anybody = self.tasks.iter().fold(false, |any, task| any | (task.awaits == awaited));
        let urgencies = anybody.then(|| self.urgencies())?;
        self.least(|number, task| (task.awaits == awaited).then_some(urgencies[usize::from(number)]))
    }

    /// Who is to be elected.
    pub fn election(&self) -> Option<u8> {
        self.holder().or_else(|| self.most_urgent())
    }

    /// Who was pushed aside: the former elected task, if it is still ready and no longer elected.
    pub fn displaced(&self, former: Option<u8>) -> Option<u8> {
        former.filter(|&task| self.elected != former && self.tasks[usize::from(task)].is_ready())
    }
}
