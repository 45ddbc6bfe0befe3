//! Draws calls one by one, each in view of the table that those before it have left.

use crate::answer::{Answer, Call, OUTSIDE};
use crate::calls::Operation;
use crate::configuration::Configuration;
use crate::random::Random;
use crate::table::{Region, State, Table, TIMERS};

/// Numbers at each bound of the rules, one less and one more, and the largest.
pub const EDGES: [u32; 30] = [
    0,
    1,
    2,
    3,
    7,
    8,
    9,
    14,
    15,
    16,
    17,
    31,
    32,
    33,
    63,
    64,
    65,
    254,
    255,
    256,
    257,
    65_534,
    65_535,
    65_536,
    65_537,
    2_147_483_646,
    2_147_483_647,
    2_147_483_648,
    4_294_967_294,
    4_294_967_295,
];

/// How an author draws.
#[derive(Clone, Copy)]
pub struct Manner {
    /// One call in so many has a caller, an operation or a number that is likely wrong.
    pub slip: u32,
    pub longest_delay: u32,
    /// The caller's STOP and END are drawn only while more tasks than this are not stopped.
    pub kept_alive: usize,
    /// Tasks are led into the lines of open regions until so many wait in them.
    pub in_lines: usize,
}

/// One region entered until it refuses, and left as often: what else would reach 255 entries?
#[derive(Clone, Copy)]
enum Nest {
    None,
    Down(u32),
    Up(u32),
}

/// What becomes of the lines of open regions. Whoever is held up lends its urgency, so that from then on only a more urgent task comes to
/// call: a line grows from its least urgent task on, and once it can't grow any more it is dissolved.
#[derive(Clone, Copy, PartialEq, Eq)]
enum Lines {
    Grow,
    Stand,
    Dissolve,
}

pub struct Author {
    pub random: Random,
    table: Table,
    manner: Manner,
    filling: u32,
    nest: Nest,
    lines: Lines,
}

impl Author {
    /// An author that begins with the fresh table; a refused configuration leaves the table of zeros.
    pub fn new(configuration: &Configuration, manner: Manner, random: Random) -> Self {
        Author {
            random,
            table: configuration.fresh().unwrap_or_else(Table::zeros),
            manner,
            filling: u32::MAX,
            nest: Nest::None,
            lines: Lines::Grow,
        }
    }

    /// The same author with another table.
    pub fn with(self, table: Table) -> Self {
        Author { table, ..self }
    }

    pub fn table(&self) -> &Table {
        &self.table
    }

    /// A given call, made.
    pub fn made(&mut self, call: Call) -> (Call, Answer) {
        (call, self.table.call(&call))
    }

    /// The next call, already made.
    pub fn call(&mut self) -> (Call, Answer) {
        let mut call = self.sensible();
        if self.random.one_in(self.manner.slip) {
            self.slip(&mut call);
        }
        self.made(call)
    }

    /// A call of numbers at their bounds, already made.
    pub fn hostile_call(&mut self) -> (Call, Answer) {
        let operation = if self.random.one_in(8) {
            self.random.below(256)
        } else {
            self.random.below(14)
        } as u8;
        let caller = match self.random.below(8) {
            0 => OUTSIDE,
            1 => self.random.below(256) as u8,
            _ => self.table.reported(),
        };
        let [a, b, c] = [(); 3].map(|()| self.edge());
        self.made(Call {
            caller,
            operation,
            a,
            b,
            c,
        })
    }

    fn edge(&mut self) -> u32 {
        if self.random.one_in(3) {
            self.random.below(4)
        } else {
            self.random.of(&EDGES)
        }
    }

    fn slip(&mut self, call: &mut Call) {
        match self.random.below(8) {
            0 => call.caller = self.random.below(256) as u8,
            1 => call.caller = OUTSIDE,
            2 => call.caller = self.random.below(self.table.task_count.max(1).into()) as u8,
            3 => call.operation = self.random.below(256) as u8,
            4 => call.operation = self.random.below(14) as u8,
            5 => call.a = self.edge(),
            6 => call.b = self.edge(),
            _ => call.c = self.edge(),
        }
    }

    fn sensible(&mut self) -> Call {
        match self.table.elected {
            Some(_) if self.random.one_in(8) => self.of_outside(),
            Some(elected) => self.of_task(elected),
            None => self.of_outside(),
        }
    }

    fn of_outside(&mut self) -> Call {
        if self.random.below(5) < 2 {
            call(OUTSIDE, Operation::Tick, 0, 0, 0)
        } else {
            self.signal(OUTSIDE)
        }
    }

    fn of_task(&mut self, me: u8) -> Call {
        if let Some(call) = self.nested(me) {
            return call;
        }
        if let Some(call) = self.in_line(me) {
            return call;
        }
        let inside = self.table.holder().is_some() || self.table.holds_open(me);
        match self.random.below(100) {
            0..=6 => self.start(me),
            7..=9 => self.stop(me),
            10..=11 if inside && !self.random.one_in(4) => self.leave(me),
            10..=11 if self.alive() > self.manner.kept_alive => call(me, Operation::End, 0, 0, 0),
            12..=24 => self.signal(me),
            25..=39 if inside && !self.random.one_in(4) => self.leave(me),
            25..=39 => self.wait(me),
            40..=48 => self.clear(me),
            49..=57 => call(me, Operation::Enter, self.region(), 0, 0),
            58..=64 => self.leave(me),
            65..=89 => self.queue_call(me),
            90..=96 => self.arm(me),
            97..=99 => call(me, Operation::Disarm, self.timer(me), 0, 0),
            _ => self.start(me),
        }
    }

    fn nested(&mut self, me: u8) -> Option<Call> {
        if matches!(self.nest, Nest::None) && self.random.one_in(40_000) {
            self.nest = Nest::Down(self.region());
        }
        if self.random.one_in(16) {
            return None;
        }
        match self.nest {
            Nest::None => None,
            // The holder of an open region has been pushed aside, and goes on later.
            Nest::Down(region) | Nest::Up(region) if self.is_anothers(region, me) => None,
            Nest::Down(region) => {
                if self.entries(region) == 255 && self.random.one_in(3) {
                    self.nest = Nest::Up(region);
                }
                Some(call(me, Operation::Enter, region, 0, 0))
            }
            Nest::Up(region) => {
                if self.entries(region) <= 1 {
                    self.nest = Nest::None;
                }
                Some(call(me, Operation::Exit, region, 0, 0))
            }
        }
    }

    fn entries(&self, region: u32) -> u8 {
        self.table.regions[region as usize].entries
    }

    fn is_anothers(&self, region: u32, me: u8) -> bool {
        self.table.regions[region as usize].holder.is_some_and(|holder| holder != me)
    }

    /// Where there are open regions, a call that makes lines longer or dissolves them, one time in two.
    fn in_line(&mut self, me: u8) -> Option<Call> {
        if !self.has_open() {
            return None;
        }
        self.lines = self.lines_now(me);
        if self.random.one_in(8) {
            None
        } else if self.lines == Lines::Stand {
            self.back_in_line(me)
        } else if self.table.holder().is_some() && !self.random.one_in(16) {
            Some(self.exit(me))
        } else if self.lines == Lines::Grow {
            Some(self.grown(me))
        } else {
            Some(self.given_way(me))
        }
    }

    fn lines_now(&mut self, me: u8) -> Lines {
        let (waiting, wanted) = (self.in_lines(), self.manner.in_lines);
        let enough = wanted.min(usize::from(self.table.task_count) * 3 / 4);
        match self.lines {
            Lines::Grow if waiting >= wanted => Lines::Stand,
            Lines::Stand if waiting < wanted / 2 => Lines::Grow,
            Lines::Dissolve if waiting == 0 && (self.more_urgent(me).count() >= enough || self.random.one_in(64)) => Lines::Grow,
            as_before => as_before,
        }
    }

    /// Whoever has been handed a region waits for the next one.
    fn back_in_line(&mut self, me: u8) -> Option<Call> {
        let wanted = self.in_lines() < self.manner.in_lines && self.table.holder().is_none();
        let region = wanted.then(|| self.anothers(me))?;
        region.map(|region| call(me, Operation::Enter, region, 0, 0))
    }

    /// An open region that another task holds; mostly one for which the caller can wait, else one that would close a circle.
    fn anothers(&mut self, me: u8) -> Option<u32> {
        let circle = self.random.one_in(self.manner.slip);
        self.open_region(|table, region| region.holder.is_some_and(|holder| holder != me) && circle == waits_for(table, region, me))
    }

    /// The caller waits for another's region, takes one of its own, or wakes who may come to wait.
    fn grown(&mut self, me: u8) -> Call {
        let holds = self.held_by(me);
        let anothers = self.anothers(me);
        let free = self.open_region(|_, region| region.holder.is_none());
        let next = self
            .more_urgent(me)
            .max_by_key(|&number| (self.table.tasks[usize::from(number)].priority, number));
        // A task that holds one and waits for another is a link; one that waits for nobody takes several, if somebody could come to wait.
        let region = match (anothers, free) {
            (Some(_), Some(free)) if holds == 0 && !self.random.one_in(3) => Some(free),
            (None, Some(free)) if holds < 3 && next.is_some() => Some(free),
            _ => anothers,
        };
        match (region, next) {
            (Some(region), _) => call(me, Operation::Enter, region, 0, 0),
            (None, Some(next)) => self.woken(me, next),
            (None, None) => {
                self.lines = Lines::Dissolve;
                self.given_way(me)
            }
        }
    }

    /// The tasks that are stopped or wait for events, and would be elected in the caller's place.
    fn more_urgent(&self, me: u8) -> impl Iterator<Item = u8> + '_ {
        let urgency = self.table.urgencies()[usize::from(me)];
        let tasks = &self.table.tasks[..self.table.task_count.into()];
        let asleep = (0..).zip(tasks).filter(|(_, task)| task.state != State::READY);
        asleep
            .filter(move |(number, task)| (task.priority, *number) < (urgency, me))
            .map(|(number, _)| number)
    }

    /// A task started, or signalled an event that it waits for.
    fn woken(&self, me: u8, number: u8) -> Call {
        let task = &self.table.tasks[usize::from(number)];
        if task.state == State::STOPPED {
            return call(me, Operation::Start, number.into(), 0, 0);
        }
        let missing = task.list & !task.arrived;
        call(me, Operation::Signal, missing.trailing_zeros(), number.into(), 0)
    }

    fn has_open(&self) -> bool {
        self.table.regions.iter().any(Region::is_open)
    }

    /// Whether nobody is to be woken out of turn.
    fn in_order(&self) -> bool {
        self.has_open() && self.lines != Lines::Stand
    }

    fn in_lines(&self) -> usize {
        self.table.tasks.iter().filter(|task| task.told_state() == State::SUSPENDED).count()
    }

    /// How many open regions a task holds.
    fn held_by(&self, task: u8) -> usize {
        let held = |region: &&Region| region.is_open() && region.holder == Some(task);
        self.table.regions.iter().filter(held).count()
    }

    /// Lets a less urgent task have its turn.
    fn given_way(&mut self, me: u8) -> Call {
        let arrived = self.table.tasks[usize::from(me)].arrived;
        if self.held_by(me) > 0 {
            self.exit(me)
        } else if arrived == u16::MAX {
            call(me, Operation::Clear, arrived.into(), 0, 0)
        } else {
            call(me, Operation::Wait, (!arrived).into(), 0, 0)
        }
    }

    /// An open region that passes, if there is one.
    fn open_region(&mut self, fits: impl Fn(&Table, &Region) -> bool) -> Option<u32> {
        let Author { random, table, .. } = self;
        let open = (0..)
            .zip(&table.regions)
            .filter(|(_, region)| region.is_open() && fits(table, region));
        random.any(open.map(|(number, _)| number))
    }

    fn alive(&self) -> usize {
        self.table.tasks.iter().filter(|task| task.state != State::STOPPED).count()
    }

    /// A task whose state passes, or any task if there is none or one time in eight.
    fn task(&mut self, fits: impl Fn(State) -> bool) -> u32 {
        let tasks = &self.table.tasks[..self.table.task_count.into()];
        let fitting = self
            .random
            .any((0..).zip(tasks).filter(|(_, task)| fits(task.state)).map(|(number, _)| number));
        match fitting {
            Some(number) if !self.random.one_in(8) => number,
            _ => self.random.below(self.table.task_count.max(1).into()),
        }
    }

    /// With no task left to start, mostly a signal instead.
    fn start(&mut self, me: u8) -> Call {
        if self.alive() == usize::from(self.table.task_count) && !self.random.one_in(8) {
            return self.signal(me);
        }
        if self.in_order() && !self.random.one_in(32) {
            return self.started_behind(me);
        }
        call(me, Operation::Start, self.task(|state| state == State::STOPPED), 0, 0)
    }

    /// A stopped task that is less urgent than the caller, and so doesn't come to call out of turn; with none left, a signal.
    fn started_behind(&mut self, me: u8) -> Call {
        let tasks = &self.table.tasks[..self.table.task_count.into()];
        let urgency = self.table.urgencies()[usize::from(me)];
        let behind = (0..)
            .zip(tasks)
            .filter(|(_, task)| task.state == State::STOPPED && task.priority > urgency);
        match self.random.any(behind.map(|(number, _)| number)) {
            Some(number) => call(me, Operation::Start, number, 0, 0),
            None => self.signal(me),
        }
    }

    fn stop(&mut self, me: u8) -> Call {
        let number = self.task(|state| state != State::STOPPED);
        let spared = self.has_open() && !self.random.one_in(4);
        if self.alive() > self.manner.kept_alive && !spared {
            call(me, Operation::Stop, number, 0, 0)
        } else {
            self.start(me)
        }
    }

    fn signal(&mut self, me: u8) -> Call {
        // While a line grows, nobody is woken out of turn.
        let number = if self.in_order() && !self.random.one_in(32) {
            self.task(|state| state == State::READY)
        } else if self.random.below(10) < 7 {
            self.task(|state| state == State::WAITING)
        } else {
            self.task(|state| state != State::STOPPED)
        };
        let list = self.table.tasks[number as usize].list;
        let listed = self.random.any((0..16).filter(|event| list >> event & 1 != 0));
        let event = listed.unwrap_or_else(|| self.random.below(16));
        call(me, Operation::Signal, event, number, 0)
    }

    /// One to three events.
    fn some_events(&mut self) -> u32 {
        (0..=self.random.below(3)).fold(0, |list, _| list | 1 << self.random.below(16))
    }

    fn wait(&mut self, me: u8) -> Call {
        call(me, Operation::Wait, self.some_events(), self.random.below(2), 0)
    }

    fn clear(&mut self, me: u8) -> Call {
        let arrived = self.table.tasks[usize::from(me)].arrived.into();
        let list = if arrived != 0 && self.random.one_in(2) {
            arrived
        } else {
            self.some_events()
        };
        call(me, Operation::Clear, list, 0, 0)
    }

    fn region(&mut self) -> u32 {
        self.random.below(self.table.region_count.max(1).into())
    }

    /// An EXIT, unless others are still to come and wait for what the caller holds.
    fn leave(&mut self, me: u8) -> Call {
        let kept = self.table.holder().is_none() && self.held_by(me) > 0;
        if kept && !self.random.one_in(64) {
            self.queue_call(me)
        } else {
            self.exit(me)
        }
    }

    fn exit(&mut self, me: u8) -> Call {
        let occupied = (0..).zip(&self.table.regions).filter(|(_, region)| region.holder == Some(me));
        let held = self.random.any(occupied.map(|(number, _)| number));
        let number = match held {
            Some(number) if !self.random.one_in(16) => number,
            _ => self.region(),
        };
        call(me, Operation::Exit, number, 0, 0)
    }

    /// Each queue is filled to its bound, then emptied, by and large.
    fn queue_call(&mut self, me: u8) -> Call {
        let number = self.random.below(self.table.queue_count.max(1).into());
        let queue = &self.table.queues[number as usize];
        if queue.is_full() {
            self.filling &= !(1 << number);
        } else if queue.length == 0 {
            self.filling |= 1 << number;
        }
        let filling = self.filling >> number & 1 != 0;
        if filling == (self.random.below(10) < 7) {
            call(me, Operation::Send, number, self.random.word() as u32, self.random.below(16))
        } else {
            call(me, Operation::Retrieve, number, 0, self.criterion(number))
        }
    }

    fn criterion(&mut self, queue: u32) -> u32 {
        let queue = &self.table.queues[queue as usize];
        let present = &queue.criteria[..queue.length.into()];
        match self.random.below(10) {
            0..=3 => 16,
            4..=8 if !present.is_empty() => self.random.of(present).into(),
            _ => self.random.below(16),
        }
    }

    fn timer(&mut self, me: u8) -> u32 {
        let timers = (0..).zip(&self.table.timers);
        let own = self.random.any(
            timers
                .filter(|(_, timer)| timer.armed == 0 || timer.owner == me)
                .map(|(number, _)| number),
        );
        match own {
            Some(number) if !self.random.one_in(8) => number,
            _ => self.random.below(TIMERS as u32),
        }
    }

    fn arm(&mut self, me: u8) -> Call {
        let delay = self.random.within(1, self.manner.longest_delay);
        call(me, Operation::Arm, self.timer(me), self.random.below(16), delay)
    }
}

/// Whether the region's holder waits for a task, through any chain.
fn waits_for(table: &Table, region: &Region, task: u8) -> bool {
    region
        .holder
        .is_some_and(|holder| table.chain(holder.into()).any(|link| link == usize::from(task)))
}

fn call(caller: u8, operation: Operation, a: u32, b: u32, c: u32) -> Call {
    Call {
        caller,
        operation: operation as u8,
        a,
        b,
        c,
    }
}
