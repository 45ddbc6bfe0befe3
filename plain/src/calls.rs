//! The thirteen operations, on a table that is changed in place.

use crate::answer::{Answer, Call, Status, OUTSIDE};
use crate::table::{is_met, operator, Awaited, Queue, State, Table, Task, Timer, CRITERIA, EVENTS, TIMERS};

/// The longest delay of a timer.
pub const LONGEST_DELAY: u32 = 2_147_483_647;

#[derive(Clone, Copy, Debug, PartialEq, Eq)]
pub enum Operation {
    Start,
    Stop,
    End,
    Signal,
    Wait,
    Clear,
    Enter,
    Exit,
    Send,
    Retrieve,
    Arm,
    Disarm,
    Tick,
}

impl Operation {
    pub const ALL: [Operation; 13] = [
        Operation::Start,
        Operation::Stop,
        Operation::End,
        Operation::Signal,
        Operation::Wait,
        Operation::Clear,
        Operation::Enter,
        Operation::Exit,
        Operation::Send,
        Operation::Retrieve,
        Operation::Arm,
        Operation::Disarm,
        Operation::Tick,
    ];

    pub fn numbered(number: u8) -> Option<Self> {
        Self::ALL.get(usize::from(number)).copied()
    }
}

/// What an accepted call answers, apart from the elected and the displaced task.
struct Reply {
    status: Status,
    value: u32,
    key: u8,
}

const DONE: Reply = Reply {
    status: Status::Done,
    value: 0,
    key: 0,
};

const WAITS: Reply = Reply {
    status: Status::Waits,
    ..DONE
};

/// A refusal's status, as an error so that `?` hands it on.
type Outcome = Result<Reply, Status>;

fn ensure(holds: bool, otherwise: Status) -> Result<(), Status> {
    if holds {
        Ok(())
    } else {
        Err(otherwise)
    }
}

/// A number below a count, as an index.
pub(crate) fn index(number: u32, count: impl Into<u32>) -> Result<usize, Status> {
    ensure(number < count.into(), Status::NoObject)?;
    Ok(number as usize)
}

/// An event list: not 0, and sixteen bits wide.
pub(crate) fn event_list(number: u32) -> Result<u16, Status> {
    match u16::try_from(number) {
        Ok(list) if list != 0 => Ok(list),
        _ => Err(Status::NoObject),
    }
}

pub(crate) fn event_operator(number: u32) -> Result<u8, Status> {
    ensure(number <= operator::ANY.into(), Status::NoOperator)?;
    Ok(number as u8)
}

impl Table {
    /// One call, with the validity check before it.
    pub fn call(&mut self, call: &Call) -> Answer {
        if self.is_valid() {
            self.call_on_valid(call)
        } else {
            Answer::bare(Status::NotValid, OUTSIDE)
        }
    }

    /// One call on a table that is known to be valid; on another it may panic.
    pub fn call_on_valid(&mut self, call: &Call) -> Answer {
        let former = self.elected;
        match self.perform(call) {
            Ok(Reply { status, value, key }) => Answer {
                status,
                value,
                key,
                elected: self.reported(),
                displaced: self.displaced(former).unwrap_or(OUTSIDE),
            },
            Err(status) => Answer::bare(status, self.reported()),
        }
    }

    /// The elected task as answers report it.
    pub fn reported(&self) -> u8 {
        self.elected.unwrap_or(OUTSIDE)
    }

    fn perform(&mut self, call: &Call) -> Outcome {
        let Call {
            caller,
            operation,
            a,
            b,
            c,
        } = *call;
        let operation = Operation::numbered(operation).ok_or(Status::NoOperation)?;
        if caller == OUTSIDE {
            ensure(matches!(operation, Operation::Signal | Operation::Tick), Status::NotForCaller)?;
        } else {
            ensure(self.elected == Some(caller), Status::NotElected)?;
            ensure(operation != Operation::Tick, Status::NotForCaller)?;
        }
        let me = usize::from(caller);
        match operation {
            Operation::Start => self.start(a),
            Operation::Stop => self.stop(caller, a),
            Operation::End => self.end(caller),
            Operation::Signal => self.signal(a, b),
            Operation::Wait => self.wait(caller, a, b),
            Operation::Clear => self.clear(me, a),
            Operation::Enter => self.enter(caller, a),
            Operation::Exit => self.exit(caller, a),
            Operation::Send => self.send(a, b, c),
            Operation::Retrieve => self.retrieve(a, c),
            Operation::Arm => self.arm(caller, a, b, c),
            Operation::Disarm => self.disarm(caller, a),
            Operation::Tick => self.tick(),
        }
    }

    fn elect(&mut self) -> Outcome {
        self.elected = self.election();
        Ok(DONE)
    }

    fn ensure_no_closed_region(&self) -> Result<(), Status> {
        ensure(self.holder().is_none(), Status::InRegion)
    }

    pub(crate) fn task(&self, number: u32) -> Result<&Task, Status> {
        Ok(&self.tasks[index(number, self.task_count)?])
    }

    pub(crate) fn queue(&self, number: u32) -> Result<&Queue, Status> {
        Ok(&self.queues[index(number, self.queue_count)?])
    }

    fn queue_mut(&mut self, number: u32) -> Result<&mut Queue, Status> {
        Ok(&mut self.queues[index(number, self.queue_count)?])
    }

    fn start(&mut self, number: u32) -> Outcome {
        let number = index(number, self.task_count)?;
        let task = &mut self.tasks[number];
        ensure(task.state == State::STOPPED, Status::WrongState)?;
        *task = task.blank(State::READY);
        self.elect()
    }

    fn stop(&mut self, caller: u8, number: u32) -> Outcome {
        let number = index(number, self.task_count)?;
        ensure(self.tasks[number].state != State::STOPPED, Status::WrongState)?;
        let number = number as u8;
        if number == caller {
            self.ensure_no_closed_region()?;
        }
        self.halt(number)
    }

    fn end(&mut self, caller: u8) -> Outcome {
        self.ensure_no_closed_region()?;
        self.halt(caller)
    }

    fn halt(&mut self, number: u8) -> Outcome {
        ensure(!self.holds_open(number), Status::HoldsOpen)?;
        let task = &mut self.tasks[usize::from(number)];
        *task = task.blank(State::STOPPED);
        for timer in &mut self.timers {
            if timer.armed != 0 && timer.owner == number {
                *timer = Timer::default();
            }
        }
        self.elect()
    }

    fn signal(&mut self, event: u32, number: u32) -> Outcome {
        let event = index(event, EVENTS)?;
        let number = index(number, self.task_count)?;
        let task = &mut self.tasks[number];
        ensure(task.state != State::STOPPED, Status::WrongState)?;
        let before = task.state;
        task.signal(event as u8);
        if task.state != before {
            self.elected = self.election();
        }
        Ok(DONE)
    }

    fn wait(&mut self, caller: u8, list: u32, operator: u32) -> Outcome {
        let list = event_list(list)?;
        let operator = event_operator(operator)?;
        self.ensure_no_closed_region()?;
        ensure(!self.holds_open(caller), Status::InRegion)?;
        let task = &mut self.tasks[usize::from(caller)];
        if is_met(list, operator, task.arrived) {
            return Ok(DONE);
        }
        task.state = State::WAITING;
        task.list = list;
        task.operator = operator;
        self.elected = self.election();
        Ok(WAITS)
    }

    fn clear(&mut self, me: usize, list: u32) -> Outcome {
        let list = event_list(list)?;
        self.tasks[me].arrived &= !list;
        Ok(DONE)
    }

    /// A region that is free or the caller's own. The caller is elected and stays so: nothing that the election looks at changes.
    fn enter(&mut self, caller: u8, number: u32) -> Outcome {
        let number = index(number, self.region_count)?;
        let region = &mut self.regions[number];
        match region.holder {
            Some(holder) if holder != caller => self.wait_in_line(caller, number, holder),
            _ => {
                region.entries = region.entries.checked_add(1).ok_or(Status::TooManyEntries)?;
                region.holder = Some(caller);
                Ok(DONE)
            }
        }
    }

    /// A region that another task holds is open, since a closed one's holder would be elected in the caller's place.
    fn wait_in_line(&mut self, caller: u8, region: usize, holder: u8) -> Outcome {
        self.ensure_no_closed_region()?;
        let caller = usize::from(caller);
        ensure(self.chain(holder.into()).all(|task| task != caller), Status::ClosesCircle)?;
        self.tasks[caller].awaits = Awaited::of(region);
        self.elected = self.election();
        Ok(WAITS)
    }

    fn exit(&mut self, caller: u8, number: u32) -> Outcome {
        let number = index(number, self.region_count)?;
        let region = &mut self.regions[number];
        if region.holder != Some(caller) {
            return Err(Status::NotHeld);
        }
        if region.entries > 1 {
            region.entries -= 1;
            return Ok(DONE);
        }
        if region.is_open() {
            return self.hand_on(number);
        }
        region.holder = None;
        region.entries = 0;
        self.elect()
    }

    /// An open region goes to the first in its line, who has then entered it once. Without a line it is free, and nobody's urgency changes.
    fn hand_on(&mut self, number: usize) -> Outcome {
        let heir = self.first_in_line(number);
        let region = &mut self.regions[number];
        region.holder = heir;
        region.entries = u8::from(heir.is_some());
        match heir {
            Some(heir) => {
                self.tasks[usize::from(heir)].awaits = Awaited::NONE;
                self.elect()
            }
            None => Ok(DONE),
        }
    }

    fn send(&mut self, queue: u32, element: u32, criterion: u32) -> Outcome {
        let queue = self.queue_mut(queue)?;
        ensure(criterion < CRITERIA, Status::NoObject)?;
        ensure(!queue.is_full(), Status::QueueFull)?;
        queue.push(element, criterion as u8);
        Ok(DONE)
    }

    fn retrieve(&mut self, queue: u32, criterion: u32) -> Outcome {
        let queue = self.queue_mut(queue)?;
        ensure(criterion <= CRITERIA, Status::NoObject)?;
        let wanted = (criterion < CRITERIA).then_some(criterion as u8);
        let place = queue.find(wanted).ok_or(Status::NothingFits)?;
        let (value, key) = queue.remove(place);
        Ok(Reply { value, key, ..DONE })
    }

    /// The timer, if it exists and no other task has armed it.
    fn own_timer(&mut self, caller: u8, number: usize) -> Result<&mut Timer, Status> {
        let timer = &mut self.timers[number];
        ensure(timer.armed == 0 || timer.owner == caller, Status::WrongState)?;
        Ok(timer)
    }

    fn arm(&mut self, caller: u8, timer: u32, event: u32, delay: u32) -> Outcome {
        let number = index(timer, TIMERS as u32)?;
        let event = index(event, EVENTS)? as u8;
        ensure((1..=LONGEST_DELAY).contains(&delay), Status::NoObject)?;
        let date = self.ticks.wrapping_add(delay);
        *self.own_timer(caller, number)? = Timer {
            armed: 1,
            owner: caller,
            event,
            date,
        };
        Ok(DONE)
    }

    fn disarm(&mut self, caller: u8, timer: u32) -> Outcome {
        let number = index(timer, TIMERS as u32)?;
        *self.own_timer(caller, number)? = Timer::default();
        Ok(DONE)
    }

    fn tick(&mut self) -> Outcome {
        self.ticks = self.ticks.wrapping_add(1);
        let Table { ticks, tasks, timers, .. } = self;
        for timer in timers.iter_mut().filter(|timer| timer.armed != 0 && timer.date == *ticks) {
            tasks[usize::from(timer.owner)].signal(timer.event);
            *timer = Timer::default();
        }
        self.elect()
    }
}
