//! Document 01's examples through the typed calls; the answers are those that host/firmware.c expects from C.
use tankwesho::{
    Answer, Block, Criterion, Delay, Event, EventList, Mark, Operation, Operator, Outside, Query, Queue, Region, Status, Task, Timer,
    Wanted,
};

fn task(number: u8) -> Task {
    Task::new(number).unwrap()
}

fn event(number: u8) -> Event {
    Event::new(number).unwrap()
}

/// An answer that names nobody as displaced.
fn answer(status: Status, elected: Option<u8>) -> Answer {
    Answer { status, elected: elected.map(task), key: 0, value: 0, displaced: None }
}

/// An accepted call after which `elected` is elected in the place of `displaced`.
fn pushes(elected: u8, displaced: u8) -> Answer {
    Answer { displaced: Some(task(displaced)), ..answer(Status::Done, Some(elected)) }
}

const NO_TASK: Option<u8> = None;

/// "Each starts fresh: priorities 5, 5, 2, two regions, one queue of bound 2."
fn example() -> Block {
    Block::fresh(&[5, 5, 2], &[2], &[Mark::Closed; 2]).unwrap()
}

fn queue() -> Queue {
    Queue::new(0).unwrap()
}

/// "ENTER 0, START 2: elected 0; EXIT 0: elected 2."
#[test]
fn p2() {
    let (mut block, region) = (example(), Region::new(0).unwrap());
    assert_eq!(block.call(task(0), Operation::Enter { region }), answer(Status::Done, Some(0)));
    assert_eq!(block.call(task(0), Operation::Start { task: task(2) }), answer(Status::Done, Some(0)));
    assert_eq!(block.call(task(0), Operation::End), answer(Status::InRegion, Some(0)));
    assert_eq!(block.call(task(0), Operation::Exit { region }), pushes(2, 0));
}

/// T-08: "the former elected task if it is still ready and no longer elected, else 255"; "a refusal gives 255".
#[test]
fn pushed_aside() {
    let (mut block, region) = (example(), Region::new(0).unwrap());
    let (start, wait) = (|number| Operation::Start { task: task(number) }, |list| Operation::Wait { list, operator: Operator::All });
    let signal = |number| Outside::Signal { event: event(0), task: task(number) };
    assert_eq!(block.call(task(0), start(2)), pushes(2, 0));
    assert_eq!(block.call(task(0), Operation::End), answer(Status::NotElected, Some(2)));
    // Task 2 waits, ends or stops itself, and so is no longer ready.
    assert_eq!(block.call(task(2), wait(event(0).into())), answer(Status::Waits, Some(0)));
    assert_eq!(block.outside(signal(2)), pushes(2, 0));
    assert_eq!(block.call(task(2), Operation::End), answer(Status::Done, Some(0)));
    assert_eq!(block.call(task(0), start(2)), pushes(2, 0));
    assert_eq!(block.call(task(2), Operation::Stop { task: task(2) }), answer(Status::Done, Some(0)));
    // The holder stays elected, and is pushed aside at the last EXIT.
    assert_eq!(block.call(task(0), Operation::Enter { region }), answer(Status::Done, Some(0)));
    assert_eq!(block.call(task(0), start(2)), answer(Status::Done, Some(0)));
    assert_eq!(block.call(task(0), Operation::Exit { region }), pushes(2, 0));
    // STOP of another: the caller stays elected.
    assert_eq!(block.call(task(2), start(1)), answer(Status::Done, Some(2)));
    assert_eq!(block.call(task(2), Operation::Stop { task: task(0) }), answer(Status::Done, Some(2)));
    assert_eq!(block.call(task(2), Operation::End), answer(Status::Done, Some(1)));
    // "of equals the lowest task number": when task 0 starts, and when its timer rings.
    assert_eq!(block.call(task(1), start(0)), pushes(0, 1));
    let arm = Operation::Arm { timer: Timer::new(0).unwrap(), event: event(0), delay: Delay::new(1).unwrap() };
    assert_eq!(block.call(task(0), arm), answer(Status::Done, Some(0)));
    assert_eq!(block.call(task(0), wait(event(0).into())), answer(Status::Waits, Some(1)));
    assert_eq!(block.outside(Outside::Tick), pushes(0, 1));
    // Nobody was elected before the signal.
    assert_eq!(block.call(task(0), Operation::Stop { task: task(1) }), answer(Status::Done, Some(0)));
    assert_eq!(block.call(task(0), Operation::Clear { list: event(0).into() }), answer(Status::Done, Some(0)));
    assert_eq!(block.call(task(0), wait(event(0).into())), answer(Status::Waits, NO_TASK));
    assert_eq!(block.outside(signal(0)), answer(Status::Done, Some(0)));
}

/// T-04: a routine 254 entries deep "calls a helper that enters and exits the same region", and goes on protected; the task started
/// inside, more urgent, is elected at the last EXIT. "The 256th ENTER gets 22". T-06: "EXIT of a region that the caller doesn't hold now
/// gets 23".
#[test]
fn entries() {
    let (mut block, region) = (example(), Region::new(0).unwrap());
    let (enter, exit) = (Operation::Enter { region }, Operation::Exit { region });
    for _ in 0..254 {
        assert_eq!(block.call(task(0), enter), answer(Status::Done, Some(0)));
    }
    let routine = block.clone();
    assert_eq!(block.call(task(0), enter), answer(Status::Done, Some(0)));
    let helper = block.clone();
    assert_eq!(block.call(task(0), enter), answer(Status::EnteredTooOften, Some(0)));
    assert_eq!(block, helper);
    assert_eq!(block.call(task(0), exit), answer(Status::Done, Some(0)));
    assert_eq!(block, routine);
    assert_eq!(block.call(task(0), Operation::Start { task: task(2) }), answer(Status::Done, Some(0)));
    for _ in 0..253 {
        assert_eq!(block.call(task(0), exit), answer(Status::Done, Some(0)));
    }
    assert_eq!(block.call(task(0), Operation::End), answer(Status::InRegion, Some(0)));
    assert_eq!(block.call(task(0), exit), pushes(2, 0));
    let free = block.clone();
    assert_eq!(block.call(task(2), exit), answer(Status::NotHeld, Some(2)));
    assert_eq!(block, free);
}

/// "WAIT list 3 all: status 1, elected 255. Outside SIGNAL 0 to task 0: still 255; SIGNAL 1: elected 0, events 3."
#[test]
fn p3() {
    let mut block = example();
    let (list, operator) = (EventList::from(event(0)).and(event(1)), Operator::All);
    let signal = |number| Outside::Signal { event: event(number), task: task(0) };
    assert_eq!(block.call(task(0), Operation::Wait { list, operator }), answer(Status::Waits, NO_TASK));
    assert_eq!(block.query(Query::State { task: task(0) }), Answer { value: 2, ..answer(Status::Done, NO_TASK) });
    assert_eq!(block.outside(signal(0)), answer(Status::Done, NO_TASK));
    assert_eq!(block.outside(signal(1)), answer(Status::Done, Some(0)));
    let arrived = Query::Arrived { caller: task(0), list, operator };
    assert_eq!(block.query(arrived), Answer { value: 1, ..answer(Status::Done, Some(0)) });
    assert_eq!(block.call(task(0), Operation::Clear { list }), answer(Status::Done, Some(0)));
    assert_eq!(block.query(arrived), answer(Status::Done, Some(0)));
}

/// "SEND (11, 3), (12, 9): 0; (13, 3): 17. RETRIEVE 16: 12, key 9. RETRIEVE 3: 11. Again: 18."
#[test]
fn p4() {
    let mut block = example();
    let criterion = |number| Criterion::new(number).unwrap();
    let send = |element, number| Operation::Send { queue: queue(), element, criterion: criterion(number) };
    let retrieve = |wanted| Operation::Retrieve { queue: queue(), wanted };
    assert_eq!(block.query(Query::Empty { queue: queue() }).value, 1);
    assert_eq!(block.call(task(0), send(11, 3)), answer(Status::Done, Some(0)));
    assert_eq!(block.call(task(0), send(12, 9)), answer(Status::Done, Some(0)));
    assert_eq!(block.query(Query::Full { queue: queue() }).value, 1);
    assert_eq!(block.call(task(0), send(13, 3)), answer(Status::QueueAtBound, Some(0)));
    assert_eq!(block.call(task(0), retrieve(Wanted::Largest)), Answer { value: 12, key: 9, ..answer(Status::Done, Some(0)) });
    let third = retrieve(Wanted::Of(criterion(3)));
    assert_eq!(block.call(task(0), third), Answer { value: 11, key: 3, ..answer(Status::Done, Some(0)) });
    assert_eq!(block.call(task(0), third), answer(Status::NoneFits, Some(0)));
}

/// T-01: "It then signals its task's event and is disarmed"; "a timer that another task has armed gets 15"; STOP disarms.
#[test]
fn timers() {
    let mut block = example();
    let (timer, list) = (Timer::new(15).unwrap(), EventList::from(event(4)));
    let arm = Operation::Arm { timer, event: event(4), delay: Delay::new(2).unwrap() };
    assert_eq!(block.call(task(0), arm), answer(Status::Done, Some(0)));
    assert_eq!(block.call(task(0), Operation::Wait { list, operator: Operator::Any }), answer(Status::Waits, NO_TASK));
    assert_eq!(block.outside(Outside::Tick), answer(Status::Done, NO_TASK));
    assert_eq!(block.outside(Outside::Tick), answer(Status::Done, Some(0)));
    assert_eq!(block.call(task(0), arm), answer(Status::Done, Some(0)));
    assert_eq!(block.call(task(0), Operation::Start { task: task(2) }), pushes(2, 0));
    assert_eq!(block.call(task(2), arm), answer(Status::WrongState, Some(2)));
    assert_eq!(block.call(task(2), Operation::Stop { task: task(0) }), answer(Status::Done, Some(2)));
    assert_eq!(block.call(task(2), arm), answer(Status::Done, Some(2)));
    assert_eq!(block.call(task(2), Operation::Disarm { timer }), answer(Status::Done, Some(2)));
}

/// What exists as a type and not in this block is refused, and a refusal changes nothing.
#[test]
fn refusals_change_nothing() {
    let mut block = example();
    let before = block.clone();
    let refused = [
        (0, Operation::Start { task: task(3) }, Status::Missing),
        (0, Operation::Start { task: task(0) }, Status::WrongState),
        (0, Operation::Stop { task: task(1) }, Status::WrongState),
        (0, Operation::Signal { event: event(15), task: task(63) }, Status::Missing),
        (0, Operation::Enter { region: Region::new(2).unwrap() }, Status::Missing),
        (0, Operation::Retrieve { queue: Queue::new(1).unwrap(), wanted: Wanted::Largest }, Status::Missing),
        (1, Operation::End, Status::NotElected),
        (63, Operation::End, Status::NotElected),
    ];
    for (caller, operation, status) in refused {
        assert_eq!(block.call(task(caller), operation), answer(status, Some(0)));
        assert_eq!(block, before);
    }
    assert_eq!(block.outside(Outside::Signal { event: event(0), task: task(1) }), answer(Status::WrongState, Some(0)));
    assert_eq!(block.query(Query::Priority { task: task(3) }), answer(Status::Missing, Some(0)));
    assert_eq!(block, before);
}

#[test]
fn configurations() {
    let two = [Mark::Closed, Mark::Open];
    assert_eq!(Block::fresh(&[], &[2], &two), Err(Status::BadConfiguration));
    assert_eq!(Block::fresh(&[5; 65], &[2], &two), Err(Status::BadConfiguration));
    assert_eq!(Block::fresh(&[5], &[2], &[Mark::Open; 17]), Err(Status::BadConfiguration));
    assert_eq!(Block::fresh(&[5], &[0], &two), Err(Status::BadConfiguration));
    assert_eq!(Block::fresh(&[5], &[1; 9], &two), Err(Status::BadConfiguration));
    // 256 and 257 entries are not 0 and 1 of them.
    assert_eq!(Block::fresh(&[5; 257], &[2], &two), Err(Status::BadConfiguration));
    assert_eq!(Block::fresh(&[5], &[1; 256], &two), Err(Status::BadConfiguration));
    assert_eq!(Block::fresh(&[5], &[2], &[Mark::Open; 256]), Err(Status::BadConfiguration));
    assert!(Block::fresh(&[255; 64], &[64; 8], &[Mark::Open; 16]).is_ok());
    assert!(Block::fresh(&[0], &[], &[]).is_ok());
}

/// T-09: the holder of an open region is as urgent as whoever waits for it; the region is handed on; 24 in the place of a deadlock.
#[test]
fn lines() {
    let mut block = Block::fresh(&[9, 5, 1], &[], &[Mark::Open, Mark::Open, Mark::Closed]).unwrap();
    let enter = |number| Operation::Enter { region: Region::new(number).unwrap() };
    let exit = |number| Operation::Exit { region: Region::new(number).unwrap() };
    let start = |number| Operation::Start { task: task(number) };
    assert_eq!(block.call(task(0), enter(0)), answer(Status::Done, Some(0)));
    let wait = Operation::Wait { list: event(0).into(), operator: Operator::All };
    assert_eq!(block.call(task(0), wait), answer(Status::InRegion, Some(0)));
    assert_eq!(block.call(task(0), Operation::End), answer(Status::HoldsOpen, Some(0)));
    assert_eq!(block.call(task(0), start(2)), pushes(2, 0));
    assert_eq!(block.call(task(2), enter(1)), answer(Status::Done, Some(2)));
    assert_eq!(block.call(task(2), Operation::Stop { task: task(0) }), answer(Status::HoldsOpen, Some(2)));
    // Suspended, and not displaced; the task of 5 doesn't come before the one that runs with 1.
    assert_eq!(block.call(task(2), enter(0)), answer(Status::Waits, Some(0)));
    assert_eq!(block.query(Query::State { task: task(2) }), Answer { value: 3, ..answer(Status::Done, Some(0)) });
    assert_eq!(block.query(Query::Priority { task: task(0) }), Answer { value: 9, ..answer(Status::Done, Some(0)) });
    assert_eq!(block.call(task(0), start(1)), answer(Status::Done, Some(0)));
    assert_eq!(block.call(task(0), start(2)), answer(Status::WrongState, Some(0)));
    let before = block.clone();
    assert_eq!(block.call(task(0), enter(1)), answer(Status::ClosesCircle, Some(0)));
    assert_eq!(block, before);
    assert_eq!(block.outside(Outside::Signal { event: event(3), task: task(2) }), answer(Status::Done, Some(0)));
    assert_eq!(block.call(task(0), exit(0)), pushes(2, 0));
    assert_eq!(block.call(task(2), exit(0)), answer(Status::Done, Some(2)));
    assert_eq!(block.call(task(2), exit(0)), answer(Status::NotHeld, Some(2)));
}
