//! Bytes of every kind through the functions that take any: each gets its answer, and what is refused is left as it was.
use tankwesho::{raw, Block, Mark, Operation, Region, Status, Task, SIZE};

/// Marsaglia's xorshift, 32 bits wide.
struct Drawn(u32);

impl Drawn {
    fn next(&mut self) -> u32 {
        self.0 ^= self.0 << 13;
        self.0 ^= self.0 >> 17;
        self.0 ^= self.0 << 5;
        self.0
    }

    /// Mostly a small number, which may name something that exists.
    fn number(&mut self) -> u32 {
        let (which, drawn) = (self.next() % 8, self.next());
        if which == 0 {
            drawn
        } else {
            drawn % 20
        }
    }
}

fn example() -> Block {
    Block::fresh(&[5, 5, 2], &[2], &[Mark::Closed; 2]).unwrap()
}

/// A slice brings its own length: each shorter and longer one is refused, and no byte is written.
#[test]
fn other_sizes() {
    let mut bytes = example().as_bytes().to_vec();
    bytes.resize(2 * SIZE, 0xA5);
    let before = bytes.clone();
    for size in (0..2 * SIZE).filter(|&size| size != SIZE) {
        let part = &mut bytes[..size];
        assert_eq!(raw::fresh(part, 3, 2, 1, &[5, 5, 2], &[2], &[0, 0]).status, Status::NotATable);
        assert_eq!(raw::call(part, 0, 5, 1, 0, 0).status, Status::NotATable);
        assert_eq!(raw::query(part, 4, 0, 0, 0).status, Status::NotATable);
        assert_eq!(Block::from_bytes(part), Err(Status::NotATable));
    }
    assert!(bytes == before);
}

/// The same block at every alignment, with bytes before and behind it that stay.
#[test]
fn any_alignment() {
    for shift in 0..16 {
        let mut room = vec![0xA5; SIZE + 32];
        let part = &mut room[shift..shift + SIZE];
        assert_eq!(raw::fresh(part, 3, 2, 1, &[5, 5, 2], &[2], &[0, 0]).status, Status::Done);
        assert_eq!(raw::call(part, 0, 0, 2, 0, 0).elected.unwrap().number(), 2);
        assert!(Block::from_bytes(part).is_ok());
        assert!(room[..shift].iter().chain(&room[shift + SIZE..]).all(|&byte| byte == 0xA5));
    }
}

/// A block goes to bytes and back; what is no table doesn't become one.
#[test]
fn bytes_and_back() {
    let block = example();
    assert_eq!(Block::from_bytes(block.as_bytes()), Ok(block));
    assert_eq!(Block::from_bytes(&[0; SIZE]), Err(Status::NotATable));
    assert_eq!(Block::from_bytes(&[255; SIZE]), Err(Status::NotATable));
}

/// T-08: "the former elected task if it is still ready and no longer elected", read from the block before the call and after it. The elected
/// task stands at 3, the states from 68 on, what is awaited from 452 on.
fn displaced(before: &[u8; SIZE], after: &[u8; SIZE]) -> Option<Task> {
    let ready = |task: &Task| after[68 + usize::from(task.number())] == 1 && after[452 + usize::from(task.number())] == 0;
    Task::new(before[3]).filter(|former| ready(former) && after[3] != former.number())
}

/// Drawn calls by drawn callers, begun afresh from time to time: a refused call and a query change nothing, an accepted call leaves a table,
/// and every answer names the displaced task.
#[test]
fn drawn_calls() {
    // The higher its number, the more urgent a task is, so that one that starts or wakes pushes another aside.
    let priorities: [u8; 20] = std::array::from_fn(|task| 20 - task as u8);
    let mut drawn = Drawn(1);
    let (mut accepted, mut pushed, mut suspended) = (0, 0, 0);
    for round in 0..1000 {
        // All closed, half of each, all open.
        let marks: [Mark; 16] = std::array::from_fn(|region| if round % 3 > region % 2 { Mark::Open } else { Mark::Closed });
        let mut bytes = *Block::fresh(&priorities, &[3; 8], &marks).unwrap().as_bytes();
        for _ in 0..100 {
            let before = bytes;
            let caller = if drawn.number() == 0 { drawn.next() as u8 } else { bytes[3] };
            let answer = raw::call(&mut bytes, caller, drawn.next() as u8 % 15, drawn.number(), drawn.number(), drawn.number());
            match answer.accepted() {
                Ok(_) => assert!(Block::from_bytes(&bytes).is_ok()),
                Err(_) => assert!(bytes == before),
            }
            assert_eq!(answer.displaced, displaced(&before, &bytes));
            accepted += u32::from(answer.accepted().is_ok());
            pushed += u32::from(answer.displaced.is_some());
            suspended += u32::from(before[452..516] != bytes[452..516]);
            let before = bytes;
            assert_eq!(raw::query(&bytes, drawn.next() as u8, caller, drawn.number(), drawn.number()).displaced, None);
            assert!(bytes == before);
        }
    }
    assert!(accepted > 10_000, "only {accepted} calls were accepted: the draw is no longer a mix");
    assert!(pushed > 100, "only {pushed} tasks were pushed aside: the draw is no longer a mix");
    assert!(suspended > 20, "only {suspended} lines changed: the draw is no longer a mix");
}

/// One drawn byte changed: operation 13 tells whether it is still a table, as `from_bytes` does, and neither changes it.
#[test]
fn drawn_damage() {
    let mut drawn = Drawn(3);
    let (mut tables, mut damaged) = (0, 0);
    for _ in 0..20_000 {
        let mut bytes = *example().as_bytes();
        bytes[drawn.next() as usize % 300] ^= drawn.next() as u8;
        let before = bytes;
        match raw::call(&mut bytes, 0, 13, 0, 0, 0).status {
            Status::NoOperation => tables += u32::from(Block::from_bytes(&bytes).is_ok()),
            Status::NotATable => damaged += u32::from(Block::from_bytes(&bytes).is_err()),
            other => panic!("{other:?}"),
        }
        assert!(bytes == before);
    }
    assert_eq!(tables + damaged, 20_000);
    assert!(tables > 100 && damaged > 100, "{tables} and {damaged}: the draw is no longer a mix");
}

/// T-04: "A region counts its entries, 1 to 255"; "A free region has count 0". The counts stand at 532 to 547.
#[test]
fn damaged_counts() {
    let (mut block, region) = (example(), Region::new(0).unwrap());
    assert_eq!(block.call(Task::FIRST, Operation::Enter { region }).status, Status::Done);
    let with_count = |place: usize, count| {
        let mut bytes = *block.as_bytes();
        bytes[place] = count;
        Block::from_bytes(&bytes)
    };
    assert_eq!(with_count(532, 1), Ok(block.clone()));
    assert_eq!(with_count(532, 0), Err(Status::NotATable));
    for place in 533..548 {
        assert_eq!(with_count(place, 1), Err(Status::NotATable));
    }
    let mut deepest = with_count(532, 255).unwrap();
    assert_eq!(deepest.call(Task::FIRST, Operation::Enter { region }).status, Status::EnteredTooOften);
}

/// T-09: "no circle, a state 3 task waits for one occupied open region of another's, and no free region is waited for". What task i waits for
/// stands at 452 + i, the holder of region i at 516 + i, its mark at 548 + i.
#[test]
fn damaged_lines() {
    let mut block = Block::fresh(&[5, 2, 7], &[], &[Mark::Open, Mark::Open, Mark::Closed]).unwrap();
    let [zero, one] = [0, 1].map(|number| Task::new(number).unwrap());
    let enter = |number| Operation::Enter { region: Region::new(number).unwrap() };
    assert_eq!(block.call(zero, enter(0)).status, Status::Done);
    assert_eq!(block.call(zero, Operation::Start { task: one }).elected, Some(one));
    assert_eq!(block.call(one, enter(0)).status, Status::Waits);
    let with = |changes: &[(usize, u8)]| {
        let mut bytes = *block.as_bytes();
        changes.iter().for_each(|&(place, value)| bytes[place] = value);
        Block::from_bytes(&bytes).is_ok()
    };
    assert!(with(&[]) && with(&[(453, 1)]));
    // Task 1 holds region 1, and task 0 waits for it: a circle of two, whoever is stored as elected.
    assert!(with(&[(517, 2), (533, 1)]));
    for elected in [0, 1, 2, 255] {
        assert!(!with(&[(517, 2), (533, 1), (452, 2), (3, elected)]));
    }
    // For one's own region, a free one, a closed one, ones that don't exist; as a task past the count.
    assert!(!with(&[(452, 1)]));
    for awaited in [2, 3, 4, 16, 17, 255] {
        assert!(!with(&[(453, awaited)]));
    }
    assert!(!with(&[(455, 1)]));
    // Waiting in a state that isn't stored as ready; for a region that is closed or free; a mark past 1, and past the count.
    for changes in [[(69, 0)], [(69, 2)], [(69, 3)], [(548, 0)], [(516, 0)], [(548, 2)], [(551, 1)]] {
        assert!(!with(&changes));
    }
}

/// Bytes of which none is a table, and every operation and query number: all get 10.
#[test]
fn drawn_bytes() {
    let mut drawn = Drawn(2);
    for number in 0..=255 {
        let mut bytes = [0; SIZE];
        bytes.iter_mut().for_each(|byte| *byte = drawn.next() as u8);
        bytes[3147] |= 1;
        let before = bytes;
        assert_eq!(raw::call(&mut bytes, before[3], number, 0, 0, 0).status, Status::NotATable);
        assert_eq!(raw::query(&bytes, number, bytes[3], 0, 0).status, Status::NotATable);
        assert!(bytes == before);
    }
}

/// The C header and this crate state one size.
#[test]
fn size_of_the_header() {
    let header = include_str!("../../../include/tankwesho.h");
    assert!(header.contains(&format!("#define TANKWESHO_BLOCK_SIZE {SIZE}\n")));
}
