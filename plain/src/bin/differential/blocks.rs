//! Both executives on the same blocks: valid ones call by call and by whole logs, damaged ones, ones with lines and circles, ones near the
//! counter's end, and ones of wrong size.

use plain::answer::{Call, OUTSIDE};
use plain::author::{Author, Manner, EDGES};
use plain::block::{self, SIZE};
use plain::configuration::Configuration;
use plain::logs::{CHAINED, CHAINED_64, MEASURED, MEASURED_64};
use plain::proved;
use plain::random::Random;
use plain::table::{Awaited, Mark, State, Table, REGIONS};

use crate::Compared;

/// How many logs are replayed on blocks, and how many of their tables are damaged.
const LOGS: u64 = 40;
const CALLS: u64 = 1_000;

const SMALL: Configuration = Configuration {
    tasks: 3,
    regions: 2,
    queues: 2,
    priorities: &[5, 5, 2],
    bounds: &[2, 5],
    marks: &[0, 0],
};

const SMALL_OPEN: Configuration = Configuration {
    tasks: 5,
    regions: 4,
    priorities: &[5, 5, 2, 9, 2],
    marks: &[1, 1, 0, 1],
    ..SMALL
};

const MANNER: Manner = Manner {
    slip: 24,
    longest_delay: 40,
    kept_alive: 2,
    in_lines: 12,
};

/// What is compared, and how.
type Part = (&'static str, fn() -> Compared);

pub fn compare() -> Compared {
    let parts: [Part; 8] = [
        ("fresh blocks", fresh_blocks),
        ("blocks call by call", replayed),
        ("logs replayed at once", at_once),
        ("damaged blocks", damaged),
        ("blocks with other lines", other_lines),
        ("blocks with chains and circles", chains_and_circles),
        ("blocks at the counter's end", near_the_end),
        ("blocks of other sizes", other_sizes),
    ];
    let mut total = 0;
    for (name, part) in parts {
        let answers = part()?;
        println!("{name}: {answers} answers agree");
        total += answers;
    }
    Ok(total)
}

/// An author with one of six configurations by turns.
fn author(seed: u64) -> (Configuration<'static>, Author) {
    let configuration = [MEASURED, SMALL_OPEN, CHAINED_64, SMALL, CHAINED, MEASURED_64][seed as usize % 6];
    (configuration, Author::new(&configuration, MANNER, Random::new(seed)))
}

/// The block of a table that a log of a seed leads to.
fn deep(seed: u64) -> Vec<u8> {
    let (_, mut author) = author(seed);
    (0..CALLS * 4).for_each(|_| {
        author.call();
    });
    author.table().packed()
}

fn agree(what: &dyn Fn() -> String, proved: (u64, &[u8]), plain: (u64, &[u8])) -> Compared {
    if proved == plain {
        return Ok(1);
    }
    let bytes = proved.1.iter().zip(plain.1).position(|(one, other)| one != other);
    let place = bytes.map_or(String::new(), |place| format!("; the blocks differ at byte {place}"));
    Err(format!(
        "{}: proved answers {:016X}, plain {:016X}{place}",
        what(),
        proved.0,
        plain.0
    ))
}

/// One call on two copies of a block: the same answer and the same block after it.
fn call_agrees(what: &str, before: &[u8], call: &Call) -> Result<Vec<u8>, String> {
    let (mut ours, mut theirs) = (before.to_vec(), before.to_vec());
    let answers = (proved::call(&mut ours, call), block::call(&mut theirs, call));
    agree(&|| format!("{what}, {call:X?}"), (answers.0, &ours), (answers.1, &theirs))?;
    Ok(theirs)
}

fn query_agrees(what: &str, block: &[u8], query: u8, caller: u8, a: u32, b: u32) -> Compared {
    let answers = (proved::query(block, query, caller, a, b), block::query(block, query, caller, a, b));
    agree(
        &|| format!("{what}, query {query} of {caller}, {a}, {b}"),
        (answers.0, &[]),
        (answers.1, &[]),
    )
}

fn fresh_blocks() -> Compared {
    let mut random = Random::new(3);
    let mut answers = 0;
    for round in 0..4_000 {
        let mut count = |most: u32| if random.one_in(6) { random.below(256) } else { random.within(0, most) } as u8;
        let (tasks, regions, queues) = (count(65), count(17), count(9));
        let mut list = |near: u8, byte: &dyn Fn(&mut Random) -> u8| -> Vec<u8> {
            let short = random.one_in(8);
            let length = if short { random.below(72) } else { near.into() };
            (0..length).map(|_| byte(&mut random)).collect()
        };
        let priorities = list(tasks, &|random| random.below(256) as u8);
        let bounds = list(queues, &|random| if random.one_in(20) { random.below(256) } else { random.within(1, 64) } as u8);
        let marks = list(regions, &|random| {
            if random.one_in(40) {
                random.of(&[2, 3, 128, 255])
            } else {
                random.below(2) as u8
            }
        });
        let configuration = Configuration {
            tasks,
            regions,
            queues,
            priorities: &priorities,
            bounds: &bounds,
            marks: &marks,
        };
        let (mut ours, mut theirs) = (vec![round as u8; SIZE], vec![round as u8; SIZE]);
        let both = (proved::fresh(&mut ours, &configuration), block::fresh(&mut theirs, &configuration));
        answers += agree(&|| format!("{configuration:?}"), (both.0, &ours), (both.1, &theirs))?;
    }
    Ok(answers)
}

/// A whole log in one replay, with the check once and at every call, against the same calls one after the other; every fourth block is
/// damaged first, and some replays have room for fewer answers than calls.
fn at_once() -> Compared {
    let mut agreed = 0;
    for seed in 0..LOGS {
        let (configuration, mut author) = author(seed);
        let mut block = vec![0; SIZE];
        block::fresh(&mut block, &configuration);
        if seed % 4 == 3 {
            block[usize::from(seed as u8)] ^= 0x40;
        }
        let calls: Vec<Call> = (0..CALLS)
            .map(|number| if number % 4 == 3 { author.hostile_call() } else { author.call() }.0)
            .collect();
        let room = if seed % 5 == 4 { calls.len() / 3 } else { calls.len() };
        let mut theirs = block.clone();
        let expected: Vec<u64> = calls[..room].iter().map(|call| block::call(&mut theirs, call)).collect();
        for each in [false, true] {
            let (mut ours, mut answers) = (block.clone(), vec![0; room]);
            let made = proved::replay(&mut ours, &proved::numbers(&calls), &mut answers, each);
            if (made as usize, &ours, &answers) != (room, &theirs, &expected) {
                return Err(format!(
                    "replay of seed {seed}, {made} of {room} calls: another answer or another block"
                ));
            }
            agreed += made;
        }
    }
    Ok(agreed)
}

fn replayed() -> Compared {
    let mut answers = 0;
    for seed in 0..LOGS {
        let (configuration, mut author) = author(seed);
        let mut block = vec![0; SIZE];
        block::fresh(&mut block, &configuration);
        for number in 0..CALLS {
            let (call, _) = if number % 4 == 3 { author.hostile_call() } else { author.call() };
            block = call_agrees(&format!("seed {seed}, call {number}"), &block, &call)?;
            let number = number as u32;
            let caller = if number.is_multiple_of(3) {
                OUTSIDE
            } else {
                author.table().reported()
            };
            query_agrees("after it", &block, (number % 6) as u8, caller, number % 40, number % 5 / 2)?;
            answers += 2;
        }
        if block != author.table().packed() {
            return Err(format!("seed {seed}: the last block is not the last table's"));
        }
    }
    Ok(answers)
}

/// Every byte of deep blocks in turn with several other values, then whole numbers with values at their bounds.
fn damaged() -> Compared {
    let mut random = Random::new(5);
    let mut answers = 0;
    for seed in 0..LOGS {
        let block = deep(seed);
        for place in 0..SIZE {
            let was = block[place];
            let drawn = random.below(256) as u8;
            for value in [0, 1, 255, was ^ 1, was.wrapping_add(1), was.wrapping_sub(1), drawn] {
                let in_turn = (seed + u64::from(value) + place as u64).is_multiple_of(4);
                if value == was || !in_turn {
                    continue;
                }
                let mut changed = block.clone();
                changed[place] = value;
                answers += asked(&format!("seed {seed}, byte {place} is {value}"), &changed, &mut random)?;
            }
        }
        for _ in 0..1_000 {
            let mut changed = block.clone();
            for _ in 0..random.within(1, 2) {
                let width = random.of(&[2, 4]);
                let place = random.below((SIZE / width) as u32) as usize * width;
                let value = random.of(&EDGES).to_le_bytes();
                changed[place..place + width].copy_from_slice(&value[..width]);
            }
            answers += asked(&format!("seed {seed}, two numbers changed"), &changed, &mut random)?;
        }
    }
    Ok(answers)
}

/// Deep blocks in which one task waits for another region or for none, one region has another holder, or another mark; with the task
/// elected that then is to be, where there is one.
fn other_lines() -> Compared {
    let mut random = Random::new(9);
    let mut answers = 0;
    for seed in 0..LOGS {
        let table = Table::unpacked(&deep(seed)).expect("the block of a table");
        let tasks = table.task_count;
        let mut ask = |what: &str, changed: &mut Table| -> Compared {
            let what = format!("seed {seed}, {what}");
            let answers = asked(&what, &changed.packed(), &mut random)?;
            if changed
                .regions
                .iter()
                .all(|region| region.holder.is_none_or(|holder| holder < tasks))
                && changed
                    .tasks
                    .iter()
                    .all(|task| task.awaits.region().is_none_or(|region| region < REGIONS))
            {
                changed.elected = changed.election();
                return Ok(answers + asked(&what, &changed.packed(), &mut random)?);
            }
            Ok(answers)
        };
        for task in 0..usize::from(tasks) {
            for awaits in (0..=17).chain([255]) {
                let mut changed = table.clone();
                changed.tasks[task].awaits = Awaited(awaits);
                answers += ask(&format!("task {task} awaits {awaits}"), &mut changed)?;
            }
        }
        for region in 0..REGIONS {
            for holder in (0..=tasks).chain([tasks + 1, 255]) {
                let mut changed = table.clone();
                changed.regions[region].holder = holder.checked_sub(1);
                changed.regions[region].entries = u8::from(holder > 0);
                answers += ask(&format!("region {region} has holder {holder}"), &mut changed)?;
            }
            for mark in [0, 1, 2, 255] {
                let mut changed = table.clone();
                changed.regions[region].mark = Mark(mark);
                answers += ask(&format!("region {region} has mark {mark}"), &mut changed)?;
            }
        }
    }
    Ok(answers)
}

/// Chains of 1 to 16 tasks, each of which holds a region and waits for the next one's, some closed to a circle, and others waiting for any of
/// their regions: the check, and where it passes some calls.
fn chains_and_circles() -> Compared {
    let mut random = Random::new(10);
    let mut answers = 0;
    for round in 0..4_000 {
        let (mut table, circle) = chained(&mut random);
        let what = format!("{} {round}", if circle { "circle" } else { "chain" });
        if table.is_valid() == circle {
            return Err(format!("{what}: not built as it should be"));
        }
        answers += asked(&what, &table.packed(), &mut random)?;
        for elected in [None, Some(0), Some(random.below(table.task_count.into()) as u8)] {
            let mut other = table.clone();
            other.elected = elected;
            answers += asked(&what, &other.packed(), &mut random)?;
        }
        if circle {
            continue;
        }
        table.elected = table.election();
        let mut author = Author::new(&SMALL, MANNER, Random::new(round)).with(table);
        let mut block = author.table().packed();
        for number in 0..12 {
            let call = author.call().0;
            block = call_agrees(&format!("{what}, call {number}"), &block, &call)?;
            answers += 1;
        }
    }
    Ok(answers)
}

/// A table with a chain or a circle, and whether it is a circle. Of a circle of one task, that task waits for its own region.
fn chained(random: &mut Random) -> (Table, bool) {
    let tasks = random.within(1, 64) as u8;
    let links = random.within(1, 16.min(tasks.into())) as usize;
    let priorities: Vec<u8> = (0..tasks).map(|_| random.below(8) as u8).collect();
    let configuration = Configuration {
        tasks,
        regions: REGIONS as u8,
        queues: 0,
        priorities: &priorities,
        bounds: &[],
        marks: &[1; REGIONS],
    };
    let mut table = configuration.fresh().expect("in range");
    let mut shuffled: Vec<usize> = (0..tasks.into()).collect();
    for at in (1..shuffled.len()).rev() {
        shuffled.swap(at, random.below(at as u32 + 1) as usize);
    }
    let (chain, others) = shuffled.split_at(links);
    let first = random.below(REGIONS as u32) as usize;
    let region = |link: usize| (first + link * 5) % REGIONS;
    for (link, &task) in chain.iter().enumerate() {
        table.tasks[task].state = State::READY;
        table.regions[region(link)].holder = Some(task as u8);
        table.regions[region(link)].entries = random.within(1, 255) as u8;
        if link + 1 < links {
            table.tasks[task].awaits = Awaited::of(region(link + 1));
        }
    }
    for &task in others {
        if random.one_in(3) {
            table.tasks[task].state = State::READY;
            table.tasks[task].awaits = Awaited::of(region(random.below(links as u32) as usize));
        } else {
            table.tasks[task].state = random.of(&[State::STOPPED, State::READY]);
        }
    }
    let circle = random.one_in(3);
    if circle {
        // The last one of the chain waits for a region of the chain, so that a part of it or all of it is a circle.
        table.tasks[chain[links - 1]].awaits = Awaited::of(region(random.below(links as u32) as usize));
    }
    table.elected = table.election();
    (table, circle)
}

/// One call and one query on a block that may be valid or not.
fn asked(what: &str, block: &[u8], random: &mut Random) -> Compared {
    let caller = if random.one_in(3) { OUTSIDE } else { block[3] };
    let call = Call {
        caller,
        operation: random.below(14) as u8,
        a: random.below(4),
        b: random.below(4),
        c: random.within(1, 16),
    };
    call_agrees(what, block, &call)?;
    query_agrees(what, block, random.below(6) as u8, caller, random.below(4), random.below(2))?;
    Ok(2)
}

/// The counter and every date moved on alike, so that the next calls lead over the counter's end.
fn near_the_end() -> Compared {
    let mut answers = 0;
    for seed in 0..LOGS {
        let (_, mut author) = author(seed);
        (0..CALLS).for_each(|_| {
            author.call();
        });
        let mut table = author.table().clone();
        let shift = u32::MAX.wrapping_sub(seed as u32 % 8).wrapping_sub(table.ticks);
        table.ticks = table.ticks.wrapping_add(shift);
        for timer in table.timers.iter_mut().filter(|timer| timer.armed != 0) {
            timer.date = timer.date.wrapping_add(shift);
        }
        let mut author = author.with(table);
        let mut block = author.table().packed();
        for number in 0..CALLS {
            let tick = Call {
                caller: OUTSIDE,
                operation: 12,
                a: 0,
                b: 0,
                c: 0,
            };
            let call = if number % 16 == 0 { author.made(tick).0 } else { author.call().0 };
            block = call_agrees(&format!("seed {seed}, call {number} at the counter's end"), &block, &call)?;
            answers += 1;
        }
        if Table::unpacked(&block).is_none_or(|table| table.ticks > CALLS as u32) {
            return Err(format!("seed {seed}: the counter did not start again"));
        }
    }
    Ok(answers)
}

/// The sizes of a block of at most 32 tasks, and of one without lines and marks.
const BEFORE_T_07: usize = 2968;
const BEFORE_T_09: usize = 3192;

fn other_sizes() -> Compared {
    let block = deep(0);
    let mut random = Random::new(7);
    let mut answers = 0;
    for size in [
        0,
        1,
        4,
        BEFORE_T_07,
        BEFORE_T_09,
        SIZE - 16,
        SIZE - 1,
        SIZE + 1,
        SIZE + 16,
        2 * SIZE,
    ] {
        let mut other = block.clone();
        other.resize(size, 0);
        let caller = block[3];
        for operation in 0..14 {
            let call = Call {
                caller,
                operation,
                a: random.below(3),
                b: 0,
                c: 1,
            };
            call_agrees(&format!("size {size}"), &other, &call)?;
            query_agrees(&format!("size {size}"), &other, operation, caller, 0, 0)?;
            answers += 2;
        }
        let (mut ours, mut theirs) = (other.clone(), other);
        let both = (proved::fresh(&mut ours, &MEASURED), block::fresh(&mut theirs, &MEASURED));
        answers += agree(&|| format!("fresh of size {size}"), (both.0, &ours), (both.1, &theirs))?;
    }
    Ok(answers)
}
