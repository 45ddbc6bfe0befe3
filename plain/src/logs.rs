//! Whole logs: those that are measured, and four kinds that are compared. Each follows from its seed.

use crate::answer::Call;
use crate::author::{Author, Manner};
use crate::configuration::Configuration;
use crate::lines::{call_line, configuration_line, LONGEST};
use crate::mix::Mix;
use crate::random::Random;
use crate::table::{Awaited, Mark, Table, QUEUES, REGIONS, TASKS};

/// The configuration of a measured log: 32 tasks of 16 priorities, 16 regions, all of them closed, 8 queues.
pub const MEASURED: Configuration<'static> = Configuration {
    tasks: 32,
    regions: 16,
    queues: 8,
    priorities: &[
        8, 3, 14, 0, 11, 6, 9, 1, 12, 5, 2, 15, 7, 4, 10, 13, 8, 3, 14, 0, 11, 6, 9, 1, 12, 5, 2, 15, 7, 4, 10, 13,
    ],
    bounds: &[64, 64, 64, 64, 48, 32, 16, 8],
    marks: &[0; REGIONS],
};

/// The same with as many tasks as there may be, of 32 priorities.
pub const MEASURED_64: Configuration<'static> = Configuration {
    tasks: 64,
    priorities: &[
        8, 3, 14, 0, 11, 6, 9, 1, 12, 5, 2, 15, 7, 4, 10, 13, 24, 19, 30, 16, 27, 22, 25, 17, 28, 21, 18, 31, 23, 20, 26, 29, 8, 3, 14, 0,
        11, 6, 9, 1, 12, 5, 2, 15, 7, 4, 10, 13, 24, 19, 30, 16, 27, 22, 25, 17, 28, 21, 18, 31, 23, 20, 26, 29,
    ],
    ..MEASURED
};

/// Most regions open, and no two tasks of one priority: half of the tasks come to wait for a region, in chains, each more urgent than those
/// before it.
pub const CHAINED: Configuration<'static> = Configuration {
    priorities: &scattered::<32>(),
    marks: &[1, 1, 1, 1, 1, 1, 0, 1, 1, 1, 1, 1, 1, 1, 1, 0],
    ..MEASURED
};

/// The same with as many tasks as there may be.
pub const CHAINED_64: Configuration<'static> = Configuration {
    tasks: 64,
    priorities: &scattered::<64>(),
    ..CHAINED
};

/// Each number below a power of 2 once, and the largest first: 13 has no factor in common with it.
const fn scattered<const MANY: usize>() -> [u8; MANY] {
    let mut numbers = [0; MANY];
    let mut at = 0;
    while at < MANY {
        numbers[at] = ((at * 13 + MANY - 1) % MANY) as u8;
        at += 1;
    }
    numbers
}

/// Every configuration that is measured, and what tells it from the others.
pub const ALL_MEASURED: [(&str, Configuration<'static>); 4] = [
    ("32 tasks, closed regions", MEASURED),
    ("64 tasks, closed regions", MEASURED_64),
    ("32 tasks, half of them in chains", CHAINED),
    ("64 tasks, half of them in chains", CHAINED_64),
];

/// The seed of the measured logs.
pub const MEASURED_SEED: u64 = 1980;

/// A measured log.
pub struct Measured {
    pub calls: Vec<Call>,
    /// How often each operation got each status.
    pub mix: Mix,
    /// How many tasks waited for a region after a call, on average, and for how many regions one after the other.
    pub suspended: f64,
    pub links: f64,
}

impl Measured {
    pub fn new(configuration: &Configuration, seed: u64, calls: usize) -> Self {
        // Led towards three quarters: lines that come and go have half of the tasks in them, on average.
        let most = usize::from(configuration.tasks) * 3 / 4;
        let manner = Manner {
            slip: 24,
            longest_delay: 40,
            kept_alive: if has_open(configuration) { most } else { 12 },
            in_lines: most,
        };
        let mut author = Author::new(configuration, manner, Random::new(seed));
        let mut mix = Mix::default();
        let (mut suspended, mut links) = (0, 0);
        let calls: Vec<Call> = (0..calls)
            .map(|_| {
                let (call, answer) = author.call();
                mix.note(&call, &answer);
                for length in chain_lengths(author.table()) {
                    suspended += 1;
                    links += length;
                }
                call
            })
            .collect();
        Measured {
            suspended: f64::from(suspended) / calls.len() as f64,
            links: f64::from(links) / f64::from(suspended.max(1)),
            calls,
            mix,
        }
    }

    /// How many tasks wait, in words.
    pub fn lines(&self) -> String {
        format!("{:.1} tasks wait for a region, over {:.1} links", self.suspended, self.links)
    }

    /// What is not as it should be, for the configuration that the log was made with.
    pub fn amiss(&self, configuration: &Configuration) -> Vec<String> {
        self.mix.amiss(has_open(configuration))
    }
}

fn has_open(configuration: &Configuration) -> bool {
    configuration.marks.contains(&Mark::OPEN.0)
}

/// For each task that waits for a region: how many wait from there on, it among them.
fn chain_lengths(table: &Table) -> impl Iterator<Item = u32> + '_ {
    let suspended = (0..table.tasks.len()).filter(|&task| table.tasks[task].awaits != Awaited::NONE);
    suspended.map(|task| table.chain(task).count() as u32 - 1)
}

/// A log of calls as the bench reads it.
pub fn written(configuration: &Configuration, calls: &[Call]) -> Vec<u8> {
    let mut log = configuration_line(configuration).into_bytes();
    calls.iter().for_each(|call| log.extend(call_line(call).bytes()));
    log
}

#[derive(Clone, Copy, Debug, PartialEq, Eq)]
pub enum Kind {
    /// Follows the elected task, on tables of any size.
    Sensible,
    /// Numbers at their bounds and past them, callers and operations 0 to 255, counts, bounds and marks out of range.
    Hostile,
    /// Lines with other characters, of other lengths, with no end; odd first lines.
    Malformed,
    /// Few tasks, small queues, short delays: what is rare elsewhere comes often.
    Dense,
}

impl Kind {
    pub const ALL: [Kind; 4] = [Kind::Sensible, Kind::Hostile, Kind::Malformed, Kind::Dense];

    pub fn named(name: &str) -> Option<Kind> {
        Kind::ALL.into_iter().find(|kind| kind.name() == name)
    }

    pub fn name(self) -> String {
        format!("{self:?}").to_lowercase()
    }

    /// The log of a seed.
    pub fn log(self, seed: u64) -> Vec<u8> {
        // Each kind draws from numbers of its own.
        let mut random = Random::new(seed << 2 | self as u64);
        match self {
            Kind::Sensible => {
                let setup = Setup::drawn(&mut random, 1..=TASKS, REGIONS, QUEUES, 64, 255);
                let calls = random.within(100, 700);
                let in_lines = random.within(0, setup.counts[0].into()) as usize;
                setup.sensible(
                    random,
                    calls,
                    Manner {
                        slip: 24,
                        longest_delay: 12,
                        kept_alive: 5,
                        in_lines,
                    },
                )
            }
            Kind::Dense => {
                let setup = Setup::drawn(&mut random, 1..=5, 4, 2, 3, 2);
                let calls = random.within(100, 500);
                let kept_alive = random.below(3) as usize;
                let in_lines = random.within(1, 4) as usize;
                setup.sensible(
                    random,
                    calls,
                    Manner {
                        slip: 12,
                        longest_delay: 3,
                        kept_alive,
                        in_lines,
                    },
                )
            }
            Kind::Hostile => hostile(random),
            Kind::Malformed => malformed(random),
        }
    }
}

/// A configuration that owns its lists.
struct Setup {
    counts: [u8; 3],
    priorities: Vec<u8>,
    bounds: Vec<u8>,
    marks: Vec<u8>,
}

impl Setup {
    fn drawn(
        random: &mut Random,
        tasks: std::ops::RangeInclusive<usize>,
        regions: usize,
        queues: usize,
        bound: u32,
        priority: u32,
    ) -> Setup {
        let tasks = random.within(*tasks.start() as u32, *tasks.end() as u32) as u8;
        let regions = random.within(0, regions as u32) as u8;
        let queues = random.within(0, queues as u32) as u8;
        // All closed, all open, or some of each.
        let sorts: &[u8] = random.of(&[&[0], &[1], &[0, 1], &[0, 1, 1]]);
        Setup {
            counts: [tasks, regions, queues],
            priorities: (0..tasks).map(|_| random.within(0, priority) as u8).collect(),
            bounds: (0..queues).map(|_| random.within(1, bound) as u8).collect(),
            marks: (0..regions).map(|_| random.of(sorts)).collect(),
        }
    }

    fn configuration(&self) -> Configuration<'_> {
        let [tasks, regions, queues] = self.counts;
        Configuration {
            tasks,
            regions,
            queues,
            priorities: &self.priorities,
            bounds: &self.bounds,
            marks: &self.marks,
        }
    }

    fn sensible(&self, random: Random, calls: u32, manner: Manner) -> Vec<u8> {
        let configuration = self.configuration();
        let mut author = Author::new(&configuration, manner, random);
        let calls: Vec<Call> = (0..calls).map(|_| author.call().0).collect();
        written(&configuration, &calls)
    }
}

fn hostile(mut random: Random) -> Vec<u8> {
    let mut setup = Setup::drawn(&mut random, 1..=TASKS, REGIONS, QUEUES, 64, 255);
    match random.below(16) {
        0 => setup.counts[random.below(3) as usize] = random.of(&[0, 1, 8, 9, 16, 17, 32, 33, 63, 64, 65, 128, 255]),
        1 => setup
            .bounds
            .iter_mut()
            .for_each(|bound| *bound = random.of(&[0, 1, 2, 63, 64, 65, 255])),
        2 => {
            // One wrong mark, so that nothing else refuses the configuration.
            let place = random.below(REGIONS as u32) as usize;
            setup
                .marks
                .iter_mut()
                .skip(place)
                .take(1)
                .for_each(|mark| *mark = random.of(&[2, 3, 128, 255]));
        }
        _ => {}
    }
    let calls = random.within(50, 400);
    let configuration = setup.configuration();
    let manner = Manner {
        slip: 4,
        longest_delay: 5,
        kept_alive: 2,
        in_lines: 8,
    };
    let mut author = Author::new(&configuration, manner, random);
    let calls: Vec<Call> = (0..calls)
        .map(|_| if author.random.one_in(3) { author.hostile_call() } else { author.call() }.0)
        .collect();
    written(&configuration, &calls)
}

fn malformed(mut random: Random) -> Vec<u8> {
    let first_is_odd = random.one_in(3);
    let base = if random.one_in(2) { Kind::Sensible } else { Kind::Dense }.log(random.word() >> 8);
    let lines = random.within(0, 80) as usize;
    let mut log = Vec::new();
    for (number, line) in base.split_inclusive(|&character| character == b'\n').take(lines).enumerate() {
        let mut line = line[..line.len() - 1].to_vec();
        if number == 0 && first_is_odd && random.one_in(2) {
            // Counts out of range: 20 up to the longest line, 21 past it.
            line = vec![b'F'; random.within(LONGEST as u32 - 3, LONGEST as u32 + 3) as usize];
        } else if (number == 0 && first_is_odd) || (number > 0 && random.one_in(4)) {
            mangle(&mut line, &mut random);
        }
        log.extend(line);
        log.push(b'\n');
    }
    if random.one_in(2) {
        log.pop();
    }
    log
}

/// Makes a line that is likely wrong; it may still be right, or become two lines.
fn mangle(line: &mut Vec<u8>, random: &mut Random) {
    let place = random.below(line.len() as u32 + 1) as usize;
    match random.below(13) {
        0 => line.insert(place, random.below(256) as u8),
        1 => line.push(b'\r'),
        2 => line.insert(place, b'\n'),
        3 => line.clear(),
        4 => line.truncate(place),
        5 => line.make_ascii_lowercase(),
        6 => line.resize(LONGEST, b'0'),
        7 => line.resize(LONGEST + 1, b'0'),
        8 => line.resize(random.within(100, 140) as usize, b'1'),
        9 => line.resize(random.within(1_000, 70_000) as usize, b'A'),
        10 => line.resize(random.within(0, 90) as usize, b'0'),
        11 => {
            let digits = random.within(1, 8) as usize;
            line.splice(..digits.min(line.len()), (0..digits).map(|_| random.of(b"0123456789ABCDEF")));
        }
        _ => {
            if let Some(character) = line.get_mut(place) {
                *character = random.of(b"/:@G`ag \t\0\x7F\x80\xFF");
            }
        }
    }
}
