//! Times the proved executive and the plain one on the measured logs, turn by turn in one process: of 32 tasks and of 64 with closed regions,
//! and of both with half of the tasks in chains of open regions.
//!
//!     speed BENCH PLAIN_BENCH LOG [REPEATS]
//!
//! LOG is where a measured log is written for the two benches. Times are processor time. The log is cut into pieces, each side runs a
//! piece before any runs the next, and each piece is timed by itself: what else runs on the machine then disturbs all sides alike.
//! From these times follows what the proved executive's validity check costs, and what a call on a block costs beside one in a replay.

use std::fs::{self, File};
use std::process::{Command, ExitCode, Stdio};

use plain::answer::{Answer, Call};
use plain::configuration::Configuration;
use plain::logs::{written, Measured, ALL_MEASURED, MEASURED_SEED};
use plain::table::Table;

const CALLS: usize = 1_000_000;
const PIECE: usize = 5_000;

/// Processor time, as the system counts it.
mod clock {
    #[repr(C)]
    #[derive(Default)]
    struct Time {
        seconds: i64,
        nanoseconds: i64,
    }

    #[repr(C)]
    #[derive(Default)]
    struct Usage {
        user: [i64; 2],
        system: [i64; 2],
        rest: [i64; 14],
    }

    const THIS_PROCESS: i32 = 2;
    const ENDED_CHILDREN: i32 = -1;

    extern "C" {
        fn clock_gettime(clock: i32, time: *mut Time) -> i32;
        fn getrusage(who: i32, usage: *mut Usage) -> i32;
    }

    /// Nanoseconds of this process so far.
    pub fn own() -> f64 {
        let mut time = Time::default();
        // SAFETY: `Time` has the layout of C's `struct timespec` on 64-bit Linux, and lives through the call.
        let answer = unsafe { clock_gettime(THIS_PROCESS, &mut time) };
        assert_eq!(answer, 0, "clock_gettime");
        time.seconds as f64 * 1e9 + time.nanoseconds as f64
    }

    /// Nanoseconds of the programs that this one has run so far.
    pub fn children() -> f64 {
        let mut usage = Usage::default();
        // SAFETY: `Usage` has the layout of C's `struct rusage` on 64-bit Linux, and lives through the call.
        let answer = unsafe { getrusage(ENDED_CHILDREN, &mut usage) };
        assert_eq!(answer, 0, "getrusage");
        let [seconds, micros] = [0, 1].map(|part| (usage.user[part] + usage.system[part]) as f64);
        seconds * 1e9 + micros * 1e3
    }
}

/// A number over all answers, so that none is left out and the sides can be held to each other.
fn summed(sum: u64, answer: u64) -> u64 {
    sum.rotate_left(5) ^ answer
}

/// A piece of the log: its calls, and the same as numbers, five for each call.
struct Piece<'a> {
    calls: &'a [Call],
    #[cfg(feature = "proved")]
    numbers: Vec<u32>,
}

/// A run under way: it takes a piece of the log and gives the sum of its answers.
type Run = Box<dyn FnMut(&Piece) -> u64>;

/// One way to run the log: its name, the plain side that it is held to, and how a run begins.
struct Side {
    name: &'static str,
    against: usize,
    begin: fn(&Configuration) -> Run,
}

/// The names of the proved sides, by which their times are found again.
const CHECK_AT_EVERY_CALL: &str = "proved, replay, check at every call";
const CHECK_ONCE: &str = "proved, replay, check once";
const ON_A_BLOCK: &str = "proved, call by call on a block";

/// A further way to run either side is a further entry here.
const SIDES: &[Side] = &[
    Side {
        name: "plain, in place",
        against: 0,
        begin: |configuration| plain_run(configuration, Table::call),
    },
    Side {
        name: "plain, in place, no validity check",
        against: 1,
        begin: |configuration| plain_run(configuration, Table::call_on_valid),
    },
    #[cfg(feature = "proved")]
    Side {
        name: CHECK_AT_EVERY_CALL,
        against: 0,
        begin: |configuration| proved_replay(configuration, true),
    },
    #[cfg(feature = "proved")]
    Side {
        name: CHECK_ONCE,
        against: 1,
        begin: |configuration| proved_replay(configuration, false),
    },
    #[cfg(feature = "proved")]
    Side {
        name: ON_A_BLOCK,
        against: 0,
        begin: proved_on_block,
    },
];

fn plain_run(configuration: &Configuration, call: impl Fn(&mut Table, &Call) -> Answer + 'static) -> Run {
    let mut table = configuration.fresh().expect("in range");
    Box::new(move |piece| piece.calls.iter().fold(0, |sum, one| summed(sum, call(&mut table, one).packed())))
}

#[cfg(feature = "proved")]
fn proved_replay(configuration: &Configuration, each: bool) -> Run {
    let mut block = vec![0; plain::block::SIZE];
    plain::proved::fresh(&mut block, configuration);
    let mut answers = vec![0; PIECE];
    Box::new(move |piece| {
        let made = plain::proved::replay(&mut block, &piece.numbers, &mut answers, each);
        assert_eq!(made as usize, piece.calls.len());
        answers[..piece.calls.len()].iter().fold(0, |sum, &answer| summed(sum, answer))
    })
}

#[cfg(feature = "proved")]
fn proved_on_block(configuration: &Configuration) -> Run {
    let mut block = vec![0; plain::block::SIZE];
    plain::proved::fresh(&mut block, configuration);
    Box::new(move |piece| {
        piece
            .calls
            .iter()
            .fold(0, |sum, one| summed(sum, plain::proved::call(&mut block, one)))
    })
}

/// The times of one thing, by piece and repeat.
#[derive(Clone)]
struct Times {
    pieces: Vec<Vec<f64>>,
}

impl Times {
    fn new(pieces: usize) -> Self {
        Times {
            pieces: vec![Vec::new(); pieces],
        }
    }

    /// Nanoseconds a call, each piece in its least time.
    fn least(&self) -> f64 {
        self.each(|times| times[0])
    }

    /// Nanoseconds a call, each piece in its median time.
    fn median(&self) -> f64 {
        self.each(|times| times[times.len() / 2])
    }

    fn each(&self, pick: impl Fn(&[f64]) -> f64) -> f64 {
        let sorted = self.pieces.iter().map(|times| {
            let mut times = times.clone();
            times.sort_by(f64::total_cmp);
            pick(&times)
        });
        sorted.sum::<f64>() / CALLS as f64
    }
}

fn timed<T>(now: impl Fn() -> f64, run: impl FnOnce() -> T) -> (f64, T) {
    let before = now();
    let made = run();
    (now() - before, made)
}

fn show(name: &str, times: &Times, against: &Times) {
    println!(
        "{name:36}{:10.1}{:10.1}{:10.2}{:10.2}",
        times.least(),
        times.median(),
        times.least() / against.least(),
        times.median() / against.median()
    );
}

/// The calls in one process: each piece by every side in turn, the whole log again and again. Gives the times of each side.
fn in_process(configuration: &Configuration, calls: &[Call], repeats: usize) -> Result<Vec<Times>, String> {
    let pieces: Vec<Piece> = calls
        .chunks(PIECE)
        .map(|calls| Piece {
            calls,
            #[cfg(feature = "proved")]
            numbers: plain::proved::numbers(calls),
        })
        .collect();
    let mut times = vec![Times::new(pieces.len()); SIDES.len()];
    for _ in 0..repeats {
        let mut runs: Vec<Run> = SIDES.iter().map(|side| (side.begin)(configuration)).collect();
        for (number, piece) in pieces.iter().enumerate() {
            let mut expected = None;
            for (at, run) in runs.iter_mut().enumerate() {
                let (time, sum) = timed(clock::own, || run(piece));
                if *expected.get_or_insert(sum) != sum {
                    return Err(format!("{}: other answers in piece {number}", SIDES[at].name));
                }
                times[at].pieces[number].push(time);
            }
        }
    }
    for (side, own) in SIDES.iter().zip(&times) {
        show(side.name, own, &times[side.against]);
    }
    Ok(times)
}

/// What a call costs on each of the proved sides, in nanoseconds.
struct Proved {
    checked_at_every_call: f64,
    checked_once: f64,
    on_a_block: f64,
}

impl Proved {
    /// Nothing where the proved library is not linked.
    fn of(times: &[Times], pick: fn(&Times) -> f64) -> Option<Self> {
        let cost = |name| SIDES.iter().position(|side| side.name == name).map(|at| pick(&times[at]));
        Some(Proved {
            checked_at_every_call: cost(CHECK_AT_EVERY_CALL)?,
            checked_once: cost(CHECK_ONCE)?,
            on_a_block: cost(ON_A_BLOCK)?,
        })
    }

    /// Nanoseconds a check: both replays make the same calls, and only one checks before each.
    fn check(&self) -> f64 {
        self.checked_at_every_call - self.checked_once
    }

    /// A call with its check, measured in checks.
    fn call_in_checks(&self) -> f64 {
        self.checked_at_every_call / self.check()
    }

    /// A call on a block, measured in calls of the replay; both have their check.
    fn block_in_calls(&self) -> f64 {
        self.on_a_block / self.checked_at_every_call
    }
}

/// What the proved sides say of each other.
fn show_proved(least: &Proved, median: &Proved) {
    let line = |name, figure: fn(&Proved) -> f64, places| {
        println!("{name:36}{:10.places$}{:10.places$}", figure(least), figure(median));
    };
    println!("\nof the proved executive alone, from the times above");
    println!("{:36}{:>10}{:>10}", "", "least", "median");
    line("nanoseconds a check", Proved::check, 1);
    line("a call with its check / its check", Proved::call_in_checks, 2);
    line("on a block / replay, check each call", Proved::block_in_calls, 2);
}

fn bench_time(bench: &str, log: &str) -> Result<f64, String> {
    let run = || -> std::io::Result<bool> {
        let status = Command::new(bench).stdin(File::open(log)?).stdout(Stdio::null()).status()?;
        Ok(status.success())
    };
    match timed(clock::children, run) {
        (time, Ok(true)) => Ok(time),
        (_, Ok(false)) => Err(format!("{bench} failed")),
        (_, Err(error)) => Err(format!("{bench}: {error}")),
    }
}

/// Both benches on the log as a file, lines in and lines out.
fn whole_benches(proved: &str, plain: &str, log: &str, repeats: usize) -> Result<(), String> {
    let (mut proved_times, mut plain_times) = (Times::new(1), Times::new(1));
    for _ in 0..repeats {
        plain_times.pieces[0].push(bench_time(plain, log)?);
        proved_times.pieces[0].push(bench_time(proved, log)?);
    }
    show("plain bench, lines in and out", &plain_times, &plain_times);
    show("proved bench, lines in and out", &proved_times, &plain_times);
    Ok(())
}

/// One measured log by every side, and by both benches.
fn measure_one((name, configuration): &(&str, Configuration), benches: [&str; 2], log: &str, repeats: usize) -> Result<(), String> {
    let made = Measured::new(configuration, MEASURED_SEED, CALLS);
    print!(
        "{CALLS} calls, {name}, seed {MEASURED_SEED}; {}; operations by status\n{}",
        made.lines(),
        made.mix
    );
    let amiss = made.amiss(configuration);
    if !amiss.is_empty() {
        return Err(amiss.join("\n"));
    }
    fs::write(log, written(configuration, &made.calls)).map_err(|error| format!("{log}: {error}"))?;
    println!("\nnanoseconds a call over {repeats} repeats, then the ratio to the plain side");
    println!("{:36}{:>10}{:>10}{:>10}{:>10}", "", "least", "median", "least", "median");
    let times = in_process(configuration, &made.calls, repeats)?;
    let [proved, plain] = benches;
    whole_benches(proved, plain, log, repeats)?;
    if let (Some(least), Some(median)) = (Proved::of(&times, Times::least), Proved::of(&times, Times::median)) {
        show_proved(&least, &median);
    }
    Ok(())
}

fn measure(words: &[String]) -> Result<(), String> {
    let [proved, plain, log, rest @ ..] = words else {
        return Err("usage: speed BENCH PLAIN_BENCH LOG [REPEATS]".into());
    };
    let repeats = rest
        .first()
        .map_or(Ok(11), |word| word.parse())
        .map_err(|_| "REPEATS is a number")?;
    for (number, named) in ALL_MEASURED.iter().enumerate() {
        if number > 0 {
            println!();
        }
        measure_one(named, [proved, plain], log, repeats)?;
    }
    Ok(())
}

fn main() -> ExitCode {
    let words: Vec<String> = std::env::args().skip(1).collect();
    match measure(&words) {
        Ok(()) => ExitCode::SUCCESS,
        Err(reason) => {
            eprintln!("{reason}");
            ExitCode::FAILURE
        }
    }
}
