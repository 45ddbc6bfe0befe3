//! Writes a log to standard output.
//!
//!     generate mixed [SEED [CALLS]]    the measured log of 32 tasks and closed regions; its mix goes to standard error, and every pair of
//!                                      operation and status that can occur must
//!     generate chained [SEED [CALLS]]  the same for open regions and tasks in chains
//!     generate KIND SEED               a log of a kind that is compared: sensible, hostile, malformed, dense

use std::io::{self, Write};
use std::process::ExitCode;

use plain::configuration::Configuration;
use plain::logs::{written, Kind, Measured, CHAINED, MEASURED, MEASURED_SEED};

fn main() -> ExitCode {
    let words: Vec<String> = std::env::args().skip(1).collect();
    let number = |at: usize, otherwise: u64| words.get(at).map_or(Some(otherwise), |word| word.parse().ok());
    let kind = words.first().map(String::as_str);
    match (kind, kind.and_then(Kind::named), number(1, MEASURED_SEED), number(2, 1_000_000)) {
        (Some("mixed"), _, Some(seed), Some(calls)) => mixed(&MEASURED, seed, calls as usize),
        (Some("chained"), _, Some(seed), Some(calls)) => mixed(&CHAINED, seed, calls as usize),
        (_, Some(kind), Some(seed), _) => put(&kind.log(seed)),
        _ => {
            eprintln!("usage: generate mixed|chained [SEED [CALLS]] | generate sensible|hostile|malformed|dense SEED");
            ExitCode::from(2)
        }
    }
}

fn mixed(configuration: &Configuration, seed: u64, count: usize) -> ExitCode {
    let log = Measured::new(configuration, seed, count);
    eprint!("{count} calls, seed {seed}; {}; operations by status\n{}", log.lines(), log.mix);
    let amiss = log.amiss(configuration);
    amiss.iter().for_each(|pair| eprintln!("{pair}"));
    if amiss.is_empty() {
        put(&written(configuration, &log.calls))
    } else {
        ExitCode::FAILURE
    }
}

fn put(log: &[u8]) -> ExitCode {
    match io::stdout().lock().write_all(log) {
        Ok(()) => ExitCode::SUCCESS,
        Err(error) => {
            eprintln!("{error}");
            ExitCode::FAILURE
        }
    }
}
