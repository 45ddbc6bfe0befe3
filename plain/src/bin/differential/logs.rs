//! Both benches on the same logs, byte by byte.

use std::io::{Read, Write};
use std::process::{Command, Stdio};
use std::thread;

use plain::logs::{written, Kind, Measured, ALL_MEASURED, MEASURED_SEED};
use plain::random::Random;

use crate::Compared;

const MEASURED_CALLS: usize = 1_000_000;

pub struct Benches {
    proved: String,
    plain: String,
}

impl Benches {
    pub fn new(proved: &str, plain: &str) -> Self {
        Benches {
            proved: proved.into(),
            plain: plain.into(),
        }
    }
}

/// Every kind, and the measured logs.
pub fn compare(benches: &Benches, logs: u64) -> Compared {
    let mut total = 0;
    for kind in Kind::ALL {
        let mut answers = 0;
        for seed in 0..logs {
            let what = format!("{} log, seed {seed}", kind.name());
            answers += compare_one(benches, &what, &kind.log(seed), kind == Kind::Malformed)?;
        }
        println!(
            "{}: {logs} logs, seeds 0 to {}: {answers} answers agree",
            kind.name(),
            logs.saturating_sub(1)
        );
        total += answers;
    }
    for (name, configuration) in ALL_MEASURED {
        let what = format!("measured log of {name}");
        let log = Measured::new(&configuration, MEASURED_SEED, MEASURED_CALLS);
        let amiss = log.amiss(&configuration);
        if !amiss.is_empty() {
            return Err(format!("{what}: {}", amiss.join("; ")));
        }
        let answers = compare_one(benches, &what, &written(&configuration, &log.calls), false)?;
        println!("{what}, seed {MEASURED_SEED}: {answers} answers agree");
        total += answers;
    }
    Ok(total)
}

fn compare_one(benches: &Benches, what: &str, log: &[u8], in_pieces: bool) -> Compared {
    let (proved, plain) = thread::scope(|scope| {
        let proved = scope.spawn(|| answers(&benches.proved, log, in_pieces));
        let plain = answers(&benches.plain, log, in_pieces);
        (proved.join().expect("the thread that runs a bench doesn't panic"), plain)
    });
    let (proved, plain) = (proved?, plain?);
    if proved == plain {
        return Ok(count_lines(&plain));
    }
    Err(difference(what, log, &proved, &plain))
}

fn count_lines(bytes: &[u8]) -> u64 {
    bytes.iter().filter(|&&character| character == b'\n').count() as u64
}

/// What a bench writes for a log that it gets whole, or piece by piece so that lines are cut between two reads.
fn answers(bench: &str, log: &[u8], in_pieces: bool) -> Result<Vec<u8>, String> {
    let failed = |error: std::io::Error| format!("{bench}: {error}");
    let mut child = Command::new(bench)
        .stdin(Stdio::piped())
        .stdout(Stdio::piped())
        .spawn()
        .map_err(failed)?;
    let mut input = child.stdin.take().expect("piped");
    let mut output = child.stdout.take().expect("piped");
    let mut written = Vec::new();
    thread::scope(|scope| -> std::io::Result<()> {
        let feeding = scope.spawn(move || {
            let mut random = Random::new(log.len() as u64);
            let mut rest = log;
            while !rest.is_empty() {
                let most = if in_pieces { random.within(1, 5_000) as usize } else { rest.len() };
                let (piece, later) = rest.split_at(most.min(rest.len()));
                input.write_all(piece)?;
                rest = later;
            }
            Ok(())
        });
        output.read_to_end(&mut written)?;
        feeding.join().expect("the thread that feeds doesn't panic")
    })
    .map_err(failed)?;
    let status = child.wait().map_err(failed)?;
    if status.success() {
        Ok(written)
    } else {
        Err(format!("{bench}: {status}"))
    }
}

/// The first line that is answered in two ways.
fn difference(what: &str, log: &[u8], proved: &[u8], plain: &[u8]) -> String {
    let lines = |bytes: &[u8]| -> Vec<String> {
        let lines = bytes.split_inclusive(|&character| character == b'\n');
        lines.map(|line| line.escape_ascii().to_string()).collect()
    };
    let (log, proved, plain) = (lines(log), lines(proved), lines(plain));
    let at = (0..).find(|&at| proved.get(at) != plain.get(at)).expect("they differ");
    let shown = |lines: &[String]| lines.get(at).cloned().unwrap_or("nothing".into());
    format!(
        "{what}: line {} differs\n  line:   {}\n  proved: {}\n  plain:  {}",
        at + 1,
        shown(&log),
        shown(&proved),
        shown(&plain)
    )
}
