//! Compares the proved executive with the plain one, answer by answer, and ends at the first difference.
//!
//!     differential BENCH PLAIN_BENCH [LOGS]
//!
//! runs both benches on LOGS logs of each kind, seeds 0 to LOGS - 1, and on the measured log. Built with the feature `proved` it also
//! compares the calls on blocks: every call of some logs, and calls and queries on damaged blocks.

#[cfg(feature = "proved")]
mod blocks;
mod logs;

use std::process::ExitCode;

/// What differed, in words; or how many answers agreed.
type Compared = Result<u64, String>;

fn main() -> ExitCode {
    let words: Vec<String> = std::env::args().skip(1).collect();
    let logs = words.get(2).map_or(Some(500), |word| word.parse().ok());
    let (2..=3, Some(logs)) = (words.len(), logs) else {
        eprintln!("usage: differential BENCH PLAIN_BENCH [LOGS]");
        return ExitCode::from(2);
    };
    match all(&logs::Benches::new(&words[0], &words[1]), logs) {
        Ok(answers) => {
            println!("{answers} answers agree");
            ExitCode::SUCCESS
        }
        Err(difference) => {
            println!("{difference}");
            ExitCode::FAILURE
        }
    }
}

fn all(benches: &logs::Benches, logs: u64) -> Compared {
    let answers = logs::compare(benches, logs)?;
    #[cfg(feature = "proved")]
    let answers = answers + blocks::compare()?;
    Ok(answers)
}
