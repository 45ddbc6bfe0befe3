//! The bench: lines in, answer lines out, in memory that doesn't grow.

use std::io::{self, BufRead, Write};

use crate::answer::{Answer, Call, Status, OUTSIDE};
use crate::configuration::{counts_fit, Configuration};
use crate::table::Table;

/// The most characters that a line may have before its line feed.
pub const LONGEST: usize = 192;
/// The digits of a call line.
pub const CALL_DIGITS: usize = 28;
/// The characters of an answer line, with its line feed.
pub const ANSWER_CHARACTERS: usize = 17;

const DIGITS: &[u8; 16] = b"0123456789ABCDEF";

fn digit(character: u8) -> Option<u8> {
    match character {
        b'0'..=b'9' => Some(character - b'0'),
        b'A'..=b'F' => Some(character - b'A' + 10),
        _ => None,
    }
}

fn number(digits: &[u8]) -> Option<u32> {
    digits
        .iter()
        .try_fold(0, |number, &character| Some(number << 4 | u32::from(digit(character)?)))
}

fn byte(digits: &[u8]) -> Option<u8> {
    number(digits).map(|number| number as u8)
}

/// The call in a line without its line feed, if it is one.
pub fn call_in(line: &[u8]) -> Option<Call> {
    if line.len() != CALL_DIGITS {
        return None;
    }
    Some(Call {
        caller: byte(&line[0..2])?,
        operation: byte(&line[2..4])?,
        a: number(&line[4..12])?,
        b: number(&line[12..20])?,
        c: number(&line[20..28])?,
    })
}

/// A call as a line, with its line feed.
pub fn call_line(call: &Call) -> String {
    let Call {
        caller,
        operation,
        a,
        b,
        c,
    } = call;
    format!("{caller:02X}{operation:02X}{a:08X}{b:08X}{c:08X}\n")
}

/// A configuration as a line, with its line feed.
pub fn configuration_line(configuration: &Configuration) -> String {
    let counts = [configuration.tasks, configuration.regions, configuration.queues];
    let lists = [configuration.priorities, configuration.bounds, configuration.marks];
    let numbers = counts.iter().chain(lists.into_iter().flatten());
    numbers.map(|number| format!("{number:02X}")).chain(["\n".into()]).collect()
}

/// An answer as a line, with its line feed.
pub fn answer_line(answer: Answer) -> [u8; ANSWER_CHARACTERS] {
    let bytes = u32::from_be_bytes([0, answer.key, answer.elected, answer.displaced]);
    let number = u64::from(answer.status as u8) << 56 | u64::from(answer.value) << 24 | u64::from(bytes);
    let mut line = [b'\n'; ANSWER_CHARACTERS];
    for (place, character) in line[..ANSWER_CHARACTERS - 1].iter_mut().rev().enumerate() {
        *character = DIGITS[(number >> (4 * place)) as usize & 15];
    }
    line
}

/// A line's end: whether its line feed was there.
#[derive(Clone, Copy, PartialEq, Eq)]
enum End {
    LineFeed,
    Missing,
}

/// What has come of the lines so far: no table before the first line.
pub struct Session {
    table: Option<Table>,
}

impl Session {
    /// Before the first line.
    pub fn new() -> Self {
        Session { table: None }
    }

    fn line(&mut self, line: &[u8], end: End) -> Answer {
        let line = (line.len() <= LONGEST && end == End::LineFeed).then_some(line);
        match &mut self.table {
            None => {
                let made = first_line(line);
                let answer = match &made {
                    Ok(table) => Answer::bare(Status::Done, table.reported()),
                    Err(status) => Answer::bare(*status, OUTSIDE),
                };
                self.table = Some(made.unwrap_or_else(|_| Table::zeros()));
                answer
            }
            Some(table) => match line.and_then(call_in) {
                Some(call) => table.call(&call),
                None if table.task_count == 0 => Answer::bare(Status::Malformed, OUTSIDE),
                None => Answer::bare(Status::Malformed, table.reported()),
            },
        }
    }
}

impl Default for Session {
    fn default() -> Self {
        Self::new()
    }
}

/// The fresh table of a first line, or why there is none.
fn first_line(line: Option<&[u8]>) -> Result<Table, Status> {
    let line = line.ok_or(Status::Malformed)?;
    if line.len() < 6 || line.len() % 2 != 0 {
        return Err(Status::Malformed);
    }
    let bytes: Vec<u8> = line.chunks_exact(2).map(byte).collect::<Option<_>>().ok_or(Status::Malformed)?;
    let (counts, lists) = bytes.split_at(3);
    let [tasks, regions, queues] = [counts[0], counts[1], counts[2]];
    if !counts_fit(tasks, regions, queues) {
        return Err(Status::Configuration);
    }
    if lists.len() != usize::from(tasks) + usize::from(queues) + usize::from(regions) {
        return Err(Status::Malformed);
    }
    let (priorities, lists) = lists.split_at(tasks.into());
    let (bounds, marks) = lists.split_at(queues.into());
    let configuration = Configuration {
        tasks,
        regions,
        queues,
        priorities,
        bounds,
        marks,
    };
    configuration.fresh().ok_or(Status::Configuration)
}

/// Answers every line of the input. What has come is answered before more is waited for.
pub fn run(mut input: impl BufRead, mut output: impl Write) -> io::Result<()> {
    let mut session = Session::new();
    // The beginning of a line whose end has not come yet; one character past the longest tells that it is too long.
    let mut begun: Vec<u8> = Vec::with_capacity(LONGEST + 1);
    loop {
        let chunk = input.fill_buf()?;
        if chunk.is_empty() {
            break;
        }
        for piece in chunk.split_inclusive(|&character| character == b'\n') {
            let (piece, ended) = match piece.strip_suffix(b"\n") {
                Some(rest) => (rest, true),
                None => (piece, false),
            };
            if ended && begun.is_empty() {
                output.write_all(&answer_line(session.line(piece, End::LineFeed)))?;
                continue;
            }
            begun.extend(piece.iter().take(LONGEST + 1 - begun.len()));
            if ended {
                output.write_all(&answer_line(session.line(&begun, End::LineFeed)))?;
                begun.clear();
            }
        }
        let read = chunk.len();
        input.consume(read);
        output.flush()?;
    }
    if !begun.is_empty() {
        output.write_all(&answer_line(session.line(&begun, End::Missing)))?;
    }
    output.flush()
}
