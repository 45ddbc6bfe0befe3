//! How often each operation got each status.

use std::collections::BTreeMap;
use std::fmt;

use crate::answer::{Answer, Call, Status};
use crate::calls::Operation;

/// Counts by operation, `None` for a number above the last, and status.
#[derive(Clone, Debug, Default)]
pub struct Mix {
    counts: BTreeMap<(Option<u8>, Status), u64>,
}

impl Mix {
    pub fn note(&mut self, call: &Call, answer: &Answer) {
        let operation = Operation::numbered(call.operation).map(|operation| operation as u8);
        *self.counts.entry((operation, answer.status)).or_default() += 1;
    }

    /// Which pairs of operation and status a valid table can give and did not, and which it cannot give and did. The table has closed
    /// regions, and `open` ones or not.
    pub fn amiss(&self, open: bool) -> Vec<String> {
        let operations = Operation::ALL.map(Some).into_iter().chain([None]);
        let pairs = operations.flat_map(|operation| ALL_STATUSES.map(|status| (operation, status)));
        pairs
            .filter_map(|(operation, status)| {
                let occurred = self.counts.contains_key(&(operation.map(|known| known as u8), status));
                let expected = reachable(operation, open).contains(&status);
                (occurred != expected).then(|| {
                    let what = if occurred { "must not occur" } else { "does not occur" };
                    format!("{} with status {} {what}", name(operation), status as u8)
                })
            })
            .collect()
    }
}

const ALL_STATUSES: [Status; 18] = [
    Status::Done,
    Status::Waits,
    Status::NotValid,
    Status::NoOperation,
    Status::NotElected,
    Status::NotForCaller,
    Status::NoObject,
    Status::WrongState,
    Status::InRegion,
    Status::QueueFull,
    Status::NothingFits,
    Status::NoOperator,
    Status::Configuration,
    Status::Malformed,
    Status::TooManyEntries,
    Status::NotHeld,
    Status::ClosesCircle,
    Status::HoldsOpen,
];

/// The statuses that an operation can get on a valid table: document 01's list with what was added, read by operation.
fn reachable(operation: Option<Operation>, open: bool) -> Vec<Status> {
    use Operation::*;
    use Status::*;
    let Some(operation) = operation else {
        return vec![NoOperation];
    };
    let mut statuses = vec![Done, NotElected];
    if operation != Signal {
        statuses.push(NotForCaller);
    }
    if !matches!(operation, End | Tick) {
        statuses.push(NoObject);
    }
    match operation {
        Start | Signal | Arm | Disarm => statuses.push(WrongState),
        Stop => statuses.extend([WrongState, InRegion]),
        End => statuses.push(InRegion),
        Wait => statuses.extend([Waits, NoOperator, InRegion]),
        Enter => statuses.push(TooManyEntries),
        Send => statuses.push(QueueFull),
        Retrieve => statuses.push(NothingFits),
        Exit => statuses.push(NotHeld),
        Clear | Tick => {}
    }
    if open {
        match operation {
            Enter => statuses.extend([Waits, InRegion, ClosesCircle]),
            Stop | End => statuses.push(HoldsOpen),
            _ => {}
        }
    }
    statuses
}

fn name(operation: Option<Operation>) -> String {
    operation.map_or("13 to 255".into(), |known| format!("{known:?}").to_uppercase())
}

impl fmt::Display for Mix {
    /// One row an operation, one column a status.
    fn fmt(&self, f: &mut fmt::Formatter) -> fmt::Result {
        let occurs = |status: &Status| self.counts.keys().any(|(_, occurring)| occurring == status);
        let statuses: Vec<Status> = ALL_STATUSES.into_iter().filter(occurs).collect();
        write!(f, "{:10}", "")?;
        for status in &statuses {
            write!(f, "{:>8}", *status as u8)?;
        }
        writeln!(f)?;
        for operation in Operation::ALL.map(Some).into_iter().chain([None]) {
            write!(f, "{:10}", name(operation))?;
            for status in &statuses {
                match self.counts.get(&(operation.map(|known| known as u8), *status)) {
                    Some(count) => write!(f, "{count:8}")?,
                    None => write!(f, "{:>8}", "-")?,
                }
            }
            writeln!(f)?;
        }
        Ok(())
    }
}
