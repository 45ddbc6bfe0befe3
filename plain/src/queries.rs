//! The five queries, which change nothing.

use crate::answer::{Answer, Status, OUTSIDE};
use crate::calls::{event_list, event_operator};
use crate::table::{is_met, Table};

#[derive(Clone, Copy, Debug, PartialEq, Eq)]
pub enum Query {
    Arrived { caller: u8, list: u32, operator: u32 },
    Empty { queue: u32 },
    Full { queue: u32 },
    Priority { task: u32 },
    State { task: u32 },
}

impl Query {
    /// The query of a number, with the block calls' arguments.
    pub fn numbered(number: u8, caller: u8, a: u32, b: u32) -> Option<Self> {
        match number {
            0 => Some(Query::Arrived {
                caller,
                list: a,
                operator: b,
            }),
            1 => Some(Query::Empty { queue: a }),
            2 => Some(Query::Full { queue: a }),
            3 => Some(Query::Priority { task: a }),
            4 => Some(Query::State { task: a }),
            _ => None,
        }
    }
}

impl Table {
    pub fn query(&self, query: Query) -> Answer {
        if !self.is_valid() {
            return Answer::bare(Status::NotValid, OUTSIDE);
        }
        let elected = self.reported();
        match self.reply(query) {
            Ok(value) => Answer {
                value,
                ..Answer::bare(Status::Done, elected)
            },
            Err(status) => Answer::bare(status, elected),
        }
    }

    fn reply(&self, query: Query) -> Result<u32, Status> {
        match query {
            Query::Arrived { caller, list, operator } => {
                if self.elected != Some(caller) {
                    return Err(Status::NotElected);
                }
                let list = event_list(list)?;
                let operator = event_operator(operator)?;
                Ok(is_met(list, operator, self.task(caller.into())?.arrived).into())
            }
            Query::Empty { queue } => Ok((self.queue(queue)?.length == 0).into()),
            Query::Full { queue } => Ok(self.queue(queue)?.is_full().into()),
            Query::Priority { task } => Ok(self.task(task)?.priority.into()),
            Query::State { task } => Ok(self.task(task)?.told_state().0.into()),
        }
    }
}
