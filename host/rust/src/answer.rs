//! What every function answers.
use crate::numbers::Task;

/// The status of an answer. From [`NotATable`](Status::NotATable) on nothing has changed.
#[derive(Clone, Copy, Debug, PartialEq, Eq)]
pub enum Status {
    /// 0: accepted.
    Done,
    /// 1: accepted, and the caller waits: for events after a WAIT, for a region after an ENTER.
    Waits,
    /// 10: a wrong size, or not a valid table.
    NotATable,
    /// 11: no such operation or query.
    NoOperation,
    /// 12: the caller is a task, and not the elected one.
    NotElected,
    /// 13: the outside may not call this, or a task may not tick.
    Barred,
    /// 14: something named doesn't exist.
    Missing,
    /// 15: START of a task not stopped, STOP or SIGNAL of a stopped one, another task's timer.
    WrongState,
    /// 16: WAIT, END, STOP of oneself, or an ENTER that would wait, while a closed region is occupied; WAIT by a task that holds an open one.
    InRegion,
    /// 17: SEND to a queue at its bound.
    QueueAtBound,
    /// 18: RETRIEVE where no element fits.
    NoneFits,
    /// 19: an operator above 1.
    BadOperator,
    /// 20: a configuration out of range.
    BadConfiguration,
    /// 22: ENTER of a region that has been entered 255 times and not left.
    EnteredTooOften,
    /// 23: EXIT of a region that the caller doesn't hold.
    NotHeld,
    /// 24: ENTER of a region whose holder waits for the caller, itself or through others.
    ClosesCircle,
    /// 25: STOP or END of a task that holds an open region.
    HoldsOpen,
    /// Any other number. The library gives none; so reading an answer has no case in which to fail.
    Other(u8),
}

impl Status {
    fn of(number: u8) -> Status {
        match number {
            0 => Status::Done,
            1 => Status::Waits,
            10 => Status::NotATable,
            11 => Status::NoOperation,
            12 => Status::NotElected,
            13 => Status::Barred,
            14 => Status::Missing,
            15 => Status::WrongState,
            16 => Status::InRegion,
            17 => Status::QueueAtBound,
            18 => Status::NoneFits,
            19 => Status::BadOperator,
            20 => Status::BadConfiguration,
            22 => Status::EnteredTooOften,
            23 => Status::NotHeld,
            24 => Status::ClosesCircle,
            25 => Status::HoldsOpen,
            other => Status::Other(other),
        }
    }
}

/// An answer, taken apart.
#[derive(Clone, Copy, Debug, PartialEq, Eq)]
#[must_use = "a call may have been refused"]
pub struct Answer {
    /// Whether it was accepted, and if not, why.
    pub status: Status,
    /// The elected task as it stands after the call; `None` where no task is ready, or there is no table.
    pub elected: Option<Task>,
    /// The criterion of the element that RETRIEVE took, else 0.
    pub key: u8,
    /// The element that RETRIEVE took, or the reply of a query, else 0.
    pub value: u32,
    /// The task that was pushed aside: elected before the call, still ready, and no longer elected. `None` where there is none, as with
    /// every refusal and every query.
    pub displaced: Option<Task>,
}

impl Answer {
    pub(crate) fn of(number: u64) -> Answer {
        let [status, elected, key, displaced, value @ ..] = number.to_le_bytes();
        Answer {
            status: Status::of(status),
            elected: Task::new(elected),
            key,
            value: u32::from_le_bytes(value),
            displaced: Task::new(displaced),
        }
    }

    /// The answer, or why there was a refusal.
    pub fn accepted(self) -> Result<Answer, Status> {
        match self.status {
            Status::Done | Status::Waits => Ok(self),
            refused => Err(refused),
        }
    }
}
