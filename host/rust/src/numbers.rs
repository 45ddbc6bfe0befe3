//! The numbers of document 01 as types: one of them is always in range.

macro_rules! numbers {
    ($($(#[$doc:meta])* $name:ident: $width:ty, $least:literal to $most:literal;)*) => {$(
        $(#[$doc])*
        #[derive(Clone, Copy, Debug, PartialEq, Eq, PartialOrd, Ord, Hash)]
        pub struct $name($width);

        impl $name {
            /// `None` where the number is out of range.
            pub const fn new(number: $width) -> Option<$name> {
                if matches!(number, $least..=$most) { Some($name(number)) } else { None }
            }

            /// The number.
            pub const fn number(self) -> $width {
                self.0
            }
        }

        impl From<$name> for u32 {
            fn from(it: $name) -> u32 {
                it.0.into()
            }
        }
    )*};
}

numbers! {
    /// A task, 0 to 63. A block may have fewer: a call that names one past its count gets [`Status::Missing`](crate::Status::Missing).
    Task: u8, 0 to 63;
    /// An event of a task, 0 to 15.
    Event: u8, 0 to 15;
    /// A region, 0 to 15. A block may have fewer.
    Region: u8, 0 to 15;
    /// A queue, 0 to 7. A block may have fewer.
    Queue: u8, 0 to 7;
    /// A criterion, 0 to 15.
    Criterion: u8, 0 to 15;
    /// A timer, 0 to 15.
    Timer: u8, 0 to 15;
    /// A delay of 1 to 2147483647 ticks.
    Delay: u32, 1 to 2147483647;
}

impl Task {
    /// Task 0, which every table has.
    pub const FIRST: Task = Task(0);
}

/// A list of events that isn't empty: bit i stands for event i.
#[derive(Clone, Copy, Debug, PartialEq, Eq, Hash)]
pub struct EventList(u16);

impl EventList {
    /// `None` for the empty list.
    pub const fn new(bits: u16) -> Option<EventList> {
        if bits == 0 {
            None
        } else {
            Some(EventList(bits))
        }
    }

    /// The list with one event more.
    pub const fn and(self, event: Event) -> EventList {
        EventList(self.0 | 1 << event.0)
    }
}

impl From<Event> for EventList {
    fn from(event: Event) -> EventList {
        EventList(1 << event.0)
    }
}

impl From<EventList> for u32 {
    fn from(list: EventList) -> u32 {
        list.0.into()
    }
}

/// What a region's holder keeps from others.
#[derive(Clone, Copy, Debug, PartialEq, Eq, Hash)]
pub enum Mark {
    /// Everything: whoever holds it is elected.
    Closed = 0,
    /// The region alone. A task that enters it while another holds it waits for it, and lends that one its urgency.
    Open = 1,
}

/// How many of a list's events make its condition.
#[derive(Clone, Copy, Debug, PartialEq, Eq, Hash)]
pub enum Operator {
    /// Every one of them.
    All = 0,
    /// At least one.
    Any = 1,
}
