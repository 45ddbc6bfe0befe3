//! Safe calls of the proved executive over its packed block.
//!
//! [`Block`] always holds a valid table, its calls take typed operations, and `&mut` sees to it that there is one call at a time. The
//! functions of [`raw`] take any bytes and any numbers, as C does, and are as safe: the library asks nothing of its caller.
//!
//! ```
//! use tankwesho::{Block, Event, Mark, Operation, Outside, Status, Task};
//! let [zero, one, two] = [0, 1, 2].map(|n| Task::new(n).unwrap());
//! let mut block = Block::fresh(&[5, 5, 2], &[2], &[Mark::Closed; 2]).unwrap();
//! let answer = block.call(zero, Operation::Start { task: two });
//! assert_eq!((answer.status, answer.elected, answer.displaced), (Status::Done, Some(two), Some(zero)));
//! let answer = block.outside(Outside::Signal { event: Event::new(0).unwrap(), task: one });
//! assert_eq!((answer.status, answer.elected, answer.displaced), (Status::WrongState, Some(two), None));
//! ```
//!
//! What would be a misuse doesn't compile. No task can tick:
//!
//! ```compile_fail,E0599
//! let tick = tankwesho::Operation::Tick;
//! ```
//!
//! The outside can't start a task:
//!
//! ```compile_fail,E0599
//! let start = tankwesho::Outside::Start { task: tankwesho::Task::new(1).unwrap() };
//! ```
//!
//! A number isn't a task, and 255 is none that could be made one:
//!
//! ```compile_fail,E0308
//! let mut block = tankwesho::Block::fresh(&[1], &[], &[]).unwrap();
//! let _ = block.call(255, tankwesho::Operation::End);
//! ```
//!
//! ```
//! assert_eq!(tankwesho::Task::new(255), None);
//! ```
//!
//! Bytes become a block only if they are a table:
//!
//! ```compile_fail,E0451
//! let block = tankwesho::Block { bytes: [0; tankwesho::SIZE] };
//! ```
//!
//! Two calls at a time on one block:
//!
//! ```compile_fail,E0499
//! let mut block = tankwesho::Block::fresh(&[1], &[], &[]).unwrap();
//! let (one, other) = (&mut block, &mut block);
//! let _ = one.outside(tankwesho::Outside::Tick);
//! let _ = other.outside(tankwesho::Outside::Tick);
//! ```
#![no_std]
#![deny(missing_docs)]

mod answer;
mod block;
mod calls;
mod numbers;
pub mod raw;

pub use answer::{Answer, Status};
pub use block::Block;
pub use calls::{Operation, Outside, Query, Wanted};
pub use numbers::{Criterion, Delay, Event, EventList, Mark, Operator, Queue, Region, Task, Timer};

/// The size of a block, in bytes.
pub const SIZE: usize = 3272;
