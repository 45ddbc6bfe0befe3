//! The proved executive, as its static library exports it.

use crate::answer::Call;
use crate::configuration::Configuration;

extern "C" {
    fn tankwesho_fresh(
        block: *mut u8,
        block_length: usize,
        tasks: u8,
        regions: u8,
        queues: u8,
        priorities: *const u8,
        priorities_length: usize,
        bounds: *const u8,
        bounds_length: usize,
        marks: *const u8,
        marks_length: usize,
    ) -> u64;
    fn tankwesho_call(block: *mut u8, block_length: usize, caller: u8, operation: u8, a: u32, b: u32, c: u32) -> u64;
    fn tankwesho_replay(
        block: *mut u8,
        block_length: usize,
        log: *const u32,
        log_length: usize,
        answers: *mut u64,
        answers_length: usize,
        each: u8,
    ) -> u64;
    fn tankwesho_query(block: *const u8, block_length: usize, query: u8, caller: u8, a: u32, b: u32) -> u64;
}

pub fn fresh(block: &mut [u8], configuration: &Configuration) -> u64 {
    let Configuration {
        tasks,
        regions,
        queues,
        priorities,
        bounds,
        marks,
    } = *configuration;
    // SAFETY: the four slices are lent for the call, each with its length.
    unsafe {
        tankwesho_fresh(
            block.as_mut_ptr(),
            block.len(),
            tasks,
            regions,
            queues,
            priorities.as_ptr(),
            priorities.len(),
            bounds.as_ptr(),
            bounds.len(),
            marks.as_ptr(),
            marks.len(),
        )
    }
}

pub fn call(block: &mut [u8], call: &Call) -> u64 {
    let Call {
        caller,
        operation,
        a,
        b,
        c,
    } = *call;
    // SAFETY: the block is lent for the call, with its length.
    unsafe { tankwesho_call(block.as_mut_ptr(), block.len(), caller, operation, a, b, c) }
}

pub fn query(block: &[u8], query: u8, caller: u8, a: u32, b: u32) -> u64 {
    // SAFETY: the block is lent for the query, with its length.
    unsafe { tankwesho_query(block.as_ptr(), block.len(), query, caller, a, b) }
}

/// The calls of a log one after the other, five numbers each, with an answer each; tells how many were made. With `each` the table is
/// checked before every call, else once.
pub fn replay(block: &mut [u8], log: &[u32], answers: &mut [u64], each: bool) -> u64 {
    // SAFETY: the three slices are lent for the call, each with its length.
    unsafe {
        tankwesho_replay(
            block.as_mut_ptr(),
            block.len(),
            log.as_ptr(),
            log.len(),
            answers.as_mut_ptr(),
            answers.len(),
            each.into(),
        )
    }
}

/// A log as the replay takes it.
pub fn numbers(calls: &[Call]) -> Vec<u32> {
    calls
        .iter()
        .flat_map(|call| [call.caller.into(), call.operation.into(), call.a, call.b, call.c])
        .collect()
}
