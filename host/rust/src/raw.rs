//! The three functions as C has them: any bytes, any numbers. A slice has its length with it, and `&mut` lets nobody else at the block, so
//! that all that the C header asks of a caller holds.
use crate::answer::Answer;

mod foreign {
    extern "C" {
        pub fn tankwesho_fresh(
            block: *mut u8,
            block_length: usize,
            tasks: u8,
            regions: u8,
            queues: u8,
            priorities: *const u8,
            priorities_length: usize,
            bounds: *const u8,
            bounds_length: usize,
            marks: *const u8,
            marks_length: usize,
        ) -> u64;
        pub fn tankwesho_call(block: *mut u8, block_length: usize, caller: u8, operation: u8, a: u32, b: u32, c: u32) -> u64;
        pub fn tankwesho_query(block: *const u8, block_length: usize, query: u8, caller: u8, a: u32, b: u32) -> u64;
    }
}

/// Makes the table of a configuration in the block.
pub fn fresh(block: &mut [u8], tasks: u8, regions: u8, queues: u8, priorities: &[u8], bounds: &[u8], marks: &[u8]) -> Answer {
    // SAFETY: each pointer comes with the length of its slice; the block is lent by `&mut`, so that the lists can't overlap it.
    Answer::of(unsafe {
        foreign::tankwesho_fresh(
            block.as_mut_ptr(),
            block.len(),
            tasks,
            regions,
            queues,
            priorities.as_ptr(),
            priorities.len(),
            bounds.as_ptr(),
            bounds.len(),
            marks.as_ptr(),
            marks.len(),
        )
    })
}

/// One call.
pub fn call(block: &mut [u8], caller: u8, operation: u8, a: u32, b: u32, c: u32) -> Answer {
    // SAFETY: the pointer comes with the length of its slice, which is lent by `&mut`.
    Answer::of(unsafe { foreign::tankwesho_call(block.as_mut_ptr(), block.len(), caller, operation, a, b, c) })
}

/// One query.
pub fn query(block: &[u8], query: u8, caller: u8, a: u32, b: u32) -> Answer {
    // SAFETY: the pointer comes with the length of its slice; the function only reads.
    Answer::of(unsafe { foreign::tankwesho_query(block.as_ptr(), block.len(), query, caller, a, b) })
}
