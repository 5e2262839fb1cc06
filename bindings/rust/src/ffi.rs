//! The calls through the C interface: the only unsafe code of this crate. What
//! the calls promise is said at the public functions, in `calls.rs`.

#![allow(unsafe_code)]

use crate::answer::Answer;
use crate::{Number, Query};

extern "C" {
    fn bwlchareg_version() -> u32;

    fn bwlchareg_check(table: *const Number, length: usize, position: *mut u64) -> u32;

    fn bwlchareg_check_query(
        table: *const Number,
        length: usize,
        principal: Number,
        owner: Number,
        name: Number,
        depth: Number,
        position: *mut u64,
    ) -> u32;

    fn bwlchareg_verify(
        table: *const Number,
        table_length: usize,
        principal: Number,
        owner: Number,
        name: Number,
        depth: Number,
        record: *const Number,
        record_length: usize,
        value: *mut u64,
    ) -> u32;

    fn bwlchareg_list(
        table: *const Number,
        table_length: usize,
        principal: Number,
        owner: Number,
        name: Number,
        depth: Number,
        sets: *mut u32,
        sets_length: usize,
        value: *mut u64,
    ) -> u32;

    fn bwlchareg_write(
        table: *const Number,
        table_length: usize,
        principal: Number,
        owner: Number,
        name: Number,
        depth: Number,
        set: u32,
        record: *mut Number,
        record_length: usize,
        value: *mut u64,
    ) -> u32;
}

pub fn version() -> u32 {
    // SAFETY: it takes nothing, and gives a number.
    unsafe { bwlchareg_version() }
}

pub fn check(table: &[Number]) -> Answer {
    // SAFETY: pointer and length come from one borrowed slice, which the
    // library only reads, and only during the call; the last parameter is a
    // variable of `Answer::of` that nothing else refers to.
    Answer::of(|position| unsafe { bwlchareg_check(table.as_ptr(), table.len(), position) })
}

pub fn check_query(table: &[Number], query: Query) -> Answer {
    // SAFETY: as for `check`; the query is passed by value.
    Answer::of(|position| unsafe {
        bwlchareg_check_query(
            table.as_ptr(),
            table.len(),
            query.principal,
            query.owner,
            query.name,
            query.depth,
            position,
        )
    })
}

pub fn verify(table: &[Number], query: Query, record: &[Number]) -> Answer {
    // SAFETY: as for `check_query`; the record is a second borrowed slice,
    // which the library only reads, and only during the call.
    Answer::of(|value| unsafe {
        bwlchareg_verify(
            table.as_ptr(),
            table.len(),
            query.principal,
            query.owner,
            query.name,
            query.depth,
            record.as_ptr(),
            record.len(),
            value,
        )
    })
}

pub fn list(table: &[Number], query: Query, cells: &mut [u32]) -> Answer {
    // SAFETY: as for `check_query`; the cells are a slice that is borrowed for
    // this call alone, of which the library writes no more than its length.
    Answer::of(|value| unsafe {
        bwlchareg_list(
            table.as_ptr(),
            table.len(),
            query.principal,
            query.owner,
            query.name,
            query.depth,
            cells.as_mut_ptr(),
            cells.len(),
            value,
        )
    })
}

pub fn write(table: &[Number], query: Query, set: u32, record: &mut [Number]) -> Answer {
    // SAFETY: as for `list`; the set is passed by value.
    Answer::of(|value| unsafe {
        bwlchareg_write(
            table.as_ptr(),
            table.len(),
            query.principal,
            query.owner,
            query.name,
            query.depth,
            set,
            record.as_mut_ptr(),
            record.len(),
            value,
        )
    })
}
