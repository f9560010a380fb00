//! The exported functions, declared as in `bindings/c/zumbiqa.h` and called on
//! slices. A slice is a pointer and then its length.

use crate::raw::{View, Words};

extern "C" {
    fn zumbiqa_size(which: usize) -> u64;

    fn zumbiqa_open(
        block: *const u8,
        block_length: usize,
        workers: usize,
        head: *mut u64,
        head_length: usize,
        plan: *mut u64,
        plan_length: usize,
        keys: *mut u64,
        keys_length: usize,
        cells: *mut i64,
        cells_length: usize,
        status: *mut u64,
        status_length: usize,
        seats: *mut u64,
        seats_length: usize,
        frames: *mut i64,
        frames_length: usize,
        offset: *mut u64,
    ) -> u64;

    fn zumbiqa_begin(
        head: *mut u64,
        head_length: usize,
        plan: *const u64,
        plan_length: usize,
        keys: *const u64,
        keys_length: usize,
        cells: *const i64,
        cells_length: usize,
        status: *mut u64,
        status_length: usize,
        seats: *mut u64,
        seats_length: usize,
        frames: *mut i64,
        frames_length: usize,
        worker: usize,
        call: usize,
    ) -> u64;

    fn zumbiqa_step(
        block: *const u8,
        block_length: usize,
        head: *mut u64,
        head_length: usize,
        plan: *const u64,
        plan_length: usize,
        keys: *const u64,
        keys_length: usize,
        cells: *mut i64,
        cells_length: usize,
        status: *mut u64,
        status_length: usize,
        seats: *mut u64,
        seats_length: usize,
        frames: *mut i64,
        frames_length: usize,
        worker: usize,
    ) -> u64;

    fn zumbiqa_cancel(
        head: *mut u64,
        head_length: usize,
        plan: *const u64,
        plan_length: usize,
        keys: *const u64,
        keys_length: usize,
        cells: *mut i64,
        cells_length: usize,
        status: *mut u64,
        status_length: usize,
        seats: *const u64,
        seats_length: usize,
        frames: *const i64,
        frames_length: usize,
        worker: usize,
    ) -> u64;

    fn zumbiqa_serial_run(
        block: *const u8,
        block_length: usize,
        head: *mut u64,
        head_length: usize,
        plan: *const u64,
        plan_length: usize,
        keys: *const u64,
        keys_length: usize,
        cells: *mut i64,
        cells_length: usize,
        status: *mut u64,
        status_length: usize,
        seats: *mut u64,
        seats_length: usize,
        frames: *mut i64,
        frames_length: usize,
    ) -> u64;

    fn zumbiqa_sheet(
        head: *const u64,
        head_length: usize,
        plan: *const u64,
        plan_length: usize,
        keys: *const u64,
        keys_length: usize,
        cells: *const i64,
        cells_length: usize,
        status: *const u64,
        status_length: usize,
        seats: *const u64,
        seats_length: usize,
        frames: *const i64,
        frames_length: usize,
        output: *mut u8,
        output_length: usize,
        sheet_length: *mut u64,
    ) -> u64;
}

/// The fixed size of a number, 0 for any other.
pub(crate) fn size(which: usize) -> u64 {
    // SAFETY: the function takes every number.
    unsafe { zumbiqa_size(which) }
}

/// The number and the offset of an opening.
pub(crate) fn open(block: &[u8], workers: usize, words: &mut Words) -> (u64, u64) {
    let mut offset = 0;
    // SAFETY: each pointer and length is that of a slice that lives through the
    // call; those that are written are borrowed alone.
    let number = unsafe {
        zumbiqa_open(
            block.as_ptr(),
            block.len(),
            workers,
            words.head.as_mut_ptr(),
            words.head.len(),
            words.plan.as_mut_ptr(),
            words.plan.len(),
            words.keys.as_mut_ptr(),
            words.keys.len(),
            words.cells.as_mut_ptr(),
            words.cells.len(),
            words.status.as_mut_ptr(),
            words.status.len(),
            words.seats.as_mut_ptr(),
            words.seats.len(),
            words.frames.as_mut_ptr(),
            words.frames.len(),
            &mut offset,
        )
    };
    (number, offset)
}

/// The number of BEGIN(worker, call).
pub(crate) fn begin(words: &mut Words, worker: usize, call: usize) -> u64 {
    // SAFETY: as in `open`.
    unsafe {
        zumbiqa_begin(
            words.head.as_mut_ptr(),
            words.head.len(),
            words.plan.as_ptr(),
            words.plan.len(),
            words.keys.as_ptr(),
            words.keys.len(),
            words.cells.as_ptr(),
            words.cells.len(),
            words.status.as_mut_ptr(),
            words.status.len(),
            words.seats.as_mut_ptr(),
            words.seats.len(),
            words.frames.as_mut_ptr(),
            words.frames.len(),
            worker,
            call,
        )
    }
}

/// The number of STEP(worker).
pub(crate) fn step(block: &[u8], words: &mut Words, worker: usize) -> u64 {
    // SAFETY: as in `open`.
    unsafe {
        zumbiqa_step(
            block.as_ptr(),
            block.len(),
            words.head.as_mut_ptr(),
            words.head.len(),
            words.plan.as_ptr(),
            words.plan.len(),
            words.keys.as_ptr(),
            words.keys.len(),
            words.cells.as_mut_ptr(),
            words.cells.len(),
            words.status.as_mut_ptr(),
            words.status.len(),
            words.seats.as_mut_ptr(),
            words.seats.len(),
            words.frames.as_mut_ptr(),
            words.frames.len(),
            worker,
        )
    }
}

/// The number of CANCEL(worker).
pub(crate) fn cancel(words: &mut Words, worker: usize) -> u64 {
    // SAFETY: as in `open`.
    unsafe {
        zumbiqa_cancel(
            words.head.as_mut_ptr(),
            words.head.len(),
            words.plan.as_ptr(),
            words.plan.len(),
            words.keys.as_ptr(),
            words.keys.len(),
            words.cells.as_mut_ptr(),
            words.cells.len(),
            words.status.as_mut_ptr(),
            words.status.len(),
            words.seats.as_ptr(),
            words.seats.len(),
            words.frames.as_ptr(),
            words.frames.len(),
            worker,
        )
    }
}

/// The number of the serial run.
pub(crate) fn serial_run(block: &[u8], words: &mut Words) -> u64 {
    // SAFETY: as in `open`.
    unsafe {
        zumbiqa_serial_run(
            block.as_ptr(),
            block.len(),
            words.head.as_mut_ptr(),
            words.head.len(),
            words.plan.as_ptr(),
            words.plan.len(),
            words.keys.as_ptr(),
            words.keys.len(),
            words.cells.as_mut_ptr(),
            words.cells.len(),
            words.status.as_mut_ptr(),
            words.status.len(),
            words.seats.as_mut_ptr(),
            words.seats.len(),
            words.frames.as_mut_ptr(),
            words.frames.len(),
        )
    }
}

/// The number and the length of a sheet, 0 where it is refused.
pub(crate) fn sheet(view: &View, output: &mut [u8]) -> (u64, u64) {
    let mut length = 0;
    // SAFETY: as in `open`.
    let number = unsafe {
        zumbiqa_sheet(
            view.head.as_ptr(),
            view.head.len(),
            view.plan.as_ptr(),
            view.plan.len(),
            view.keys.as_ptr(),
            view.keys.len(),
            view.cells.as_ptr(),
            view.cells.len(),
            view.status.as_ptr(),
            view.status.len(),
            view.seats.as_ptr(),
            view.seats.len(),
            view.frames.as_ptr(),
            view.frames.len(),
            output.as_mut_ptr(),
            output.len(),
            &mut length,
        )
    };
    (number, length)
}
