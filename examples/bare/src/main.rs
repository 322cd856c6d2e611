//! A program for Linux without std and without an allocator: it checks an image, runs it, and goes on. From
//! examples/bare:
//!     cargo run --offline --release
//! It prints nothing, and exits 0 where each answer is as expected, 1 where one is not, and by a signal at a panic.
#![no_std]
#![no_main]

use core::panic::PanicInfo;
use door::{Outcome, Question, Refusal};

/// Document 01's smallest program: three types, a procedure, a RETURN.
const SMALLEST: [u8; 57] = [
    1, 0, 0, 0, 57, // version, length
    0, 3, 0, 0, 0, 0, 0, 0, 0, 0, 1, 0, 0, 0, 0, 0, 0, 0, 2, 0, 0, 0, 0, 0, 0, 0, // types
    0, 0, // fields
    0, 0, // variables
    0, 1, 0, 0, 0, 0, 0, 0, 0, 0, // procedures
    0, 0, // nodes
    0, 1, 4, 0, 0, 0, 0, 0, 0, 0, // statements
];

/// The cells that it needs: the frame of its module body.
const CELLS: usize = 3;

fn refused() -> bool {
    let cut = door::check(&SMALLEST[..56]);
    let small = door::run(&SMALLEST, &[], &mut [0; CELLS - 1], &mut [], 1);
    cut == Err(Refusal { question: Question::Length, row: 0 })
        && small == Err(Refusal { question: Question::StoreBelow, row: 0 })
}

fn finished() -> Result<bool, Refusal> {
    let mut store = [0; CELLS];
    let begun = door::run(&SMALLEST, &[], &mut store, &mut [], 0)?;
    let ended = door::resume(&SMALLEST, &[], &mut store, &mut [], 1, &begun)?;
    Ok(begun.outcome == Outcome::StepsUsedUp && ended.outcome == Outcome::Finished && ended.mark as usize == CELLS)
}

// What calls main, ends the process and has memset; on a reader without a system these are the reader's own.
#[link(name = "c")]
extern "C" {
    fn abort() -> !;
}

#[no_mangle]
extern "C" fn main() -> i32 {
    i32::from(!(refused() && finished() == Ok(true)))
}

#[panic_handler]
fn panicked(_: &PanicInfo) -> ! {
    // SAFETY: it may be called at any time.
    unsafe { abort() }
}
