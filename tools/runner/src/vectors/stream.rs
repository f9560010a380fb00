//! The stream of cases and the lines of their answers.
//!
//! The stream is a list of records of four words of 64 bits, little-endian. The
//! first word is the kind, the others are its parts, zero if unused:
//!
//! | kind | parts | does |
//! |---|---|---|
//! | 0 | offset, 8 bytes, 8 bytes | writes 16 bytes into the block's buffer |
//! | 1 | length | the block is lent up to this length |
//! | 2 | plan, keys, cells | these buffers are lent up to these lengths |
//! | 3 | status, seats, frames | likewise |
//! | 4 | workers | opens the block; a line `o NUMBER OFFSET HASH` |
//! | 5 | worker, call | BEGIN; a line `m ANSWER HASH` |
//! | 6 | worker | STEP; the same |
//! | 7 | worker | CANCEL; the same |
//! | 8 | buffer, index, value | sets a word: buffers 0 plan, 1 keys, 2 cells, 3 status, 4 seats, 5 frames |
//! | 9 | field, value | sets a number of the head: 0 workers, 1 calls, 2 cells, 3 first, from 4 on what a worker holds, the value's low 16 bits |
//! | 11 | length | the closing sheet, with an output of this length whose bytes are 7; a line `c ANSWER LENGTH HASH` |
//! | 12 | | the serial run, on the run as it stands; a line `s HASH` |
//!
//! There is no kind 10. A signed value is its 64 bits. NUMBER and ANSWER are 0 if
//! nothing is refused, and LENGTH, the sheet's, is 0 if it is. HASH is the hash of
//! the run as it is lent then; of a sheet it is that of the output's bytes.

use std::fmt::Write;

use super::{answers, Answer, Case, Left, Operation};
use crate::lent::{Run, Sizes};
use crate::machine::Move;

/// The kinds of records.
mod kind {
    pub const BYTES: u64 = 0;
    pub const BLOCK: u64 = 1;
    pub const LENGTHS: u64 = 2;
    pub const MORE_LENGTHS: u64 = 3;
    pub const OPEN: u64 = 4;
    pub const BEGIN: u64 = 5;
    pub const STEP: u64 = 6;
    pub const CANCEL: u64 = 7;
    pub const WORD: u64 = 8;
    pub const HEAD: u64 = 9;
    pub const SHEET: u64 = 11;
    pub const SERIAL: u64 = 12;
}

/// The first value of the hash.
const HASH_BASIS: u64 = 0xcbf2_9ce4_8422_2325;
/// What the hash is multiplied with.
const HASH_PRIME: u64 = 0x0000_0100_0000_01b3;

/// FNV-1a with words in the place of bytes: each word of the run is added by
/// exclusive or, then the hash is multiplied, modulo 2^64.
pub fn hash(run: &Run) -> u64 {
    hash_words(run.words())
}

fn hash_words(words: impl Iterator<Item = u64>) -> u64 {
    words.fold(HASH_BASIS, |hash, word| {
        (hash ^ word).wrapping_mul(HASH_PRIME)
    })
}

/// The hash of what an answer leaves; each byte of an output is a word.
fn hash_left(left: &Left) -> u64 {
    match left {
        Left::Run(run) => hash(run),
        Left::Output(output) => hash_words(output.iter().copied().map(u64::from)),
    }
}

/// The stream of some cases.
pub fn input(cases: &[Case]) -> Vec<u8> {
    let mut out = Vec::new();
    for case in cases {
        for (index, bytes) in case.block.chunks(16).enumerate() {
            let mut whole = [0; 16];
            whole[..bytes.len()].copy_from_slice(bytes);
            push_bytes(&mut out, index * 16, whole);
        }
        push(&mut out, [kind::BLOCK, case.block.len() as u64, 0, 0]);
        push_sizes(&mut out, case.sizes);
        push(&mut out, [kind::OPEN, case.workers as u64, 0, 0]);
        for operation in &case.operations {
            push_operation(&mut out, *operation);
        }
    }
    out
}

/// The lines that some cases answer.
pub fn output(cases: &[Case]) -> String {
    let mut text = String::new();
    for (answer, left) in cases.iter().flat_map(answers) {
        let hash = hash_left(&left);
        match answer {
            Answer::Opened(opened) => {
                let (number, offset) = opened
                    .err()
                    .map_or((0, 0), |refusal| (refusal.fault.number(), refusal.offset));
                writeln!(text, "o {number} {offset} {hash}")
            }
            Answer::Moved(moved) => {
                let number = moved.err().map_or(0, |refusal| refusal.number());
                writeln!(text, "m {number} {hash}")
            }
            Answer::Closed(closed) => {
                let number = closed.err().map_or(0, |refusal| refusal.number());
                let length = closed.unwrap_or(0);
                writeln!(text, "c {number} {length} {hash}")
            }
            Answer::Ran => writeln!(text, "s {hash}"),
        }
        .expect("a string takes all text");
    }
    text
}

fn push(out: &mut Vec<u8>, words: [u64; 4]) {
    out.extend(words.iter().flat_map(|word| word.to_le_bytes()));
}

fn push_bytes(out: &mut Vec<u8>, at: usize, bytes: [u8; 16]) {
    out.extend(kind::BYTES.to_le_bytes());
    out.extend((at as u64).to_le_bytes());
    out.extend(bytes);
}

fn push_sizes(out: &mut Vec<u8>, sizes: Sizes) {
    let [plan, keys, cells, status, seats, frames] = sizes.each().map(|size| size as u64);
    push(out, [kind::LENGTHS, plan, keys, cells]);
    push(out, [kind::MORE_LENGTHS, status, seats, frames]);
}

fn push_operation(out: &mut Vec<u8>, operation: Operation) {
    match operation {
        Operation::Move(chosen) => push(out, move_words(chosen)),
        Operation::Word {
            buffer,
            index,
            value,
        } => push(out, [kind::WORD, buffer as u64, index as u64, value]),
        Operation::Head { field, value } => push(out, [kind::HEAD, field.number(), value, 0]),
        Operation::Cut { length } => push(out, [kind::BLOCK, length as u64, 0, 0]),
        Operation::Bytes { at, bytes } => push_bytes(out, at, bytes),
        Operation::Lend { sizes } => push_sizes(out, sizes),
        Operation::Sheet { room } => push(out, [kind::SHEET, room as u64, 0, 0]),
        Operation::Serial => push(out, [kind::SERIAL, 0, 0, 0]),
    }
}

fn move_words(chosen: Move) -> [u64; 4] {
    match chosen {
        Move::Begin { worker, call } => [kind::BEGIN, worker as u64, call as u64, 0],
        Move::Step { worker } => [kind::STEP, worker as u64, 0, 0],
        Move::Cancel { worker } => [kind::CANCEL, worker as u64, 0, 0],
    }
}
