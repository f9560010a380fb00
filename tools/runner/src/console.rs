//! The program REGISTER: block bytes and move lines in, answer lines out.

use std::fmt::{Display, Write};
use std::io::{self, Read};

use crate::cells::Cells;
use crate::execute::Receipt;
use crate::limits::{MAX_DIGITS, MAX_INPUT_BYTES, MAX_WORKERS};
use crate::machine::{open, Machine, Move};
use crate::refusal::{BlockRefusal, SheetRefusal};
use crate::sheet;

/// The number printed for a line that is no move.
const NO_MOVE: u16 = 0;
/// The line number printed for a refused sheet.
const SHEET_LINE: usize = 0;

/// Reads standard input, which counts as ended after 2^32 - 1 bytes.
pub fn read_input(input: impl Read) -> io::Result<Vec<u8>> {
    let mut bytes = Vec::new();
    input.take(MAX_INPUT_BYTES).read_to_end(&mut bytes)?;
    Ok(bytes)
}

/// What REGISTER prints for a block and an input.
pub fn register(block: &[u8], input: &[u8]) -> String {
    let opened = match open(block, MAX_WORKERS) {
        Ok(opened) => opened,
        Err(refusal) => return refused_block(refusal),
    };
    let mut machine = Machine::new(&opened);
    let mut text = String::new();
    for (index, line) in lines(input).enumerate() {
        if let Err(number) = answer(&mut machine, line) {
            refused_line(&mut text, index + 1, number);
        }
    }
    match machine.receipts() {
        Some(receipts) => text.push_str(&closing(machine.cells(), receipts)),
        None => refused_line(&mut text, SHEET_LINE, SheetRefusal::Unfinished.number()),
    }
    text
}

/// The bytes of the closing sheet for a block and an input; none where the block
/// or the sheet is refused.
pub fn sheet_bytes(block: &[u8], input: &[u8]) -> Vec<u8> {
    let Ok(opened) = open(block, MAX_WORKERS) else {
        return Vec::new();
    };
    let mut machine = Machine::new(&opened);
    for line in lines(input) {
        // A refused line moves nothing, and stands in no sheet.
        let _ = answer(&mut machine, line);
    }
    sheet::closing(&machine).map_or_else(Vec::new, |sheet| sheet.bytes().to_vec())
}

/// The line for a refused block.
pub fn refused_block(refusal: BlockRefusal) -> String {
    format!("e {} {}\n", refusal.fault.number(), refusal.offset)
}

/// The k and t lines of a run that is at its end.
pub fn closing(cells: &Cells, receipts: impl IntoIterator<Item = Receipt>) -> String {
    let mut text = String::new();
    for (key, value) in cells.iter() {
        let (address, field) = (key.address, key.field);
        push_line(
            &mut text,
            format_args!("k {address} {field} {} {} {value}", key.a, key.b),
        );
    }
    for (call, receipt) in receipts.into_iter().enumerate() {
        let outcome = receipt.outcome.number();
        push_line(
            &mut text,
            format_args!("t {call} {outcome} {}", receipt.count),
        );
    }
    text
}

/// The lines of an input. The last may end at the input's end, unless empty.
pub fn lines(input: &[u8]) -> impl Iterator<Item = &[u8]> {
    input
        .split_inclusive(|byte| *byte == b'\n')
        .map(|line| line.strip_suffix(b"\n").unwrap_or(line))
}

/// The move that a line writes, or `None` if it is in no such form.
pub fn parse(line: &[u8]) -> Option<Move> {
    let mut parts = line.split(|byte| *byte == b' ');
    let letter = parts.next()?;
    let worker = number(parts.next()?)?;
    let chosen = match letter {
        b"b" => Move::Begin {
            worker,
            call: number(parts.next()?)?,
        },
        b"s" => Move::Step { worker },
        b"c" => Move::Cancel { worker },
        _ => return None,
    };
    parts.next().is_none().then_some(chosen)
}

/// A number of one to five decimal digits.
fn number(part: &[u8]) -> Option<usize> {
    let good_length = (1..=MAX_DIGITS).contains(&part.len());
    if !good_length || !part.iter().all(u8::is_ascii_digit) {
        return None;
    }
    let digit = |byte: &u8| usize::from(byte - b'0');
    Some(part.iter().fold(0, |value, byte| value * 10 + digit(byte)))
}

/// Makes the move of a line, or answers the number of its refusal.
fn answer(machine: &mut Machine, line: &[u8]) -> Result<(), u16> {
    let chosen = parse(line).ok_or(NO_MOVE)?;
    machine.apply(chosen).map_err(|refusal| refusal.number())
}

fn refused_line(text: &mut String, line: usize, number: u16) {
    push_line(text, format_args!("r {line} {number}"));
}

fn push_line(text: &mut String, line: impl Display) {
    writeln!(text, "{line}").expect("a string takes all text");
}
