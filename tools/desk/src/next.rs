//! The next day's block: a closing sheet's cells under new functions and calls.

use runner::assemble::{self, assemble};
use runner::block::{self, Block, Kind};
use runner::emit;
use runner::limits::HEAD_BYTES;

use crate::records::{is_text, records};
use crate::refused::{open, Refused};
use crate::sheet;
use crate::words;

/// Why there is no next block.
#[derive(Clone, Debug, PartialEq, Eq)]
pub enum Fault {
    /// The sheet is none.
    Sheet(String),
    /// The day's text does not assemble.
    Text(assemble::Error),
    /// The day is no block of functions and calls.
    Day(String),
    /// The register would refuse the block.
    Block(String),
}

/// The block that opens with a closing sheet's cells. The day is a text in the
/// assembler's form, with or without its end, or the bytes of a block; it has no
/// cells of its own.
pub fn block(sheet: &[u8], day: &[u8]) -> Result<Vec<u8>, Fault> {
    let sheet = sheet::read(sheet).map_err(Fault::Sheet)?;
    let day = day_block(day)?;
    let (functions, calls) = day.split_at(calls_offset(&day)?);
    let bytes = [functions, sheet.cells, calls].concat();
    match open(&bytes) {
        Ok(_) => Ok(bytes),
        Err(Refused(why)) => {
            let (cells, own) = (sheet.cells.len(), day.len());
            let sizes = format!("{cells} bytes of the sheet's cells and {own} of the day");
            Err(Fault::Block(format!(
                "the register would refuse it ({sizes}):\n{}",
                why.trim_end()
            )))
        }
    }
}

/// The day's block, whichever form the day has.
fn day_block(day: &[u8]) -> Result<Vec<u8>, Fault> {
    if !is_text(day) {
        return Ok(day.to_vec());
    }
    let mut bytes = assemble(day).map_err(Fault::Text)?;
    let last = records(&bytes).last().map(|record| record.kind);
    if last != Some(Kind::End.number()) {
        emit::end(&mut bytes);
    }
    Ok(bytes)
}

/// Where the calls of a day's block begin, or its end if there are none.
fn calls_offset(day: &[u8]) -> Result<usize, Fault> {
    let block = block::read(day).map_err(|_| {
        let why = words::refused_block(day).unwrap_or_default();
        Fault::Day(format!("the register would refuse it:\n{why}"))
    })?;
    let Block { opening, calls, .. } = block;
    match opening.first() {
        Some((key, _)) => {
            let key = words::key(key);
            Err(Fault::Day(format!(
                "it has a cell, {key}; the cells are those of the sheet"
            )))
        }
        None => Ok(calls
            .first()
            .map_or(day.len() - HEAD_BYTES, |call| call.offset)),
    }
}
