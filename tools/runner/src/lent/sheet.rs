//! The closing sheet of a lent run.

use super::{Run, EXECUTED, FINISHED, KEY_WORDS, OUTCOME};
use crate::execute::Outcome;
use crate::key::Key;
use crate::limits::{
    BALANCE_FIELD, CELL_BYTES, HEAD_BYTES, MAX_CALLS, MAX_FUEL, MAX_KEYS, RECEIPT_BYTES,
};
use crate::refusal::SheetRefusal;
use crate::sheet::Sheet;

impl Run {
    /// Writes the closing sheet to the front of a buffer and answers the offset
    /// behind its last record.
    /// 20 for the sizes, the number of calls and their states; 27; 20 for the
    /// number of cells and the balances, since 28 asks which cells are not zero;
    /// 28; 20 for the receipts, which are used first when they are written. A
    /// refused sheet changes no byte.
    pub fn sheet(&self, output: &mut [u8]) -> Result<usize, SheetRefusal> {
        let calls = self.finished_calls()?;
        let cells = self.sheet_cells()?;
        let length = cells.len() * (HEAD_BYTES + CELL_BYTES)
            + calls * (HEAD_BYTES + RECEIPT_BYTES)
            + HEAD_BYTES;
        if output.len() < length {
            return Err(SheetRefusal::OutputShort);
        }
        let mut sheet = Sheet::default();
        for (key, value) in &cells {
            sheet.cell(key, *value);
        }
        for call in 0..calls {
            let (outcome, count) = self.receipt(call)?;
            sheet.receipt(outcome, count);
        }
        sheet.end();
        sheet.store(output)
    }

    /// The number of calls, which are all finished.
    fn finished_calls(&self) -> Result<usize, SheetRefusal> {
        if !self.sizes().suffice() {
            return Err(SheetRefusal::Damaged);
        }
        let calls = up_to(self.head.calls, MAX_CALLS)?;
        let states: Vec<u64> = (0..calls).map(|call| self.state(call)).collect();
        if states.iter().any(|state| *state > FINISHED) {
            return Err(SheetRefusal::Damaged);
        }
        if states.iter().any(|state| *state != FINISHED) {
            return Err(SheetRefusal::Unfinished);
        }
        Ok(calls)
    }

    /// The cells that are not zero. No balance is below zero.
    fn sheet_cells(&self) -> Result<Vec<(Key, i64)>, SheetRefusal> {
        let count = up_to(self.head.cells, MAX_KEYS)?;
        let cells = (0..count).map(|cell| (self.key(cell), self.cells[cell]));
        let cells: Vec<(Key, i64)> = cells.filter(|(_, value)| *value != 0).collect();
        let below_zero = |(key, value): &(Key, i64)| key.field == BALANCE_FIELD && *value < 0;
        if cells.iter().any(below_zero) {
            return Err(SheetRefusal::Damaged);
        }
        Ok(cells)
    }

    /// The key of a cell, from its two words.
    fn key(&self, cell: usize) -> Key {
        let high = self.keys[cell * KEY_WORDS];
        let low = self.keys[cell * KEY_WORDS + 1];
        Key {
            address: (high >> 48) as u16,
            field: (high >> 32) as u16,
            a: high as u32,
            b: low as u32,
        }
    }

    /// The outcome and the count of a call.
    fn receipt(&self, call: usize) -> Result<(u16, u16), SheetRefusal> {
        let outcome = self.status_word(call, OUTCOME);
        let count = self.status_word(call, EXECUTED);
        if outcome > Outcome::LAST.number().into() || count > MAX_FUEL.into() {
            return Err(SheetRefusal::Damaged);
        }
        Ok((outcome as u16, count as u16))
    }
}

/// A number of at most so many things: 20 if it is above.
fn up_to(number: u64, most: usize) -> Result<usize, SheetRefusal> {
    let number = usize::try_from(number).ok();
    number
        .filter(|number| *number <= most)
        .ok_or(SheetRefusal::Damaged)
}
