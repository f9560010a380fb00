//! The closing sheet: its records one behind the other, the offset of each, and
//! what is answered.

use crate::emit;
use crate::key::Key;
use crate::limits::{CELL_BYTES, HEAD_BYTES, RECEIPT_BYTES};
use crate::machine::Machine;
use crate::refusal::SheetRefusal;

/// A closing sheet under way: the bytes of its records, and one offset that is
/// carried from record to record, counted from the first byte.
#[derive(Debug, Default, PartialEq, Eq)]
pub struct Sheet {
    bytes: Vec<u8>,
    offsets: Vec<usize>,
    next: usize,
}

impl Sheet {
    /// Adds the record of a cell; a cell that is zero has none.
    pub fn cell(&mut self, key: &Key, value: i64) {
        if value != 0 {
            emit::cell(&mut self.bytes, key, value);
            self.carry(CELL_BYTES);
        }
    }

    /// Adds a receipt.
    pub fn receipt(&mut self, outcome: u16, count: u16) {
        emit::receipt(&mut self.bytes, outcome, count);
        self.carry(RECEIPT_BYTES);
    }

    /// Adds the end record.
    pub fn end(&mut self) {
        emit::end(&mut self.bytes);
        self.carry(0);
    }

    /// The bytes of the records, joined.
    pub fn bytes(&self) -> &[u8] {
        &self.bytes
    }

    /// The offset of each record: the sum of the lengths of all earlier records,
    /// heads included.
    pub fn offsets(&self) -> &[usize] {
        &self.offsets
    }

    /// The offset behind the last record.
    pub fn behind(&self) -> usize {
        self.next
    }

    /// Writes the records to the front of an output and answers the offset behind
    /// the last: 28 if the output is too short, which changes no byte.
    pub fn store(&self, output: &mut [u8]) -> Result<usize, SheetRefusal> {
        let front = output
            .get_mut(..self.bytes.len())
            .ok_or(SheetRefusal::OutputShort)?;
        front.copy_from_slice(&self.bytes);
        Ok(self.behind())
    }

    /// Notes where the record with a body of this length stands, and goes behind
    /// it.
    fn carry(&mut self, body: usize) {
        self.offsets.push(self.next);
        self.next += HEAD_BYTES + body;
    }
}

/// Writes the closing sheet to the front of a buffer and answers the offset
/// behind its last record: 27, then 28. A refused sheet changes no byte.
pub fn write(machine: &Machine, output: &mut [u8]) -> Result<usize, SheetRefusal> {
    let sheet = closing(machine).ok_or(SheetRefusal::Unfinished)?;
    sheet.store(output)
}

/// The closing sheet, if every call is finished: all cells that are not zero by
/// key, the receipts in block order, the end.
pub fn closing(machine: &Machine) -> Option<Sheet> {
    let receipts = machine.receipts()?;
    let mut sheet = Sheet::default();
    for (key, value) in machine.cells().iter() {
        sheet.cell(key, value);
    }
    for receipt in receipts {
        sheet.receipt(receipt.outcome.number(), receipt.count);
    }
    sheet.end();
    Some(sheet)
}
