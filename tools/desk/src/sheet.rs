//! A closing sheet's bytes, read.

use runner::block::Kind;
use runner::bytes::u16_at;
use runner::emit::RECEIPT_KIND;
use runner::execute::Outcome;
use runner::key::Key;
use runner::limits::{CELL_BYTES, HEAD_BYTES, MAX_CALLS, MAX_KEYS, MAX_SHEET_BYTES, RECEIPT_BYTES};

use crate::records::{records, Record};
use crate::words;

/// The highest outcome.
const LAST_OUTCOME: u16 = Outcome::LAST as u16;
/// The beginnings of the lines that REGISTER prints.
const PRINTED: [&[u8]; 4] = [b"k ", b"t ", b"r ", b"e "];

/// A closing sheet.
#[derive(Clone, Copy, Debug, PartialEq, Eq)]
pub struct Sheet<'a> {
    /// The records of its cells, as they open the next block.
    pub cells: &'a [u8],
    /// How many receipts it has, one for each call of its block.
    pub receipts: usize,
}

/// Reads a closing sheet, or says at which offset it is none and why.
pub fn read(bytes: &[u8]) -> Result<Sheet<'_>, String> {
    if PRINTED.iter().any(|line| bytes.starts_with(line)) {
        let why = "these are lines that REGISTER prints; the sheet's bytes are wanted";
        return Err(format!("offset 0: {why}"));
    }
    if bytes.len() > MAX_SHEET_BYTES {
        let most = MAX_SHEET_BYTES;
        return Err(format!("offset {most}: a sheet has at most {most} bytes"));
    }
    let mut before: Vec<Record> = Vec::new();
    for record in records(bytes) {
        let tested = test(&before, &record);
        tested.map_err(|why| format!("offset {}: {why}", record.offset))?;
        if record.kind == Kind::End.number() {
            return closed(bytes, &before, &record);
        }
        before.push(record);
    }
    let offset = before.last().map_or(0, Record::end);
    let left = bytes.len() - offset;
    Err(format!(
        "offset {offset}: the end is missing: {left} of the {HEAD_BYTES} bytes of a head are there"
    ))
}

/// The sheet of records before an end behind which nothing stands.
fn closed<'a>(bytes: &'a [u8], before: &[Record], end: &Record) -> Result<Sheet<'a>, String> {
    let behind = bytes.len() - end.end();
    if behind > 0 {
        let bytes = words::count(behind, "byte");
        return Err(format!("offset {}: {bytes} behind the end", end.end()));
    }
    let cells = before
        .iter()
        .filter(|record| record.kind == Kind::Cell.number());
    let cells = cells.count();
    Ok(Sheet {
        cells: &bytes[..cells * (HEAD_BYTES + CELL_BYTES)],
        receipts: before.len() - cells,
    })
}

/// The parts of a sheet, in the order in which they stand.
#[derive(Clone, Copy, PartialEq, Eq, PartialOrd, Ord)]
enum Part {
    Cell,
    Receipt,
    End,
}

impl Part {
    /// The part that a kind of records is.
    fn of_kind(kind: u16) -> Option<Part> {
        match Kind::numbered(kind) {
            Some(Kind::Cell) => Some(Part::Cell),
            Some(Kind::End) => Some(Part::End),
            _ => (kind == RECEIPT_KIND).then_some(Part::Receipt),
        }
    }

    /// The length of a record's body.
    fn length(self) -> usize {
        match self {
            Part::Cell => CELL_BYTES,
            Part::Receipt => RECEIPT_BYTES,
            Part::End => 0,
        }
    }
}

/// Tests a record behind those before it.
fn test(before: &[Record], record: &Record) -> Result<(), String> {
    let Record { kind, length, .. } = *record;
    let name = words::kind(kind);
    let Some(part) = Part::of_kind(kind) else {
        return Err(format!(
            "kind {kind}: a sheet has 2, cells, 5, receipts, and 4, the end"
        ));
    };
    let last = before.last().and_then(|last| Part::of_kind(last.kind));
    if last > Some(part) {
        return Err(format!(
            "{name} record: it stands behind a receipt, and cells stand first"
        ));
    }
    if length != part.length() {
        let wanted = part.length();
        return Err(format!(
            "length {length}: that of kind {kind}, {name}, is {wanted}"
        ));
    }
    if !record.is_whole() {
        let there = record.body.len();
        return Err(format!(
            "{there} of the {length} bytes of its body are there"
        ));
    }
    match part {
        Part::Cell => cell(before, record),
        Part::Receipt => receipt(before, record),
        Part::End => Ok(()),
    }
}

fn cell(before: &[Record], record: &Record) -> Result<(), String> {
    let faults = words::cell_faults(record.body);
    if !faults.is_empty() {
        return Err(faults.join("; "));
    }
    let key = Key::read(record.body);
    let falls = |last: &Record| Key::read(last.body) >= key;
    if before.last().is_some_and(falls) {
        return Err(format!("{}: the keys of cells rise", words::key(&key)));
    }
    if before.len() == MAX_KEYS {
        return Err(format!("a sheet has at most {MAX_KEYS} cells"));
    }
    Ok(())
}

/// Tests a receipt. Each number of 16 bits may be its count.
fn receipt(before: &[Record], record: &Record) -> Result<(), String> {
    let outcome = u16_at(record.body, 0);
    let receipts = before.iter().filter(|record| record.kind == RECEIPT_KIND);
    if outcome > LAST_OUTCOME {
        Err(format!(
            "outcome {outcome}: outcomes are 0 to {LAST_OUTCOME}"
        ))
    } else if receipts.count() == MAX_CALLS {
        Err(format!("a sheet has at most {MAX_CALLS} receipts"))
    } else {
        Ok(())
    }
}
