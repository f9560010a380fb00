//! Why a block is refused, and where.

use runner::block::{read, Kind};
use runner::bytes::{i64_at, u16_at};
use runner::code::Parts;
use runner::emit::RECEIPT_KIND;
use runner::key::Key;
use runner::limits::{
    FUNCTION_NAME_BYTES, HEAD_BYTES, INSTRUCTION_BYTES, KEY_BYTES, MAX_BALANCE_SUM,
    MAX_BLOCK_BYTES, MAX_CALLS, MAX_CELLS, MAX_FUNCTIONS, MAX_WORKERS,
};
use runner::machine::open;
use runner::refusal::{BlockFault, BlockRefusal};

use super::keys::too_many_keys;
use super::{
    broken_rules, call_faults, cell_faults, count, function, function_faults, hexadecimal, key,
    kind,
};
use crate::assembly;
use crate::records::{is_text, records, Record};
use crate::sheet;

/// What a closing sheet is for.
const NEXT_DAY: &str = "`desk next` makes the next day's block of it";

/// Why 8 workers' block is refused, in one or more lines: the number and its
/// meaning, then the record and what is wrong in it. `None` if it is accepted.
pub fn refused_block(bytes: &[u8]) -> Option<String> {
    let refusal = open(bytes, MAX_WORKERS).err()?;
    let BlockRefusal { fault, offset } = refusal;
    let (number, meaning) = (fault.number(), meaning(fault));
    let place = place(bytes, refusal);
    let hint = hint(bytes, refusal).map_or_else(String::new, |hint| format!("\n{hint}"));
    Some(format!(
        "{number} at offset {offset}: {meaning}\n{place}{hint}"
    ))
}

/// What else a file that is no block may be.
fn hint(bytes: &[u8], refusal: BlockRefusal) -> Option<String> {
    let BlockRefusal { fault, offset } = refusal;
    if is_text(bytes) && !bytes.is_empty() {
        let hint = "no byte is zero: this is a text or another file, and no block";
        return Some(hint.to_string());
    }
    let is_sheet = fault == BlockFault::Kind && Site::at(bytes, offset).is_in_sheet();
    is_sheet.then(|| match sheet::read(bytes) {
        Ok(read) => {
            let receipts = count(read.receipts, "receipt");
            format!("this is a closing sheet with {receipts}, and no block: {NEXT_DAY}")
        }
        Err(why) => format!("this is a damaged closing sheet, and no block: {why}"),
    })
}

/// What a number means.
fn meaning(fault: BlockFault) -> &'static str {
    match fault {
        BlockFault::TooLong => "the file is above 65536 bytes",
        BlockFault::Cut => "a record or the end is missing or cut",
        BlockFault::Kind => "the kind is not 1 to 4, or falls",
        BlockFault::Length => "the length is not the kind's",
        BlockFault::Field => "a field is outside its range",
        BlockFault::NotRising => "the record does not rise above the one before",
        BlockFault::TooMany => "the record is beyond its kind's limit",
        BlockFault::BytesAfterEnd => "bytes follow the end",
        BlockFault::BalanceSum => "the opening balances sum above 2^63 - 1",
        BlockFault::Code => "an instruction breaks a rule",
        BlockFault::CallKeys => "a call has over 24 keys",
        BlockFault::AllKeys => "the opening and the sets have over 1024 keys",
        BlockFault::Workers => "the number of workers is not 1 to 8",
        BlockFault::Buffers => "a lent buffer is too short",
    }
}

/// Where the fault is and what is wrong there.
fn place(bytes: &[u8], refusal: BlockRefusal) -> String {
    let BlockRefusal { fault, offset } = refusal;
    let left = bytes.len().saturating_sub(offset);
    match fault {
        BlockFault::TooLong => format!("the file has {}", too_many_bytes(bytes.len())),
        BlockFault::BytesAfterEnd => format!("{} behind the end record", count(left, "byte")),
        BlockFault::Cut if left < HEAD_BYTES => missing_head(bytes, left),
        BlockFault::CallKeys | BlockFault::AllKeys => match read(bytes) {
            Ok(block) => too_many_keys(&block, refusal),
            Err(_) => unreachable!("keys are counted of a block that is read"),
        },
        BlockFault::Workers | BlockFault::Buffers => {
            unreachable!("8 workers open a block, and nothing is lent")
        }
        _ => Site::at(bytes, offset).words(fault, offset),
    }
}

/// How many bytes a file above the limit has. Of a longer one, one byte beyond
/// the limit is read.
fn too_many_bytes(bytes: usize) -> String {
    if bytes == MAX_BLOCK_BYTES + 1 {
        format!("{bytes} bytes or more; no more were read")
    } else {
        count(bytes, "byte")
    }
}

/// The file ends where a record is due.
fn missing_head(bytes: &[u8], left: usize) -> String {
    let due = match records(bytes).last() {
        Some(before) => format!("behind the {}", before_words(&before)),
        None => "at the beginning".to_string(),
    };
    format!("a record is due {due}: {left} of the {HEAD_BYTES} bytes of its head are there")
}

/// A record that stands before a refused one.
fn before_words(before: &Record) -> String {
    format!("{} record at offset {}", kind(before.kind), before.offset)
}

/// A record that is refused, and all before it.
struct Site<'a> {
    record: Record<'a>,
    before: Vec<Record<'a>>,
}

impl<'a> Site<'a> {
    /// The record that an offset is in. Those before it are whole.
    fn at(bytes: &'a [u8], offset: usize) -> Site<'a> {
        let mut before: Vec<Record> = records(bytes)
            .take_while(|record| record.offset <= offset)
            .collect();
        match before.pop() {
            Some(record) => Site { record, before },
            None => unreachable!("a record begins at or before the offset"),
        }
    }

    fn words(&self, fault: BlockFault, offset: usize) -> String {
        let record = &self.record;
        let wrong = match fault {
            BlockFault::Kind => self.kind(),
            BlockFault::Length => length(record),
            BlockFault::Cut => {
                let there = record.body.len();
                format!(
                    "{there} of the {} bytes of its body are there",
                    record.length
                )
            }
            BlockFault::TooMany => self.too_many(),
            BlockFault::Field => faults(record).join("; "),
            BlockFault::NotRising => self.not_rising(),
            BlockFault::BalanceSum => self.balance_sum(),
            _ => instruction(record, offset),
        };
        format!("{}: {wrong}", self.name())
    }

    /// The record's kind, its number within the kind, and its offset.
    fn name(&self) -> String {
        let Record {
            kind: number,
            offset,
            ..
        } = self.record;
        if Kind::numbered(number).is_none() {
            return format!("record {} at offset {offset}", self.before.len());
        }
        let same = self.before.iter().filter(|record| record.kind == number);
        format!(
            "{} record {} at offset {offset}",
            kind(number),
            same.count()
        )
    }

    fn kind(&self) -> String {
        let number = self.record.kind;
        match (Kind::numbered(number), self.before.last()) {
            (Some(_), Some(before)) => {
                let before = before_words(before);
                format!("it stands behind the {before}, and kinds never fall")
            }
            _ if self.is_receipt() => {
                "kind 5: a receipt stands in a closing sheet alone".to_string()
            }
            _ => format!(
                "kind {number}: there are 1, function, 2, opening cell, 3, call, and 4, end"
            ),
        }
    }

    fn is_receipt(&self) -> bool {
        self.record.kind == RECEIPT_KIND
    }

    /// Whether it is the first receipt of a closing sheet, behind cells alone.
    fn is_in_sheet(&self) -> bool {
        let mut before = self.before.iter();
        self.is_receipt() && before.all(|record| record.kind == Kind::Cell.number())
    }

    fn too_many(&self) -> String {
        let (limit, thing) = match Kind::numbered(self.record.kind) {
            Some(Kind::Function) => (MAX_FUNCTIONS, "functions"),
            Some(Kind::Cell) => (MAX_CELLS, "opening cells"),
            _ => (MAX_CALLS, "calls"),
        };
        format!("a block has at most {limit} {thing}, numbered from 0")
    }

    fn not_rising(&self) -> String {
        let Some(before) = self.before.last() else {
            unreachable!("a record that does not rise has one before it");
        };
        let (own, other) = (rising_name(&self.record), rising_name(before));
        let relation = if own == other {
            "the same as"
        } else {
            "it has to stand before"
        };
        format!("{own}: {relation} {other} at offset {}", before.offset)
    }

    fn balance_sum(&self) -> String {
        let balances = self.before.iter().chain([&self.record]).filter(|record| {
            record.kind == Kind::Cell.number() && Key::read(record.body).is_balance()
        });
        let sum: i128 = balances
            .map(|record| i128::from(i64_at(record.body, KEY_BYTES)))
            .sum();
        let own = key(&Key::read(self.record.body));
        format!("with the {own} they sum to {sum}, above {MAX_BALANCE_SUM}")
    }
}

fn length(record: &Record) -> String {
    let wanted = match Kind::numbered(record.kind) {
        Some(Kind::Function) => {
            "a function has 4 and 8 for each of 0 to 64 instructions: 4, 12, .. 516"
        }
        Some(Kind::Cell) => "an opening cell has 20",
        Some(Kind::Call) => "a call has 32",
        _ => "an end has 0",
    };
    format!("length {}: {wanted}", record.length)
}

/// The fields of a record that are outside their range.
fn faults(record: &Record) -> Vec<String> {
    match Kind::numbered(record.kind) {
        Some(Kind::Function) => function_faults(record.body),
        Some(Kind::Cell) => cell_faults(record.body),
        _ => call_faults(record.body),
    }
}

/// What a function or a cell is ordered by.
fn rising_name(record: &Record) -> String {
    if record.kind == Kind::Function.number() {
        function_name(record)
    } else {
        key(&Key::read(record.body))
    }
}

fn function_name(record: &Record) -> String {
    function(u16_at(record.body, 0), u16_at(record.body, 2))
}

/// The instruction of a function at an offset of the file, and its faults.
fn instruction(record: &Record, offset: usize) -> String {
    let code = &record.body[FUNCTION_NAME_BYTES..];
    let start = record.offset + HEAD_BYTES + FUNCTION_NAME_BYTES;
    let index = (offset - start) / INSTRUCTION_BYTES;
    let own = &code[index * INSTRUCTION_BYTES..][..INSTRUCTION_BYTES];
    let (parts, length) = (Parts::read(own), code.len() / INSTRUCTION_BYTES);
    format!(
        "{}\ninstruction {index} of {length} at offset {offset}: bytes {}: {}\n{}",
        function_name(record),
        hexadecimal(own),
        assembly::line(parts),
        broken_rules(parts, length).join("\n")
    )
}
