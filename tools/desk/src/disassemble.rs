//! The text of a block, good or not, that assembles to the same bytes.

use std::collections::BTreeSet;

use runner::block::Kind;
use runner::bytes::{i64_at, u16_at};
use runner::code::{decode, Instruction, Parts};
use runner::emit::CallFields;
use runner::key::Key;
use runner::limits::{CALL_BYTES, CELL_BYTES, FUNCTION_NAME_BYTES, INSTRUCTION_BYTES, KEY_BYTES};

use crate::assembly;
use crate::records::{records, Record};
use crate::refused::{open, Refused};
use crate::words;

/// The column of a line at which its comment begins.
const COMMENT_COLUMN: usize = 36;
/// The bytes of a line of bytes.
const RAW_BYTES: usize = 16;

/// The text of a file. Records of a block's form are items with comments, all
/// other bytes stand in hexadecimal.
pub fn disassemble(bytes: &[u8]) -> String {
    let mut text = Text::default();
    text.head(bytes);
    let mut end = 0;
    for record in records(bytes) {
        text.record(bytes, &record);
        end = record.end();
        if form(&record) == Some(Kind::End) {
            break;
        }
    }
    text.raw(&bytes[end..], "behind the last record", end);
    text.lines.join("\n") + "\n"
}

/// The kind of a record that can be written as an item.
fn form(record: &Record) -> Option<Kind> {
    let kind = Kind::numbered(record.kind).filter(|_| record.is_whole())?;
    let code = record.length.checked_sub(FUNCTION_NAME_BYTES);
    let good = match kind {
        Kind::Function => code.is_some_and(|code| code.is_multiple_of(INSTRUCTION_BYTES)),
        Kind::Cell => record.length == CELL_BYTES,
        Kind::Call => record.length == CALL_BYTES,
        Kind::End => record.length == 0,
    };
    good.then_some(kind)
}

#[derive(Default)]
struct Text {
    lines: Vec<String>,
    /// The kind of the record before, if it was an item.
    before: Option<Kind>,
    /// The functions so far, by contract and number.
    functions: BTreeSet<(u16, u16)>,
    /// How many cells there are so far.
    cells: usize,
    /// How many calls there are so far.
    calls: usize,
}

impl Text {
    /// The comment before all records: sizes, or why the block is refused.
    fn head(&mut self, bytes: &[u8]) {
        match open(bytes) {
            Ok(opened) => {
                let sizes = words::sizes(&opened);
                self.lines.push(format!("# {} bytes: {sizes}", bytes.len()));
            }
            Err(Refused(why)) => {
                let why = why.lines().map(|line| format!("# {line}"));
                self.lines.extend(why);
            }
        }
    }

    fn record(&mut self, bytes: &[u8], record: &Record) {
        let kind = form(record);
        if kind != self.before || kind == Some(Kind::Function) {
            self.lines.push(String::new());
        }
        match kind {
            Some(Kind::Function) => self.function(record),
            Some(Kind::Cell) => self.cell(record.body),
            Some(Kind::Call) => self.call(record.body),
            Some(Kind::End) => self.lines.push("end".to_string()),
            None => {
                let stretch = &bytes[record.offset..record.end()];
                self.raw(stretch, &no_form(record), record.offset);
            }
        }
        self.before = kind;
    }

    fn function(&mut self, record: &Record) {
        let (contract, number) = (u16_at(record.body, 0), u16_at(record.body, 2));
        self.functions.insert((contract, number));
        let item = format!("function {contract} {number}");
        let faults = words::function_faults(record.body);
        self.item(
            &item,
            &commented(format!("offset {}", record.offset), &faults),
        );
        let code: Vec<Parts> = record.body[FUNCTION_NAME_BYTES..]
            .chunks_exact(INSTRUCTION_BYTES)
            .map(Parts::read)
            .collect();
        let targets = targets(&code);
        for (index, parts) in code.iter().enumerate() {
            self.label(&targets, index);
            self.instruction(*parts, index, code.len());
        }
        self.label(&targets, code.len());
    }

    fn label(&mut self, targets: &BTreeSet<usize>, index: usize) {
        if targets.contains(&index) {
            self.lines.push(format!("{}:", label(index)));
        }
    }

    fn instruction(&mut self, parts: Parts, index: usize, length: usize) {
        let (line, comment) = match decode(parts, length) {
            Some(good) => {
                let line = assembly::line_to(parts, &label(parts.w as usize));
                (line, words::instruction(&good))
            }
            None => {
                let broken = words::broken_rules(parts, length);
                let comment = format!("{}: {}", assembly::line(parts), broken.join("; "));
                (assembly::word(parts), comment)
            }
        };
        self.item(&format!("    {line}"), &format!("{index}: {comment}"));
    }

    fn cell(&mut self, body: &[u8]) {
        let key = Key::read(body);
        let Key {
            address,
            field,
            a,
            b,
        } = key;
        let item = format!("cell {address} {field} {a} {b} {}", i64_at(body, KEY_BYTES));
        let meaning = format!("cell {}: {}", self.cells, words::key(&key));
        self.item(&item, &commented(meaning, &words::cell_faults(body)));
        self.cells += 1;
    }

    fn call(&mut self, body: &[u8]) {
        let CallFields {
            sender,
            contract,
            function,
            value,
            arguments,
            fuel,
        } = CallFields::read(body);
        let mut item = format!("call {sender} {contract} {function} {value}");
        let given = arguments.iter().rposition(|argument| *argument != 0);
        for argument in &arguments[..given.map_or(0, |last| last + 1)] {
            item += &format!(" {argument}");
        }
        item += &format!(" fuel {fuel}");
        let known = self.functions.contains(&(contract, function));
        let unknown = if known { "" } else { ", unknown function" };
        let meaning = format!("call {}{unknown}", self.calls);
        self.item(&item, &commented(meaning, &words::call_faults(body)));
        self.calls += 1;
    }

    /// Bytes as they are.
    fn raw(&mut self, bytes: &[u8], why: &str, offset: usize) {
        if !bytes.is_empty() {
            self.lines.push(format!("# offset {offset}: {why}"));
        }
        for bytes in bytes.chunks(RAW_BYTES) {
            self.lines
                .push(format!("raw {}", words::hexadecimal(bytes)));
        }
    }

    /// A line with its comment.
    fn item(&mut self, item: &str, comment: &str) {
        self.lines
            .push(format!("{item:<COMMENT_COLUMN$}# {comment}"));
    }
}

/// A comment with the faults that follow it.
fn commented(comment: String, faults: &[String]) -> String {
    let all: Vec<String> = [comment]
        .into_iter()
        .chain(faults.iter().cloned())
        .collect();
    all.join("; ")
}

/// Why a record cannot be written as an item.
fn no_form(record: &Record) -> String {
    let Record { kind, length, .. } = *record;
    let left = record.body.len();
    if record.is_whole() {
        format!("a record of kind {kind} and length {length} has no item")
    } else {
        format!("a record of kind {kind} and length {length} is cut behind {left}")
    }
}

/// The places that the good jumps of a code go to.
fn targets(code: &[Parts]) -> BTreeSet<usize> {
    let decoded = code.iter().filter_map(|parts| decode(*parts, code.len()));
    let target = |instruction| match instruction {
        Instruction::Jump { to, .. } => Some(to),
        _ => None,
    };
    decoded.filter_map(target).collect()
}

fn label(index: usize) -> String {
    format!("at{index}")
}
