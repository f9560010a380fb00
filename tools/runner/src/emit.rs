//! Writes records. Nothing is tested here, so that damaged blocks can be
//! written as well.

use crate::block::Kind;
use crate::code::Parts;
use crate::key::Key;
use crate::limits::ARGUMENTS;

/// The kind number of a receipt in a closing sheet.
pub const RECEIPT_KIND: u16 = 5;

/// The fields of a call record, in range or not.
#[derive(Clone, Copy, Debug, Default, PartialEq, Eq)]
pub struct CallFields {
    /// Sender address.
    pub sender: u16,
    /// Contract address.
    pub contract: u16,
    /// Function number.
    pub function: u16,
    /// Value.
    pub value: i64,
    /// Arguments.
    pub arguments: [u32; ARGUMENTS],
    /// Fuel.
    pub fuel: u16,
}

/// Appends a record with a body of at most 65,535 bytes.
pub fn record(out: &mut Vec<u8>, kind: u16, body: &[u8]) {
    let length = u16::try_from(body.len()).expect("a body's length has 16 bits");
    out.extend(length.to_le_bytes());
    out.extend(kind.to_le_bytes());
    out.extend(body);
}

/// Appends a function record.
pub fn function(out: &mut Vec<u8>, contract: u16, number: u16, code: &[Parts]) {
    let mut body = Vec::new();
    body.extend(contract.to_le_bytes());
    body.extend(number.to_le_bytes());
    body.extend(code.iter().flat_map(|parts| parts.to_bytes()));
    record(out, Kind::Function.number(), &body);
}

/// Appends a cell record.
pub fn cell(out: &mut Vec<u8>, key: &Key, value: i64) {
    let mut body = Vec::new();
    body.extend(key.address.to_le_bytes());
    body.extend(key.field.to_le_bytes());
    body.extend(key.a.to_le_bytes());
    body.extend(key.b.to_le_bytes());
    body.extend(value.to_le_bytes());
    record(out, Kind::Cell.number(), &body);
}

/// Appends a call record.
pub fn call(out: &mut Vec<u8>, fields: &CallFields) {
    let mut body = Vec::new();
    body.extend(fields.sender.to_le_bytes());
    body.extend(fields.contract.to_le_bytes());
    body.extend(fields.function.to_le_bytes());
    body.extend(fields.value.to_le_bytes());
    for argument in fields.arguments {
        body.extend(argument.to_le_bytes());
    }
    body.extend(fields.fuel.to_le_bytes());
    record(out, Kind::Call.number(), &body);
}

/// Appends a receipt record.
pub fn receipt(out: &mut Vec<u8>, outcome: u16, count: u16) {
    let mut body = Vec::new();
    body.extend(outcome.to_le_bytes());
    body.extend(count.to_le_bytes());
    record(out, RECEIPT_KIND, &body);
}

/// Appends the end record.
pub fn end(out: &mut Vec<u8>) {
    record(out, Kind::End.number(), &[]);
}
