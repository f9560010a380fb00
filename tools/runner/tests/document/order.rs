//! Blocks with two faults: which one answers.

use runner::limits::MAX_BLOCK_BYTES;
use runner::machine::open;

use crate::{block, refusal};

fn refused(text: &str, number: u16, offset: usize) {
    assert_eq!(refusal(&block(text)), (number, offset), "{text}");
}

/// A text of 64 functions, 512 bytes.
fn functions() -> String {
    (0..64)
        .map(|number| format!("function 32768 {number}\n"))
        .collect()
}

/// Code of 25 keys.
fn many_keys() -> String {
    (1..=25)
        .map(|field| format!("get r0 {field} zero zero\n"))
        .collect()
}

/// 1,024 cells of field 1, 24,576 bytes.
fn cells() -> String {
    (0..1_024)
        .map(|index| format!("cell 32768 1 {index} 0 1\n"))
        .collect()
}

#[test]
fn workers_before_size() {
    let refusal = open(&vec![0; MAX_BLOCK_BYTES + 1], 0).unwrap_err();
    assert_eq!((refusal.fault.number(), refusal.offset), (13, 0));
}

#[test]
fn size_before_records() {
    let mut bytes = block("end");
    bytes.resize(MAX_BLOCK_BYTES + 1, 0);
    assert_eq!(refusal(&bytes), (1, 0));
    bytes.resize(MAX_BLOCK_BYTES, 0);
    assert_eq!(refusal(&bytes), (8, 4));
}

#[test]
fn within_a_record() {
    // Kind before length.
    refused("raw 07000900", 3, 0);
    // Length before the cut body.
    refused("raw 13000200 0500", 4, 0);
    // Cut body before the limit, the fields and the code.
    refused(&(functions() + "raw 0c000100 0000 0000 ff"), 2, 512);
    refused("raw 20000300 ffff", 2, 0);
    // The limit before fields, code and order.
    refused(&(functions() + "function 5 0\nend"), 7, 512);
    refused(
        &(functions() + "function 32769 0\nword 99 0 0 0 0\nend"),
        7,
        512,
    );
    refused(&(functions() + "function 32768 0\nend"), 7, 512);
    // Fields before code.
    refused("function 5 0\nword 99 0 0 0 0\nend", 5, 0);
    // Code before order.
    refused(
        "function 32768 0\nfunction 32768 0\nstop\nword 99 0 0 0 0\nend",
        10,
        24,
    );
    // Fields before order, for both kinds.
    refused("function 32768 0\nfunction 5 0\nend", 5, 8);
    refused("cell 5 0 0 0 1\ncell 5 0 0 0 0\nend", 5, 24);
    // Order before the sum.
    let largest = i64::MAX;
    refused(
        &format!("cell 5 0 0 0 1\ncell 5 0 0 0 {largest}\nend"),
        6,
        24,
    );
}

#[test]
fn the_first_record_with_a_fault_answers() {
    refused("function 5 0\nraw 00000900", 5, 0);
    refused(
        "function 32768 0\nword 99 0 0 0 0\ncell 5 0 0 0 0\nend",
        10,
        8,
    );
    refused("cell 5 0 0 0 0\nend\nraw 00", 5, 0);
    let largest = i64::MAX;
    refused(
        &format!("cell 5 0 0 0 {largest}\ncell 6 0 0 0 1\nraw 0000"),
        9,
        24,
    );
}

#[test]
fn the_end_and_what_follows_before_the_sets() {
    let text = format!("function 32768 0\n{}call 5 32768 0 0\n", many_keys());
    refused(&(text.clone() + "end\nraw 00"), 8, 248);
    refused(&text, 2, 244);
    refused(&(text + "end"), 11, 208);
}

#[test]
fn the_sets_call_by_call() {
    let code = format!(
        "function 32768 0\n{}function 32768 1\nget r0 2 zero zero\n",
        many_keys()
    );
    let first_call = 8 + 25 * 8 + 8 + 8 + 1_024 * 24;
    let calls = |first: &str, second: &str| {
        let calls = format!("call 5 32768 {first} 0\ncall 5 32768 {second} 0\nend");
        format!("{code}{}{calls}", cells())
    };
    // Both apply to call 0: 11. Then 12 of call 0, 11 of call 1, and reversed.
    refused(&calls("0", "9"), 11, first_call);
    refused(&calls("1", "0"), 12, first_call);
    refused(&calls("0", "1"), 11, first_call);
    refused(&calls("9", "1"), 12, first_call + 36);
}
