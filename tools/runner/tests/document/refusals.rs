//! One block or more for each refusal from 1 to 13, with its offset.

use runner::block::read;
use runner::limits::{MAX_BLOCK_BYTES, MAX_WORKERS};
use runner::machine::open;

use crate::{block, opened, refusal};

/// Asserts the refusal of a text.
fn refused(text: &str, number: u16, offset: usize) {
    assert_eq!(refusal(&block(text)), (number, offset), "{text}");
}

/// A function whose only instruction has these parts.
fn coded(word: &str) -> String {
    format!("function 32768 0\nword {word}\nend")
}

/// Consecutive lines of a text.
fn repeated(count: usize, line: impl Fn(usize) -> String) -> String {
    (0..count).map(|index| line(index) + "\n").collect()
}

#[test]
fn refusal_1_above_the_largest_size() {
    assert_eq!(refusal(&vec![0; MAX_BLOCK_BYTES + 1]), (1, 0));
    assert_eq!(refusal(&vec![0; MAX_BLOCK_BYTES]), (3, 0));
}

#[test]
fn refusal_2_missing_or_cut() {
    assert_eq!(refusal(&[]), (2, 0));
    refused("raw 000004", 2, 0);
    refused("cell 5 0 0 0 1", 2, 24);
    refused("cell 5 0 0 0 1\nraw 0000", 2, 24);
    refused("cell 5 0 0 0 1\nraw 20000300 0500", 2, 24);
    refused("raw 0c000100 0080 0000 00000000000000", 2, 0);
}

#[test]
fn refusal_3_kind() {
    refused("raw 00000000", 3, 0);
    refused("raw 04000500 00000000", 3, 0);
    refused("raw 00000401", 3, 0);
    refused("cell 5 0 0 0 1\nfunction 32768 0\nend", 3, 24);
    refused("call 5 32768 0 0\ncell 5 0 0 0 1\nend", 3, 36);
}

#[test]
fn refusal_4_length() {
    for length in ["0000", "0300", "0500", "0b00", "0c02", "ffff"] {
        refused(&format!("raw {length} 0100"), 4, 0);
    }
    refused("raw 13000200", 4, 0);
    refused("raw 15000200", 4, 0);
    refused("raw 1e000300", 4, 0);
    refused("raw 1f000300", 4, 0);
    refused("raw 21000300", 4, 0);
    refused("raw 01000400 00", 4, 0);
}

#[test]
fn function_lengths_up_to_64_instructions() {
    for count in [0, 1, 64] {
        let code = repeated(count, |_| "stop".to_string());
        opened(&format!("function 32768 0\n{code}end"));
    }
    let code = repeated(65, |_| "stop".to_string());
    refused(&format!("function 32768 0\n{code}end"), 4, 0);
}

#[test]
fn refusal_5_field() {
    refused("function 32767 0\nend", 5, 0);
    refused("cell 5 0 1 0 1\nend", 5, 0);
    refused("cell 5 0 0 1 1\nend", 5, 0);
    refused("cell 32768 0 1 0 1\nend", 5, 0);
    refused("cell 32767 1 0 0 1\nend", 5, 0);
    refused("cell 32768 1 0 0 0\nend", 5, 0);
    refused("cell 5 0 0 0 0\nend", 5, 0);
    refused("cell 5 0 0 0 -1\nend", 5, 0);
    refused("cell 32768 0 0 0 -1\nend", 5, 0);
    refused("call 32768 32768 0 0\nend", 5, 0);
    refused("call 5 32767 0 0\nend", 5, 0);
    refused("call 5 32768 0 -1\nend", 5, 0);
}

#[test]
fn fields_at_the_edges_of_their_ranges() {
    opened("function 32768 0\nfunction 65535 65535\nend");
    opened("cell 0 0 0 0 1\ncell 32767 0 0 0 1\ncell 65535 0 0 0 1\nend");
    opened("cell 32768 1 4294967295 4294967295 -9223372036854775808\nend");
    opened("call 32767 65535 65535 9223372036854775807 4294967295 0 0 4294967295\nend");
}

#[test]
fn refusal_6_not_rising() {
    refused("function 32768 0\nfunction 32768 0\nend", 6, 8);
    refused("function 32769 0\nfunction 32768 1\nend", 6, 8);
    refused("cell 5 0 0 0 1\ncell 5 0 0 0 1\nend", 6, 24);
    refused("cell 6 0 0 0 1\ncell 5 0 0 0 1\nend", 6, 24);
    refused("cell 32768 1 1 0 1\ncell 32768 1 0 9 1\nend", 6, 24);
}

#[test]
fn keys_rise_as_numbers_not_as_bytes() {
    opened("cell 255 0 0 0 1\ncell 256 0 0 0 1\nend");
    opened("cell 32768 1 255 0 1\ncell 32768 1 256 0 1\nend");
    opened("cell 32768 1 0 9 1\ncell 32768 1 1 0 1\ncell 32768 2 0 0 1\nend");
}

#[test]
fn refusal_7_beyond_the_kinds_limit() {
    let functions = |count| repeated(count, |number| format!("function 32768 {number}")) + "end";
    opened(&functions(64));
    refused(&functions(65), 7, 64 * 8);
    let cells = |count| repeated(count, |index| format!("cell 32768 1 {index} 0 1")) + "end";
    opened(&cells(1_024));
    refused(&cells(1_025), 7, 1_024 * 24);
    let calls = |count| repeated(count, |_| "call 5 32768 0 0".to_string()) + "end";
    opened(&calls(256));
    refused(&calls(257), 7, 256 * 36);
}

#[test]
fn refusal_8_bytes_after_the_end() {
    refused("end\nraw 00", 8, 4);
    refused("cell 5 0 0 0 1\nend\nend", 8, 28);
}

#[test]
fn refusal_9_sum_of_balances() {
    let sum = |more: i64| {
        format!(
            "cell 5 0 0 0 {}\ncell 32768 0 0 0 1\ncell 32768 1 0 0 {}\ncell 32769 0 0 0 {more}\nend",
            i64::MAX - 2,
            i64::MAX
        )
    };
    opened(&sum(1));
    refused(&sum(2), 9, 72);
}

#[test]
fn refusal_10_at_the_instruction() {
    let text = "function 32768 0\nfunction 32768 1\nstop\nstop\nword 16 0 0 0 0\nend";
    refused(text, 10, 8 + 8 + 2 * 8);
    refused(
        "function 32768 0\nword 99 0 0 0 0\nword 98 0 0 0 0\nend",
        10,
        8,
    );
}

/// Parts x y z w that break a rule, by opcode; the code has one instruction.
const BROKEN: &str = "
    0: 1 0 0 0, 0 1 0 0, 0 0 1 0, 0 0 0 1
    1: 1 0 0 0, 0 1 0 0, 0 0 1 0, 0 0 0 1
    2: 8 0 0 0, 0 1 0 0, 0 0 1 0
    3: 8 1 0 0, 0 0 0 0, 0 5 0 0, 0 1 1 0, 0 1 0 1
    4: 8 0 0 0, 0 1 0 0, 0 0 1 0, 0 0 0 1
    5: 8 0 0 0, 0 1 0 0, 0 0 1 0, 0 0 0 65536
    6: 8 0 0 0, 0 8 0 0, 0 0 8 0, 0 0 0 1
    7: 8 0 0 0, 0 8 0 0, 0 0 255 0, 0 0 0 1
    8: 8 0 0 0, 0 8 0 0, 0 0 8 0, 0 0 0 1
    9: 8 0 0 0, 0 8 0 0, 0 0 8 0, 0 0 0 65536
    10: 8 0 0 1, 0 7 0 1, 0 0 7 1, 0 0 0 0, 0 6 0 65536, 0 0 0 65537, 0 5 4 65537
    11: 8 0 0 1, 0 7 0 1, 0 0 255 1, 0 0 0 0, 0 0 6 65536, 0 0 0 65537, 0 1 2 65537
    12: 8 0 0 0, 0 1 0 0, 0 0 1 0, 0 0 0 1
    13: 8 0 0 0, 0 7 0 0, 0 0 1 0, 0 0 0 1, 0 6 0 1, 0 0 0 65536, 0 5 0 65536
    14: 8 0 0 1, 0 8 0 1, 0 0 1 1, 0 0 0 2
    15: 8 0 0 1, 0 8 0 1, 0 0 1 1, 0 0 0 4294967295
    16: 0 0 0 0
    255: 0 0 0 0";

/// Parts x y z w at the edges of their ranges.
const GOOD: &str = "
    2: 7 0 0 4294967295
    3: 7 1 0 0, 7 4 0 0
    4: 7 0 0 0
    5: 7 0 0 0
    6: 7 7 7 0
    9: 7 7 7 0
    10: 7 5 5 65535, 0 6 0 4294967295, 0 0 6 1
    11: 7 5 5 65535, 7 6 6 65537, 0 6 4 65537
    12: 7 0 0 0
    13: 7 5 0 0, 0 6 0 4294901760, 0 6 0 0
    14: 7 7 0 0, 7 7 0 1
    15: 7 7 0 0, 7 7 0 1";

/// The instructions of such a table, as five parts each.
fn words(table: &str) -> Vec<String> {
    let rows = table.lines().filter_map(|row| row.split_once(':'));
    rows.flat_map(|(op, parts)| parts.split(',').map(move |rest| format!("{op} {rest}")))
        .collect()
}

#[test]
fn refusal_10_rules_of_each_opcode() {
    for word in words(BROKEN) {
        refused(&coded(&word), 10, 8);
    }
}

#[test]
fn parts_at_the_edges_of_their_ranges() {
    for word in words(GOOD) {
        opened(&coded(&word));
    }
}

#[test]
fn a_jump_goes_anywhere_up_to_the_length() {
    for name in ["jeq", "jlt"] {
        let jump = |to: u32| format!("function 32768 0\nstop\n{name} r0 r0 {to}\nstop\nstop\nend");
        for to in 0..=4 {
            opened(&jump(to));
        }
        for to in [5, 64, 65_536, u32::MAX] {
            refused(&jump(to), 10, 16);
        }
    }
}

/// A function of one GET for each of so many fields, and a call of it.
fn keyed(fields: usize, value: i64) -> String {
    let code = repeated(fields, |field| format!("get r0 {} zero zero", field + 1));
    format!("function 32768 0\n{code}call 5 32768 0 0\ncall 5 32768 0 {value}\nend")
}

#[test]
fn refusal_11_over_24_keys() {
    opened(&keyed(24, 0));
    refused(&keyed(25, 0), 11, 8 + 25 * 8);
    opened(&keyed(22, 1));
    refused(&keyed(23, 1), 11, 8 + 23 * 8 + 36);
}

#[test]
fn a_key_that_is_read_and_written_counts_once() {
    let both = |field| format!("get r0 {field} zero zero\nput r0 {field} zero zero");
    let code = repeated(24, |field| both(field + 1));
    opened(&format!("function 32768 0\n{code}call 5 32768 0 0\nend"));
}

/// 1,024 opening cells and two calls that use the cells of these indices.
fn full_opening(first: u32, second: u32) -> String {
    let cells = repeated(1_024, |index| format!("cell 32768 1 {index} 0 1"));
    let code = "function 32768 0\nget r0 1 arg1 zero\n";
    format!("{code}{cells}call 5 32768 0 0 {first}\ncall 5 32768 0 0 {second}\nend")
}

#[test]
fn refusal_12_over_1024_keys() {
    let first_call = 16 + 1_024 * 24;
    assert_eq!(opened(&full_opening(0, 1_023)).keys, 1_024);
    refused(&full_opening(1_024, 0), 12, first_call);
    refused(&full_opening(0, 1_024), 12, first_call + 36);
}

#[test]
fn refusal_13_workers() {
    let end = block("end");
    for workers in [0, 9, usize::MAX] {
        let refusal = open(&end, workers).unwrap_err();
        assert_eq!((refusal.fault.number(), refusal.offset), (13, 0));
    }
    for workers in 1..=MAX_WORKERS {
        assert!(open(&end, workers).is_ok());
    }
}

#[test]
fn kinds_may_be_skipped() {
    for text in ["end", "function 32768 0\nend", "call 5 32768 0 0\nend"] {
        opened(text);
    }
    assert!(read(&block("function 32768 0\ncall 5 32768 0 0\nend")).is_ok());
}
