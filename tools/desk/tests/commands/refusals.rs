//! Refused blocks in words, one for each number.

use desk::words::refused_block;
use runner::generate::large_cases;
use runner::limits::MAX_WORKERS;
use runner::machine::open;

use crate::{block, block_p, cases};

/// Asserts the words behind the first line, which has number and offset.
fn refused(bytes: &[u8], head: &str, place: &str) {
    let words = refused_block(bytes).expect("the block is refused");
    let (first, rest) = words.split_once('\n').expect("a place follows the number");
    assert!(first.starts_with(&format!("{head}: ")), "{words}");
    assert_eq!(rest, place);
}

fn text_refused(text: &str, head: &str, place: &str) {
    refused(&block(text), head, place);
}

#[test]
fn a_good_block_is_not_refused() {
    assert_eq!(refused_block(&block_p()), None);
}

#[test]
fn a_text_in_place_of_a_block_is_told() {
    refused(
        b"call 5 32768 0 0\nend\n",
        "3 at offset 0",
        "record 0 at offset 0: kind 27756: there are 1, function, 2, opening cell, 3, call, and 4, \
         end\nno byte is zero: this is a text or another file, and no block",
    );
}

#[test]
fn a_sheet_in_place_of_a_block_is_told() {
    let sheet = block("cell 5 0 0 0 2\nraw 04000500 00000200\nraw 04000500 03000000\nend");
    let place = "record 1 at offset 24: kind 5: a receipt stands in a closing sheet alone\n";
    let next = "`desk next` makes the next day's block of it";
    refused(
        &sheet,
        "3 at offset 24",
        &format!("{place}this is a closing sheet with 2 receipts, and no block: {next}"),
    );
    let damaged = "this is a damaged closing sheet, and no block: offset 32: ";
    let cut = "2 of the 4 bytes of its body are there";
    refused(
        &sheet[..38],
        "3 at offset 24",
        &format!("{place}{damaged}{cut}"),
    );
}

#[test]
fn number_1() {
    let place = "the file has 65537 bytes or more; no more were read";
    refused(&[0; 65_537], "1 at offset 0", place);
}

#[test]
fn number_2() {
    refused(
        &[],
        "2 at offset 0",
        "a record is due at the beginning: 0 of the 4 bytes of its head are there",
    );
    text_refused(
        "cell 5 0 0 0 1\nraw 00",
        "2 at offset 24",
        "a record is due behind the opening cell record at offset 0: 1 of the 4 bytes of its head \
         are there",
    );
    refused(
        &block("cell 5 0 0 0 1")[..11],
        "2 at offset 0",
        "opening cell record 0 at offset 0: 7 of the 20 bytes of its body are there",
    );
}

#[test]
fn number_3() {
    text_refused(
        "function 32768 0\nraw 0400 0500 0000 0000\nend",
        "3 at offset 8",
        "record 1 at offset 8: kind 5: a receipt stands in a closing sheet alone",
    );
    text_refused(
        "function 32768 0\nraw 00000700",
        "3 at offset 8",
        "record 1 at offset 8: kind 7: there are 1, function, 2, opening cell, 3, call, and 4, end",
    );
    text_refused(
        "raw 0400 0500 0000 0000",
        "3 at offset 0",
        "record 0 at offset 0: kind 5: a receipt stands in a closing sheet alone\n\
         this is a damaged closing sheet, and no block: offset 8: the end is missing: 0 of the 4 \
         bytes of a head are there",
    );
    text_refused(
        "function 32768 0\ncall 5 32768 0 0\nfunction 32768 1\nend",
        "3 at offset 44",
        "function record 1 at offset 44: it stands behind the call record at offset 8, and \
         kinds never fall",
    );
}

#[test]
fn number_4() {
    text_refused(
        "raw 05000100",
        "4 at offset 0",
        "function record 0 at offset 0: length 5: a function has 4 and 8 for each of 0 to 64 \
         instructions: 4, 12, .. 516",
    );
    text_refused(
        "raw 15000200",
        "4 at offset 0",
        "opening cell record 0 at offset 0: length 21: an opening cell has 20",
    );
    text_refused(
        "raw 00000300",
        "4 at offset 0",
        "call record 0 at offset 0: length 0: a call has 32",
    );
    text_refused(
        "raw 01000400",
        "4 at offset 0",
        "end record 0 at offset 0: length 1: an end has 0",
    );
}

#[test]
fn number_5() {
    let wrong = [
        ("function 7 0", "function record 0 at offset 0: contract 7: contracts are 32768 to 65535"),
        (
            "cell 5 1 0 0 1",
            "opening cell record 0 at offset 0: field 1: account 5 has its balance alone, field 0",
        ),
        (
            "cell 5 0 1 2 1",
            "opening cell record 0 at offset 0: a is 1 and b is 2: of a balance, field 0, both are 0",
        ),
        (
            "cell 32768 1 0 0 0",
            "opening cell record 0 at offset 0: value 0: a cell that is 0 has no record",
        ),
        (
            "cell 32768 0 0 0 -3",
            "opening cell record 0 at offset 0: value -3: a balance is above 0",
        ),
        ("call 32768 32768 0 0", "call record 0 at offset 0: sender 32768: accounts are 0 to 32767"),
        ("call 5 5 0 0", "call record 0 at offset 0: contract 5: contracts are 32768 to 65535"),
        ("call 5 32768 0 -1", "call record 0 at offset 0: value -1: it is 0 or more"),
        ("call 5 32768 0 0 fuel 0", "call record 0 at offset 0: fuel 0: it is 1 to 65535"),
    ];
    for (text, place) in wrong {
        text_refused(text, "5 at offset 0", place);
    }
}

#[test]
fn number_6() {
    text_refused(
        "function 32768 1\nfunction 32768 0\nend",
        "6 at offset 8",
        "function record 1 at offset 8: function 0 of contract 32768: it has to stand before \
         function 1 of contract 32768 at offset 0",
    );
    text_refused(
        "cell 5 0 0 0 1\ncell 5 0 0 0 2\nend",
        "6 at offset 24",
        "opening cell record 1 at offset 24: balance of account 5: the same as \
         balance of account 5 at offset 0",
    );
}

#[test]
fn numbers_7_and_12_and_the_long_file() {
    let large = large_cases(1, 8);
    let words: Vec<String> = large
        .iter()
        .filter_map(|case| refused_block(&case.block))
        .collect();
    let has = |part: &str| assert!(words.iter().any(|words| words.contains(part)), "{part}");
    has("1 at offset 0: the file is above 65536 bytes\nthe file has 65537 bytes or more");
    has("function record 64 at offset");
    has(": a block has at most 64 functions, numbered from 0");
    has("opening cell record 1024 at offset");
    has(": a block has at most 1024 opening cells, numbered from 0");
    has("call record 256 at offset");
    has(": a block has at most 256 calls, numbered from 0");
    has("12 at offset");
    has(" of them in the opening; at most 1024");
}

#[test]
fn number_8() {
    text_refused(
        "end\nraw 0000",
        "8 at offset 4",
        "2 bytes behind the end record",
    );
}

#[test]
fn number_9() {
    text_refused(
        "cell 5 0 0 0 9223372036854775807\ncell 32768 0 0 0 2\ncell 32768 1 0 0 4\nend",
        "9 at offset 24",
        "opening cell record 1 at offset 24: with the balance of contract 32768 they sum to \
         9223372036854775809, above 9223372036854775807",
    );
}

#[test]
fn number_10() {
    text_refused(
        "function 32768 3\nstop\nfunction 32769 4\nstop\njeq r0 r0 3\nend",
        "10 at offset 32",
        "function record 1 at offset 16: function 4 of contract 32769\n\
         instruction 1 of 2 at offset 32: bytes 0e 00 00 00 03 00 00 00: jeq r0 r0 3\n\
         it goes to 3: the code's length is 2",
    );
    text_refused(
        "function 32768 0\nword 10 9 7 0 0\nend",
        "10 at offset 8",
        "function record 0 at offset 0: function 0 of contract 32768\n\
         instruction 0 of 1 at offset 8: bytes 0a 09 07 00 00 00 00 00: get r9 0 source7 zero\n\
         x is 9: registers are 0 to 7\ny is 7: sources are 0 to 6\n\
         the field is 0, which is the balance",
    );
}

#[test]
fn number_11() {
    let gets: String = (1..=25)
        .map(|field| format!("get r0 {field} zero zero\n"))
        .collect();
    let text = format!("function 32768 0\n{gets}call 5 32768 0 0\nend");
    let words = refused_block(&block(&text)).expect("the block is refused");
    let place =
        "11 at offset 208: a call has over 24 keys\ncall record 0 at offset 208: account 5 \
                 calls function 0 of contract 32768, with value 0, arguments 0 0 0 0 and fuel 64\n\
                 25 keys; at most 24:\n  field 1 [0, 0] of contract 32768\n";
    assert!(words.starts_with(place), "{words}");
    assert_eq!(words.lines().count(), 3 + 25);
}

#[test]
fn every_refused_block_has_words_with_its_number() {
    let mut seen = std::collections::BTreeSet::new();
    for case in cases() {
        let words = refused_block(&case.block);
        match open(&case.block, MAX_WORKERS) {
            Ok(_) => assert_eq!(words, None),
            Err(refusal) => {
                let (number, offset) = (refusal.fault.number(), refusal.offset);
                let words = words.expect("the block is refused");
                assert!(
                    words.starts_with(&format!("{number} at offset {offset}: ")),
                    "{words}"
                );
                assert!(words
                    .lines()
                    .all(|line| !line.is_empty() && !line.ends_with(' ')));
                assert!(!words.ends_with(": "), "{words}");
                seen.insert(number);
            }
        }
    }
    assert_eq!(
        seen.into_iter().collect::<Vec<u16>>(),
        (1..=12).collect::<Vec<u16>>()
    );
}
