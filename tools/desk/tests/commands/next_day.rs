//! The block that opens with a closing sheet.

use desk::disassemble::disassemble;
use desk::next::{self, Fault};
use desk::sheet;
use desk::words::play;
use runner::block::Block;
use runner::generate::large_cases;
use runner::generate::small_cases;
use runner::key::Key;
use runner::limits::{MAX_SHEET_BYTES, MAX_WORKERS};
use runner::machine::{open, Machine};
use runner::sheet::write;

use crate::{block, block_p};

/// The closing sheet of a run at its end.
fn sheet_of(machine: &Machine) -> Option<Vec<u8>> {
    let mut output = vec![0; MAX_SHEET_BYTES];
    let length = write(machine, &mut output).ok()?;
    output.truncate(length);
    Some(output)
}

/// A block's text without its cells.
fn day_text(bytes: &[u8]) -> String {
    let text = disassemble(bytes);
    let lines = text.lines().filter(|line| !line.starts_with("cell "));
    lines.map(|line| format!("{line}\n")).collect()
}

/// Functions and calls, without the offsets at which they stand.
fn functions_and_calls(block: &Block) -> String {
    let functions = block.functions.iter();
    let functions: Vec<_> = functions
        .map(|function| (function.contract, function.number, &function.code))
        .collect();
    let calls = block.calls.iter();
    let calls: Vec<_> = calls
        .map(|call| {
            (
                call.sender,
                call.contract,
                call.function,
                call.value,
                call.arguments,
            )
        })
        .collect();
    format!("{functions:?} {calls:?}")
}

/// Asserts that the day after a run opens with its cells, whichever form the day
/// has. Answers whether the run is at its end.
fn next_day_opens(bytes: &[u8], input: &[u8]) -> bool {
    let Ok(today) = open(bytes, MAX_WORKERS) else {
        return false;
    };
    let played = play(bytes, &today, input);
    let Some(sheet) = sheet_of(&played.machine) else {
        return false;
    };
    let text = day_text(bytes);
    let made = next::block(&sheet, text.as_bytes()).expect("there is a next block");
    let tomorrow = open(&made, MAX_WORKERS).expect("the next block opens");
    let cells: Vec<(Key, i64)> = played
        .machine
        .cells()
        .iter()
        .map(|(key, value)| (*key, value))
        .collect();
    assert_eq!(tomorrow.block.opening, cells);
    assert_eq!(
        functions_and_calls(&tomorrow.block),
        functions_and_calls(&today.block)
    );
    assert_eq!(next::block(&sheet, &block(&text)), Ok(made.clone()));
    let without_end = text.trim_end().trim_end_matches("end");
    assert_eq!(next::block(&sheet, without_end.as_bytes()), Ok(made));
    true
}

#[test]
fn the_next_day_opens_with_the_sheets_cells() {
    let small = small_cases(21, 300);
    let large = large_cases(21, 9);
    let cases = small.iter().chain(&large);
    let closed = cases.filter(|case| next_day_opens(&case.block, &case.input));
    let closed = closed.count();
    assert!(closed > 100, "{closed}");
}

#[test]
fn a_day_of_nothing_carries_the_cells() {
    let sheet = block("cell 5 0 0 0 2\nend");
    assert_eq!(next::block(&sheet, b""), Ok(sheet.clone()));
    assert_eq!(next::block(&block("end"), b"# nothing"), Ok(block("end")));
}

#[test]
fn a_day_with_cells_or_faults_is_refused() {
    let sheet = block("cell 5 0 0 0 2\nend");
    let cell = "it has a cell, balance of account 5; the cells are those of the sheet";
    let with_cell = "cell 5 0 0 0 1\nend";
    assert_eq!(
        next::block(&sheet, with_cell.as_bytes()),
        Err(Fault::Day(cell.to_string()))
    );
    assert_eq!(
        next::block(&sheet, &block(with_cell)),
        Err(Fault::Day(cell.to_string()))
    );
    match next::block(&sheet, b"function 32768 0\n  set r9 1") {
        Err(Fault::Text(error)) => {
            assert_eq!(error.to_string(), "2:7: register r9: there are r0 to r7");
        }
        other => panic!("{other:?}"),
    }
    let cut = next::block(&sheet, &block_p()[..100]);
    let why = "the register would refuse it:\n2 at offset 96: a record or the end is missing or \
               cut\nopening cell record 0 at offset 96: 0 of the 20 bytes of its body are there";
    assert_eq!(cut, Err(Fault::Day(why.to_string())));
}

#[test]
fn a_sheet_or_a_day_with_any_bit_changed_makes_a_good_block_or_none() {
    let sheet = block("cell 5 0 0 0 2\ncell 32768 1 3 0 -1\nraw 04000500 0300 0200\nend");
    let day = block("function 32768 1\nget r0 1 arg1 zero\ncall 5 32768 1 2 3\nend");
    let mut made = 0;
    for bit in 0..8 * (sheet.len() + day.len()) {
        let mut both = [sheet.clone(), day.clone()].concat();
        both[bit / 8] ^= 1 << (bit % 8);
        let (sheet, day) = both.split_at(sheet.len());
        if let Ok(bytes) = next::block(sheet, day) {
            let opened = open(&bytes, MAX_WORKERS).expect("the block is good");
            assert_eq!(opened.block.opening.len(), 2);
            made += 1;
        }
    }
    assert!(made > 100, "{made}");
}

fn sheet_fails(text: &str, why: &str) {
    assert_eq!(sheet::read(&block(text)), Err(why.to_string()));
}

#[test]
fn a_sheet_is_read() {
    let text = "cell 5 0 0 0 2\ncell 32768 1 0 0 -1\nraw 04000500 0300 0200\nend";
    let bytes = block(text);
    let read = sheet::read(&bytes).expect("the sheet is good");
    assert_eq!((read.cells.len(), read.receipts), (48, 1));
    let read = sheet::read(&[0, 0, 4, 0]).expect("a day of nothing has a sheet");
    assert_eq!((read.cells.len(), read.receipts), (0, 0));
}

#[test]
fn a_damaged_sheet_is_refused_with_its_offset() {
    let due = |offset: usize, left: usize| {
        format!("offset {offset}: the end is missing: {left} of the 4 bytes of a head are there")
    };
    sheet_fails("", &due(0, 0));
    sheet_fails("cell 5 0 0 0 2", &due(24, 0));
    sheet_fails(
        "cell 5 0 0 0 2\nraw 04000500 0000 0000\nraw 000004",
        &due(32, 3),
    );
    sheet_fails(
        "cell 5 0 0 0 2\nraw 04000500 00",
        "offset 24: 1 of the 4 bytes of its body are there",
    );
    let kinds = "a sheet has 2, cells, 5, receipts, and 4, the end";
    sheet_fails(
        "function 32768 0\nend",
        &format!("offset 0: kind 1: {kinds}"),
    );
    sheet_fails(
        "cell 5 0 0 0 2\ncall 5 32768 0 0",
        &format!("offset 24: kind 3: {kinds}"),
    );
    sheet_fails(
        "raw 04000500 0000 0000\ncell 5 0 0 0 2\nend",
        "offset 8: opening cell record: it stands behind a receipt, and cells stand first",
    );
    sheet_fails(
        "raw 15000200",
        "offset 0: length 21: that of kind 2, opening cell, is 20",
    );
    sheet_fails(
        "raw 00000500",
        "offset 0: length 0: that of kind 5, receipt, is 4",
    );
    sheet_fails(
        "raw 01000400 00",
        "offset 0: length 1: that of kind 4, end, is 0",
    );
    sheet_fails(
        "cell 5 0 0 0 2\ncell 6 0 0 0 0\nend",
        "offset 24: value 0: a cell that is 0 has no record",
    );
    sheet_fails(
        "cell 5 0 0 0 -2\nend",
        "offset 0: value -2: a balance is above 0",
    );
    sheet_fails(
        "cell 6 0 0 0 1\ncell 6 0 0 0 1\nend",
        "offset 24: balance of account 6: the keys of cells rise",
    );
    sheet_fails(
        "raw 04000500 0800 0000\nend",
        "offset 0: outcome 8: outcomes are 0 to 7",
    );
    let most = block("raw 04000500 0700 ffff\nend");
    assert!(sheet::read(&most).is_ok());
    sheet_fails("end\nraw 00", "offset 4: 1 byte behind the end");
    let printed = "offset 0: these are lines that REGISTER prints; the sheet's bytes are wanted";
    assert_eq!(sheet::read(b"k 7 0 0 0 1\n"), Err(printed.to_string()));
}

/// The text of so many cells of contract 32768.
fn cells(count: usize) -> String {
    (0..count)
        .map(|a| format!("cell 32768 1 {a} 0 1\n"))
        .collect()
}

#[test]
fn a_sheet_beyond_the_limits_is_refused() {
    assert!(sheet::read(&block(&format!("{}end", cells(1_024)))).is_ok());
    sheet_fails(
        &format!("{}end", cells(1_025)),
        "offset 24576: a sheet has at most 1024 cells",
    );
    let receipts = "raw 04000500 00000000\n".repeat(257);
    sheet_fails(
        &format!("{receipts}end"),
        "offset 2048: a sheet has at most 256 receipts",
    );
}

/// Asserts how the block after a full sheet is refused.
fn block_fails(day: &str, why: &str) {
    let sheet = block(&format!("{}end", cells(1_024)));
    match next::block(&sheet, day.as_bytes()) {
        Err(Fault::Block(words)) => assert_eq!(words, why),
        other => panic!("{other:?}"),
    }
}

#[test]
fn a_block_with_too_many_keys_is_refused() {
    block_fails(
        "function 32768 0\nget r0 2 arg1 zero\ncall 5 32768 0 0 3\nend",
        "the register would refuse it (24576 bytes of the sheet's cells and 56 of the day):\n\
         e 12 24592\n12 at offset 24592: the opening and the sets have over 1024 keys\n\
         call record 0 at offset 24592: account 5 calls function 0 of contract 32768, with value 0, \
         arguments 3 0 0 0 and fuel 64\n\
         with its 1 key the block has 1025, 1024 of them in the opening; at most 1024",
    );
}

#[test]
fn a_block_of_too_many_bytes_is_refused() {
    let code = "stop\n".repeat(64);
    let functions: String = (0..64)
        .map(|number| format!("function 32768 {number}\n{code}"))
        .collect();
    let calls = "call 5 32768 0 0\n".repeat(256);
    block_fails(
        &format!("{functions}{calls}"),
        "the register would refuse it (24576 bytes of the sheet's cells and 42500 of the day):\n\
         e 1 0\n1 at offset 0: the file is above 65536 bytes\nthe file has 67076 bytes",
    );
}
