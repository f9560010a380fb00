//! Runs in words.

use desk::explain;
use desk::words::{outcome, play, Remark};
use runner::examples::EXAMPLES;
use runner::limits::MAX_WORKERS;
use runner::machine::open;

use crate::{block, block_p, cases};

/// Two functions of contract 32768 that write and read one cell, three calls.
const WRITERS: &str = "
    function 32768 0
        set r0 1
        put r0 1 zero zero
    function 32768 1
        get r0 1 zero zero
    call 5 32768 0 0
    call 6 32768 0 0
    call 7 32768 1 0
    end";

/// The remarks on a run of a block's text.
fn remarks_on(bytes: &[u8], moves: &[u8]) -> Vec<Remark> {
    let opened = open(bytes, MAX_WORKERS).expect("the block is good");
    play(bytes, &opened, moves).remarks
}

/// The words for the line behind some lines.
fn words_for(lines: &str, line: &str) -> (u32, String) {
    let bytes = block(WRITERS);
    let found = remarks_on(&bytes, format!("{lines}{line}\n").as_bytes());
    let number = lines.lines().count() as u64 + 1;
    let remark = found.into_iter().find(|remark| remark.line == number);
    let remark = remark.expect("the line is refused");
    assert_eq!(remark.text, line);
    (remark.number, remark.words)
}

fn refused(lines: &str, line: &str, number: u32, words: &str) {
    assert_eq!(words_for(lines, line), (number, words.to_string()));
}

#[test]
fn each_number_has_its_words() {
    refused("", "s x", 0, "column 3: x where a space or a number is due");
    refused("", "s 8", 21, "there is no worker 8; workers are 0 to 7");
    refused(
        "",
        "b 99999 9",
        21,
        "there is no worker 99999; workers are 0 to 7",
    );
    refused("", "b 0 3", 22, "there is no call 3; calls are 0 to 2");
    refused("b 0 0\n", "b 0 1", 23, "worker 0 holds call 0");
    refused("b 4 0\n", "b 0 0", 24, "call 0 runs on worker 4");
    refused(
        "b 0 0\ns 0\ns 0\ns 0\ns 0\n",
        "b 0 0",
        24,
        "call 0 is finished with outcome 0, done",
    );
    refused("", "b 0 1", 25, "call 1 waits for call 0, which is waiting");
    refused(
        "b 5 0\n",
        "b 0 1",
        25,
        "call 1 waits for call 0, which runs on worker 5",
    );
    refused(
        "b 5 0\n",
        "b 0 2",
        25,
        "call 2 waits for call 0, which runs on worker 5, and call 1, which is waiting",
    );
    let first_done = "b 0 0\ns 0\ns 0\ns 0\ns 0\n";
    refused(
        first_done,
        "b 0 2",
        25,
        "call 2 waits for call 1, which is waiting",
    );
    refused("", "c 7", 26, "worker 7 holds no call");
}

#[test]
fn a_block_without_calls_has_none_to_begin() {
    let found = remarks_on(&block("end"), b"b 0 0");
    let words: Vec<&str> = found.iter().map(|remark| remark.words.as_str()).collect();
    assert_eq!(words, ["there is no call 0; the block has no calls"]);
}

#[test]
fn the_unfinished_calls_come_last() {
    let found = remarks_on(&block(WRITERS), b"b 0 0\n");
    let last = Remark {
        line: 0,
        text: String::new(),
        number: 27,
        words:
            "3 calls unfinished: call 0 runs on worker 0; call 1 waits for call 0, which runs on \
                worker 0; call 2 waits for call 0, which runs on worker 0, and call 1, which is \
                waiting"
                .to_string(),
    };
    assert_eq!(found, [last]);
    let found = remarks_on(&block(WRITERS), b"");
    assert!(found[0]
        .words
        .contains("call 0 waits for no call and can begin; "));
}

#[test]
fn a_long_line_is_cut_and_other_bytes_are_escaped() {
    let line = [b"s 0\r\xff".as_slice(), &[b'x'; 100]].concat();
    let found = remarks_on(&block("end"), &line);
    let text = format!("s 0\\r\\xff{}.. (105 bytes)", "x".repeat(55));
    assert_eq!(found[0].text, text);
}

/// The lines that REGISTER prints for refused lines and a refused sheet.
fn printed(remarks: &[Remark]) -> String {
    let line = |remark: &Remark| format!("r {} {}\n", remark.line, remark.number);
    remarks.iter().map(line).collect()
}

#[test]
fn the_remarks_are_the_lines_that_register_prints() {
    for case in cases() {
        let output = String::from_utf8(case.output).expect("the output is text");
        let lines = output.lines().filter(|line| line.starts_with('r'));
        let expected: String = lines.map(|line| format!("{line}\n")).collect();
        if let Ok(opened) = open(&case.block, MAX_WORKERS) {
            let found = play(&case.block, &opened, &case.input).remarks;
            assert_eq!(printed(&found), expected);
        }
    }
}

/// Asserts that each line that REGISTER prints has a line of words that starts
/// with it, refused lines excepted.
fn explains(bytes: &[u8], moves: &[u8], output: &str) {
    let text = match explain::run(bytes, moves) {
        Ok(text) => text,
        Err(refused) => refused.0,
    };
    for line in output
        .lines()
        .filter(|line| !line.starts_with('r') || *line == "r 0 27")
    {
        let wanted = format!("{line}:");
        let found = text
            .lines()
            .any(|own| own == line || own.starts_with(&wanted));
        assert!(found, "{line}\n{text}");
    }
}

#[test]
fn every_line_of_register_is_in_words() {
    for example in EXAMPLES {
        explains(&example.block(), example.moves.as_bytes(), example.output);
    }
    for case in cases() {
        let output = String::from_utf8(case.output).expect("the output is text");
        explains(&case.block, &case.input, &output);
    }
}

#[test]
fn block_p_refused_moves_in_words() {
    let text = "\
accepted: 3 functions, 1 opening cell, 3 calls, 4 keys

line 1: b 1 1: 25: call 1 waits for call 0, which is waiting
line 6: s 1: 26: worker 1 holds no call

finished calls:
t 0 0 2: call 0 ended with outcome 0, done, after 2 instructions: it came to the end of \
function 0 of contract 32768

r 0 27: there is no closing sheet: 2 calls unfinished:
call 1 runs on worker 0
call 2 waits for call 1, which runs on worker 0

8 lines: 6 accepted, 2 refused (1 with number 25, 1 with number 26)
3 calls: 1 finished (1 with outcome 0)
";
    let moves = b"b 1 1\nb 0 0\ns 0\ns 0\ns 0\ns 1\ns 0\nb 0 1\n";
    assert_eq!(explain::run(&block_p(), moves).as_deref(), Ok(text));
}

#[test]
fn a_block_alone() {
    let accepted = "accepted: 3 functions, 1 opening cell, 3 calls, 4 keys\n";
    assert_eq!(explain::block(&block_p()).as_deref(), Ok(accepted));
    let refused = explain::block(&[0, 0, 4]).expect_err("the end is cut");
    assert!(
        refused.0.starts_with("e 2 0\n2 at offset 0: "),
        "{}",
        refused.0
    );
    assert_eq!(explain::run(&[0, 0, 4], b"s 0"), Err(refused));
}

#[test]
fn every_outcome_has_a_name() {
    let names: Vec<&str> = (0..=7).map(outcome).collect();
    assert!(names.iter().all(|name| *name != outcome(8)));
}
