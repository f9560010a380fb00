//! The lines of REGISTER.

use runner::console::{lines, parse, register};
use runner::machine::Move;

use crate::block;

#[test]
fn lines_that_are_moves() {
    let step = |worker| Some(Move::Step { worker });
    assert_eq!(parse(b"b 0 0"), Some(Move::Begin { worker: 0, call: 0 }));
    assert_eq!(
        parse(b"b 00012 99999"),
        Some(Move::Begin {
            worker: 12,
            call: 99_999
        })
    );
    assert_eq!(parse(b"s 7"), step(7));
    assert_eq!(parse(b"s 00007"), step(7));
    assert_eq!(parse(b"s 99999"), step(99_999));
    assert_eq!(parse(b"c 3"), Some(Move::Cancel { worker: 3 }));
}

#[test]
fn lines_that_are_no_moves() {
    let malformed: [&[u8]; 32] = [
        b"",
        b" ",
        b"b",
        b"b ",
        b"b 0",
        b"b 0 ",
        b"b 0 0 ",
        b"b 0 0 0",
        b" b 0 0",
        b"b  0 0",
        b"b 0  0",
        b"s",
        b"s ",
        b"s 0 ",
        b"s 0 0",
        b"s  0",
        b"c",
        b"c 0 0",
        b"s 000000",
        b"s 100000",
        b"b 0 000000",
        b"s +1",
        b"s -1",
        b"s 1.",
        b"S 0",
        b"B 0 0",
        b"s\t0",
        b"s 0\r",
        b"x 0",
        b"ss 0",
        b"s 0x0",
        b"s \xd9\xa3",
    ];
    for line in malformed {
        assert_eq!(parse(line), None, "{line:?}");
    }
}

#[test]
fn where_lines_end() {
    let split = |input: &'static [u8]| lines(input).collect::<Vec<&[u8]>>();
    assert!(split(b"").is_empty());
    assert_eq!(split(b"\n"), [b""]);
    assert_eq!(split(b"s 0"), [b"s 0"]);
    assert_eq!(split(b"s 0\n"), [b"s 0"]);
    assert_eq!(split(b"s 0\n\n"), [&b"s 0"[..], b""]);
    assert_eq!(split(b"\ns 0"), [&b""[..], b"s 0"]);
    assert_eq!(split(b"\r\n"), [b"\r"]);
}

const TEXT: &str = "function 32768 0\ncall 5 32768 0 0\nend";

#[test]
fn refused_lines_come_before_the_closing_lines() {
    let printed = register(
        &block(TEXT),
        b"s 0\n\nb 0 0\nb 8 0\nS 0\ns 0\nb 0 1\ns 0\nc 0",
    );
    assert_eq!(
        printed,
        "r 1 26\nr 2 0\nr 4 21\nr 5 0\nr 7 22\nr 9 26\nt 0 0 0\n"
    );
}

#[test]
fn an_unfinished_run_has_no_closing_lines() {
    let with_cell = "cell 5 0 0 0 1\ncall 5 32768 0 0\nend";
    assert_eq!(register(&block(with_cell), b""), "r 0 27\n");
    assert_eq!(
        register(&block(with_cell), b"b 0 0\nx\n"),
        "r 2 0\nr 0 27\n"
    );
}

#[test]
fn a_refused_block_prints_one_line_and_answers_no_move() {
    assert_eq!(register(b"", b"s 0\n\n"), "e 2 0\n");
    assert_eq!(
        register(&block("cell 5 0 0 0 1\nraw 00"), b"x\n"),
        "e 2 24\n"
    );
}

#[test]
fn an_empty_block_prints_nothing() {
    assert_eq!(register(&block("end"), b""), "");
    assert_eq!(register(&block("end"), b"b 0 0\n"), "r 1 22\n");
}

#[test]
fn a_long_line_is_one_line() {
    let mut input = vec![b'9'; 100_000];
    input.extend(b"\ns 0\n");
    assert_eq!(register(&block("end"), &input), "r 1 0\nr 2 26\n");
}
