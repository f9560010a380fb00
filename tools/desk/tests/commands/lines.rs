//! Lines that are no moves.

use desk::words::line_fault;
use runner::console::parse;
use runner::generate::moves::MALFORMED;
use runner::rng::Rng;

fn fails(line: &[u8], column: usize, reason: &str) {
    let fault = line_fault(line).expect("the line is no move");
    let shown = line.escape_ascii();
    assert_eq!(
        (fault.column, fault.reason.as_str()),
        (column, reason),
        "{shown}"
    );
}

#[test]
fn each_fault_has_its_column_and_reason() {
    fails(b"", 1, "the line is empty");
    fails(b" s 0", 1, "a space before the move");
    fails(b"S 0", 1, "a capital S; moves are b, s and c");
    fails(b"x 0", 1, "unknown letter x; moves are b, s and c");
    fails(b"\xff", 1, "byte 0xff, which has no place in a move");
    fails(b"s", 2, "the worker is missing");
    fails(b"ss 0", 2, "s where a space or a number is due");
    fails(b"s ", 3, "the worker is missing behind the space");
    fails(b"s  0", 3, "two spaces; one divides the parts");
    fails(b"s\t0", 2, "a tab; one space divides the parts");
    fails(b"s +0", 3, "a sign; numbers are of digits alone");
    fails(b"b -1 0", 3, "a sign; numbers are of digits alone");
    fails(b"s 000000", 3, "a number of 6 digits; at most 5 are one");
    fails(b"b 0 123456", 5, "a number of 6 digits; at most 5 are one");
    fails(b"b 0", 4, "the call is missing");
    fails(b"b 0 ", 5, "the call is missing behind the space");
    fails(
        b"s 0\r",
        4,
        "a carriage return; a line ends in a line feed alone",
    );
    fails(b"s 0 ", 4, "a space at the end of the line");
    fails(b"s 0 0", 4, "one part too many");
    fails(b"b 0 0 0", 6, "one part too many");
    fails(b"s 0x1", 4, "x where a space or a number is due");
}

#[test]
fn a_line_has_a_fault_exactly_if_it_is_no_move() {
    for line in MALFORMED {
        assert!(line_fault(line).is_some(), "{}", line.escape_ascii());
    }
    let mut rng = Rng::new(3);
    let mut moves = 0;
    for _ in 0..200_000 {
        let length = rng.below(9);
        let line: Vec<u8> = (0..length)
            .map(|_| rng.pick(b"bsc   0199xB\r\xc3"))
            .collect();
        assert_eq!(
            line_fault(&line).is_none(),
            parse(&line).is_some(),
            "{}",
            line.escape_ascii()
        );
        moves += usize::from(line_fault(&line).is_none());
    }
    assert!(moves > 100, "{moves}");
}
