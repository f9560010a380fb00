//! The examples of the README are what the program prints.

use desk::{disassemble, explain, inspect};
use runner::examples::example;

use crate::block_p;

const README: &str = include_str!("../../README.md");

/// A text as it stands in the README.
fn indented(text: &str) -> String {
    let indent = |line: &str| match line {
        "" => "\n".to_string(),
        _ => format!("    {line}\n"),
    };
    text.lines().map(indent).collect()
}

/// Asserts that the README has a text, or a paragraph of it.
fn shows(text: &str) {
    assert!(README.contains(&indented(text)), "{text}");
}

#[test]
fn the_run_of_p() {
    let p = example("p_refused").expect("it is an example");
    let text = explain::run(&p.block(), p.moves.as_bytes()).expect("P is good");
    shows(&text);
}

#[test]
fn a_refused_block() {
    let mut bytes = block_p();
    bytes[17] = 8;
    let refused = explain::block(&bytes).expect_err("there is no register 8");
    shows(&refused.0);
}

#[test]
fn a_sheet_in_place_of_a_block() {
    let sheet = crate::block("cell 7 0 0 0 1\nraw 04000500 00000200\nend");
    let refused = explain::block(&sheet).expect_err("a sheet is no block");
    shows(&refused.0);
}

#[test]
fn a_call_and_a_function_of_p() {
    let paragraph = |text: &str, index: usize| {
        let found = text.split("\n\n").nth(index);
        found.expect("the text has this paragraph").to_string()
    };
    let text = inspect::inspect(&block_p()).expect("P is good");
    shows(&paragraph(&text, 3));
    shows(&paragraph(&disassemble::disassemble(&block_p()), 2));
}

#[test]
fn a_call_with_fuel_and_one_that_has_none_left() {
    let text = disassemble::disassemble(&block_p());
    let line = text.lines().find(|line| line.ends_with("# call 1"));
    shows(line.expect("P has a call 1"));
    let bytes = crate::block(
        "function 32768 0\nset r0 1\nput r0 1 zero zero\njeq r0 r0 1\n\
         call 5 32768 0 0 fuel 4\nend",
    );
    let text = explain::run(&bytes, b"b 0 0\ns 0\ns 0\ns 0\ns 0\ns 0\ns 0\n");
    let text = text.expect("the block is good");
    let line = text.lines().find(|line| line.starts_with("t 0 7 4"));
    shows(line.expect("the call is out of fuel"));
}
