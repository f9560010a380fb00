//! Blocks for the tests.

use std::fmt::Write;

use runner::assemble::assemble;
use runner::examples::example;

/// A function that adds 1 to the cell of its argument, in four instructions.
const ADD: &str = "function 32768 1
    get r0 1 arg1 zero
    set r1 1
    add r0 r0 r1
    put r0 1 arg1 zero
";

/// The block of a text.
pub fn assembled(text: &str) -> Vec<u8> {
    assemble(text).expect("the text is a block's")
}

/// An example of document 01.
pub fn of_example(name: &str) -> Vec<u8> {
    example(name).expect("the example is in the list").block()
}

/// A block of calls that add to the cells of these numbers.
pub fn adding(cells: impl IntoIterator<Item = usize>) -> Vec<u8> {
    let mut text = ADD.to_string();
    for cell in cells {
        writeln!(text, "call 1 32768 1 0 {cell}").expect("a string takes all text");
    }
    assembled(&(text + "end"))
}

/// The moves that run calls one behind the other, each of so many steps, on
/// eight workers in turn.
pub fn serially(calls: usize, steps: usize) -> String {
    let one = |call: usize| {
        format!("b {} {call}\n", call % 8) + &format!("s {}\n", call % 8).repeat(steps)
    };
    (0..calls).map(one).collect()
}

/// The number of an attribute of a picture's first element.
pub fn size(picture: &str, attribute: &str) -> i64 {
    let first = picture.lines().next().unwrap_or_default();
    let (_, value) = first
        .split_once(&format!("{attribute}=\""))
        .expect("the attribute");
    let (number, _) = value.split_once('"').expect("its end");
    number.parse().expect("a number")
}
