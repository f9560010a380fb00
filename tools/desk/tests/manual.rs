//! The manual's block in text is a block, and runs as the manual says.

use desk::{explain, words};
use runner::assemble::assemble;
use runner::console::register;
use runner::limits::MAX_WORKERS;
use runner::machine::open;
use runner::serial;

const MANUAL: &str = include_str!("../../../docs/MANUAL.md");

/// What stands between two marks, the first time.
fn between(first: &str, last: &str) -> &'static str {
    let (_, rest) = MANUAL.split_once(first).expect("the first mark");
    let (found, _) = rest.split_once(last).expect("the last mark");
    found
}

fn block() -> Vec<u8> {
    assemble(between("<<'TEXT'\n", "TEXT\n")).expect("the manual has a block's text")
}

#[test]
fn the_block_in_text_is_accepted() {
    let printed = explain::block(&block()).expect("the block is good");
    assert!(
        MANUAL.contains(&format!("```text\n{printed}```\n")),
        "{printed}"
    );
}

#[test]
fn its_calls_take_the_steps_that_the_manual_makes() {
    let bytes = block();
    let opened = open(&bytes, MAX_WORKERS).expect("the block is good");
    let (mut moves, mut commands) = (String::new(), Vec::new());
    for (call, ended) in serial::run(&opened).ended.iter().enumerate() {
        moves += &format!("b 0 {call}\n{}", "s 0\n".repeat(ended.steps));
        commands.push(format!("whole {call} {}; ", ended.steps));
    }
    assert_eq!(
        between("\n{ ", "} | ../target/bin/register\n"),
        commands.concat()
    );
    let printed = register(&bytes, moves.as_bytes());
    assert!(
        MANUAL.contains(&format!("```text\n{printed}```\n")),
        "{printed}"
    );
    assert_eq!(
        words::play(&bytes, &opened, moves.as_bytes()).remarks.len(),
        0
    );
}

/// Each instruction and each item of a text stands in a table of the manual.
#[test]
fn every_word_of_a_text_is_told() {
    for name in runner::code::MNEMONICS {
        assert!(MANUAL.contains(&format!("`{name}")), "{name}");
    }
    for item in [
        "function CONTRACT",
        "cell ADDRESS",
        "call SENDER",
        "end`",
        "NAME:`",
    ] {
        assert!(MANUAL.contains(&format!("\n| `{item}")), "{item}");
    }
}
