//! The examples to hold to.

use std::collections::BTreeSet;
use std::fs;
use std::path::Path;

use runner::console::{closing, register};
use runner::examples::{example, Example, EXAMPLES};
use runner::inspect::inspect;
use runner::limits::MAX_WORKERS;
use runner::machine::{open, Machine};
use runner::refusal::MoveRefusal;

use crate::sheet_of;

/// The lines that document 01 prints of block P.
const P: &str = "k 7 0 0 0 1\nk 32768 0 0 0 1\nk 32768 1 0 0 1\nt 0 0 2\nt 1 0 3\nt 2 0 2\n";

fn named(name: &str) -> &'static Example {
    example(name).expect("the example is in the list")
}

fn block(name: &str) -> Vec<u8> {
    named(name).block()
}

#[test]
fn every_example_prints_its_output() {
    for one in EXAMPLES {
        let printed = register(&one.block(), one.moves.as_bytes());
        assert_eq!(printed, one.output, "{}", one.name);
    }
}

#[test]
fn every_file_is_of_an_example() {
    let directory = Path::new(env!("CARGO_MANIFEST_DIR")).join("examples");
    let files = fs::read_dir(directory).expect("the examples are there");
    let stems: BTreeSet<String> = files
        .map(|file| file.expect("a file").path())
        .map(|path| path.file_stem().unwrap().to_str().unwrap().to_string())
        .collect();
    let names: BTreeSet<String> = EXAMPLES.iter().map(|one| one.name.to_string()).collect();
    assert_eq!(names.len(), EXAMPLES.len());
    assert_eq!(stems, names);
}

#[test]
fn p_prints_in_full() {
    let moves = "b 0 0\ns 0\ns 0\ns 0\ns 0\nb 1 1\ns 1\ns 1\ns 1\ns 1\nb 0 2\ns 0\ns 0\ns 0\ns 0\n";
    assert_eq!(named("p").moves, moves);
    assert_eq!(register(&block("p"), moves.as_bytes()), P);
}

#[test]
fn p_rows() {
    assert_eq!(inspect(&block("p")), "n 3 1 3 4\nw 0\nw 1 0\nw 2 1\n");
}

#[test]
fn p_first_moves_that_are_refused() {
    let opened = open(&block("p"), MAX_WORKERS).unwrap();
    let mut machine = Machine::new(&opened);
    let refused = Err(MoveRefusal::EarlierUnfinished);
    assert_eq!(machine.begin(1, 1), refused);
    assert_eq!(machine.step(0), Err(MoveRefusal::WorkerIdle));
    assert_eq!(named("p_refused").output, format!("r 1 25\nr 2 26\n{P}"));
}

#[test]
fn keys25_is_refused_at_the_call() {
    assert_eq!(inspect(&block("keys25")), "e 11 208\n");
    assert_eq!(inspect(&block("keys24")), "n 1 0 1 24\nw 0\n");
}

#[test]
fn without_calls_the_sheet_is_the_opening_and_the_end() {
    let bytes = block("no_calls");
    let opened = open(&bytes, MAX_WORKERS).unwrap();
    assert_eq!(sheet_of(&Machine::new(&opened)), bytes);
}

/// Every run of an example that is accepted ends as the serial run does.
#[test]
fn every_schedule_ends_as_the_serial_run() {
    for one in EXAMPLES {
        if let Ok(opened) = open(&one.block(), MAX_WORKERS) {
            let end = runner::serial::run(&opened);
            let sheet = closing(&end.cells, end.ended.iter().map(|ended| ended.receipt));
            let refused = |line: &&str| line.starts_with('r');
            let printed: String = one
                .output
                .lines()
                .skip_while(refused)
                .map(|line| format!("{line}\n"))
                .collect();
            assert_eq!(printed, sheet, "{}", one.name);
        }
    }
}
