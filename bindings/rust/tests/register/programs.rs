//! The programs of the examples and the test of the header, built and run.

use std::env;
use std::ffi::OsStr;
use std::fs;
use std::path::{Path, PathBuf};
use std::process::{Command, Output};

use runner::examples::EXAMPLES;
use runner::generate::large_cases;
use runner::lent::{self, Sizes};
use runner::limits::MAX_SHEET_BYTES;
use runner::machine;

/// The workers of the examples.
const WORKERS: usize = 3;

/// How many large blocks they are run on.
const LARGE: usize = 9;

fn output(program: impl AsRef<OsStr>, words: &[&Path]) -> Output {
    let program = program.as_ref();
    let run = Command::new(program).args(words).output();
    run.unwrap_or_else(|error| panic!("{}: {error}", program.display()))
}

/// Builds a program of `bindings/c`.
fn build(name: &str) -> PathBuf {
    let program = PathBuf::from(env!("CARGO_TARGET_TMPDIR")).join(name);
    let source = Path::new(env!("CARGO_MANIFEST_DIR"))
        .join("../c")
        .join(name);
    let built = Command::new("cc")
        .args(["-std=c11", "-O2", "-Wall", "-Wextra", "-Werror", "-o"])
        .args([&program, &source.with_extension("c")])
        .arg(env!("ZUMBIQA_ARCHIVE"))
        .status()
        .expect("there is a C compiler, cc");
    assert!(built.success(), "{name}");
    program
}

/// The example in Rust, which stands beside the folder of this test.
fn rust_example() -> PathBuf {
    let test = env::current_exe().expect("the test has a place");
    let folder = test.ancestors().nth(2).expect("it is in a folder of cargo");
    folder.join("examples/three_workers")
}

/// The sheet of the serial run by the runner, if the block is opened.
fn sheet(block: &[u8]) -> Option<Vec<u8>> {
    machine::open(block, WORKERS).ok()?;
    let (_, mut run) = lent::open(block, WORKERS, Sizes::FIXED);
    run.run_serially(block);
    let mut bytes = vec![0; MAX_SHEET_BYTES];
    let length = run.sheet(&mut bytes).expect("every call is finished");
    bytes.truncate(length);
    Some(bytes)
}

#[test]
fn the_header_is_the_librarys() {
    let found = output(build("test"), &[]);
    assert!(found.status.success(), "{found:?}");
}

#[test]
fn the_examples_write_the_runners_sheet() {
    let programs = [build("example"), rust_example()];
    let blocks = EXAMPLES.iter().map(|example| example.block());
    let large = large_cases(2_306, LARGE).into_iter().map(|case| case.block);
    for (number, block) in blocks.chain(large).enumerate() {
        let path = Path::new(env!("CARGO_TARGET_TMPDIR")).join(format!("{number}.bin"));
        fs::write(&path, &block).expect("the block is written");
        for program in &programs {
            let found = output(program, &[&path]);
            assert_eq!(found.status.success(), sheet(&block).is_some());
            assert_eq!(found.stdout, sheet(&block).unwrap_or_default());
        }
    }
}
