//! The example days at the top of the repository. What is stored beside each text
//! is what the code makes of it. `WRITE_EXAMPLES=1 cargo test --test examples`
//! writes the stored files anew.

use std::collections::BTreeSet;
use std::path::PathBuf;
use std::{env, fs};

use desk::trace::{play, Span, SpanEnd, Trace};
use desk::{schedule, waits};
use runner::assemble::assemble;
use runner::console::register;
use runner::execute::Outcome;
use runner::limits::MAX_WORKERS;
use runner::machine::{open, Opened};

/// With this variable the files are written and not compared.
const WRITE: &str = "WRITE_EXAMPLES";
/// The days, each with its pictures.
const DAYS: [&str; 3] = ["sale", "pledge", "crowded"];
/// The day that opens with the sale's closing sheet.
const NEXT: &str = "sale_next";

fn path(file: &str) -> PathBuf {
    let crate_folder = PathBuf::from(env!("CARGO_MANIFEST_DIR"));
    crate_folder.join("../../examples").join(file)
}

fn read(file: &str) -> String {
    fs::read_to_string(path(file)).unwrap_or_else(|error| panic!("examples/{file}: {error}"))
}

/// Compares a stored file with what the code makes, or writes it.
fn holds(file: &str, made: &str) {
    if env::var_os(WRITE).is_some() {
        fs::write(path(file), made).expect("the folder can be written");
    }
    assert!(
        read(file) == made,
        "examples/{file} is not what the code makes: {WRITE}=1 cargo test --test examples writes it anew"
    );
}

fn block(name: &str) -> Vec<u8> {
    let text = read(&format!("{name}.txt"));
    assemble(&text).unwrap_or_else(|error| panic!("examples/{name}.txt, {error}"))
}

fn moves(name: &str) -> String {
    read(&format!("{name}.moves"))
}

fn opened(name: &str) -> Opened {
    open(&block(name), MAX_WORKERS).expect("the block is good")
}

/// The block of the next day: the sale's closing cells between the functions and
/// the calls of its text.
fn next_block() -> Vec<u8> {
    let sheet = register(&block("sale"), moves("sale").as_bytes());
    let cells = sheet.lines().filter_map(|line| line.strip_prefix("k "));
    let cells: String = cells.map(|cell| format!("cell {cell}\n")).collect();
    let text = read(&format!("{NEXT}.txt"));
    let calls = text.find("\ncall ").expect("the day has calls") + 1;
    let joined = format!("{}{cells}{}", &text[..calls], &text[calls..]);
    assemble(&joined).expect("the joined text is a block's")
}

/// The numbers of all refused lines.
fn refusals(trace: &Trace) -> BTreeSet<u16> {
    trace.refused().map(|(_, _, number)| number).collect()
}

/// The outcomes of all calls, in block order.
fn outcomes(trace: &Trace) -> Vec<u16> {
    let receipts = trace.end.receipts().expect("the day comes to its end");
    receipts
        .iter()
        .map(|receipt| receipt.outcome.number())
        .collect()
}

/// Whether two calls are held by two workers at the same time.
fn at_once(spans: &[Span], one: usize, other: usize) -> bool {
    let of = |call: usize| spans.iter().filter(move |span| span.call == call);
    of(one).any(|one| of(other).any(|other| one.first < other.last && other.first < one.last))
}

#[test]
fn stored_files_are_what_the_code_makes() {
    for name in DAYS {
        let (block, moves) = (block(name), moves(name));
        holds(&format!("{name}.out"), &register(&block, moves.as_bytes()));
        let waits = waits::svg(&block).expect("the block is good");
        holds(&format!("{name}.waits.svg"), &waits);
        let schedule = schedule::svg(&block, moves.as_bytes()).expect("the block is good");
        holds(&format!("{name}.schedule.svg"), &schedule);
    }
    let next = register(&next_block(), moves(NEXT).as_bytes());
    holds(&format!("{NEXT}.out"), &next);
}

#[test]
fn every_file_belongs_to_a_day() {
    let mut expected: BTreeSet<String> = ["README.md".to_string()].into();
    for name in DAYS {
        for kind in ["txt", "moves", "out", "waits.svg", "schedule.svg"] {
            expected.insert(format!("{name}.{kind}"));
        }
    }
    for kind in ["txt", "moves", "out"] {
        expected.insert(format!("{NEXT}.{kind}"));
    }
    let files = fs::read_dir(path("")).expect("the folder is there");
    let names = files.map(|file| file.expect("a file").file_name());
    let names: BTreeSet<String> = names
        .map(|name| name.into_string().expect("a plain name"))
        .collect();
    assert_eq!(names, expected);
}

#[test]
fn the_readme_shows_every_picture_and_output() {
    let readme = read("README.md");
    for name in DAYS {
        for picture in ["waits", "schedule"] {
            assert!(
                readme.contains(&format!("({name}.{picture}.svg)")),
                "{name} {picture}"
            );
        }
    }
    for name in DAYS.into_iter().chain([NEXT]) {
        let output = read(&format!("{name}.out"));
        let shown = format!("register < ../examples/{name}.moves\n```\n```text\n{output}```\n");
        assert!(readme.contains(&shown), "{name}.out");
    }
}

#[test]
fn unrelated_sales_run_at_once() {
    let opened = opened("sale");
    let trace = play(&opened, moves("sale").as_bytes());
    assert!(at_once(&trace.spans(), 0, 3));
    assert_eq!(outcomes(&trace), [0, 0, 3, 0, 3, 0]);
}

#[test]
fn a_pledge_is_released_when_nothing_is_due() {
    let opened = opened("pledge");
    let trace = play(&opened, moves("pledge").as_bytes());
    assert_eq!(outcomes(&trace), [0, 0, 3, 0, 0, 0, 0, 0, 3, 0]);
    assert!(at_once(&trace.spans(), 2, 3) && at_once(&trace.spans(), 6, 7));
}

#[test]
fn a_crowded_day_has_every_outcome_and_refusal() {
    let opened = opened("crowded");
    let trace = play(&opened, moves("crowded").as_bytes());
    let spans = trace.spans();
    assert_eq!(
        BTreeSet::from_iter(outcomes(&trace)),
        BTreeSet::from_iter(0..=Outcome::LAST.number())
    );
    assert_eq!(
        refusals(&trace),
        BTreeSet::from([0, 21, 22, 23, 24, 25, 26])
    );
    let workers: BTreeSet<usize> = spans.iter().map(|span| span.worker).collect();
    assert_eq!(workers.len(), 7);
    let cancelled = spans.iter().filter(|span| span.end == SpanEnd::Cancelled);
    let cancelled: Vec<usize> = cancelled.map(|span| span.call).collect();
    assert_eq!(cancelled, [13, 1]);
}

#[test]
fn the_next_day_needs_the_closing_sheet() {
    let alone = open(&block(NEXT), MAX_WORKERS).expect("the block is good");
    assert!(alone.block.opening.is_empty());
    let joined = open(&next_block(), MAX_WORKERS).expect("the block is good");
    let trace = play(&joined, moves(NEXT).as_bytes());
    assert_eq!(outcomes(&trace), [3, 0, 0]);
}
