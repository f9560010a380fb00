//! The examples of document 003: which calls swap, which wait, and how the runs
//! end, as the paper says.

use runner::console::parse;
use runner::examples::{example, Example, EXAMPLES};
use runner::inspect::inspect;
use runner::limits::MAX_WORKERS;
use runner::machine::{open, Move};

/// The transitions of figure 3 by their calls, and its arrows.
const FIGURE_3: [&str; 3] = ["tf", "th", "tg"];
const ARROWS_3: [(&str, &str); 1] = [("tf", "tg")];
/// The transitions of figure 4 by their calls, and its arrows: the pairs of which
/// section 5 does not say that they swap.
const FIGURE_4: [&str; 4] = ["t1", "t2", "t3", "t4"];
const ARROWS_4: [(&str, &str); 3] = [("t1", "t3"), ("t1", "t4"), ("t2", "t3")];

fn named(name: &str) -> &'static Example {
    example(name).expect("the example is in the list")
}

fn listing(name: &str) -> String {
    inspect(&named(name).block())
}

/// The pairs (earlier, later) of the rows that `inspect` prints.
fn pairs(name: &str) -> Vec<(usize, usize)> {
    let mut pairs = Vec::new();
    for line in listing(name).lines().filter(|line| line.starts_with('w')) {
        let row = line.split(' ').skip(1).map(|word| word.parse().unwrap());
        let row: Vec<usize> = row.collect();
        pairs.extend(row[1..].iter().map(|earlier| (*earlier, row[0])));
    }
    pairs.sort();
    pairs
}

/// The same pairs as arrows between the transitions of a figure.
fn arrows(name: &str, transitions: &[&'static str]) -> Vec<(&'static str, &'static str)> {
    let arrow = |(earlier, later): (usize, usize)| (transitions[earlier], transitions[later]);
    pairs(name).into_iter().map(arrow).collect()
}

/// The lines of an output that begin with a letter.
fn lines(name: &str, letter: &str) -> Vec<&'static str> {
    let output = named(name).output.lines();
    output.filter(|line| line.starts_with(letter)).collect()
}

#[test]
fn figure_3_has_these_arrows() {
    assert_eq!(arrows("paper_ex7", &FIGURE_3), ARROWS_3);
    assert_eq!(listing("paper_ex7"), "n 3 0 3 3\nw 0\nw 1\nw 2 0\n");
}

#[test]
fn figure_4_has_these_arrows() {
    assert_eq!(arrows("paper_token", &FIGURE_4), ARROWS_4);
    let rows = "n 2 5 4 11\nw 0\nw 1\nw 2 0 1\nw 3 0\n";
    assert_eq!(listing("paper_token"), rows);
}

/// In the other order each pair of calls that does not swap waits the other way.
#[test]
fn reversed_calls_wait_the_other_way() {
    let mut turned: Vec<(usize, usize)> = pairs("paper_token")
        .iter()
        .map(|(earlier, later)| (3 - later, 3 - earlier))
        .collect();
    turned.sort();
    assert_eq!(pairs("paper_token_reversed"), turned);
}

#[test]
fn example_5_swaps_1_with_2_and_3_waits_for_both() {
    assert_eq!(pairs("paper_ex5"), [(0, 2), (1, 2)]);
    let end = ["k 5 0 0 0 1", "k 9 0 0 0 1", "k 32768 0 0 0 1"];
    assert_eq!(lines("paper_ex5", "k"), end);
}

#[test]
fn example_6_waits_in_both_orders_and_ends_the_same() {
    for (one, other) in [
        ("paper_ex6", "paper_ex6_swapped"),
        ("paper_ex6_guard", "paper_ex6_guard_swapped"),
    ] {
        assert_eq!(pairs(one), [(0, 1)]);
        assert_eq!(pairs(other), [(0, 1)]);
        assert_eq!(lines(one, "k"), lines(other, "k"));
    }
    let end = [
        "k 5 0 0 0 1",
        "k 7 0 0 0 1",
        "k 32768 0 0 0 5",
        "k 32768 1 0 0 1",
        "k 32768 2 0 0 1",
    ];
    assert_eq!(lines("paper_ex6", "k"), end);
    assert_eq!(lines("paper_ex6_guard", "t"), ["t 0 3 6", "t 1 0 7"]);
}

#[test]
fn examples_7_and_8_end_as_the_paper_says() {
    let end = ["k 32768 2 0 0 1", "k 32768 3 0 0 1"];
    assert_eq!(lines("paper_ex7", "k"), end);
    assert_eq!(pairs("paper_ex8"), [(0, 1)]);
    assert_eq!(lines("paper_ex8", "k"), ["k 32768 1 0 0 1"]);
    assert_eq!(lines("paper_ex8", "t"), ["t 0 0 4", "t 1 3 3"]);
}

#[test]
fn the_token_ends_with_its_new_owners() {
    let end = [
        "k 32768 1 1 0 7",
        "k 32768 1 2 0 12",
        "k 32768 2 1 0 1",
        "k 32768 2 2 0 1",
        "k 32768 3 7 0 1",
        "k 32768 3 12 0 1",
        "k 32768 4 5 7 1",
    ];
    assert_eq!(lines("paper_token", "k"), end);
    let reversed = ["t 0 3 6", "t 1 3 12", "t 2 0 2", "t 3 0 18"];
    assert_eq!(lines("paper_token_reversed", "t"), reversed);
}

/// The steps of the paper's firing sequences are enabled, or refused with 25.
#[test]
fn firing_sequences_are_refused_where_the_paper_says() {
    assert!(lines("paper_ex9_u", "r").is_empty());
    assert!(lines("paper_ex9_u1", "r").is_empty());
    assert_eq!(lines("paper_ex9_u2", "r"), ["r 7 25", "r 13 25"]);
    assert_eq!(lines("paper_token_u", "r"), ["r 3 25", "r 4 25"]);
}

/// How many workers begin a call in the moves of an example.
fn workers(one: &Example) -> usize {
    let begins = one.moves.lines().map(|line| parse(line.as_bytes()));
    let mut workers: Vec<usize> = begins
        .filter_map(|chosen| match chosen {
            Some(Move::Begin { worker, .. }) => Some(worker),
            _ => None,
        })
        .collect();
    workers.sort();
    workers.dedup();
    workers.len()
}

#[test]
fn every_block_of_the_paper_is_run_by_several_workers() {
    let paper = || EXAMPLES.iter().filter(|one| one.name.starts_with("paper"));
    for one in paper() {
        assert!(open(&one.block(), MAX_WORKERS).is_ok(), "{}", one.name);
        let same = paper().filter(|other| other.text == one.text);
        assert!(same.map(workers).max() > Some(1), "{}", one.name);
    }
}
