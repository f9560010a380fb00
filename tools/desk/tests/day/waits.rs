//! Pictures of who waits for whom.

use desk::waits::svg;
use runner::generate::{large_cases, small_cases};

use crate::blocks::{adding, assembled, of_example, size};
use crate::xml::elements;

/// The most bytes of a picture.
const MOST_BYTES: usize = 200_000;
/// The most pixels of its sides.
const MOST_PIXELS: i64 = 2_000;

/// The picture of a block, tested for form and size.
fn picture(block: &[u8]) -> String {
    let picture = svg(block).expect("the block is good");
    let elements = elements(&picture).expect("it is well-formed");
    assert_eq!(elements[..3], ["svg", "title", "desc"]);
    assert!(picture.len() <= MOST_BYTES);
    assert!(size(&picture, " width").max(size(&picture, " height")) <= MOST_PIXELS);
    assert_eq!(svg(block).as_ref(), Ok(&picture));
    picture
}

/// How many boxes of calls a picture has.
fn boxes(picture: &str) -> usize {
    picture.matches("class=\"call").count()
}

/// How many heads a path of a class has.
fn heads(picture: &str, class: &str) -> usize {
    let start = format!("<path class=\"{class}\"");
    let paths = picture.lines().filter(|line| line.starts_with(&start));
    paths.map(|line| line.matches('z').count()).sum()
}

#[test]
fn no_calls() {
    let picture = picture(&of_example("no_calls"));
    assert!(picture.contains("The block has no calls."));
    assert_eq!(boxes(&picture), 0);
}

#[test]
fn one_call() {
    let picture = picture(&adding([0]));
    assert_eq!(boxes(&picture), 1);
    assert!(picture.contains("Call 0 waits for none."));
}

/// In document 01's block P call 1 waits for 0 and call 2 for 1. Each sample of
/// the legend has a head too.
#[test]
fn three_calls_in_a_chain() {
    let picture = picture(&of_example("p"));
    assert_eq!((boxes(&picture), heads(&picture, "head")), (3, 2 + 1));
    assert!(picture.contains("Call 1 waits for 0. Call 2 waits for 1."));
    assert!(picture.contains("calls 3, pairs 2, longest chain 3"));
}

#[test]
fn arrows_that_follow_from_others_are_faint() {
    let picture = picture(&adding([0, 0, 0]));
    assert_eq!(heads(&picture, "head"), 2 + 1);
    assert_eq!(heads(&picture, "implied-head"), 1 + 1);
}

#[test]
fn forty_calls_with_few_conflicts_are_boxes() {
    let picture = picture(&adding((0..40).map(|call| call % 13)));
    assert_eq!((boxes(&picture), heads(&picture, "head")), (40, 27 + 1));
}

#[test]
fn forty_calls_in_one_chain_are_a_matrix_with_names() {
    let picture = picture(&adding([0; 40]));
    assert_eq!(boxes(&picture), 0);
    assert_eq!(picture.matches("32768 f1</text>").count(), 40);
    assert!(picture.contains("the row&#39;s call waits for the column&#39;s: 39"));
}

#[test]
fn calls_without_arrows_are_boxes_however_many() {
    let picture = picture(&adding(0..256));
    assert_eq!((boxes(&picture), heads(&picture, "head")), (256, 0));
}

#[test]
fn all_of_256_calls_conflict() {
    let picture = picture(&adding([0; 256]));
    assert!(picture.contains("calls 256, pairs 32640, longest chain 256"));
    assert!(picture.contains("waits, which follows from others: 32385"));
    assert!(picture.len() < 30_000);
}

#[test]
fn every_generated_block_has_a_picture_or_a_reason() {
    let cases = small_cases(3, 200).into_iter().chain(large_cases(9, 9));
    for case in cases {
        match case.output.first() {
            Some(b'e') => assert!(!svg(&case.block).expect_err("it is refused").is_empty()),
            _ => drop(picture(&case.block)),
        }
    }
}

#[test]
fn unknown_functions_are_marked() {
    let picture = picture(&assembled("call 1 32768 9 0\nend"));
    assert!(picture.contains("32768 f9?"));
    assert!(picture.contains("no such function"));
}
