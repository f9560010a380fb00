//! Pictures of workers against moves.

use desk::schedule::svg;
use runner::examples::example;
use runner::generate::{large_cases, small_cases};

use crate::blocks::{adding, of_example, serially, size};
use crate::xml::elements;

/// The most bytes of a picture.
const MOST_BYTES: usize = 400_000;
/// The most pixels of its sides.
const MOST_PIXELS: i64 = 2_400;

/// The picture of a run, tested for form and size.
fn picture(block: &[u8], moves: &[u8]) -> String {
    let picture = svg(block, moves).expect("the block is good");
    let elements = elements(&picture).expect("it is well-formed");
    assert_eq!(elements[..3], ["svg", "title", "desc"]);
    assert!(picture.len() <= MOST_BYTES);
    assert!(size(&picture, " width").max(size(&picture, " height")) <= MOST_PIXELS);
    assert_eq!(svg(block, moves).as_ref(), Ok(&picture));
    picture
}

/// How many bars a picture has, the samples of the legend included.
fn bars(picture: &str, class: &str) -> usize {
    picture.matches(&format!("class=\"bar {class}\"")).count()
}

#[test]
fn no_moves() {
    let picture = picture(&of_example("p"), b"");
    assert!(picture.contains("There are no moves."));
    assert!(picture.contains("No call is begun."));
}

#[test]
fn bars_are_named_and_told() {
    let picture = picture(&of_example("p"), b"b 0 0\ns 0\ns 0\ns 0\ns 0\n");
    assert_eq!(bars(&picture, "outcome0"), 1 + 1);
    assert!(picture.contains("Call 0 on worker 0, lines 1 to 5, 4 steps: outcome 0"));
    assert!(picture.contains(">0\u{2192}0</text>"));
}

#[test]
fn cancelled_and_unfinished_calls_are_marked() {
    let picture = picture(&of_example("p"), b"b 0 0\ns 0\nc 0\nb 1 0\ns 1\n");
    assert_eq!(
        (bars(&picture, "cancelled"), bars(&picture, "running")),
        (2, 2)
    );
    assert_eq!(picture.matches("class=\"cross\"").count(), 2);
    assert!(picture.contains("Call 0 on worker 1, lines 4 to 5, 1 step: not finished"));
}

#[test]
fn refused_lines_stand_in_lanes_with_their_numbers() {
    let picture = picture(&of_example("p"), b"b 1 1\nx\nb 8 0\ns 1\n");
    for lane in [
        "25 earlier unfinished",
        "0 in no form",
        "21 no such worker",
        "26 worker idle",
    ] {
        assert!(picture.contains(lane), "{lane}");
    }
    assert_eq!(picture.matches("class=\"number\"").count(), 4);
    assert!(picture.contains("Line 2 is refused with 0"));
}

#[test]
fn an_outcome_of_each_kind_of_bar_is_in_the_legend() {
    let picture = picture(&of_example("divisions"), serially(4, 66).as_bytes());
    has_outcomes(&picture, &[(0, 2), (4, 1), (6, 1)]);
    let moves = example("fuel").expect("the example is there").moves;
    let picture = self::picture(&of_example("fuel"), moves.as_bytes());
    has_outcomes(&picture, &[(0, 4), (1, 1), (7, 5)]);
    assert!(picture.contains("outcome 7: out of fuel (5 calls)"));
}

/// Asserts how many bars a picture has of each outcome, and that the legend names it.
fn has_outcomes(picture: &str, outcomes: &[(u16, usize)]) {
    for (outcome, calls) in outcomes {
        assert_eq!(bars(picture, &format!("outcome{outcome}")), calls + 1);
        assert!(picture.contains(&format!("outcome {outcome}: ")));
    }
}

#[test]
fn nine_thousand_moves_have_no_single_steps() {
    let cells = (0..256).map(|call| call % 7);
    let moves = serially(256, 6).repeat(5);
    let picture = picture(&adding(cells), moves.as_bytes());
    assert_eq!(moves.lines().count(), 8_960);
    assert_eq!(bars(&picture, "outcome0"), 256 + 1);
    assert!(!picture.contains("class=\"steps\""));
}

#[test]
fn very_many_bars_become_busy_times() {
    let moves = "b 0 0\nc 0\n".repeat(20_000);
    let picture = picture(&adding([0]), moves.as_bytes());
    assert!(picture.contains("20000 bars are too many to draw"));
    assert!(picture.len() < 60_000);
}

#[test]
fn very_many_refused_lines_stay_small() {
    let moves = "x\ns 0\nb 9 0\nb 0 9\n".repeat(50_000);
    let picture = picture(&adding([0]), moves.as_bytes());
    assert!(picture.len() < 100_000);
}

/// The texts of the axis, from left to right, each with its middle in pixels.
fn axis(picture: &str) -> Vec<(f64, &str)> {
    let lines = picture.lines();
    let numbers = lines.filter_map(|line| line.trim().strip_prefix("<text class=\"quiet middle\""));
    let numbers = numbers.map(|rest| {
        let (_, rest) = rest.split_once("x=\"").expect("a text has a place");
        let (x, rest) = rest.split_once('"').expect("its end");
        let (_, rest) = rest.split_once('>').expect("the element's end");
        let (number, _) = rest.split_once('<').expect("the text's end");
        (x.parse().expect("a number of pixels"), number)
    });
    numbers.collect()
}

#[test]
fn numbers_of_lines_stand_apart() {
    for lines in [1, 90, 9_999, 99_999, 999_999, 2_400_000] {
        let picture = svg(&of_example("p"), &b"\n".repeat(lines)).expect("P is good");
        let axis = axis(&picture);
        assert!(axis.len() > 7 || axis.len() == lines, "{lines}: {axis:?}");
        // A digit is seven pixels wide.
        let half = |number: &str| 3.5 * number.len() as f64;
        let apart =
            |one: &(f64, &str), next: &(f64, &str)| next.0 - one.0 - half(one.1) - half(next.1);
        for pair in axis.windows(2) {
            assert!(apart(&pair[0], &pair[1]) >= 4.0, "{lines}: {pair:?}");
        }
    }
}

#[test]
fn every_generated_run_has_a_picture_or_a_reason() {
    let cases = small_cases(4, 200).into_iter().chain(large_cases(9, 9));
    for case in cases {
        match case.output.first() {
            Some(b'e') => assert!(!svg(&case.block, &case.input)
                .expect_err("it is refused")
                .is_empty()),
            _ => drop(picture(&case.block, &case.input)),
        }
    }
}
