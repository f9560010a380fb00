//! What the generated cases show.

use std::collections::BTreeSet;

use runner::console;
use runner::coverage::Coverage;
use runner::generate::loops::Loops;
use runner::generate::sized::{self, Sizes, CALL_LINES};
use runner::generate::{edges, large_cases, programs, small_cases};
use runner::limits::{MAX_BLOCK_BYTES, MAX_WORKERS};
use runner::literal::module;
use runner::machine::open;

/// As many small cases as a list of literals has.
const COUNT: usize = 170;
/// Most bytes of a small case's block.
const SMALL_BYTES: usize = 700;

#[test]
fn small_cases_show_everything_that_small_blocks_can() {
    for seed in 1..=10 {
        let coverage = Coverage::of(&small_cases(seed, COUNT));
        for number in [2, 3, 4, 5, 6, 8, 9, 10, 11] {
            assert!(
                coverage.refusals[number] >= 2,
                "seed {seed}, refusal {number}"
            );
        }
        for number in [0, 21, 22, 23, 24, 25, 26, 27] {
            assert!(
                coverage.refusals[number] >= 2,
                "seed {seed}, refusal {number}"
            );
        }
        assert!(
            coverage.outcomes.iter().all(|count| *count > 0),
            "seed {seed}"
        );
        assert!(
            coverage.opcodes.iter().all(|count| *count > 0),
            "seed {seed}"
        );
        assert!(coverage.cancels > 0 && coverage.jumps > 0, "seed {seed}");
        assert!(coverage.loops > 10, "seed {seed}");
        assert!(coverage.complete > COUNT / 3, "seed {seed}");
    }
}

#[test]
fn small_cases_are_small_and_follow_from_the_seed() {
    let cases = small_cases(7, COUNT);
    assert!(cases.iter().all(|case| case.block.len() <= SMALL_BYTES));
    assert_eq!(cases, small_cases(7, COUNT));
    assert_ne!(cases, small_cases(8, COUNT));
}

#[test]
fn edge_blocks_are_all_reached() {
    let blocks: BTreeSet<Vec<u8>> = (0..1_000).map(edges::block).collect();
    let numbers: BTreeSet<u16> = blocks
        .iter()
        .filter_map(|block| open(block, MAX_WORKERS).err())
        .map(|refusal| refusal.fault.number())
        .collect();
    assert!(blocks.len() > 120);
    assert_eq!(numbers, BTreeSet::from([2, 3, 4, 5, 6, 8, 9, 10]));
}

#[test]
fn programs_are_good_blocks() {
    assert!((0..12).all(|turn| open(&programs::block(turn), MAX_WORKERS).is_ok()));
}

#[test]
fn large_cases_reach_the_limits_and_pass_them() {
    let cases = large_cases(1, 9);
    let coverage = Coverage::of(&cases);
    assert_eq!(coverage.refusals[1], 1);
    assert_eq!(coverage.refusals[7], 3);
    assert_eq!(coverage.refusals[12], 1);
    assert_eq!(coverage.complete, 4);
    assert!(cases.iter().any(|case| case.block.len() == MAX_BLOCK_BYTES));
}

#[test]
fn a_module_holds_a_numeral_and_two_texts_a_case() {
    let mut case = small_cases(1, 1).remove(0);
    case.block = vec![0, 0, 4, 0];
    case.input = b"\"\t\x01\xd9".to_vec();
    case.output = b"r 1 0\n".to_vec();
    let text = module(7, &[case]);
    let element = "    -- 7: accepted, 0 calls, 1 lines
    case 4 0x00000400 \"\\\"\\t\\u{1}Ù\" \"r 1 0\\n\"
    ∷ []
";
    assert!(text.contains(element), "{text}");
    assert!(text.contains("pub agree : failures 7 cases ≡ []"));
}

#[test]
fn sized_cases_have_their_sizes() {
    let calls = CALL_LINES * 16;
    for (calls, keys, lines) in [
        (8, 80, CALL_LINES * 8),
        (16, 256, calls),
        (16, 256, calls + 2),
        (16, 256, calls + CALL_LINES - 1),
        (16, 256, calls + CALL_LINES),
        (16, 256, calls + CALL_LINES + 1),
        (16, 256, calls + CALL_LINES + 2),
        (20, 128, 700),
        (256, 1_024, 10_000),
    ] {
        let sizes = Sizes { calls, keys, lines };
        let case = sized::case(1, sizes).expect("the sizes fit");
        let opened = open(&case.block, MAX_WORKERS).expect("the block is good");
        assert_eq!(opened.block.calls.len(), calls, "{sizes:?}");
        assert_eq!(opened.keys, keys, "{sizes:?}");
        assert!(
            opened
                .sets
                .iter()
                .all(|sets| sets.accesses.keys().len() == 24),
            "{sizes:?}"
        );
        let input: Vec<&[u8]> = console::lines(&case.input).collect();
        assert_eq!(input.len(), lines, "{sizes:?}");
        assert!(!case.output.starts_with(b"r "), "{sizes:?}");
        let before_last = [&input[..lines - 1].join(&b'\n'), b"\n".as_slice()].concat();
        assert_eq!(
            console::register(&case.block, &before_last),
            "r 0 27\n",
            "{sizes:?}"
        );
    }
}

#[test]
fn loops_run_out_of_fuel_with_their_last_line() {
    for (calls, fuel) in [(1, 1), (3, 7), (256, 64), (1, 65_535)] {
        let loops = Loops { calls, fuel };
        let block = loops.block().expect("the sizes fit");
        let mut moves = Vec::new();
        loops.write_moves(&mut moves).expect("a vector takes all");
        assert_eq!(
            console::lines(&moves).count(),
            calls * (3 + usize::from(fuel))
        );
        let printed = console::register(&block, &moves);
        let receipts: String = (0..calls)
            .map(|call| format!("t {call} 7 {fuel}\n"))
            .collect();
        assert_eq!(printed, receipts);
        let before_last = &moves[..moves.len() - "s 0\n".len()];
        assert_eq!(console::register(&block, before_last), "r 0 27\n");
    }
    assert!(Loops {
        calls: 257,
        fuel: 1
    }
    .block()
    .is_err());
    assert!(Loops { calls: 1, fuel: 0 }.block().is_err());
}

#[test]
fn sized_cases_follow_from_the_seed() {
    let sizes = Sizes {
        calls: 20,
        keys: 128,
        lines: 800,
    };
    assert_eq!(sized::case(3, sizes), sized::case(3, sizes));
    assert_ne!(sized::case(3, sizes), sized::case(4, sizes));
}

#[test]
fn sizes_that_no_block_has_are_refused() {
    let lines = CALL_LINES * 16;
    for (calls, keys, lines) in [
        (16, 64, lines),
        (16, 100, lines),
        (256, 1_040, 10_000),
        (7, 80, lines),
        (11, 256, lines),
        (257, 256, 10_000),
        (16, 256, lines - 1),
        (16, 256, lines + 1),
    ] {
        let sizes = Sizes { calls, keys, lines };
        assert!(sized::case(1, sizes).is_err(), "{sizes:?}");
    }
}
