//! Blocks in words.

use desk::inspect::inspect;
use runner::examples::EXAMPLES;
use runner::inspect::inspect as runner_inspect;

use crate::{block, block_p, cases};

#[test]
fn block_p_in_words() {
    let text = "\
232 of 65536 bytes
3 of 64 functions
1 of 1024 opening cells
3 of 256 calls
4 of 1024 keys in opening and sets together
2 of 9223372036854775807 in opening balances

function 0 of contract 32768: 2 of 64 instructions
function 1 of contract 32768: 5 of 64 instructions
function 2 of contract 32768: 2 of 64 instructions

call 0: account 5 calls function 0 of contract 32768, with value 0, arguments 0 0 0 0 and fuel 64
  1 of 24 keys
  reads nothing
  writes field 1 [0, 0] of contract 32768
  waits for no call

call 1: account 5 calls function 1 of contract 32768, with value 1, arguments 0 0 0 0 and fuel 64
  4 of 24 keys
  reads balance of account 5; balance of contract 32768; field 1 [0, 0] of contract 32768
  writes balance of account 5; balance of account 7; balance of contract 32768
  waits for call 0
    field 1 [0, 0] of contract 32768: call 0 writes it, call 1 reads it

call 2: account 5 calls function 2 of contract 32768, with value 1, arguments 0 0 0 0 and fuel 64
  3 of 24 keys
  reads balance of account 5; balance of contract 32768
  writes balance of account 5; balance of account 7; balance of contract 32768
  waits for call 1
    balance of account 5: call 1 reads and writes it, call 2 reads and writes it
    balance of account 7: call 1 writes it, call 2 writes it
    balance of contract 32768: call 1 reads and writes it, call 2 reads and writes it
";
    assert_eq!(inspect(&block_p()).as_deref(), Ok(text));
}

#[test]
fn an_unknown_function_and_a_block_of_an_end() {
    let text = inspect(&block("call 5 32768 9 1 2 3\nend")).expect("the block is good");
    let call = "call 0: account 5 calls function 9 of contract 32768, which is not in the block, \
                with value 1, arguments 2 3 0 0 and fuel 64\n  0 of 24 keys\n  reads nothing\n";
    assert!(text.contains(call), "{text}");
    let text = inspect(&block("end")).expect("the block is good");
    assert!(
        text.starts_with("4 of 65536 bytes\n0 of 64 functions\n"),
        "{text}"
    );
}

#[test]
fn a_cell_that_both_only_read_is_no_reason() {
    let text = "
        function 32768 0
            get r0 1 zero zero
            put r0 2 arg1 zero
        call 5 32768 0 0 4
        call 5 32768 0 0 6
        call 5 32768 0 0 4
        end";
    let text = inspect(&block(text)).expect("the block is good");
    let waits = "  waits for call 0
    field 2 [4, 0] of contract 32768: call 0 writes it, call 2 writes it
";
    assert!(text.ends_with(waits), "{text}");
    assert_eq!(text.matches("waits for no call").count(), 2);
}

/// The waiting rows that a text in words tells, as the runner prints them.
fn rows(text: &str) -> String {
    let mut rows = String::new();
    for line in text.lines() {
        if let Some(call) = line.strip_prefix("call ") {
            rows += &format!("\nw {}", call.split(':').next().unwrap_or_default());
        } else if let Some(earlier) = line.strip_prefix("  waits for call ") {
            rows += &format!(" {earlier}");
        }
    }
    rows
}

#[test]
fn the_rows_are_the_runners_and_each_has_a_reason() {
    let examples = EXAMPLES.iter().map(|example| example.block());
    let generated = cases().into_iter().map(|case| case.block);
    for bytes in examples.chain(generated) {
        let Ok(text) = inspect(&bytes) else {
            continue;
        };
        let expected: String = runner_inspect(&bytes)
            .lines()
            .skip(1)
            .map(|line| format!("\n{line}"))
            .collect();
        assert_eq!(rows(&text), expected);
        let waits = text.matches("  waits for call ").count();
        assert_eq!(text.matches("waits for call ").count(), waits);
        let without_reason = text
            .lines()
            .zip(text.lines().skip(1))
            .any(|(line, next)| line.starts_with("  waits for call ") && !next.starts_with("    "));
        assert!(!without_reason, "{text}");
    }
}

#[test]
fn a_refused_block_is_explained() {
    let refused = inspect(&[]).expect_err("nothing is no block");
    assert!(
        refused.0.starts_with("e 2 0\n2 at offset 0: "),
        "{}",
        refused.0
    );
}
