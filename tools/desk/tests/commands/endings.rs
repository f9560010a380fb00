//! Why calls end as they do.

use desk::explain;

use crate::block;

/// The receipt in words of the only call of a text, run to its end.
fn receipt(functions: &str, call: &str) -> String {
    let bytes = block(&format!("{functions}\ncell 5 0 0 0 9\n{call}\nend"));
    let moves = format!("b 0 0\n{}", "s 0\n".repeat(9));
    let text = explain::run(&bytes, moves.as_bytes()).expect("the block is good");
    let line = text.lines().find(|line| line.starts_with("t 0 "));
    line.expect("the call is finished").to_string()
}

fn ends(code: &str, call: &str, words: &str) {
    let functions = format!("function 32768 0\n{code}");
    assert_eq!(receipt(&functions, call), words);
}

#[test]
fn each_outcome_has_its_reason() {
    let restored = "; its cells are restored";
    ends(
        "stop",
        "call 5 32768 0 0",
        "t 0 0 1: call 0 ended with outcome 0, done, after 1 instruction: instruction 0 of \
         function 0 of contract 32768, stop",
    );
    ends(
        "",
        "call 5 32768 0 0",
        "t 0 0 0: call 0 ended with outcome 0, done, after 0 instructions: it came to the end of \
         function 0 of contract 32768",
    );
    ends(
        "stop",
        "call 5 32768 1 10",
        "t 0 1 0: call 0 ended with outcome 1, unknown function, after 0 instructions: the block \
         has no function 1 of contract 32768",
    );
    ends(
        "stop",
        "call 5 32768 0 10",
        "t 0 2 0: call 0 ended with outcome 2, the sender's balance is below the value, after 0 \
         instructions: account 5 has 9, and the value is 10",
    );
    ends(
        "set r0 1\nthrow",
        "call 5 32768 0 0",
        &format!(
            "t 0 3 2: call 0 ended with outcome 3, thrown, after 2 instructions: instruction 1 of \
             function 0 of contract 32768, throw{restored}"
        ),
    );
}

#[test]
fn fuel_that_is_out_has_its_instruction() {
    ends(
        "set r0 1\nput r0 1 zero zero\njeq r0 r0 1",
        "call 5 32768 0 3 fuel 4",
        "t 0 7 4: call 0 ended with outcome 7, out of fuel, after 4 instructions: its fuel is 4, \
         and instruction 2 of function 0 of contract 32768, jeq r0 r0 1 is due; its cells are \
         restored",
    );
    ends(
        "div r0 r0 r0\nstop",
        "call 5 32768 0 0 fuel 1",
        "t 0 6 1: call 0 ended with outcome 6, a divisor of zero, after 1 instruction: \
         instruction 0 of function 0 of contract 32768, div r0 r0 r0: 0 / 0; its cells are \
         restored",
    );
    ends(
        "set r0 1",
        "call 5 32768 0 0 fuel 1",
        "t 0 0 1: call 0 ended with outcome 0, done, after 1 instruction: it came to the end of \
         function 0 of contract 32768",
    );
}

#[test]
fn failed_arithmetic_has_its_numbers() {
    let call = "call 5 32768 0 0 4294967295";
    let fails = |code: &str, outcome: &str, reason: &str| {
        let found = receipt(&format!("function 32768 0\n{code}"), call);
        assert!(found.contains(&format!("ended with outcome {outcome}, after")));
        assert!(
            found.ends_with(&format!("{reason}; its cells are restored")),
            "{found}"
        );
    };
    let by_zero = "6, a divisor of zero";
    fails("set r0 7\ndiv r1 r0 r2", by_zero, "div r1 r0 r2: 7 / 0");
    let outside = "is outside 64 signed bits";
    let over = "4, a result outside 64 signed bits";
    fails(
        "arg r0 arg1\nmul r0 r0 r0\n",
        over,
        &format!("mul r0 r0 r0: 4294967295 * 4294967295 {outside}"),
    );
    let half = "set r0 2147483647\nset r1 2147483647\nmul r0 r0 r1\nadd r0 r0 r0\nadd r0 r0 r0\n";
    fails(
        half,
        over,
        &format!("add r0 r0 r0: 9223372028264841218 + 9223372028264841218 {outside}"),
    );
    let below = "set r0 -2147483648\nmul r0 r0 r0\nsub r1 r2 r0\nsub r1 r1 r0\n";
    fails(
        &format!("{below}sub r1 r1 r0\n"),
        over,
        &format!("sub r1 r1 r0: -9223372036854775808 - 4611686018427387904 {outside}"),
    );
    fails(
        &format!("{below}set r2 -1\ndiv r1 r1 r2\n"),
        over,
        &format!("div r1 r1 r2: -9223372036854775808 / -1 {outside}"),
    );
}

#[test]
fn failed_payments_have_their_reason() {
    let fails = |code: &str, reason: &str| {
        let found = receipt(
            &format!("function 32768 0\n{code}"),
            "call 5 32768 0 4 65541",
        );
        assert!(found.starts_with("t 0 5 "), "{found}");
        assert!(
            found.ends_with(&format!("{reason}; its cells are restored")),
            "{found}"
        );
    };
    fails(
        "set r0 -1\npay r0 sender",
        "pay r0 sender: the amount is -1, below 0",
    );
    fails(
        "set r0 5\npay r0 const 7",
        "pay r0 const 7: the amount is 5, and the contract has 4",
    );
    fails(
        "pay r0 arg1",
        "pay r0 arg1: 65541 is no account; accounts are 0 to 32767",
    );
    fails(
        "pay r0 const 32768",
        "pay r0 const 32768: 32768 is no account; accounts are 0 to 32767",
    );
    for (amount, target) in [(0, "zero"), (5, "const 0"), (-1, "arg2")] {
        fails(
            &format!("set r0 {amount}\npay r0 {target}"),
            &format!(
                "pay r0 {target}: account 0 marks withdrawn warrants, and no money goes there"
            ),
        );
    }
}
