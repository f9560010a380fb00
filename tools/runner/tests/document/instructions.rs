//! Each instruction, by what it leaves in field 9 or as a receipt.

use crate::{opened, refusal, serially};

/// Runs code with value 3 and arguments 5, 65541, 32768 and 2^32 - 1 from
/// account 7, which opens with 10. Field 1 opens with -2^63, field 2 with
/// 2^63 - 1.
fn run(code: &str) -> String {
    serially(&format!(
        "function 40000 0\n{code}\n\
         cell 7 0 0 0 10\n\
         cell 40000 1 0 0 {}\n\
         cell 40000 2 0 0 {}\n\
         call 7 40000 0 3 5 65541 32768 4294967295\n\
         end",
        i64::MIN,
        i64::MAX
    ))
}

/// Asserts the value that code leaves in r0 and so in field 9.
fn leaves(code: &str, value: i64) {
    let printed = run(&format!("{code}\nput r0 9 zero zero"));
    let line = format!("k 40000 9 0 0 {value}\n");
    assert!(printed.contains(&line), "{code}\n{printed}");
}

/// Asserts the outcome and count of code, and that an abort restores all.
fn ends(code: &str, outcome: u16, count: u16) {
    let printed = run(code);
    let receipt = format!("t 0 {outcome} {count}\n");
    assert!(printed.ends_with(&receipt), "{code}\n{printed}");
    if outcome > 0 {
        assert!(
            printed.starts_with("k 7 0 0 0 10\nk 40000 1 0 0"),
            "{printed}"
        );
    }
}

#[test]
fn loads() {
    leaves("set r0 -1", -1);
    leaves("set r0 -2147483648", -2_147_483_648);
    leaves("set r0 2147483647", 2_147_483_647);
    leaves("arg r0 arg1", 5);
    leaves("arg r0 arg4", 4_294_967_295);
    leaves("sender r0", 7);
    leaves("value r0", 3);
    leaves("bal r0", 3);
    leaves("get r0 1 zero zero", i64::MIN);
}

#[test]
fn arithmetic() {
    let on = |y: i32, z: i32, name: &str| format!("set r1 {y}\nset r2 {z}\n{name} r0 r1 r2");
    leaves(&on(2, 3, "add"), 5);
    leaves(&on(2, 3, "sub"), -1);
    leaves(&on(-2, 3, "mul"), -6);
    for (y, z, quotient) in [
        (-7, 2, -4),
        (7, -2, -4),
        (7, 2, 3),
        (-7, -2, 3),
        (-6, 2, -3),
    ] {
        leaves(&on(y, z, "div"), quotient);
    }
    leaves("set r0 3\nadd r0 r0 r0", 6);
}

#[test]
fn results_outside_64_bits() {
    let least = "get r1 1 zero zero\nset r2 -1";
    let largest = "get r1 2 zero zero\nset r2 1";
    ends(&format!("{largest}\nadd r0 r1 r2"), 4, 3);
    ends(&format!("{largest}\nmul r0 r1 r1"), 4, 3);
    ends(&format!("{least}\nadd r0 r1 r2"), 4, 3);
    ends(&format!("{least}\nsub r0 r2 r1\nsub r0 r0 r1"), 4, 4);
    ends(&format!("{least}\nmul r0 r1 r2"), 4, 3);
    ends(&format!("{least}\ndiv r0 r1 r2"), 4, 3);
    leaves(&format!("{least}\nsub r0 r2 r1"), i64::MAX);
    leaves(&format!("{largest}\ndiv r0 r1 r2"), i64::MAX);
}

#[test]
fn sources_of_cells() {
    let printed =
        run("set r0 8\nput r0 3 arg4 sender\nput r0 4 zero const 65535\nput r0 5 arg2 arg3");
    assert!(printed.contains("k 40000 3 4294967295 7 8\n"), "{printed}");
    assert!(printed.contains("k 40000 4 0 65535 8\n"), "{printed}");
    assert!(printed.contains("k 40000 5 65541 32768 8\n"), "{printed}");
}

#[test]
fn payments() {
    let pay = |amount: i32, target: &str| format!("set r0 {amount}\npay r0 {target}");
    for target in ["arg1", "sender", "const 1", "const 32767"] {
        ends(&pay(3, target), 0, 2);
        ends(&pay(0, target), 0, 2);
        ends(&pay(4, target), 5, 2);
        ends(&pay(-1, target), 5, 2);
    }
    for target in ["zero", "arg2", "arg3", "arg4", "const 32768", "const 40000"] {
        ends(&pay(0, target), 5, 2);
    }
    assert!(run(&pay(2, "sender")).starts_with("k 7 0 0 0 9\nk 40000 0 0 0 1\n"));
    assert!(run(&pay(2, "const 1")).starts_with("k 1 0 0 0 2\nk 7 0 0 0 7\n"));
}

/// Whether a jump passes over the instruction behind it.
fn jumps(test: &str) -> bool {
    let printed = run(&format!(
        "set r1 1\n{test} over\nset r0 5\nover:\nput r0 9 zero zero"
    ));
    !printed.contains("k 40000 9 0 0 5\n")
}

#[test]
fn jumps_compare_signed_numbers() {
    assert!(jumps("jeq r1 r1"));
    assert!(!jumps("jeq r1 r2"));
    assert!(jumps("jlt r2 r1"));
    assert!(!jumps("jlt r1 r1"));
    assert!(!jumps("jlt r1 r2"));
    assert!(jumps("set r3 -1\njlt r3 r2"));
}

#[test]
fn ends_of_code() {
    ends("stop\nthrow", 0, 1);
    ends("throw", 3, 1);
    ends("", 0, 0);
    ends("jeq r0 r0 2\nthrow", 0, 1);
}

#[test]
fn entry() {
    let one = |balance: i64, function: u16, value: i64| {
        serially(&format!(
            "function 32768 0\nstop\ncell 5 0 0 0 {balance}\ncall 5 32768 {function} {value}\nend"
        ))
    };
    assert_eq!(one(2, 0, 2), "k 32768 0 0 0 2\nt 0 0 1\n");
    assert_eq!(one(2, 0, 3), "k 5 0 0 0 2\nt 0 2 0\n");
    assert_eq!(one(2, 1, 3), "k 5 0 0 0 2\nt 0 1 0\n");
    assert_eq!(one(2, 1, 1), "k 5 0 0 0 2\nt 0 1 0\n");
    assert_eq!(
        one(i64::MAX, 0, i64::MAX),
        format!("k 32768 0 0 0 {}\nt 0 0 1\n", i64::MAX)
    );
}

#[test]
fn the_longest_code_takes_66_steps() {
    let code = "set r0 1\n".repeat(64);
    let opened = opened(&format!("function 32768 0\n{code}call 5 32768 0 0\nend"));
    assert_eq!(runner::serial::run(&opened).ended[0].steps, 66);
}

#[test]
fn sets_count_instructions_that_are_not_reached() {
    let text = |code: &str| {
        let gets: String = (1..=25)
            .map(|field| format!("get r0 {field} zero zero\n"))
            .collect();
        crate::block(&format!(
            "function 32768 0\n{code}\n{gets}call 5 32768 0 0\nend"
        ))
    };
    assert_eq!(refusal(&text("stop")).0, 11);
    assert_eq!(refusal(&text("throw")).0, 11);
}
