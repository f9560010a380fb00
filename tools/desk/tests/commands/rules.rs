//! The rules of instructions and the words for instructions.

use desk::words::{broken_rules, instruction};
use runner::code::{decode, Parts};
use runner::rng::Rng;

/// Asserts the rules that the parts break as one of 5 instructions.
fn breaks(parts: (u8, u8, u8, u8, u32), rules: &[&str]) {
    let (op, x, y, z, w) = parts;
    assert_eq!(broken_rules(Parts { op, x, y, z, w }, 5), rules);
}

#[test]
fn each_rule_has_its_words() {
    breaks((16, 9, 0, 0, 1), &["op 16: there are 0 to 15"]);
    breaks((2, 8, 0, 0, 1), &["x is 8: registers are 0 to 7"]);
    breaks((3, 0, 5, 0, 0), &["y is 5: arguments are 1 to 4"]);
    breaks((3, 0, 0, 0, 0), &["y is 0: arguments are 1 to 4"]);
    breaks((0, 0, 0, 3, 0), &["z is 3: it is unused, so it is 0"]);
    breaks((6, 0, 0, 0, 9), &["w is 9: it is unused, so it is 0"]);
    breaks((10, 0, 7, 0, 1), &["y is 7: sources are 0 to 6"]);
    breaks((10, 0, 0, 0, 0), &["the field is 0, which is the balance"]);
    breaks(
        (11, 0, 0, 0, 65_537),
        &["w div 65536 is 1: no source is 6, so it is 0"],
    );
    breaks(
        (13, 0, 6, 0, 65_541),
        &["w mod 65536 is 5: it is unused, so it is 0"],
    );
    breaks((14, 0, 0, 0, 0), &[]);
    breaks((14, 0, 0, 0, 2), &[]);
    breaks((15, 0, 0, 0, 6), &["it goes to 6: the code's length is 5"]);
    breaks((14, 0, 0, 0, 5), &[]);
    breaks(
        (0, 1, 0, 0, 2),
        &[
            "x is 1: it is unused, so it is 0",
            "w is 2: it is unused, so it is 0",
        ],
    );
}

#[test]
fn a_rule_is_broken_exactly_if_the_reader_refuses() {
    let mut rng = Rng::new(5);
    let mut good = 0;
    for _ in 0..200_000 {
        let byte = |rng: &mut Rng| rng.pick(&[0, 0, 0, 1, 4, 5, 6, 7, 8, 255]);
        let parts = Parts {
            op: rng.below(17) as u8,
            x: byte(&mut rng),
            y: byte(&mut rng),
            z: byte(&mut rng),
            w: rng.pick(&[0, 0, 0, 1, 3, 64, 65, 65_535, 65_536, 65_537, u32::MAX]),
        };
        let length = rng.between(1, 64);
        let decoded = decode(parts, length);
        let broken = broken_rules(parts, length);
        assert_eq!(decoded.is_some(), broken.is_empty(), "{parts:?}");
        good += usize::from(decoded.is_some());
    }
    assert!(good > 1_000, "{good}");
}

#[test]
fn each_instruction_has_its_words() {
    let lines = [
        ("stop", "ends the call"),
        ("throw", "aborts the call"),
        ("set r0 -1", "sets r0 to -1"),
        ("arg r1 arg4", "sets r1 to argument 4"),
        ("sender r2", "sets r2 to the sender's address"),
        ("value r3", "sets r3 to the call's value"),
        ("add r0 r1 r2", "sets r0 to r1 + r2"),
        ("sub r0 r1 r2", "sets r0 to r1 - r2"),
        ("mul r0 r1 r2", "sets r0 to r1 * r2"),
        ("div r0 r1 r2", "sets r0 to r1 / r2"),
        (
            "get r0 1 arg1 sender",
            "sets r0 to field 1 [argument 1, the sender]",
        ),
        ("put r0 2 zero const 9", "stores r0 in field 2 [0, 9]"),
        ("bal r4", "sets r4 to the contract's balance"),
        ("pay r0 const 7", "pays r0 to account 7"),
        ("pay r0 zero", "pays r0 to account 0"),
        ("pay r0 sender", "pays r0 to the sender"),
        ("pay r0 arg2", "pays r0 to the account in argument 2"),
        ("jeq r0 r1 1", "goes to 1 if r0 = r1"),
        ("jlt r0 r1 1", "goes to 1 if r0 < r1"),
    ];
    for (line, words) in lines {
        let bytes = crate::block(&format!("function 32768 0\n{line}"));
        let decoded = decode(Parts::read(&bytes[8..]), 1).expect("the instruction is good");
        assert_eq!(instruction(&decoded), words, "{line}");
    }
}
