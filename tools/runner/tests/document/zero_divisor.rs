//! Document 02, M-103: DIV by zero ends with outcome 6 and restores as 4 does, and
//! 4 keeps only results out of range.

use runner::code::{Instruction, Operation};
use runner::execute::{Outcome, Place, Running};
use runner::lent::{self, FINISHED};
use runner::serial;

use crate::lent::{begin, each_drawn_call, lent, moved, step};
use crate::{block, serially};

/// The receipt of a call that divides field 1 by field 2 behind a value of 3 and a
/// PUT. Unless it ends with 0, the cells are those of the opening.
fn divided(y: i64, z: i64) -> String {
    let cells: Vec<String> = [(1, y), (2, z), (3, 9)]
        .iter()
        .filter(|(_, value)| *value != 0)
        .map(|(field, value)| format!("32768 {field} 0 0 {value}\n"))
        .collect();
    let lines =
        |kind: &str| -> String { cells.iter().map(|cell| format!("{kind} {cell}")).collect() };
    let printed = serially(&format!(
        "function 32768 0\nget r1 1 zero zero\nget r2 2 zero zero\nput r1 3 zero zero\n\
         div r0 r1 r2\nput r0 3 zero zero\ncell 5 0 0 0 3\n{}call 5 32768 0 3\nend",
        lines("cell")
    ));
    let (_, receipt) = printed.rsplit_once("t 0 ").expect("a receipt");
    if !receipt.starts_with("0 ") {
        let opening = format!("k 5 0 0 0 3\n{}", lines("k"));
        assert_eq!(
            printed,
            format!("{opening}t 0 {receipt}"),
            "all is restored"
        );
    }
    receipt.trim_end().to_string()
}

#[test]
fn a_divisor_of_0_is_6_whatever_is_divided() {
    for y in [0, 1, -1, 7, -7, i64::MAX, i64::MIN] {
        assert_eq!(divided(y, 0), "6 4", "{y} by 0");
    }
}

#[test]
fn other_divisors_never_give_6() {
    assert_eq!(divided(i64::MIN, -1), "4 4");
    for (y, z) in [
        (0, 1),
        (0, -1),
        (i64::MAX, -1),
        (i64::MIN, 1),
        (i64::MIN, -2),
        (i64::MIN, i64::MIN),
        (i64::MIN + 1, -1),
        (1, i64::MAX),
    ] {
        assert_eq!(divided(y, z), "0 5", "{y} by {z}");
    }
}

/// The divisor is 0 behind another instruction that has no result, and the other
/// way about: the first of the two ends the call.
#[test]
fn the_first_failure_is_that_of_the_receipt() {
    let over = "set r0 -2147483648\nmul r0 r0 r0\nadd r0 r0 r0";
    let ends = |code: &str| serially(&format!("function 32768 0\n{code}\ncall 5 32768 0 0\nend"));
    assert_eq!(ends(&format!("{over}\ndiv r0 r0 r1")), "t 0 4 3\n");
    assert_eq!(ends(&format!("div r1 r0 r0\n{over}")), "t 0 6 1\n");
    assert_eq!(ends("throw\ndiv r0 r0 r0"), "t 0 3 1\n");
    assert_eq!(ends("jeq r0 r0 2\ndiv r0 r0 r0"), "t 0 0 1\n");
}

/// A quotient is no divisor, and 0 in another register than z divides nothing.
#[test]
fn only_z_is_the_divisor() {
    let ends = |code: &str| serially(&format!("function 32768 0\n{code}\ncall 5 32768 0 0\nend"));
    assert_eq!(ends("set r2 5\ndiv r0 r1 r2"), "t 0 0 2\n");
    assert_eq!(ends("set r1 5\ndiv r0 r1 r2"), "t 0 6 2\n");
    assert_eq!(ends("set r0 5\ndiv r0 r0 r0\ndiv r0 r0 r1"), "t 0 6 3\n");
}

#[test]
fn a_lent_run_restores_on_6() {
    let text = "function 32768 0\nset r0 4\nput r0 1 zero zero\ndiv r0 r0 r1\n\
                cell 5 0 0 0 3\ncell 32768 1 0 0 9\ncall 5 32768 0 3\nend";
    let opening = lent(text).0.cells;
    let (mut run, bytes) = moved(text, &[begin(0, 0), step(0), step(0), step(0)]);
    assert_ne!(run.cells, opening);
    assert_eq!(run.apply(&bytes, step(0)), Ok(()));
    assert_eq!(run.status[..3], [FINISHED, 6, 3]);
    assert_eq!(run.cells, opening);
    assert_eq!(run.head.held, [0; 8]);
}

#[test]
fn the_sheet_carries_6() {
    let bytes = block("function 32768 0\ndiv r0 r0 r0\ncell 5 0 0 0 2\ncall 5 32768 0 0\nend");
    let (answer, mut run) = lent::open(&bytes, 8, lent::Sizes::FIXED);
    assert_eq!(answer, Ok(()));
    run.run_serially(&bytes);
    let sheet = block("cell 5 0 0 0 2\nraw 0400 0500 0600 0100\nend");
    let mut output = vec![7; sheet.len()];
    assert_eq!(run.sheet(&mut output), Ok(sheet.len()));
    assert_eq!(output, sheet);
}

/// How the instruction before which a call stood, with fuel left for it, would end
/// it by its arithmetic, by the words of the request: 6 for a DIV whose divisor is
/// 0, 4 for an exact result outside 64 signed bits, by numbers of 128.
fn arithmetic_end(code: &[Instruction], fuel: u16, last: &Running) -> Option<u16> {
    let Place::At(index) = last.place else {
        return None;
    };
    if last.count == fuel {
        return None;
    }
    let Some(&Instruction::Arithmetic {
        operation, y, z, ..
    }) = code.get(index)
    else {
        return None;
    };
    let (y, z) = (i128::from(last.registers[y]), i128::from(last.registers[z]));
    let exact = match operation {
        Operation::Add => y + z,
        Operation::Sub => y - z,
        Operation::Mul => y * z,
        Operation::Div if z == 0 => return Some(6),
        Operation::Div => (y * z.signum()).div_euclid(z.abs()),
    };
    let range = i128::from(i64::MIN)..=i128::from(i64::MAX);
    (!range.contains(&exact)).then_some(4)
}

/// In random blocks a call ends with 6, or with 4, exactly if its last instruction
/// would by the words, which is counted; and then the cells are as before it.
#[test]
fn receipts_have_6_and_4_exactly_where_the_words_say() {
    let mut found = [0; 8];
    each_drawn_call(103, |opened, number, cells| {
        let before = cells.clone();
        let mut last = None;
        let ended = serial::run_call(opened, number, cells, |running| {
            last = Some(running.clone());
        });
        let outcome = ended.receipt.outcome.number();
        let last = last.expect("a call takes a step");
        let call = &opened.block.calls[number];
        let code = opened.block.code(call).unwrap_or(&[]);
        let wanted = arithmetic_end(code, call.fuel, &last);
        let ends_so = [4, 6].contains(&outcome);
        assert_eq!(wanted, ends_so.then_some(outcome));
        if ends_so {
            assert_eq!(ended.receipt.count, last.count + 1);
            assert_eq!(*cells, before);
        }
        found[usize::from(outcome)] += 1;
    });
    assert!(found[4] > 10 && found[6] > 10, "{found:?}");
}

#[test]
fn the_numbers_of_the_outcomes() {
    assert_eq!(Outcome::OutOfRange.number(), 4);
    assert_eq!(Outcome::ZeroDivisor.number(), 6);
}
