//! Document 02, M-104: fuel in a call's record, jumps to any index, and outcome 7
//! where an instruction is due and no fuel is left.

use runner::execute::{Outcome, Place};
use runner::lent::{self, Run, FINISHED};
use runner::limits::MAX_STEPS;
use runner::serial;

use crate::lent::{answer, begin, each_drawn_call, expect, lent, moved, step, Damage};
use crate::{block, opened, refusal, serially};

/// The receipt of one call with some fuel of a code, from its `t` line.
fn receipt(code: &str, fuel: u16) -> String {
    let printed = serially(&format!(
        "function 32768 0\n{code}\ncall 5 32768 0 0 fuel {fuel}\nend"
    ));
    let (_, receipt) = printed.rsplit_once("t 0 ").expect("a receipt");
    receipt.trim_end().to_string()
}

/// The steps of such a call.
fn steps(code: &str, fuel: u16) -> usize {
    let opened = opened(&format!(
        "function 32768 0\n{code}\ncall 5 32768 0 0 fuel {fuel}\nend"
    ));
    serial::run(&opened).ended[0].steps
}

#[test]
fn fuel_at_one_before_and_one_after_the_last_instruction() {
    let code = "set r0 1\nput r0 1 zero zero\nset r1 2";
    for (fuel, wanted, taken) in [(1, "7 1", 3), (2, "7 2", 4), (3, "0 3", 5), (4, "0 3", 5)] {
        assert_eq!(receipt(code, fuel), wanted);
        assert_eq!(steps(code, fuel), taken);
    }
}

#[test]
fn reaching_the_end_needs_no_fuel() {
    assert_eq!(receipt("", 1), "0 0");
    assert_eq!(steps("", 1), 2);
    assert_eq!(receipt("set r0 1", 1), "0 1");
    assert_eq!(receipt("jeq r0 r0 2\nthrow", 1), "0 1");
}

#[test]
fn stop_and_throw_need_fuel() {
    assert_eq!(receipt("set r0 1\nstop", 1), "7 1");
    assert_eq!(receipt("set r0 1\nstop", 2), "0 2");
    assert_eq!(receipt("set r0 1\nthrow", 1), "7 1");
    assert_eq!(receipt("set r0 1\nthrow", 2), "3 2");
    assert_eq!(receipt("stop", 1), "0 1");
}

#[test]
fn a_failure_that_is_due_without_fuel_is_7() {
    for (code, failed) in [
        ("set r0 1\ndiv r0 r0 r1", "6 2"),
        ("set r0 -1\npay r0 sender", "5 2"),
    ] {
        assert_eq!(receipt(code, 1), "7 1");
        assert_eq!(receipt(code, 2), failed);
    }
}

#[test]
fn a_jump_to_its_own_index_runs_until_the_fuel_is_out() {
    for fuel in [1, 2, 64, 65, 1_000] {
        assert_eq!(receipt("jeq r0 r0 0", fuel), format!("7 {fuel}"));
        assert_eq!(steps("jeq r0 r0 0", fuel), usize::from(fuel) + 2);
    }
    assert_eq!(receipt("jlt r0 r0 0", 1), "0 1");
}

#[test]
fn jumps_go_back_and_to_the_length_from_anywhere() {
    // Counts r0 from 0 to 3, then jumps from before the loop's end to the length.
    let code = "set r1 3\nset r2 1\njeq r0 r1 5\nadd r0 r0 r2\njlt r3 r1 2";
    assert_eq!(receipt(code, 64), "0 12");
    assert_eq!(receipt(code, 12), "0 12");
    assert_eq!(receipt(code, 11), "7 11");
    for at in 0..4 {
        let before = "set r0 0\n".repeat(at);
        let behind = "throw\n".repeat(3 - at);
        let code = format!("{before}jeq r0 r0 4\n{behind}");
        assert_eq!(receipt(code.trim_end(), 64), format!("0 {}", at + 1));
    }
}

#[test]
fn the_most_steps_are_fuel_and_2() {
    assert_eq!(MAX_STEPS, 65_537);
    assert_eq!(steps("jeq r0 r0 0", u16::MAX), MAX_STEPS);
    assert_eq!(receipt("jeq r0 r0 0", u16::MAX), "7 65535");
    let long = "set r0 1\n".repeat(64);
    assert_eq!(steps(&long, 64), 66);
    assert_eq!(steps(&long, 63), 65);
    assert_eq!(steps(&long, u16::MAX), 66);
}

/// An endless loop over PUT, behind a value of 3.
const LOOP: &str = "function 32768 0\nvalue r0\nput r0 1 zero zero\njeq r0 r0 1\n\
                    cell 5 0 0 0 3\ncell 32768 1 0 0 9\ncall 5 32768 0 3 fuel 10\nend";

#[test]
fn an_endless_loop_over_put_and_a_moved_value_are_restored() {
    let opening = "k 5 0 0 0 3\nk 32768 1 0 0 9\n";
    assert_eq!(serially(LOOP), format!("{opening}t 0 7 10\n"));
}

#[test]
fn a_lent_run_restores_on_7_and_lowers_the_waits() {
    let text = LOOP.replace("\nend", "\ncall 5 32768 0 1\nend");
    let opening = lent(&text).0.cells;
    let mut made = vec![begin(0, 0)];
    made.extend([step(0); 11]);
    let (mut run, bytes) = moved(&text, &made);
    assert_ne!(run.cells, opening);
    assert_eq!(run.seats[..2], [3, 10]);
    assert_eq!(answer(&run, &bytes, begin(1, 1)), 25);
    assert_eq!(run.apply(&bytes, step(0)), Ok(()));
    assert_eq!(run.status[..4], [FINISHED, 7, 10, 0]);
    assert_eq!(run.status[7], 0);
    assert_eq!(run.cells, opening);
    assert_eq!(run.head.held, [0; 8]);
    assert_eq!(answer(&run, &bytes, begin(1, 1)), 0);
}

#[test]
fn fuel_zero_is_5_at_the_calls_record() {
    let call = |function: u16| {
        format!("function 32768 0\ncall 5 32768 0 0\ncall 5 32768 {function} 0 fuel 0\nend")
    };
    assert_eq!(refusal(&block(&call(0))), (5, 8 + 36));
    assert_eq!(refusal(&block(&call(9))), (5, 8 + 36));
    assert_eq!(refusal(&block("call 5 32768 0 0 fuel 0\nend")), (5, 0));
    opened("call 5 32768 0 0 fuel 1\ncall 5 32768 0 0 fuel 65535\nend");
}

#[test]
fn fuel_is_the_last_two_bytes_of_a_body_of_32() {
    let bytes = block("call 5 32768 0 0 1 2 3 4 fuel 258\nend");
    assert_eq!(bytes[..4], [32, 0, 3, 0]);
    assert_eq!(bytes[4 + 30..36], [2, 1]);
    let opened = runner::machine::open(&bytes, 8).expect("the block is good");
    assert_eq!(opened.block.calls[0].fuel, 258);
    let mut short = bytes.clone();
    short[0] = 30;
    short.drain(34..36);
    assert_eq!(refusal(&short), (4, 0));
    let mut long = bytes.clone();
    long[0] = 34;
    long.splice(36..36, [0, 0]);
    assert_eq!(refusal(&long), (4, 0));
}

/// One call of fuel 3 of three instructions, at the entry or behind it.
const THREE: &str = "function 32768 0\nset r0 1\nput r0 1 zero zero\nset r1 2\n\
                     cell 5 0 0 0 3\ncall 5 32768 0 2 fuel 3\nend";

/// The bytes with another fuel in the only call's record.
fn with_fuel(bytes: &[u8], fuel: u16) -> Vec<u8> {
    let mut bytes = bytes.to_vec();
    let at = bytes.len() - 4 - 2;
    bytes[at..at + 2].copy_from_slice(&fuel.to_le_bytes());
    bytes
}

#[test]
fn the_entry_looks_at_neither_fuel_nor_count() {
    let (run, bytes) = moved(THREE, &[begin(0, 0)]);
    for fuel in [0, 1, u16::MAX] {
        for count in [0, 3, 4, 65_536, u64::MAX] {
            let mut damaged = run.clone();
            damaged.seats[1] = count;
            let lent = with_fuel(&bytes, fuel);
            assert_eq!(damaged.apply(&lent, step(0)), Ok(()));
            assert_eq!(damaged.seats[..2], [1, 0], "place 1 and count 0");
        }
    }
    // An unknown function and a value that is too high write count 0.
    for (edit, outcome) in [(0, 1), (1, 2)] {
        let mut damaged = run.clone();
        damaged.seats[1] = u64::MAX;
        match edit {
            0 => damaged.plan[1] = 0,
            _ => damaged.cells[0] = 1,
        }
        assert_eq!(damaged.apply(&with_fuel(&bytes, 0), step(0)), Ok(()));
        assert_eq!(damaged.status[..3], [FINISHED, outcome, 0]);
    }
}

#[test]
fn behind_the_entry_fuel_0_and_a_count_above_the_fuel_are_20() {
    let (run, bytes) = moved(THREE, &[begin(0, 0), step(0), step(0)]);
    let damages: [Damage; 6] = [
        (|_| (), 0),
        (|run| run.seats[1] = 3, 0),
        (|run| run.seats[1] = 4, 20),
        (|run| run.seats[1] = 65_536, 20),
        (|run| run.seats[1] = 1 << 32, 20),
        (|run| run.seats[1] = u64::MAX, 20),
    ];
    expect(&run, &bytes, step(0), &damages);
    // The same at the code's end.
    let mut at_end = run.clone();
    at_end.seats[0] = 4;
    expect(&at_end, &bytes, step(0), &damages);
    for (fuel, number) in [(0, 20), (1, 0), (u16::MAX, 0)] {
        assert_eq!(answer(&run, &with_fuel(&bytes, fuel), step(0)), number);
        assert_eq!(answer(&at_end, &with_fuel(&bytes, fuel), step(0)), number);
    }
    let mut further = run.clone();
    further.seats[1] = 2;
    assert_eq!(answer(&further, &with_fuel(&bytes, 1), step(0)), 20);
    assert_eq!(answer(&further, &with_fuel(&bytes, 2), step(0)), 0);
    // The other fields of the record come first, the place before them.
    let mut broken = with_fuel(&bytes, 0);
    let sender = broken.len() - 4 - 32;
    broken[sender + 1] = 0x80;
    assert_eq!(answer(&run, &broken, step(0)), 20);
}

/// How a damaged run ends: its state, its outcome and its count.
fn ended(run: &Run, bytes: &[u8]) -> [u64; 3] {
    let mut run = run.clone();
    assert_eq!(run.apply(bytes, step(0)), Ok(()));
    [run.status[0], run.status[1], run.status[2]]
}

#[test]
fn outcome_7_does_not_look_at_the_instruction() {
    let (mut run, bytes) = moved(THREE, &[begin(0, 0), step(0), step(0)]);
    run.seats[1] = 3;
    assert_eq!(ended(&run, &bytes), [FINISHED, 7, 3]);
    let mut broken = bytes.clone();
    broken[8..32].fill(255);
    assert_eq!(ended(&run, &broken), [FINISHED, 7, 3]);
    let mut past = run.clone();
    past.plan[0] = u64::MAX;
    assert_eq!(ended(&past, &bytes), [FINISHED, 7, 3]);
    // With fuel left both are 20.
    run.seats[1] = 2;
    past.seats[1] = 2;
    assert_eq!(answer(&run, &broken, step(0)), 20);
    assert_eq!(answer(&past, &bytes, step(0)), 20);
    // At the end there is no instruction, and the outcome is 0.
    let mut at_end = run.clone();
    (at_end.seats[0], at_end.seats[1]) = (4, 3);
    assert_eq!(ended(&at_end, &broken), [FINISHED, 0, 3]);
}

#[test]
fn outcome_7_tests_what_it_restores() {
    let (mut run, bytes) = moved(THREE, &[begin(0, 0), step(0), step(0)]);
    run.seats[1] = 3;
    let damages: [Damage; 4] = [
        (|run| run.plan[2] = 25, 20),
        (|run| run.plan[3] = 0, 20),
        (|run| run.plan[3] = 1024 * 4 + 2, 20),
        (|run| run.frames[8] = -1, 0),
    ];
    expect(&run, &bytes, step(0), &damages);
}

#[test]
fn the_sheet_carries_7_and_the_highest_count() {
    let bytes = block("function 32768 0\njeq r0 r0 0\ncall 5 32768 0 0 fuel 65535\nend");
    let (answer, mut run) = lent::open(&bytes, 8, lent::Sizes::FIXED);
    assert_eq!(answer, Ok(()));
    run.run_serially(&bytes);
    let sheet = block("raw 0400 0500 0700 ffff\nend");
    let mut output = vec![7; sheet.len()];
    assert_eq!(run.sheet(&mut output), Ok(sheet.len()));
    assert_eq!(output, sheet);
    for (word, value) in [(1, 8), (2, 65_536)] {
        let mut damaged = run.clone();
        damaged.status[word] = value;
        let mut output = vec![7; sheet.len()];
        let answer = damaged.sheet(&mut output);
        assert_eq!(answer.map_err(|refused| refused.number()), Err(20));
        assert_eq!(output, vec![7; sheet.len()]);
    }
}

/// A refused step ends a call's turn of the serial run, and the run is as it would
/// be behind further tries.
#[test]
fn the_serial_run_stops_at_a_refused_step() {
    let (run, bytes) = lent(THREE);
    let lent = with_fuel(&bytes, 0);
    let mut serial = run.clone();
    serial.run_serially(&lent);
    let mut tried = run;
    assert_eq!(tried.apply(&lent, begin(0, 0)), Ok(()));
    assert_eq!(tried.apply(&lent, step(0)), Ok(()));
    for _ in 0..100 {
        assert!(tried.apply(&lent, step(0)).is_err());
    }
    assert_eq!(serial, tried);
}

/// In random blocks a call ends with 7 exactly if an instruction was due and the
/// count was the fuel; the cells are then as before it, and its steps are its entry,
/// its instructions, and one for the end of the code or of the fuel.
#[test]
fn receipts_have_7_exactly_where_the_words_say() {
    let mut found = [0; 8];
    each_drawn_call(104, |opened, number, cells| {
        let before = cells.clone();
        let mut last = None;
        let ended = serial::run_call(opened, number, cells, |running| {
            assert!(running.count <= opened.block.calls[number].fuel);
            last = Some(running.clone());
        });
        let last = last.expect("a call takes a step");
        let call = &opened.block.calls[number];
        let length = opened.block.code(call).map_or(0, <[_]>::len);
        let due = matches!(last.place, Place::At(index) if index < length);
        let out = due && last.count == call.fuel;
        assert_eq!(out, ended.receipt.outcome == Outcome::OutOfFuel);
        let at_end = matches!(last.place, Place::At(index) if index == length);
        let steps = 1 + usize::from(ended.receipt.count) + usize::from(at_end || out);
        assert_eq!(ended.steps, steps);
        if out {
            assert_eq!(ended.receipt.count, call.fuel);
            assert_eq!(*cells, before);
        }
        found[usize::from(ended.receipt.outcome.number())] += 1;
    });
    assert!(found[7] > 50 && found[0] > 50, "{found:?}");
}

#[test]
fn the_numbers_of_the_outcomes() {
    assert_eq!(Outcome::OutOfFuel.number(), 7);
    assert_eq!(Outcome::LAST, Outcome::OutOfFuel);
}
