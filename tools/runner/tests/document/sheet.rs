//! The closing sheet: 27, 28, its bytes and the bytes behind it, the offsets of
//! its records (document 02, M-102); of a lent run also 20 and its place among
//! them.

use runner::lent::{self, Run, Sizes};
use runner::limits::MAX_SHEET_BYTES;
use runner::machine::Machine;
use runner::refusal::SheetRefusal;
use runner::sheet::{closing, write};

use crate::{block, opened};

/// One call that throws, and an opening of one cell.
const TEXT: &str = "function 32768 0\nthrow\ncell 5 0 0 0 2\ncall 5 32768 0 0\nend";
/// The sheet: the cell, the receipt (outcome 3, count 1), the end.
const SHEET: &str = "cell 5 0 0 0 2\nraw 0400 0500 0300 0100\nend";

#[test]
fn unfinished_calls_come_before_a_short_output() {
    let opened = opened(TEXT);
    let mut machine = Machine::new(&opened);
    let mut output = [7; 64];
    assert_eq!(write(&machine, &mut output), Err(SheetRefusal::Unfinished));
    machine.begin(0, 0).unwrap();
    assert_eq!(
        write(&machine, &mut output[..3]),
        Err(SheetRefusal::Unfinished)
    );
    assert_eq!(output, [7; 64]);
    assert_eq!(SheetRefusal::Unfinished.number(), 27);
    assert_eq!(SheetRefusal::OutputShort.number(), 28);
}

#[test]
fn a_sheet_of_the_outputs_length_fits() {
    let opened = opened(TEXT);
    let mut machine = Machine::new(&opened);
    machine.begin(0, 0).unwrap();
    machine.step(0).unwrap();
    machine.step(0).unwrap();
    let sheet = block(SHEET);
    assert_eq!(sheet.len(), 36);
    let mut output = [7; 64];
    assert_eq!(
        write(&machine, &mut output[..35]),
        Err(SheetRefusal::OutputShort)
    );
    assert_eq!(output, [7; 64]);
    assert_eq!(write(&machine, &mut output[..36]), Ok(36));
    assert_eq!(output[..36], sheet);
    assert_eq!(output[36..], [7; 28]);
    let mut longer = [9; 64];
    assert_eq!(write(&machine, &mut longer), Ok(36));
    assert_eq!(longer[..36], sheet);
    assert_eq!(longer[36..], [9; 28]);
}

/// The offsets of the sheet of a text whose calls are run one after another, and
/// what the sheet answers. Each record is found at its offset by its head alone,
/// and the next one behind its head and body.
fn offsets(text: &str) -> (Vec<usize>, usize) {
    let opened = opened(text);
    let mut machine = Machine::new(&opened);
    for call in 0.. {
        if machine.begin(0, call).is_err() {
            break;
        }
        while machine.step(0).is_ok() {}
    }
    let sheet = closing(&machine).unwrap();
    let mut output = [7; 256];
    let end = write(&machine, &mut output).unwrap();
    assert_eq!(output[..end], *sheet.bytes());
    assert_eq!(output[end..], [7; 256][end..]);
    let mut at = 0;
    for offset in sheet.offsets() {
        assert_eq!(at, *offset);
        at += 4 + usize::from(u16::from_le_bytes([output[at], output[at + 1]]));
    }
    assert_eq!(at, end);
    assert_eq!(output[end - 4..end], [0, 0, 4, 0]);
    (sheet.offsets().to_vec(), end)
}

#[test]
fn the_offset_of_a_record_is_the_sum_of_those_before() {
    assert_eq!(offsets(TEXT), (vec![0, 24, 32], 36));
    assert_eq!(offsets("end"), (vec![0], 4));
    let calls = "function 32768 0\nstop\ncall 5 32768 0 0\ncall 6 32768 0 0\nend";
    assert_eq!(offsets(calls), (vec![0, 8, 16], 20));
    let cells = "cell 5 0 0 0 2\ncell 32768 0 0 0 1\ncell 32768 1 0 7 -5\nend";
    assert_eq!(offsets(cells), (vec![0, 24, 48, 72], 76));
}

#[test]
fn a_cell_that_is_zero_takes_no_place() {
    let text = "function 32768 0\nset r1 0\nput r1 1 zero zero\ncell 5 0 0 0 2\n\
                cell 32768 1 0 0 9\ncell 32768 2 0 0 3\ncall 5 32768 0 0\nend";
    assert_eq!(offsets(text), (vec![0, 24, 48, 56], 60));
}

#[test]
fn the_largest_sheet() {
    assert_eq!(MAX_SHEET_BYTES, 26_628);
}

/// A damage, and the numbers that the sheet answers with room and without.
type Damage = (fn(&mut Run), u16, u16);

/// The lent run of the text at its end.
fn finished() -> Run {
    let bytes = block(TEXT);
    let (answer, mut run) = lent::open(&bytes, 8, Sizes::FIXED);
    assert_eq!(answer, Ok(()));
    run.begin(0, 0).unwrap();
    run.step(&bytes, 0).unwrap();
    run.step(&bytes, 0).unwrap();
    run
}

/// The number that the sheet of a lent run answers with an output of some
/// length, 0 if it is written. A refused sheet changes no byte.
fn answer(run: &Run, room: usize) -> u16 {
    let mut output = vec![7; room];
    match run.sheet(&mut output) {
        Ok(length) => {
            assert_eq!(output[length..], vec![7; room - length]);
            0
        }
        Err(refusal) => {
            assert_eq!(output, vec![7; room]);
            refusal.number()
        }
    }
}

#[test]
fn the_sheet_of_a_lent_run() {
    let run = finished();
    let mut output = [7; 38];
    assert_eq!(run.sheet(&mut output), Ok(36));
    assert_eq!(output[..36], block(SHEET));
    assert_eq!(output[36..], [7; 2]);
    assert_eq!([answer(&run, 36), answer(&run, 35)], [0, 28]);
}

#[test]
fn what_a_sheet_tests_and_in_which_order() {
    let damages: [Damage; 25] = [
        (|run| run.seats.truncate(127), 20, 20),
        (|run| run.frames.truncate(255), 20, 20),
        (|run| run.seats.push(1), 0, 28),
        (|run| run.frames.push(1), 0, 28),
        (|run| run.head.held = [u16::MAX; 8], 0, 28),
        (|run| run.seats.fill(u64::MAX), 0, 28),
        (|run| run.frames.fill(i64::MIN), 0, 28),
        (|run| run.head.calls = 257, 20, 20),
        (|run| run.status[0] = 3, 20, 20),
        (|run| run.status[0] = 1, 27, 27),
        (|run| (run.status[0], run.cells[0]) = (1, -1), 27, 27),
        (|run| (run.status[0], run.status[1]) = (1, 8), 27, 27),
        (|run| (run.status[0], run.head.cells) = (1, 1_025), 27, 27),
        (|run| run.head.cells = 1_025, 20, 20),
        (|run| run.cells[0] = -1, 20, 20),
        (
            |run| (run.cells[0], run.keys[0]) = (-1, 5 << 48 | 1 << 32),
            0,
            28,
        ),
        (|run| run.status[1] = 7, 0, 28),
        (|run| run.status[1] = 8, 20, 28),
        (|run| run.status[2] = 65_535, 0, 28),
        (|run| run.status[2] = 65_536, 20, 28),
        (|run| (run.status[1], run.cells[0]) = (8, -1), 20, 20),
        (|run| run.head.workers = 9, 0, 28),
        (|run| run.plan[0] = u64::MAX, 0, 28),
        (|run| run.status[3] = u64::MAX, 0, 28),
        (|run| run.status[7] = 9, 0, 28),
    ];
    for (place, (damage, room, short)) in damages.iter().enumerate() {
        let mut run = finished();
        damage(&mut run);
        let answers = [answer(&run, 36), answer(&run, 35)];
        assert_eq!(answers, [*room, *short], "damage {place}");
    }
}
