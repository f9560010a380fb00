//! The refusals of moves, and what accepted moves change.

use runner::execute::Place;
use runner::machine::{Machine, Move, Opened, State};

use crate::opened;

/// Call 1 waits for call 0; call 2 waits for none.
fn three_calls() -> Opened {
    opened(
        "function 32768 0
            set r7 1
            put r7 1 arg1 zero
        cell 32768 1 0 0 9
        call 5 32768 0 0 0
        call 5 32768 0 0 0
        call 5 32768 0 0 1
        end",
    )
}

fn begin(worker: usize, call: usize) -> Move {
    Move::Begin { worker, call }
}

/// Asserts the number that refuses a move, and that nothing changes.
fn refused(machine: &mut Machine, chosen: Move, number: u16) {
    let before = machine.clone();
    let answer = machine.apply(chosen).map_err(|refusal| refusal.number());
    assert_eq!(answer, Err(number), "{chosen:?}");
    assert_eq!(*machine, before, "{chosen:?}");
}

#[test]
fn each_refusal_and_the_lowest_first() {
    let opened = three_calls();
    let mut machine = Machine::new(&opened);
    for worker in [8, 99_999] {
        refused(&mut machine, begin(worker, 0), 21);
        refused(&mut machine, begin(worker, 3), 21);
        refused(&mut machine, Move::Step { worker }, 21);
        refused(&mut machine, Move::Cancel { worker }, 21);
    }
    refused(&mut machine, begin(0, 3), 22);
    refused(&mut machine, begin(0, 99_999), 22);
    refused(&mut machine, begin(0, 1), 25);
    refused(&mut machine, Move::Step { worker: 0 }, 26);
    refused(&mut machine, Move::Cancel { worker: 7 }, 26);
    machine.begin(0, 0).unwrap();
    refused(&mut machine, begin(0, 3), 22);
    refused(&mut machine, begin(0, 0), 23);
    refused(&mut machine, begin(0, 1), 23);
    refused(&mut machine, begin(0, 2), 23);
    refused(&mut machine, begin(1, 0), 24);
    refused(&mut machine, begin(1, 1), 25);
    refused(&mut machine, Move::Step { worker: 1 }, 26);
}

#[test]
fn finished_calls_free_worker_and_waiters() {
    let opened = three_calls();
    let mut machine = Machine::new(&opened);
    machine.begin(3, 0).unwrap();
    for _ in 0..4 {
        machine.step(3).unwrap();
    }
    assert!(machine.states()[0].is_finished());
    refused(&mut machine, Move::Step { worker: 3 }, 26);
    refused(&mut machine, begin(3, 0), 24);
    assert_eq!(machine.begin(3, 1), Ok(()));
}

#[test]
fn a_cancelled_call_starts_anew() {
    let opened = three_calls();
    let mut machine = Machine::new(&opened);
    let at_opening = machine.clone();
    machine.begin(0, 0).unwrap();
    for _ in 0..3 {
        machine.step(0).unwrap();
    }
    assert_ne!(machine.cells(), at_opening.cells());
    machine.cancel(0).unwrap();
    assert_eq!(machine, at_opening);
    machine.begin(5, 0).unwrap();
    let held = machine.workers()[5].as_ref().unwrap();
    assert_eq!(held.running.place, Place::Entry);
    assert_eq!(held.running.registers, [0; 8]);
    assert_eq!(held.running.count, 0);
    assert_eq!(machine.states()[0], State::Running);
}

#[test]
fn each_step_runs_one_instruction() {
    let opened = three_calls();
    let mut machine = Machine::new(&opened);
    machine.begin(0, 2).unwrap();
    let mut seen = Vec::new();
    while let Some(held) = machine.workers()[0].clone() {
        seen.push((
            held.running.place,
            held.running.registers[7],
            held.running.count,
        ));
        machine.step(0).unwrap();
    }
    let expected = [
        (Place::Entry, 0, 0),
        (Place::At(0), 0, 0),
        (Place::At(1), 1, 1),
        (Place::At(2), 1, 2),
    ];
    assert_eq!(seen, expected);
}
