//! Demand 3 on random blocks and schedules, after every move.

use std::collections::BTreeSet;

use runner::cells::Cells;
use runner::console::{lines, parse};
use runner::emit;
use runner::execute::Running;
use runner::generate::draft::{Draft, Shape, CALCULATING, MIXED, PAYING, TOUCHING};
use runner::generate::moves::{self, Plan};
use runner::generate::COMPLETE;
use runner::key::Key;
use runner::limits::{HEAD_BYTES, MAX_BALANCE_SUM, MAX_STEPS, MAX_WORKERS};
use runner::machine::{open, Machine, Move, Opened, State};
use runner::rng::Rng;
use runner::serial::{self, run_alone, run_call, Serial};

use crate::sheet_of;
use crate::tally::{Mark, Tally};

/// How many random runs are checked.
const RUNS: usize = 3_000;
/// Runs with many cancels and refused moves.
const RESTLESS: Plan = Plan {
    refused: 30,
    cancels: 15,
    ..COMPLETE
};
/// Blocks with more calls than the small ones.
const MEDIUM: Shape = Shape {
    functions: (2, 6),
    instructions: (2, 12),
    calls: (4, 12),
    bytes: 2_000,
    ..MIXED
};
/// The shapes of the blocks.
const SHAPES: [Shape; 5] = [MIXED, MEDIUM, CALCULATING, TOUCHING, PAYING];

/// A good block and moves that bring it to its end.
fn random_run(rng: &mut Rng) -> (Opened, Vec<Move>) {
    let shape = rng.pick(&SHAPES);
    let workers = rng.between(1, MAX_WORKERS);
    loop {
        if let Ok(opened) = open(&Draft::random(rng, shape).bytes(), workers) {
            let text = moves::lines(rng, &opened, RESTLESS);
            let parsed = lines(&text).map(|line| parse(line).expect("a move"));
            let list = parsed.collect();
            return (opened, list);
        }
    }
}

/// For each call, how it stands before each of its steps in the serial run.
fn traces(opened: &Opened) -> Vec<Vec<Running>> {
    let mut cells = Cells::opening(&opened.block.opening);
    let calls = 0..opened.block.calls.len();
    calls
        .map(|call| {
            let mut trace = Vec::new();
            run_call(opened, call, &mut cells, |running| {
                trace.push(running.clone())
            });
            trace
        })
        .collect()
}

#[test]
fn demand_3_holds_of_random_runs() {
    let mut rng = Rng::new(3);
    let mut accepted = 0;
    for _ in 0..RUNS {
        let (opened, list) = random_run(&mut rng);
        accepted += check_run(&opened, &list);
    }
    assert!(accepted > 10 * RUNS);
}

/// Checks a run after each of its moves and at its end; answers how many moves
/// were accepted.
fn check_run(opened: &Opened, list: &[Move]) -> usize {
    let serial = serial::run(opened);
    let traces = traces(opened);
    assert!(serial.ended.iter().all(|call| call.steps <= MAX_STEPS));
    let mut tally = Tally::new(opened);
    let mut machine = Machine::new(opened);
    let mut accepted = 0;
    for chosen in list {
        let answer = machine.apply(*chosen).map_err(|refusal| refusal.number());
        assert_eq!(answer, tally.answer(*chosen));
        accepted += usize::from(answer.is_ok());
        check_states(&machine, &tally, &serial);
        check_running(&machine, &tally, &traces);
        check_cells(&machine);
        check_balances(&machine);
    }
    assert_eq!(*machine.cells(), serial.cells);
    let receipts: Vec<_> = serial.ended.iter().map(|call| call.receipt).collect();
    assert_eq!(machine.receipts(), Some(receipts));
    check_next_block(&machine);
    accepted
}

/// States and workers are the tally's; finished calls have serial receipts.
fn check_states(machine: &Machine, tally: &Tally, serial: &Serial) {
    for (call, state) in machine.states().iter().enumerate() {
        match state {
            State::Waiting => assert_eq!(tally.calls[call], Mark::Waiting),
            State::Running => assert!(matches!(tally.calls[call], Mark::Running(_))),
            State::Finished(receipt) => {
                assert_eq!(tally.calls[call], Mark::Finished);
                assert_eq!(*receipt, serial.ended[call].receipt);
            }
        }
    }
    let held = machine
        .workers()
        .iter()
        .map(|held| held.as_ref().map(|held| held.call));
    assert_eq!(held.collect::<Vec<_>>(), tally.workers);
}

/// A running call stands as in the serial run after the same steps.
fn check_running(machine: &Machine, tally: &Tally, traces: &[Vec<Running>]) {
    for held in machine.workers().iter().flatten() {
        let Mark::Running(steps) = tally.calls[held.call] else {
            panic!("the tally has the call running");
        };
        assert_eq!(held.running, traces[held.call][steps]);
    }
}

/// Cells that no running call may write are those of the finished calls alone.
fn check_cells(machine: &Machine) {
    let opened = machine.opened();
    let states = machine.states();
    let finished = (0..states.len()).filter(|call| states[*call].is_finished());
    let alone = run_alone(opened, finished).cells;
    let running: Vec<usize> = machine
        .workers()
        .iter()
        .flatten()
        .map(|held| held.call)
        .collect();
    let may_write = |key: &Key| {
        running
            .iter()
            .any(|call| opened.sets[*call].writes.contains(key))
    };
    let keys: BTreeSet<Key> = alone
        .iter()
        .chain(machine.cells().iter())
        .map(|(key, _)| *key)
        .collect();
    for key in keys.iter().filter(|key| !may_write(key)) {
        assert_eq!(machine.cells().get(key), alone.get(key));
    }
}

/// No balance is below zero, and their sum stays in range.
fn check_balances(machine: &Machine) {
    let mut sum = 0;
    for (_, value) in machine.cells().iter().filter(|(key, _)| key.is_balance()) {
        assert!(value > 0);
        sum += i128::from(value);
    }
    assert!(sum <= MAX_BALANCE_SUM);
}

/// The sheet's kind 2 records and an end open the next block with these cells.
fn check_next_block(machine: &Machine) {
    let mut next = sheet_of(machine);
    let receipts = machine.states().len() * (HEAD_BYTES + 4);
    next.truncate(next.len() - HEAD_BYTES - receipts);
    emit::end(&mut next);
    let opened = open(&next, 1).expect("the sheet's cells open the next block");
    assert_eq!(Cells::opening(&opened.block.opening), *machine.cells());
}
