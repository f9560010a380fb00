//! Lent runs: their opening, their agreement with the machine, and refusal 20.

use runner::cells::Cells;
use runner::console::{lines, parse};
use runner::generate::draft::{Draft, CALCULATING, MIXED, PAYING, TOUCHING};
use runner::generate::{moves, COMPLETE};
use runner::lent::{key_words, open, Run, Sizes, FINISHED, RUNNING, STATUS_WORDS, WAITING};
use runner::machine::{self, Machine, Move, Opened, State};
use runner::rng::Rng;
use runner::serial;

use crate::block;

/// How many random runs are compared.
pub(crate) const RUNS: usize = 600;

/// A damage, and the number that the move behind it answers.
pub(crate) type Damage = (fn(&mut Run), u16);

/// Block P.
pub(crate) const P: &str = include_str!("../../examples/p.txt");

pub(crate) fn begin(worker: usize, call: usize) -> Move {
    Move::Begin { worker, call }
}

pub(crate) fn step(worker: usize) -> Move {
    Move::Step { worker }
}

pub(crate) fn cancel(worker: usize) -> Move {
    Move::Cancel { worker }
}

/// The run of a text for 8 workers, and its block.
pub(crate) fn lent(text: &str) -> (Run, Vec<u8>) {
    let bytes = block(text);
    let (answer, run) = open(&bytes, 8, Sizes::FIXED);
    assert_eq!(answer, Ok(()));
    (run, bytes)
}

/// The run of a text after some moves that pass, and its block.
pub(crate) fn moved(text: &str, passing: &[Move]) -> (Run, Vec<u8>) {
    let (mut run, bytes) = lent(text);
    for chosen in passing {
        assert_eq!(run.apply(&bytes, *chosen), Ok(()), "{chosen:?}");
    }
    (run, bytes)
}

/// A random block, of another shape at each index, and a number of workers.
pub(crate) fn drawn(rng: &mut Rng, index: usize) -> (Vec<u8>, usize) {
    let shape = [MIXED, TOUCHING, PAYING, CALCULATING][index % 4];
    (Draft::random(rng, shape).bytes(), rng.between(1, 8))
}

/// Each call of random blocks, in block order, with the cells that those before
/// it left.
pub(crate) fn each_drawn_call(seed: u64, mut seen: impl FnMut(&Opened, usize, &mut Cells)) {
    let mut rng = Rng::new(seed);
    for index in 0..RUNS {
        let (bytes, workers) = drawn(&mut rng, index);
        let Ok(opened) = machine::open(&bytes, workers) else {
            continue;
        };
        let mut cells = Cells::opening(&opened.block.opening);
        for call in 0..opened.block.calls.len() {
            seen(&opened, call, &mut cells);
        }
    }
}

/// The number that a move answers, 0 if it passes. A refused move changes
/// nothing.
pub(crate) fn answer(run: &Run, bytes: &[u8], chosen: Move) -> u16 {
    let mut after = run.clone();
    match after.apply(bytes, chosen) {
        Ok(()) => 0,
        Err(refusal) => {
            assert_eq!(after, *run, "{chosen:?}");
            refusal.number()
        }
    }
}

/// Asserts what a move answers after each damage.
pub(crate) fn expect(run: &Run, bytes: &[u8], chosen: Move, damages: &[Damage]) {
    for (place, (damage, number)) in damages.iter().enumerate() {
        let mut damaged = run.clone();
        damage(&mut damaged);
        assert_eq!(
            answer(&damaged, bytes, chosen),
            *number,
            "{chosen:?} after damage {place}"
        );
    }
}

#[test]
fn the_opening_of_p() {
    let (run, bytes) = lent(P);
    let head = &run.head;
    assert_eq!((head.workers, head.calls, head.cells), (8, 3, 4));
    assert_eq!(head.first as usize, bytes.len() - 4 - 3 * 36);
    // Cells: 0 account 5, 1 account 7, 2 the contract's balance, 3 its field 1.
    assert_eq!(run.keys[..4], [5 << 48, 0, 7 << 48, 0]);
    assert_eq!(run.keys[4..8], [32768 << 48, 0, 32768 << 48 | 1 << 32, 0]);
    assert_eq!(run.cells[..4], [2, 0, 0, 0]);
    // f0 writes field 1; its code starts behind the record's head and name.
    assert_eq!(run.plan[..4], [8, 3, 1, 3 * 4 + 2]);
    // f1 with a value: sender, contract, field 1, account 7.
    let entries = [3, 2 * 4 + 3, 3 * 4 + 1, 4 + 2];
    assert_eq!(run.plan[32 + 1..32 + 3], [6, 4]);
    assert_eq!(run.plan[32 + 3..32 + 7], entries);
    assert_eq!(
        [run.plan[27], run.plan[32 + 27], run.plan[64 + 27]],
        [0, 1, 2]
    );
    // Calls 1 and 2 wait for one call each.
    assert_eq!(run.status[..8], [0, 0, 0, 0, 0, 0, 0, 1]);
    assert_eq!(run.status[8..12], [0, 0, 0, 1]);
    assert!(run.status[12..].iter().all(|word| *word == 0));
}

/// The fixed sizes with 127 words of seats, and with 255 values of frames.
fn short() -> [Sizes; 2] {
    let seats = Sizes {
        seats: 127,
        ..Sizes::FIXED
    };
    let frames = Sizes {
        frames: 255,
        ..Sizes::FIXED
    };
    [seats, frames]
}

#[test]
fn a_refused_opening_leaves_all_zero() {
    let bytes = block(P);
    let [seats, frames] = short();
    for (workers, sizes, number) in [
        (9, seats, 20),
        (9, frames, 20),
        (9, Sizes::FIXED, 13),
        (0, Sizes::FIXED, 13),
    ] {
        let (answer, run) = open(&bytes, workers, sizes);
        assert_eq!(
            answer.map_err(|refusal| refusal.fault.number()),
            Err(number)
        );
        assert_eq!(run, Run::zero(sizes));
    }
    let (answer, run) = open(&bytes[..bytes.len() - 1], 8, Sizes::FIXED);
    assert_eq!(answer.map_err(|refusal| refusal.fault.number()), Err(2));
    assert_eq!(run, Run::zero(Sizes::FIXED));
}

#[test]
fn an_undamaged_run_agrees_with_the_machine() {
    let mut rng = Rng::new(20);
    for index in 0..RUNS {
        let (bytes, workers) = drawn(&mut rng, index);
        let (answer, mut run) = open(&bytes, workers, Sizes::FIXED);
        let opened = machine::open(&bytes, workers);
        assert_eq!(answer.err(), opened.as_ref().err().copied());
        let Ok(opened) = opened else { continue };
        let mut machine = Machine::new(&opened);
        let text = moves::lines(&mut rng, &opened, COMPLETE);
        for chosen in lines(&text).filter_map(parse) {
            assert_eq!(run.apply(&bytes, chosen), machine.apply(chosen));
            same(&run, &machine);
        }
    }
}

#[test]
fn the_serial_run_agrees_with_the_machine() {
    let mut rng = Rng::new(21);
    for index in 0..RUNS {
        let (bytes, workers) = drawn(&mut rng, index);
        let Ok(opened) = machine::open(&bytes, workers) else {
            continue;
        };
        let mut machine = Machine::new(&opened);
        let ended = serial::run(&opened).ended;
        for (call, ended) in ended.iter().enumerate() {
            assert_eq!(machine.apply(begin(0, call)), Ok(()));
            for _ in 0..ended.steps {
                assert_eq!(machine.apply(step(0)), Ok(()));
            }
        }
        let (_, mut run) = open(&bytes, workers, Sizes::FIXED);
        run.run_serially(&bytes);
        same(&run, &machine);
    }
}

#[test]
fn the_serial_run_goes_on_behind_a_refused_move() {
    // The held call is stepped to its end before call 1; call 0 is refused.
    let (mut run, bytes) = moved(P, &[begin(0, 0)]);
    run.run_serially(&bytes);
    let (mut whole, _) = lent(P);
    whole.run_serially(&bytes);
    assert_eq!(run, whole);
    // Worker 1 holds call 0, which the later calls wait for.
    let (before, bytes) = moved(P, &[begin(1, 0)]);
    let mut run = before.clone();
    run.run_serially(&bytes);
    assert_eq!(run, before);
    // A step that answers 20 leaves the worker where it is.
    let (mut before, bytes) = moved(P, &[begin(0, 0)]);
    before.seats[0] = 99;
    let mut run = before.clone();
    run.run_serially(&bytes);
    assert_eq!(run, before);
    // So does a count that the last step of call 0 cannot lower.
    let (mut before, bytes) = moved(P, &[begin(0, 0), step(0), step(0), step(0)]);
    before.status[7] = 0;
    let mut run = before.clone();
    run.run_serially(&bytes);
    assert_eq!(run, before);
}

/// Asserts that a lent run stands where a machine stands, and that each waiting
/// count is the number that is counted from the row and the machine's states.
pub(crate) fn same(run: &Run, machine: &Machine) {
    let states = machine.states();
    for (call, state) in states.iter().enumerate() {
        let (state, outcome, count) = match state {
            State::Waiting => (WAITING, 0, 0),
            State::Running => (RUNNING, 0, 0),
            State::Finished(receipt) => {
                let outcome = receipt.outcome.number().into();
                (FINISHED, outcome, receipt.count.into())
            }
        };
        let row = machine.opened().rows[call].iter();
        let waits = row.filter(|earlier| !states[**earlier].is_finished());
        let words = [state, outcome, count, waits.count() as u64];
        assert_eq!(run.status[4 * call..4 * call + 4], words);
    }
    let rest = &run.status[STATUS_WORDS * states.len()..];
    assert!(rest.iter().all(|word| *word == 0));
    for (worker, held) in machine.workers().iter().enumerate() {
        assert_eq!(
            run.head.held[worker],
            held.as_ref().map_or(0, |held| held.call as u16 + 1)
        );
        if let Some(held) = held {
            assert_eq!(run.frames[32 * worker..][..8], held.running.registers);
            assert_eq!(run.seats[16 * worker + 1], held.running.count.into());
        }
    }
    let mut not_zero = 0;
    for (key, value) in machine.cells().iter() {
        let words = key_words(key);
        let cell = (0..run.head.cells as usize).find(|cell| run.keys[2 * cell..][..2] == words);
        assert_eq!(run.cells[cell.expect("a cell of the table")], value);
        not_zero += 1;
    }
    assert_eq!(
        run.cells.iter().filter(|value| **value != 0).count(),
        not_zero
    );
}

#[test]
fn every_move_tests_sizes_and_workers_first() {
    let (run, bytes) = moved(P, &[begin(0, 0)]);
    for chosen in [begin(9, 9), step(9), cancel(9)] {
        let damages: [Damage; 11] = [
            (|run| _ = run.plan.pop(), 20),
            (|run| _ = run.keys.pop(), 20),
            (|run| _ = run.cells.pop(), 20),
            (|run| _ = run.status.pop(), 20),
            (|run| _ = run.seats.pop(), 20),
            (|run| _ = run.frames.pop(), 20),
            (|run| run.seats.push(0), 21),
            (|run| run.frames.push(0), 21),
            (|run| run.head.workers = 0, 20),
            (|run| run.head.workers = 9, 20),
            (|run| run.head.calls = 257, 21),
        ];
        expect(&run, &bytes, chosen, &damages);
    }
}

#[test]
fn what_begin_tests_and_in_which_order() {
    let run_0 = [begin(0, 0), step(0), step(0), step(0), step(0)];
    let (run, bytes) = moved(P, &run_0);
    let damages: [Damage; 25] = [
        (|_| (), 0),
        (|run| run.head.calls = 256, 0),
        (|run| run.head.calls = 257, 20),
        (|run| run.head.calls = 1, 22),
        (|run| run.head.held[1] = 4, 20),
        (|run| run.head.held[1] = 3, 23),
        (|run| run.head.held[1] = u16::MAX, 20),
        // What worker 0 holds is not used, nor what stands in the seat.
        (|run| run.head.held[0] = u16::MAX, 0),
        (|run| run.seats[16..32].fill(u64::MAX), 0),
        (|run| run.status[4] = 3, 20),
        (|run| run.status[4] = 2, 24),
        (|run| run.status[7] = 1, 25),
        (|run| run.status[7] = 2, 20),
        (|run| run.status[7] = u64::MAX, 20),
        // The states of earlier calls are not looked at, nor the row.
        (|run| run.status[0] = 1, 0),
        (|run| run.status[0] = 3, 0),
        (|run| run.plan[32 + 27] = u64::MAX, 0),
        (|run| run.plan[32 + 2] = 25, 20),
        (|run| run.plan[32 + 3] = 0, 20),
        (|run| run.plan[32 + 3] = 1024 * 4 + 2, 20),
        (|run| run.plan[32 + 3] = 1023 * 4 + 2, 0),
        (|run| run.plan[32 + 3] = 1024 * 4 + 1, 0),
        // Lower numbers answer before values that were not used yet.
        (|run| (run.status[7], run.plan[32 + 2]) = (1, 25), 25),
        (|run| (run.status[4], run.status[7]) = (1, 2), 24),
        (|run| (run.head.held[1], run.status[4]) = (1, 3), 23),
    ];
    expect(&run, &bytes, begin(1, 1), &damages);
}

#[test]
fn what_a_step_at_the_entry_tests() {
    let run_0 = [begin(0, 0), step(0), step(0), step(0), step(0), begin(1, 1)];
    let (run, bytes) = moved(P, &run_0);
    let damages: [Damage; 29] = [
        (|_| (), 0),
        (|run| run.head.held[1] = 0, 26),
        (|run| (run.head.held[1], run.head.calls) = (0, 257), 26),
        (|run| run.head.held[1] = 4, 20),
        (|run| run.head.held[1] = u16::MAX, 20),
        (|run| run.head.held[0] = u16::MAX, 0),
        (|run| run.head.calls = 257, 20),
        (|run| run.head.calls = 1, 20),
        (|run| run.seats[16] = 7, 20),
        (|run| run.seats[16] = 6, 0),
        (|run| run.seats[16] = 1 << 32, 20),
        (|run| run.plan[32 + 1] = 66, 20),
        (|run| run.plan[32 + 1] = 65, 0),
        (|run| run.plan[32 + 1] = 0, 0),
        // The entry does not look at the count.
        (|run| run.seats[17] = 64, 0),
        (|run| run.seats[17] = 65, 0),
        (|run| run.seats[17] = u64::MAX, 0),
        (|run| run.seats[18..32].fill(u64::MAX), 0),
        (|run| run.head.first += 73, 20),
        (|run| run.head.first = u64::MAX - 60, 20),
        (|run| run.cells[0] = -1, 20),
        (|run| run.cells[2] = -1, 20),
        (|run| run.cells[2] = i64::MAX, 20),
        (|run| run.cells[2] = i64::MAX - 1, 0),
        // The contract's cell is not used if the sender's balance is too low.
        (|run| (run.cells[0], run.cells[2]) = (0, -1), 0),
        (|run| run.plan[32 + 3] = 1, 20),
        (|run| run.keys[1] = 1 << 32, 20),
        (|run| run.plan[32 + 2] = 1, 20),
        // STEP does not look at the state.
        (|run| run.status[4] = 3, 0),
    ];
    expect(&run, &bytes, step(1), &damages);
    let end = run.head.first as usize + 2 * 36;
    assert_eq!(answer(&run, &bytes[..end], step(1)), 0);
    assert_eq!(answer(&run, &bytes[..end - 1], step(1)), 20);
}

#[test]
fn what_a_step_at_an_instruction_tests() {
    const TEXT: &str = "function 32768 0
            pay r0 const 7
            throw
        cell 32768 0 0 0 5
        call 5 32768 0 0
        end";
    let (run, bytes) = moved(TEXT, &[begin(0, 0), step(0)]);
    let damages: [Damage; 12] = [
        (|run| run.plan[0] += 1, 20),
        (|run| run.plan[0] = u64::MAX - 7, 20),
        (|run| run.cells[1] = -1, 20),
        (|run| run.cells[0] = -1, 20),
        (|run| run.cells[0] = i64::MAX, 0),
        (|run| (run.cells[0], run.frames[0]) = (i64::MAX, 1), 20),
        // A bad payment looks at no cell, and restores.
        (|run| (run.cells[1], run.frames[0]) = (-1, -1), 0),
        (|run| (run.plan[2], run.frames[0]) = (25, -1), 20),
        // Neither does it look at the second cell if the first is too low.
        (|run| (run.cells[0], run.frames[0]) = (-1, 6), 0),
        (|run| run.plan[3] = 4 + 1, 20),
        // An entry before the one that is wanted.
        (|run| run.plan[3] = 1024 * 4 + 3, 20),
        (|run| run.plan[4] = 1024 * 4 + 3, 20),
    ];
    expect(&run, &bytes, step(0), &damages);
    let mut broken = bytes.clone();
    broken[8 + 1] = 8;
    assert_eq!(answer(&run, &broken, step(0)), 20);

    let (run, bytes) = moved(TEXT, &[begin(0, 0), step(0), step(0)]);
    let damages: [Damage; 4] = [
        (|run| run.plan[2] = 25, 20),
        (|run| run.plan[4] = 0, 20),
        (|run| run.plan[4] = 1024 * 4 + 1, 0),
        (|run| run.frames[8] = -1, 0),
    ];
    expect(&run, &bytes, step(0), &damages);
}

#[test]
fn what_cancel_tests() {
    let (run, bytes) = moved(P, &[begin(0, 0), step(0)]);
    let damages: [Damage; 13] = [
        (|run| run.head.held[0] = 0, 26),
        (|run| run.head.held[0] = 4, 20),
        (|run| run.head.held[0] = u16::MAX, 20),
        (|run| run.head.calls = 0, 20),
        (|run| run.head.calls = 257, 20),
        (|run| run.plan[2] = 25, 20),
        (|run| run.plan[3] = 3 * 4, 20),
        (|run| run.plan[3] = 1024 * 4 + 2, 20),
        (|run| run.frames[8] = i64::MIN, 0),
        (|run| run.status[0] = 3, 0),
        (|run| (run.status[3], run.status[7]) = (u64::MAX, 0), 0),
        (|run| run.seats[1] = u64::MAX, 0),
        (|run| run.seats[0] = u64::MAX, 0),
    ];
    expect(&run, &bytes, cancel(0), &damages);
}

/// Two calls that write three cells each; the second throws.
const TWO: &str = "function 32768 0
        set r3 7
        put r3 1 arg1 zero
        put r3 2 arg1 zero
        put r3 3 arg1 zero
        set r4 9
    function 32768 1
        set r0 8
        put r0 1 arg1 zero
        get r1 2 arg1 zero
        put r0 3 arg1 zero
        throw
    cell 32768 1 4 0 50
    cell 32768 3 4 0 51
    call 5 32768 0 0 4
    call 5 32768 1 0 4
    end";

/// The seats and frames of a run.
fn kept(run: &Run) -> (Vec<u64>, Vec<i64>) {
    (run.seats.clone(), run.frames.clone())
}

#[test]
fn begin_sets_the_seat_the_registers_and_the_old_values() {
    let (mut run, bytes) = lent(TWO);
    run.seats.fill(77);
    run.frames.fill(88);
    let mut seats = run.seats.clone();
    let mut frames = run.frames.clone();
    assert_eq!(run.apply(&bytes, begin(1, 0)), Ok(()));
    seats[16..18].fill(0);
    frames[32..40].fill(0);
    frames[40..43].copy_from_slice(&[50, 0, 51]);
    assert_eq!(kept(&run), (seats, frames));
    assert_eq!(run.head.held, [0, 1, 0, 0, 0, 0, 0, 0]);
}

#[test]
fn an_entry_that_is_only_read_keeps_zero() {
    let (mut run, bytes) = moved(TWO, &[begin(0, 0)]);
    for _ in 0..7 {
        assert_eq!(run.apply(&bytes, step(0)), Ok(()));
    }
    run.frames.fill(88);
    assert_eq!(run.apply(&bytes, begin(2, 1)), Ok(()));
    assert_eq!(run.frames[64..72], [0; 8]);
    assert_eq!(run.frames[72..76], [7, 0, 7, 88]);
}

#[test]
fn a_step_that_goes_on_stores_place_count_and_registers() {
    let (mut run, bytes) = moved(TWO, &[begin(1, 0)]);
    let head = run.head;
    assert_eq!(run.apply(&bytes, step(1)), Ok(()));
    assert_eq!(run.seats[16..18], [1, 0]);
    assert_eq!(run.apply(&bytes, step(1)), Ok(()));
    assert_eq!(run.seats[16..18], [2, 1]);
    assert_eq!(run.frames[32..40], [0, 0, 0, 7, 0, 0, 0, 0]);
    assert_eq!(run.head, head);
}

#[test]
fn a_finishing_step_leaves_seat_and_frame() {
    // The end, a failed instruction, an unknown function, a low balance, STOP.
    for (text, passing, outcome, count) in [
        (TWO, 6, 0, 5),
        (
            "function 32768 0\nset r0 1\ndiv r0 r0 r1\ncall 5 32768 0 0\nend",
            2,
            6,
            2,
        ),
        ("call 5 32768 0 0\nend", 0, 1, 0),
        ("function 32768 0\ncall 5 32768 0 1\nend", 0, 2, 0),
        (
            "function 32768 0\nset r5 3\nstop\ncall 5 32768 0 0\nend",
            2,
            0,
            2,
        ),
    ] {
        let (mut run, bytes) = moved(text, &[begin(0, 0)]);
        for _ in 0..passing {
            assert_eq!(run.apply(&bytes, step(0)), Ok(()));
        }
        let before = kept(&run);
        assert_eq!(run.head.held[0], 1);
        assert_eq!(run.apply(&bytes, step(0)), Ok(()));
        assert_eq!(run.status[..3], [FINISHED, outcome, count]);
        assert_eq!(run.head.held, [0; 8]);
        assert_eq!(kept(&run), before);
        assert_eq!(answer(&run, &bytes, step(0)), 26);
    }
}

#[test]
fn a_throw_restores_and_leaves_seat_and_frame() {
    let (mut run, bytes) = lent(TWO);
    (run.status[0], run.status[7]) = (FINISHED, 0);
    for chosen in [begin(3, 1), step(3), step(3), step(3), step(3), step(3)] {
        assert_eq!(run.apply(&bytes, chosen), Ok(()));
    }
    let before = kept(&run);
    assert_eq!(before.0[48..50], [5, 4]);
    assert_eq!(before.1[96], 8);
    assert_eq!(run.cells[..3], [8, 0, 8]);
    assert_eq!(run.apply(&bytes, step(3)), Ok(()));
    assert_eq!(run.cells[..3], [50, 0, 51]);
    assert_eq!(run.status[4..7], [FINISHED, 3, 5]);
    assert_eq!((kept(&run), run.head.held), (before, [0; 8]));
}

#[test]
fn cancel_leaves_seat_and_frame() {
    let (mut run, bytes) = moved(TWO, &[begin(1, 0), step(1), step(1), step(1)]);
    run.frames[40] = -5;
    let before = kept(&run);
    assert_eq!(run.apply(&bytes, cancel(1)), Ok(()));
    assert_eq!(run.cells[..3], [-5, 0, 51]);
    assert_eq!(run.state(0), WAITING);
    assert_eq!((kept(&run), run.head.held), (before, [0; 8]));
    // The next call of the worker starts anew.
    assert_eq!(run.apply(&bytes, begin(1, 0)), Ok(()));
    assert_eq!(run.seats[16..18], [0, 0]);
    assert_eq!(run.frames[32..43], [0, 0, 0, 0, 0, 0, 0, 0, -5, 0, 51]);
}

#[test]
fn the_room_of_a_seat_is_never_touched() {
    let mut rng = Rng::new(22);
    for _ in 0..RUNS / 10 {
        let bytes = Draft::random(&mut rng, MIXED).bytes();
        let Ok(opened) = machine::open(&bytes, 8) else {
            continue;
        };
        let (_, mut plain) = open(&bytes, 8, Sizes::FIXED);
        assert!(plain.seats.iter().all(|word| *word == 0));
        let mut filled = plain.clone();
        let room = |at: &usize| at % 16 >= 2;
        for at in (0..128).filter(room) {
            filled.seats[at] = u64::MAX - at as u64;
        }
        let text = moves::lines(&mut rng, &opened, COMPLETE);
        for chosen in lines(&text).filter_map(parse) {
            let answer = plain.apply(&bytes, chosen);
            assert_eq!(filled.apply(&bytes, chosen), answer);
        }
        plain.run_serially(&bytes);
        filled.run_serially(&bytes);
        for at in (0..128).filter(room) {
            assert_eq!(plain.seats[at], 0);
            assert_eq!(filled.seats[at], u64::MAX - at as u64);
            filled.seats[at] = 0;
        }
        assert_eq!(filled, plain);
    }
}

#[test]
fn longer_buffers_are_accepted_and_kept() {
    let longer = Sizes {
        plan: 8193,
        keys: 2050,
        cells: 1027,
        status: 1028,
        seats: 129,
        frames: 264,
    };
    let bytes = block(P);
    let (answer, mut run) = open(&bytes, 8, longer);
    assert_eq!((answer, run.sizes()), (Ok(()), longer));
    run.seats[128] = 5;
    run.frames[256..].fill(6);
    let (mut fixed, _) = lent(P);
    for chosen in [begin(7, 0), step(7), cancel(7), begin(0, 0), step(0)] {
        assert_eq!(run.apply(&bytes, chosen), Ok(()));
        assert_eq!(fixed.apply(&bytes, chosen), Ok(()));
    }
    run.run_serially(&bytes);
    fixed.run_serially(&bytes);
    assert_eq!(run.head, fixed.head);
    assert_eq!((run.seats[128], &run.frames[256..]), (5, [6; 8].as_slice()));
    assert_eq!(run.seats[..128], fixed.seats);
    assert_eq!(run.frames[..256], fixed.frames);
    assert_eq!(run.cells[..1024], fixed.cells);
    assert_eq!(run.status[..1024], fixed.status);
}

#[test]
fn seats_of_127_words_and_frames_of_255_values_are_20() {
    let (run, bytes) = moved(P, &[begin(0, 0), step(0)]);
    for sizes in short() {
        let (answer_of_open, _) = open(&bytes, 8, sizes);
        let number = answer_of_open.map_err(|refusal| refusal.fault.number());
        assert_eq!(number, Err(20));
        let mut lent = run.clone();
        lent.seats.truncate(sizes.seats);
        lent.frames.truncate(sizes.frames);
        for chosen in [begin(1, 1), step(0), cancel(0), begin(9, 9)] {
            assert_eq!(answer(&lent, &bytes, chosen), 20);
        }
        let mut after = lent.clone();
        after.run_serially(&bytes);
        assert_eq!(after, lent);
    }
}

#[test]
fn a_worker_holds_call_255_as_256() {
    let calls = "call 5 32768 0 0\n".repeat(256);
    let text = format!("function 32768 0\nstop\n{calls}end\n");
    let (mut run, bytes) = moved(&text, &[begin(7, 255), step(7)]);
    assert_eq!(run.head.held[7], 256);
    for held in [257, 512, u16::MAX] {
        run.head.held[7] = held;
        for chosen in [begin(7, 0), step(7), cancel(7)] {
            assert_eq!(answer(&run, &bytes, chosen), 20, "{held} {chosen:?}");
        }
    }
    run.head.held[7] = 256;
    assert_eq!(run.apply(&bytes, step(7)), Ok(()));
    assert_eq!((run.head.held[7], run.state(255)), (0, FINISHED));
}
