//! The waiting counts of lent runs: what the opening, BEGIN and a finish do with
//! them, and that with good ones every answer is that of the row.

use runner::generate::draft::{Draft, MIXED};
use runner::lent::{
    open, Run, Sizes, FINISHED, PLAN_WORDS, ROW, RUNNING, STATUS_WORDS, WAITING, WAITS,
};
use runner::limits::MAX_CALLS;
use runner::machine::{self, Machine, Move};
use runner::rng::Rng;

use crate::lent::{answer, begin, cancel, drawn, expect, lent, moved, same, step, Damage, P, RUNS};

/// Of call 1 the row is 0, of call 3 it is 0 and 1, of call 4 it is 0, 1 and 3.
/// Call 2 conflicts with none. Call 1 throws.
const FIVE: &str = "function 32768 0
        put r0 1 zero zero
    function 32768 1
        set r0 9
        put r0 1 zero zero
        throw
    function 32768 2
        get r0 2 zero zero
    cell 32768 1 0 0 50
    call 5 32768 0 0
    call 5 32768 1 0
    call 5 32768 2 0
    call 5 32768 0 0
    call 5 32768 0 0
    end";

/// The text of 256 calls that all write one cell.
fn all_conflict() -> String {
    let calls = "call 5 32768 0 0\n".repeat(MAX_CALLS);
    format!("function 32768 0\nput r0 1 zero zero\n{calls}end\n")
}

/// The moves of call 0 of five up to its last step, which ends it.
const BEFORE_END: [Move; 3] = [
    Move::Begin { worker: 0, call: 0 },
    Move::Step { worker: 0 },
    Move::Step { worker: 0 },
];

/// Five with call 0 finished, and call 1 run up to its THROW.
fn before_throw() -> (Run, Vec<u8>) {
    let (mut run, bytes) = moved(FIVE, &BEFORE_END);
    for chosen in [step(0), begin(1, 1), step(1), step(1), step(1)] {
        assert_eq!(run.apply(&bytes, chosen), Ok(()));
    }
    assert_eq!(run.cells[0], 9);
    (run, bytes)
}

/// The waiting counts of the first calls.
fn waits<const CALLS: usize>(run: &Run) -> [u64; CALLS] {
    std::array::from_fn(|call| run.waits(call))
}

fn set_waits(run: &mut Run, call: usize, value: u64) {
    run.status[call * STATUS_WORDS + WAITS] = value;
}

/// Turns the bit of a call in the row of another.
fn turn(run: &mut Run, row: usize, call: usize) {
    run.plan[row * PLAN_WORDS + ROW + call / 64] ^= 1 << (call % 64);
}

/// The run behind a move that passes.
fn after(run: &Run, bytes: &[u8], chosen: Move) -> Run {
    let mut after = run.clone();
    assert_eq!(after.apply(bytes, chosen), Ok(()), "{chosen:?}");
    after
}

/// Asserts that a damage has no effect on a move but that it stays.
fn without_effect(run: &Run, bytes: &[u8], chosen: Move, damage: fn(&mut Run)) {
    let mut damaged = run.clone();
    damage(&mut damaged);
    assert_ne!(damaged, *run);
    let mut wanted = after(run, bytes, chosen);
    damage(&mut wanted);
    assert_eq!(after(&damaged, bytes, chosen), wanted, "{chosen:?}");
}

/// Any move of up to three workers and of the calls, also of one that there is
/// not.
fn any_move(rng: &mut Rng, workers: usize, calls: usize) -> Move {
    let worker = rng.below(workers.min(3) + 1);
    match rng.weighted(&[30, 65, 5]) {
        0 => begin(worker, rng.below(calls + 1)),
        1 => step(worker),
        _ => cancel(worker),
    }
}

#[test]
fn the_opening_counts_the_rows() {
    let (run, _) = lent(FIVE);
    assert_eq!(waits(&run), [0, 1, 0, 2, 3, 0]);
    let mut rng = Rng::new(100);
    for _ in 0..RUNS {
        let bytes = Draft::random(&mut rng, MIXED).bytes();
        let (_, run) = open(&bytes, 8, Sizes::FIXED);
        let rows = machine::open(&bytes, 8).map_or(Vec::new(), |opened| opened.rows);
        for call in 0..MAX_CALLS {
            let row = rows.get(call).map_or(0, Vec::len);
            let words = &run.status[STATUS_WORDS * call..][..STATUS_WORDS];
            assert_eq!(words, [WAITING, 0, 0, row as u64]);
        }
    }
}

#[test]
fn after_any_moves_every_count_and_every_answer_is_that_of_the_row() {
    let mut rng = Rng::new(101);
    let mut refused = 0;
    for index in 0..RUNS {
        let (bytes, workers) = drawn(&mut rng, index);
        let Ok(opened) = machine::open(&bytes, workers) else {
            continue;
        };
        let mut machine = Machine::new(&opened);
        let (_, mut run) = open(&bytes, workers, Sizes::FIXED);
        same(&run, &machine);
        for _ in 0..200 {
            let chosen = any_move(&mut rng, workers, opened.block.calls.len());
            let answer = machine.apply(chosen);
            assert_eq!(run.apply(&bytes, chosen), answer, "{chosen:?}");
            same(&run, &machine);
            let number = answer.err().map_or(0, |refusal| refusal.number());
            refused += usize::from(number == 25);
        }
    }
    assert!(refused > RUNS, "{refused}");
}

#[test]
fn begin_tests_the_count_of_its_call() {
    let (run, bytes) = lent(&all_conflict());
    for call in [0, 1, 63, 64, 254, 255] {
        let own = call as u64;
        assert_eq!(run.waits(call), own);
        for (value, number) in [
            (0, 0),
            (1.min(own), 25 * u16::from(own > 0)),
            (own, 25 * u16::from(own > 0)),
            (own + 1, 20),
            (1 << 32, 20),
            (u64::MAX, 20),
        ] {
            let mut damaged = run.clone();
            set_waits(&mut damaged, call, value);
            let found = answer(&damaged, &bytes, begin(0, call));
            assert_eq!(found, number, "{call} {value}");
        }
    }
}

#[test]
fn a_wrong_count_in_range_is_believed() {
    // 0 lets call 1 begin while call 0 waits.
    let (mut run, bytes) = lent(P);
    assert_eq!(answer(&run, &bytes, begin(1, 1)), 25);
    set_waits(&mut run, 1, 0);
    assert_eq!(run.apply(&bytes, begin(1, 1)), Ok(()));
    assert_eq!((run.state(0), run.state(1)), (WAITING, RUNNING));
    // 1 refuses it though call 0 is finished.
    let run_0 = [begin(0, 0), step(0), step(0), step(0), step(0)];
    let (mut run, bytes) = moved(P, &run_0);
    assert_eq!(answer(&run, &bytes, begin(1, 1)), 0);
    set_waits(&mut run, 1, 1);
    assert_eq!(answer(&run, &bytes, begin(1, 1)), 25);
    // A finish lowers what stands there, and the call then begins too early.
    let (mut run, bytes) = moved(FIVE, &BEFORE_END);
    set_waits(&mut run, 3, 1);
    set_waits(&mut run, 4, 4);
    assert_eq!(run.apply(&bytes, step(0)), Ok(()));
    assert_eq!(waits(&run), [0, 0, 0, 0, 3]);
    assert_eq!(answer(&run, &bytes, begin(0, 3)), 0);
}

#[test]
fn begin_looks_at_no_earlier_state_and_at_no_row() {
    let (finished, bytes) = moved(FIVE, &BEFORE_END);
    let finished = after(&finished, &bytes, step(0));
    let damages: [fn(&mut Run); 7] = [
        |run| run.status[0] = 0,
        |run| run.status[0] = 1,
        |run| run.status[0] = 3,
        |run| run.status[0] = u64::MAX,
        |run| run.plan[PLAN_WORDS + ROW] = 0,
        |run| run.plan[PLAN_WORDS + ROW] = 0b11111,
        |run| run.plan[PLAN_WORDS + ROW..2 * PLAN_WORDS].fill(u64::MAX),
    ];
    for damage in damages {
        without_effect(&finished, &bytes, begin(1, 1), damage);
    }
    // Nor do they let a call begin that waits.
    let (opened, bytes) = lent(FIVE);
    let damages: [Damage; 5] = [
        (|run| run.status[0] = 2, 25),
        (|run| run.status[0] = 3, 25),
        (|run| run.plan[PLAN_WORDS + ROW] = 0, 25),
        (|run| run.plan[PLAN_WORDS + ROW] = u64::MAX, 25),
        // Other calls' counts are not looked at either.
        (|run| (run.status[3], run.status[11]) = (1, 9), 25),
    ];
    expect(&opened, &bytes, begin(1, 1), &damages);
}

#[test]
fn begin_cancel_and_a_step_that_goes_on_leave_the_counts() {
    let (mut run, bytes) = lent(FIVE);
    for call in 1..MAX_CALLS {
        set_waits(&mut run, call, u64::MAX - call as u64);
    }
    for chosen in [begin(0, 0), step(0), step(0), cancel(0)] {
        let counts: [u64; MAX_CALLS] = waits(&run);
        run = after(&run, &bytes, chosen);
        assert_eq!(waits(&run), counts, "{chosen:?}");
        // Neither is the count of the held call looked at.
        set_waits(&mut run, 0, 7);
    }
}

#[test]
fn a_finish_tests_every_count_that_it_lowers() {
    let (run, bytes) = moved(FIVE, &BEFORE_END);
    assert_eq!(waits(&run), [0, 1, 0, 2, 3, 0]);
    assert_eq!(waits(&after(&run, &bytes, step(0))), [0, 0, 0, 1, 2, 0]);
    let damages: [Damage; 11] = [
        (|run| set_waits(run, 1, 0), 20),
        (|run| set_waits(run, 1, 2), 20),
        (|run| set_waits(run, 3, 0), 20),
        (|run| set_waits(run, 3, 1), 0),
        (|run| set_waits(run, 3, 3), 0),
        (|run| set_waits(run, 3, 4), 20),
        (|run| set_waits(run, 4, 0), 20),
        (|run| set_waits(run, 4, 4), 0),
        (|run| set_waits(run, 4, 5), 20),
        (|run| set_waits(run, 4, 1 << 32), 20),
        (|run| set_waits(run, 4, u64::MAX), 20),
    ];
    expect(&run, &bytes, step(0), &damages);
}

#[test]
fn a_throw_that_cannot_lower_a_count_restores_nothing() {
    let (run, bytes) = before_throw();
    let damages: [Damage; 6] = [
        (|run| set_waits(run, 3, 0), 20),
        (|run| set_waits(run, 4, 5), 20),
        (|run| set_waits(run, 4, 0), 20),
        // Nor does one that cannot restore lower a count.
        (|run| run.plan[PLAN_WORDS + 3] = 1024 * 4 + 2, 20),
        (|run| run.plan[PLAN_WORDS + 2] = 25, 20),
        (|_| (), 0),
    ];
    expect(&run, &bytes, step(1), &damages);
    let thrown = after(&run, &bytes, step(1));
    assert_eq!((thrown.cells[0], thrown.status[5]), (0, 3));
    assert_eq!(waits(&thrown), [0, 0, 0, 0, 1, 0]);
}

#[test]
fn a_finish_looks_at_no_other_count() {
    // Its own, an unnamed later call's, and those beyond the calls.
    let (run, bytes) = moved(FIVE, &BEFORE_END);
    for value in [1, 4, u64::MAX] {
        let mut damaged = run.clone();
        for call in [0, 2, 5, 255] {
            set_waits(&mut damaged, call, value);
        }
        let finished = after(&damaged, &bytes, step(0));
        assert_eq!(waits(&finished), [value, 0, value, 1, 2, value]);
        assert_eq!(finished.waits(255), value);
    }
    // An earlier call's.
    let (run, bytes) = before_throw();
    without_effect(&run, &bytes, step(1), |run| set_waits(run, 0, u64::MAX));
}

#[test]
fn a_finish_looks_at_no_call_at_the_number_of_calls_or_above() {
    let (run, bytes) = moved(FIVE, &BEFORE_END);
    let mut damaged = run.clone();
    damaged.head.calls = 3;
    set_waits(&mut damaged, 3, 0);
    set_waits(&mut damaged, 4, u64::MAX);
    let finished = after(&damaged, &bytes, step(0));
    assert_eq!(waits(&finished), [0, 0, 0, 0, u64::MAX]);
    damaged.head.calls = 4;
    assert_eq!(answer(&damaged, &bytes, step(0)), 20);
    // Those that a damaged number takes in are looked at if their rows say so.
    let mut damaged = run.clone();
    damaged.head.calls = 256;
    assert_eq!(answer(&damaged, &bytes, step(0)), 0);
    turn(&mut damaged, 255, 0);
    assert_eq!(answer(&damaged, &bytes, step(0)), 20);
    set_waits(&mut damaged, 255, 255);
    assert_eq!(after(&damaged, &bytes, step(0)).waits(255), 254);
}

#[test]
fn a_finish_goes_by_the_bits_of_the_later_rows() {
    let (run, bytes) = moved(FIVE, &BEFORE_END);
    // A bit more, and a bit less.
    let mut damaged = run.clone();
    turn(&mut damaged, 2, 0);
    assert_eq!(answer(&damaged, &bytes, step(0)), 20);
    set_waits(&mut damaged, 2, 2);
    turn(&mut damaged, 3, 0);
    let finished = after(&damaged, &bytes, step(0));
    assert_eq!(waits(&finished), [0, 0, 1, 2, 2, 0]);
    // A count that is not lowered is not tested.
    let mut damaged = run.clone();
    turn(&mut damaged, 3, 0);
    set_waits(&mut damaged, 3, 0);
    assert_eq!(answer(&damaged, &bytes, step(0)), 0);
    // The rows' other bits do not matter.
    without_effect(&run, &bytes, step(0), |run| {
        for row in 1..5 {
            run.plan[row * PLAN_WORDS + ROW] |= !1;
            run.plan[row * PLAN_WORDS + ROW + 1..][..3].fill(u64::MAX);
        }
        run.plan[2 * PLAN_WORDS + ROW] &= !1;
    });
}

#[test]
fn a_finish_ignores_the_rows_of_earlier_calls_and_its_own() {
    let (run, bytes) = before_throw();
    without_effect(&run, &bytes, step(1), |run| turn(run, 0, 1));
    without_effect(&run, &bytes, step(1), |run| turn(run, 1, 1));
    without_effect(&run, &bytes, step(1), |run| {
        turn(run, 0, 1);
        set_waits(run, 0, u64::MAX);
        turn(run, 1, 1);
        set_waits(run, 1, 1);
    });
}

#[test]
fn every_outcome_lowers_alike() {
    for (outcome, code, value, steps) in [
        (
            0,
            "function 32768 0
put r0 1 zero zero",
            0,
            3,
        ),
        (1, "", 0, 1),
        (
            2,
            "function 32768 0
put r0 1 zero zero",
            1,
            1,
        ),
        (
            3,
            "function 32768 0
put r0 1 zero zero
throw",
            0,
            3,
        ),
        (
            4,
            "function 32768 0
set r0 -2147483648
mul r0 r0 r0
add r0 r0 r0",
            0,
            4,
        ),
        (
            5,
            "function 32768 0
set r0 1
pay r0 const 7",
            0,
            3,
        ),
        (
            6,
            "function 32768 0
div r0 r0 r0",
            0,
            2,
        ),
    ] {
        let calls = format!(
            "call 5 32768 0 {value}
"
        )
        .repeat(4);
        let (mut run, bytes) = lent(&format!(
            "{code}
{calls}end
"
        ));
        // Calls 1 and 3 wait for call 0, call 2 for none.
        for (call, row, waits) in [(1, 1, 1), (2, 0, 0), (3, 1, 3)] {
            run.plan[call * PLAN_WORDS + ROW] = row;
            set_waits(&mut run, call, waits);
        }
        let passing = [vec![begin(0, 0)], vec![step(0); steps - 1]].concat();
        for chosen in passing {
            run = after(&run, &bytes, chosen);
            assert_eq!(waits(&run), [0, 1, 0, 3]);
        }
        let finished = after(&run, &bytes, step(0));
        assert_eq!(finished.status[..2], [FINISHED, outcome]);
        assert_eq!(waits(&finished), [0, 0, 0, 2], "outcome {outcome}");
        for (call, value) in [(1, 0), (1, 2), (3, 0), (3, 4)] {
            let mut damaged = run.clone();
            set_waits(&mut damaged, call, value);
            assert_eq!(answer(&damaged, &bytes, step(0)), 20, "outcome {outcome}");
        }
    }
}

#[test]
fn a_finish_lowers_whatever_the_later_state_is() {
    let (run, bytes) = moved(FIVE, &BEFORE_END);
    for state in [WAITING, RUNNING, FINISHED, 3, u64::MAX] {
        let mut damaged = run.clone();
        (damaged.status[4], damaged.status[12]) = (state, state);
        let finished = after(&damaged, &bytes, step(0));
        assert_eq!(waits(&finished), [0, 0, 0, 1, 2]);
        assert_eq!([finished.state(1), finished.state(3)], [state; 2]);
        // So is it tested.
        set_waits(&mut damaged, 3, 0);
        assert_eq!(answer(&damaged, &bytes, step(0)), 20);
    }
}

#[test]
fn each_of_256_conflicting_calls_is_lowered_by_each_earlier_one() {
    let (mut run, bytes) = lent(&all_conflict());
    for call in 0..MAX_CALLS {
        for later in call + 1..MAX_CALLS {
            assert_eq!(run.waits(later), (later - call) as u64);
        }
        let number = if call + 1 < MAX_CALLS { 25 } else { 22 };
        assert_eq!(answer(&run, &bytes, begin(1, call + 1)), number);
        for chosen in [begin(0, call), step(0), step(0), step(0)] {
            assert_eq!(run.apply(&bytes, chosen), Ok(()));
        }
    }
    assert_eq!(waits(&run), [0; MAX_CALLS]);
}
