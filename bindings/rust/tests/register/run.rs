//! `Run` against the runner's machine: every answer, every state, every sheet.

use runner::console::{lines, parse};
use runner::generate::{large_cases, small_cases, Case};
use runner::limits::MAX_SHEET_BYTES;
use runner::machine::{self, Machine, Move};
use runner::{serial, sheet};
use zumbiqa::raw::{self, size, size_of_number, Size, StatusWord};
use zumbiqa::{Answer, Fault, Outcome, Refusal, Run, State};

/// The workers of a generated case.
const WORKERS: usize = 8;

/// How many small and large cases are run.
const SMALL: usize = 2_200;
const LARGE: usize = 18;

/// What bytes behind a sheet are before it is written.
const BEHIND: u8 = 7;

fn number(answer: Result<(), Answer>) -> u64 {
    answer.map_or_else(Answer::number, |()| 0)
}

fn make(run: &mut Run, chosen: Move) -> Result<(), Answer> {
    match chosen {
        Move::Begin { worker, call } => run.begin(worker, call),
        Move::Step { worker } => run.step(worker),
        Move::Cancel { worker } => run.cancel(worker),
    }
}

/// The state of a call as the machine has it.
fn state(found: State) -> (bool, Option<(u64, u64)>) {
    match found {
        State::Waiting => (false, None),
        State::Running => (true, None),
        State::Finished(receipt) => (false, Some((receipt.outcome.number(), receipt.count))),
    }
}

fn machine_state(wanted: machine::State) -> (bool, Option<(u64, u64)>) {
    let receipt = wanted.receipt();
    let numbers = receipt.map(|r| (r.outcome.number().into(), r.count.into()));
    (wanted == machine::State::Running, numbers)
}

fn compare(run: &Run, machine: &Machine) {
    for (call, wanted) in machine.states().iter().enumerate() {
        let found = run.state(call).expect("there is such a call");
        assert_eq!(state(found), machine_state(*wanted), "call {call}");
        let finished = |call: usize| machine.states()[call].receipt().is_some();
        let row = machine.opened().rows[call].iter();
        let waits = row.filter(|earlier| !finished(**earlier)).count();
        assert_eq!(
            run.unfinished_before(call),
            Some(waits as u64),
            "call {call}"
        );
    }
    for (worker, wanted) in machine.workers().iter().enumerate() {
        let wanted = wanted.as_ref().map(|held| held.call);
        assert_eq!(run.held(worker), wanted, "worker {worker}");
    }
    assert_eq!(run.is_finished(), machine.receipts().is_some());
}

/// The sheets of both are equal with an output of its length, of one byte less,
/// of one more, and of none.
fn compare_sheets(run: &Run, machine: &Machine) {
    let mut wanted = [0; MAX_SHEET_BYTES];
    let length = sheet::write(machine, &mut wanted);
    let whole = length.map(|length| wanted[..length].to_vec());
    assert_eq!(
        run.sheet().map_err(Answer::number),
        whole.map_err(|refusal| refusal.number().into())
    );
    let length = length.unwrap_or(0);
    for room in [0, length.saturating_sub(1), length, length + 1] {
        let (mut found, mut wanted) = (vec![BEHIND; room], vec![BEHIND; room]);
        assert_eq!(
            run.sheet_into(&mut found).map_err(Answer::number),
            sheet::write(machine, &mut wanted).map_err(|refusal| refusal.number().into())
        );
        assert_eq!(found, wanted);
    }
}

/// A case is run with the moves of its lines.
fn compare_case(case: &Case) {
    let opened = match machine::open(&case.block, WORKERS) {
        Ok(opened) => opened,
        Err(wanted) => {
            let found = Run::open(&case.block, WORKERS).expect_err("the block is refused");
            assert_eq!(found.number(), u64::from(wanted.fault.number()));
            assert_eq!(found.offset, wanted.offset as u64);
            return;
        }
    };
    let mut run = Run::open(&case.block, WORKERS).expect("the block is opened");
    let mut machine = Machine::new(&opened);
    assert_eq!((run.workers(), run.calls()), (WORKERS, opened.rows.len()));
    for (call, row) in opened.rows.iter().enumerate() {
        assert_eq!(run.waits_for(call), *row, "call {call}");
    }
    for chosen in lines(&case.input).filter_map(parse) {
        let wanted = machine
            .apply(chosen)
            .map_or_else(|r| r.number().into(), |()| 0);
        assert_eq!(number(make(&mut run, chosen)), wanted, "{chosen:?}");
        compare(&run, &machine);
    }
    compare_sheets(&run, &machine);
}

/// The serial run has the receipts of the runner's.
fn compare_serial(block: &[u8]) {
    let Ok(opened) = machine::open(block, 1) else {
        return;
    };
    let mut run = Run::open(block, 1).expect("the block is opened");
    run.serial_run();
    assert!(run.is_finished());
    for (call, wanted) in serial::run(&opened).ended.iter().enumerate() {
        let found = run.state(call).expect("there is such a call");
        let wanted = machine::State::Finished(wanted.receipt);
        assert_eq!(state(found), machine_state(wanted), "call {call}");
    }
}

#[test]
fn small_cases_agree() {
    for case in small_cases(2_301, SMALL) {
        compare_case(&case);
        compare_serial(&case.block);
    }
}

#[test]
fn large_cases_agree() {
    for case in large_cases(2_302, LARGE) {
        compare_case(&case);
        compare_serial(&case.block);
    }
}

#[test]
fn workers_are_1_to_8() {
    let block = [0, 0, 4, 0];
    for workers in [0, 9, usize::MAX] {
        let refusal = Refusal {
            fault: Fault::Workers,
            offset: 0,
        };
        assert_eq!(Run::open(&block, workers).err(), Some(refusal));
    }
    for workers in 1..=8 {
        let run = Run::open(&block, workers).expect("the block is opened");
        assert_eq!(run.workers(), workers);
        assert_eq!(run.sheet(), Ok(block.to_vec()));
    }
}

/// Numbers of workers and calls that no run has.
#[test]
fn none_such() {
    let block = [0, 0, 4, 0];
    let mut run = Run::open(&block, 8).expect("the block is opened");
    for worker in [8, 9, 13, usize::MAX] {
        assert_eq!(run.begin(worker, 0), Err(Answer::NoWorker));
        assert_eq!(run.step(worker), Err(Answer::NoWorker));
        assert_eq!(run.cancel(worker), Err(Answer::NoWorker));
        assert_eq!(run.held(worker), None);
    }
    for call in [0, 1, usize::MAX] {
        assert_eq!(run.begin(7, call), Err(Answer::NoCall));
        assert_eq!(run.state(call), None);
        assert_eq!(run.waits_for(call), []);
        assert_eq!(run.unfinished_before(call), None);
    }
}

#[test]
fn sizes_are_the_runners() {
    let sizes = runner::lent::Sizes::FIXED;
    assert_eq!(size(Size::Head), 12);
    assert_eq!(size(Size::Plan), sizes.plan);
    assert_eq!(size(Size::Keys), sizes.keys);
    assert_eq!(size(Size::Cells), sizes.cells);
    assert_eq!(size(Size::Status), sizes.status);
    assert_eq!(size(Size::Seats), sizes.seats);
    assert_eq!(size(Size::Frames), sizes.frames);
    assert_eq!(size(Size::Sheet), MAX_SHEET_BYTES);
    assert_eq!(size(Size::Block), runner::limits::MAX_BLOCK_BYTES);
    assert_eq!(size_of_number(9), 0);
    assert_eq!(size_of_number(usize::MAX), 0);
}

/// The words of a call in the status stand where the runner has them.
#[test]
fn status_words_are_the_runners() {
    use runner::lent::{EXECUTED, OUTCOME, STATE, STATUS_WORDS, WAITS};
    assert_eq!(raw::STATUS_WORDS, STATUS_WORDS);
    for call in [0, 3, 255] {
        let of = |word: StatusWord| word.of(call) - STATUS_WORDS * call;
        assert_eq!(of(StatusWord::State), STATE);
        assert_eq!(of(StatusWord::Outcome), OUTCOME);
        assert_eq!(of(StatusWord::Count), EXECUTED);
        assert_eq!(of(StatusWord::Waits), WAITS);
    }
}

/// Each answer is said in document 01's words.
#[test]
fn answers_are_told() {
    let refusal = Refusal {
        fault: Fault::Code,
        offset: 12,
    };
    assert_eq!(refusal.to_string(), "code breaks a rule, at offset 12");
    assert_eq!(refusal.number(), 10);
    assert_eq!(Answer::WorkerIdle.to_string(), "worker holds none");
    assert_eq!(Outcome::NotPaid.number(), 5);
    assert_eq!(Outcome::ZeroDivisor.number(), 6);
    assert_eq!(Outcome::OutOfFuel.number(), 7);
}
