//! A run of a block over buffers of its own.

use crate::answer::{Answer, Refusal};
use crate::raw::{self, size, Size, StatusWord, View, Words};

/// Words of a call in the plan, and the first of its row.
const PLAN_WORDS: usize = 32;
const FIRST_ROW_WORD: usize = 27;
/// Bits of one word of a row.
const ROW_BITS: usize = 64;

/// How a call ended; the discriminant is the number of document 01, or 02.
#[derive(Clone, Copy, Debug, PartialEq, Eq, Hash)]
pub enum Outcome {
    /// It came to STOP or to the end of its code.
    Ended = 0,
    /// There is no such function.
    UnknownFunction = 1,
    /// The sender's balance was below the value.
    ValueNotCovered = 2,
    /// THROW.
    Thrown = 3,
    /// A result outside 64 signed bits.
    OutOfRange = 4,
    /// PAY of a negative amount, to no account or to account 0, or above the
    /// contract's balance.
    NotPaid = 5,
    /// DIV by zero.
    ZeroDivisor = 6,
    /// An instruction was due when the count was the call's fuel.
    OutOfFuel = 7,
}

impl Outcome {
    /// The number of document 01, or 02.
    pub fn number(self) -> u64 {
        self as u64
    }

    fn told(number: u64) -> Outcome {
        match number {
            0 => Outcome::Ended,
            1 => Outcome::UnknownFunction,
            2 => Outcome::ValueNotCovered,
            3 => Outcome::Thrown,
            4 => Outcome::OutOfRange,
            5 => Outcome::NotPaid,
            6 => Outcome::ZeroDivisor,
            7 => Outcome::OutOfFuel,
            _ => unreachable!("a finished call has outcome {number}"),
        }
    }
}

/// The receipt of a finished call.
#[derive(Clone, Copy, Debug, PartialEq, Eq, Hash)]
pub struct Receipt {
    /// How it ended.
    pub outcome: Outcome,
    /// How many instructions it executed, at most its fuel.
    pub count: u64,
}

/// The state of a call.
#[derive(Clone, Copy, Debug, PartialEq, Eq, Hash)]
pub enum State {
    /// Not begun, or cancelled.
    Waiting,
    /// Held by a worker.
    Running,
    /// Ended.
    Finished(Receipt),
}

/// A run of a block. It owns its buffers and borrows the block, so that nothing
/// else changes them between its moves: then every list of moves gives the
/// serial result, and no answer is [`Answer::Damaged`].
#[derive(Clone, Debug)]
pub struct Run<'b> {
    block: &'b [u8],
    head: Vec<u64>,
    plan: Vec<u64>,
    keys: Vec<u64>,
    cells: Vec<i64>,
    status: Vec<u64>,
    seats: Vec<u64>,
    frames: Vec<i64>,
}

impl<'b> Run<'b> {
    /// Opens a block for 1 to 8 workers: every call waits and no worker holds
    /// one.
    pub fn open(block: &'b [u8], workers: usize) -> Result<Run<'b>, Refusal> {
        let mut run = Run {
            block,
            head: vec![0; size(Size::Head)],
            plan: vec![0; size(Size::Plan)],
            keys: vec![0; size(Size::Keys)],
            cells: vec![0; size(Size::Cells)],
            status: vec![0; size(Size::Status)],
            seats: vec![0; size(Size::Seats)],
            frames: vec![0; size(Size::Frames)],
        };
        run.words().open(block, workers)?;
        Ok(run)
    }

    /// BEGIN(worker, call): the call runs on the worker, at its entry.
    pub fn begin(&mut self, worker: usize, call: usize) -> Result<(), Answer> {
        self.words().begin(worker, call)
    }

    /// STEP(worker): one step of the worker's call.
    pub fn step(&mut self, worker: usize) -> Result<(), Answer> {
        let block = self.block;
        self.words().step(block, worker)
    }

    /// CANCEL(worker): what its call may have written is restored, and the call
    /// waits again.
    pub fn cancel(&mut self, worker: usize) -> Result<(), Answer> {
        self.words().cancel(worker)
    }

    /// The serial run: each call begun on worker 0 and stepped to its end. On a
    /// run on which moves were made, what is refused on the way is left out.
    pub fn serial_run(&mut self) {
        let block = self.block;
        let answer = self.words().serial_run(block);
        answer.expect("the buffers have the fixed sizes");
    }

    /// The closing sheet, once every call is finished.
    pub fn sheet(&self) -> Result<Vec<u8>, Answer> {
        let mut output = vec![0; size(Size::Sheet)];
        let length = self.sheet_into(&mut output)?;
        output.truncate(length);
        Ok(output)
    }

    /// Writes the closing sheet to the front of an output and answers its
    /// length, the offset behind its last record. A refused sheet changes no
    /// byte.
    pub fn sheet_into(&self, output: &mut [u8]) -> Result<usize, Answer> {
        self.view().sheet(output)
    }

    /// The block.
    pub fn block(&self) -> &'b [u8] {
        self.block
    }

    /// The number of workers.
    pub fn workers(&self) -> usize {
        self.head[0] as usize
    }

    /// The number of calls.
    pub fn calls(&self) -> usize {
        self.head[1] as usize
    }

    /// The state of a call; none if there is no such call.
    pub fn state(&self, call: usize) -> Option<State> {
        if call >= self.calls() {
            return None;
        }
        let word = |word: StatusWord| self.status[word.of(call)];
        Some(match word(StatusWord::State) {
            0 => State::Waiting,
            1 => State::Running,
            _ => State::Finished(Receipt {
                outcome: Outcome::told(word(StatusWord::Outcome)),
                count: word(StatusWord::Count),
            }),
        })
    }

    /// How many of the calls that a call waits for are unfinished; none if there
    /// is no such call. While it is above 0, a begin of the call is refused by
    /// [`Answer::EarlierUnfinished`].
    pub fn unfinished_before(&self, call: usize) -> Option<u64> {
        (call < self.calls()).then(|| self.status[StatusWord::Waits.of(call)])
    }

    /// The call that a worker holds.
    pub fn held(&self, worker: usize) -> Option<usize> {
        if worker >= self.workers() {
            return None;
        }
        (self.head[raw::FIRST_HELD + worker] as usize).checked_sub(1)
    }

    /// Whether every call is finished.
    pub fn is_finished(&self) -> bool {
        (0..self.calls()).all(|call| matches!(self.state(call), Some(State::Finished(_))))
    }

    /// The earlier calls that a call conflicts with, rising: it waits for them.
    /// There are none where there is no such call.
    pub fn waits_for(&self, call: usize) -> Vec<usize> {
        if call >= self.calls() {
            return Vec::new();
        }
        let row = &self.plan[PLAN_WORDS * call + FIRST_ROW_WORD..];
        (0..call)
            .filter(|earlier| row[earlier / ROW_BITS] >> (earlier % ROW_BITS) & 1 == 1)
            .collect()
    }

    /// The head and the buffers, to be read.
    pub fn view(&self) -> View<'_> {
        View {
            head: &self.head,
            plan: &self.plan,
            keys: &self.keys,
            cells: &self.cells,
            status: &self.status,
            seats: &self.seats,
            frames: &self.frames,
        }
    }

    fn words(&mut self) -> Words<'_> {
        Words {
            head: &mut self.head,
            plan: &mut self.plan,
            keys: &mut self.keys,
            cells: &mut self.cells,
            status: &mut self.status,
            seats: &mut self.seats,
            frames: &mut self.frames,
        }
    }
}
