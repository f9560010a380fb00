//! The worker machine: an opened block, and a run changed by moves.

use crate::block::{self, Block};
use crate::cells::Cells;
use crate::execute::{Receipt, Running};
use crate::limits::MAX_WORKERS;
use crate::refusal::{BlockFault, BlockRefusal, MoveRefusal};
use crate::sets::{analyse, rows, Sets};

/// A block opened for some workers.
#[derive(Clone, Debug, PartialEq, Eq)]
pub struct Opened {
    /// The records.
    pub block: Block,
    /// The read set and write set of each call.
    pub sets: Vec<Sets>,
    /// The earlier conflicting calls of each call.
    pub rows: Vec<Vec<usize>>,
    /// How many distinct keys the opening and the sets have together.
    pub keys: usize,
    /// The number of workers.
    pub workers: usize,
}

/// Opens a block: 13, then the reader's refusals, then 11 and 12.
pub fn open(bytes: &[u8], workers: usize) -> Result<Opened, BlockRefusal> {
    if !(1..=MAX_WORKERS).contains(&workers) {
        return Err(BlockFault::Workers.at(0));
    }
    let block = block::read(bytes)?;
    let analysis = analyse(&block)?;
    Ok(Opened {
        rows: rows(&analysis.sets),
        sets: analysis.sets,
        keys: analysis.keys,
        block,
        workers,
    })
}

/// A move of a worker.
#[derive(Clone, Copy, Debug, PartialEq, Eq)]
#[allow(missing_docs)]
pub enum Move {
    /// The worker takes a waiting call.
    Begin { worker: usize, call: usize },
    /// The worker's call takes one step.
    Step { worker: usize },
    /// The worker gives its call back.
    Cancel { worker: usize },
}

/// The state of a call.
#[derive(Clone, Copy, Debug, PartialEq, Eq)]
pub enum State {
    /// Not begun, or cancelled.
    Waiting,
    /// Held by a worker.
    Running,
    /// Ended.
    Finished(Receipt),
}

impl State {
    /// The receipt of a finished call.
    pub fn receipt(self) -> Option<Receipt> {
        match self {
            State::Finished(receipt) => Some(receipt),
            State::Waiting | State::Running => None,
        }
    }

    /// Whether the call is finished.
    pub fn is_finished(self) -> bool {
        self.receipt().is_some()
    }
}

/// The running call that a worker holds.
#[derive(Clone, Debug, PartialEq, Eq)]
pub struct Held {
    /// The call's number.
    pub call: usize,
    /// Where it stands.
    pub running: Running,
}

/// A run of an opened block. The calls in state `Running` are exactly those
/// that the workers hold, each once.
#[derive(Clone, Debug, PartialEq, Eq)]
pub struct Machine<'a> {
    opened: &'a Opened,
    cells: Cells,
    states: Vec<State>,
    workers: Vec<Option<Held>>,
}

impl<'a> Machine<'a> {
    /// The run at the opening: every call waits and no worker holds one.
    pub fn new(opened: &'a Opened) -> Machine<'a> {
        Machine {
            opened,
            cells: Cells::opening(&opened.block.opening),
            states: vec![State::Waiting; opened.block.calls.len()],
            workers: vec![None; opened.workers],
        }
    }

    /// The opened block that is run.
    pub fn opened(&self) -> &'a Opened {
        self.opened
    }

    /// The cells.
    pub fn cells(&self) -> &Cells {
        &self.cells
    }

    /// The state of each call.
    pub fn states(&self) -> &[State] {
        &self.states
    }

    /// What each worker holds.
    pub fn workers(&self) -> &[Option<Held>] {
        &self.workers
    }

    /// The receipts in block order, if every call is finished.
    pub fn receipts(&self) -> Option<Vec<Receipt>> {
        self.states.iter().map(|state| state.receipt()).collect()
    }

    /// Makes a move. A refused move changes nothing.
    pub fn apply(&mut self, chosen: Move) -> Result<(), MoveRefusal> {
        match chosen {
            Move::Begin { worker, call } => self.begin(worker, call),
            Move::Step { worker } => self.step(worker),
            Move::Cancel { worker } => self.cancel(worker),
        }
    }

    /// BEGIN: 21 to 25, then the call runs on the worker, at its entry.
    pub fn begin(&mut self, worker: usize, call: usize) -> Result<(), MoveRefusal> {
        let slot = self.workers.get(worker).ok_or(MoveRefusal::NoSuchWorker)?;
        let state = self.states.get(call).ok_or(MoveRefusal::NoSuchCall)?;
        if slot.is_some() {
            return Err(MoveRefusal::WorkerBusy);
        }
        if *state != State::Waiting {
            return Err(MoveRefusal::CallNotWaiting);
        }
        if self.earlier_unfinished(call) {
            return Err(MoveRefusal::EarlierUnfinished);
        }
        let running = Running::begin(&self.opened.sets[call].writes, &self.cells);
        self.workers[worker] = Some(Held { call, running });
        self.states[call] = State::Running;
        Ok(())
    }

    /// STEP: 21 and 26, then one step of the worker's call.
    pub fn step(&mut self, worker: usize) -> Result<(), MoveRefusal> {
        let Held { call, running } = held(&mut self.workers, worker)?;
        let (call, block) = (*call, &self.opened.block);
        let ended = running.step(block, &block.calls[call], &mut self.cells);
        if let Some(receipt) = ended {
            self.states[call] = State::Finished(receipt);
            self.workers[worker] = None;
        }
        Ok(())
    }

    /// CANCEL: 21 and 26, then the call's cells are restored and it waits.
    pub fn cancel(&mut self, worker: usize) -> Result<(), MoveRefusal> {
        let Held { call, running } = held(&mut self.workers, worker)?;
        running.restore(&mut self.cells);
        self.states[*call] = State::Waiting;
        self.workers[worker] = None;
        Ok(())
    }

    /// Whether an earlier conflicting call is waiting or running.
    fn earlier_unfinished(&self, call: usize) -> bool {
        let mut earlier = self.opened.rows[call].iter();
        earlier.any(|&call| !self.states[call].is_finished())
    }
}

/// What a worker holds: 21, 26.
fn held(workers: &mut [Option<Held>], worker: usize) -> Result<&mut Held, MoveRefusal> {
    let slot = workers.get_mut(worker).ok_or(MoveRefusal::NoSuchWorker)?;
    slot.as_mut().ok_or(MoveRefusal::WorkerIdle)
}
