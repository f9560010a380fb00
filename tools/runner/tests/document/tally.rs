//! The tally of demand 3: the answers, states and workers that follow from the
//! rows, the serial run's steps and the list of moves alone.

use runner::machine::{Move, Opened};
use runner::serial;

/// A call on the tally.
#[derive(Clone, Copy, Debug, PartialEq, Eq)]
pub enum Mark {
    Waiting,
    /// Running, with the steps since its last begin.
    Running(usize),
    Finished,
}

/// The tally.
pub struct Tally {
    rows: Vec<Vec<usize>>,
    serial_steps: Vec<usize>,
    pub calls: Vec<Mark>,
    pub workers: Vec<Option<usize>>,
}

impl Tally {
    /// At the opening every call waits and no worker holds one.
    pub fn new(opened: &Opened) -> Tally {
        let ended = serial::run(opened).ended;
        Tally {
            rows: opened.rows.clone(),
            serial_steps: ended.iter().map(|call| call.steps).collect(),
            calls: vec![Mark::Waiting; ended.len()],
            workers: vec![None; opened.workers],
        }
    }

    /// Answers a move with `Ok` or the number of its refusal.
    pub fn answer(&mut self, chosen: Move) -> Result<(), u16> {
        match chosen {
            Move::Begin { worker, call } => self.begin(worker, call),
            Move::Step { worker } => self.step(worker),
            Move::Cancel { worker } => self.cancel(worker),
        }
    }

    fn begin(&mut self, worker: usize, call: usize) -> Result<(), u16> {
        let unfinished = |earlier: &usize| self.calls[*earlier] != Mark::Finished;
        if worker >= self.workers.len() {
            Err(21)
        } else if call >= self.calls.len() {
            Err(22)
        } else if self.workers[worker].is_some() {
            Err(23)
        } else if self.calls[call] != Mark::Waiting {
            Err(24)
        } else if self.rows[call].iter().any(unfinished) {
            Err(25)
        } else {
            self.calls[call] = Mark::Running(0);
            self.workers[worker] = Some(call);
            Ok(())
        }
    }

    fn step(&mut self, worker: usize) -> Result<(), u16> {
        let call = self.held(worker)?;
        let Mark::Running(steps) = self.calls[call] else {
            panic!("a worker holds a running call");
        };
        if steps + 1 == self.serial_steps[call] {
            self.calls[call] = Mark::Finished;
            self.workers[worker] = None;
        } else {
            self.calls[call] = Mark::Running(steps + 1);
        }
        Ok(())
    }

    fn cancel(&mut self, worker: usize) -> Result<(), u16> {
        let call = self.held(worker)?;
        self.calls[call] = Mark::Waiting;
        self.workers[worker] = None;
        Ok(())
    }

    fn held(&self, worker: usize) -> Result<usize, u16> {
        self.workers.get(worker).ok_or(21u16)?.ok_or(26)
    }
}
