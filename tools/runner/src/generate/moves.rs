//! Random move lines for an opened block. The moves are tried on a machine, so
//! that most runs come to their end.

use crate::limits::MAX_DIGITS;
use crate::machine::{Machine, Move, Opened, State};
use crate::refusal::MoveRefusal;
use crate::rng::Rng;

/// How lines are drawn.
#[derive(Clone, Copy, Debug)]
pub struct Plan {
    /// Whether the run comes to its end.
    pub complete: bool,
    /// Of 100 lines, how many are no moves.
    pub malformed: usize,
    /// Of 100 lines, how many are refused moves.
    pub refused: usize,
    /// Of 100 accepted moves, how many are cancels.
    pub cancels: usize,
}

/// Lines that are no moves.
pub const MALFORMED: [&[u8]; 36] = [
    b"",
    b" ",
    b"b",
    b"s",
    b"c",
    b"b ",
    b"s ",
    b"b 0",
    b"b 0 ",
    b"s 0 0",
    b"c 0 0",
    b"b 0 0 0",
    b"b  0 0",
    b"b 0  0",
    b"s  0",
    b" s 0",
    b"s 0 ",
    b"b 0 0 ",
    b"s 000000",
    b"b 0 100000",
    b"b 100000 0",
    b"s +0",
    b"b -1 0",
    b"s -0",
    b"B 0 0",
    b"S 0",
    b"C 0",
    b"s\t0",
    b"s 0\t",
    b"s 0\r",
    b"x 0",
    b"ss 0",
    b"s0",
    b"s 0x1",
    b"s \xd9\xa3",
    b"s 1\x00",
];

/// A worker number and a call number that do not exist but are numbers.
const LARGEST_NUMBER: usize = 99_999;
/// How often a move with a wanted refusal is looked for.
const ATTEMPTS: usize = 20;

/// The refusals that the lines contain on purpose.
const REFUSALS: [MoveRefusal; 6] = [
    MoveRefusal::NoSuchWorker,
    MoveRefusal::NoSuchCall,
    MoveRefusal::WorkerBusy,
    MoveRefusal::CallNotWaiting,
    MoveRefusal::EarlierUnfinished,
    MoveRefusal::WorkerIdle,
];

/// How often each is wanted: an early begin most.
const REFUSAL_WEIGHTS: [usize; REFUSALS.len()] = [1, 1, 1, 1, 5, 1];

/// The lines of a run.
pub fn lines(rng: &mut Rng, opened: &Opened, plan: Plan) -> Vec<u8> {
    let mut writer = Writer {
        workers: some_workers(rng, opened.workers),
        machine: Machine::new(opened),
        text: Vec::new(),
        plan,
    };
    let limit = if plan.complete {
        usize::MAX
    } else {
        rng.below(1 + 3 * opened.block.calls.len())
    };
    let mut accepted = 0;
    while !writer.at_end() && accepted < limit {
        writer.interrupt(rng);
        writer.advance(rng);
        accepted += 1;
    }
    writer.interrupt(rng);
    if plan.malformed > 0 && rng.chance(50) {
        writer.text.pop();
    }
    writer.text
}

/// Lines for a block that is refused, which nobody answers.
pub fn unanswered(rng: &mut Rng) -> Vec<u8> {
    let lines: [&[u8]; 4] = [b"", b"b 0 0\n", b"b 0 0\ns 0\n", b"x\n"];
    rng.pick(&lines).to_vec()
}

/// The workers that take part: one in a fifth of the runs, else two to four.
fn some_workers(rng: &mut Rng, workers: usize) -> Vec<usize> {
    let first = rng.below(workers);
    let count = if rng.chance(20) {
        1
    } else {
        rng.between(2, 4).min(workers)
    };
    (0..count).map(|more| (first + more) % workers).collect()
}

struct Writer<'a> {
    workers: Vec<usize>,
    machine: Machine<'a>,
    text: Vec<u8>,
    plan: Plan,
}

impl Writer<'_> {
    fn at_end(&self) -> bool {
        self.machine.receipts().is_some()
    }

    /// Adds lines that change nothing.
    fn interrupt(&mut self, rng: &mut Rng) {
        while rng.chance(self.plan.malformed) {
            self.text.extend(rng.pick(&MALFORMED));
            self.text.push(b'\n');
        }
        if rng.chance(self.plan.refused) {
            let wanted = REFUSALS[rng.weighted(&REFUSAL_WEIGHTS)];
            if let Some(chosen) = self.find_refused(rng, wanted) {
                self.push(rng, chosen);
            }
        }
    }

    /// Adds one accepted move.
    fn advance(&mut self, rng: &mut Rng) {
        let (busy, idle): (Vec<usize>, Vec<usize>) = self
            .workers
            .iter()
            .copied()
            .partition(|worker| self.machine.workers()[*worker].is_some());
        if !busy.is_empty() && rng.chance(self.plan.cancels) {
            let worker = rng.pick(&busy);
            self.accept(rng, Move::Cancel { worker });
        } else if !idle.is_empty() && (busy.is_empty() || rng.chance(40)) {
            let worker = rng.pick(&idle);
            if !self.begin(rng, worker) {
                self.step(rng, &busy);
            }
        } else {
            self.step(rng, &busy);
        }
    }

    /// Begins a random waiting call, or else the first; false if neither can
    /// begin now.
    fn begin(&mut self, rng: &mut Rng, worker: usize) -> bool {
        let states = self.machine.states();
        let waiting: Vec<usize> = (0..states.len())
            .filter(|&call| states[call] == State::Waiting)
            .collect();
        let Some(&first) = waiting.first() else {
            return false;
        };
        let any = rng.pick(&waiting);
        self.accept(rng, Move::Begin { worker, call: any })
            || self.accept(
                rng,
                Move::Begin {
                    worker,
                    call: first,
                },
            )
    }

    fn step(&mut self, rng: &mut Rng, busy: &[usize]) {
        let worker = rng.pick(busy);
        self.accept(rng, Move::Step { worker });
    }

    /// Makes a move and adds its line, if it is accepted.
    fn accept(&mut self, rng: &mut Rng, chosen: Move) -> bool {
        let accepted = self.machine.apply(chosen).is_ok();
        if accepted {
            self.push(rng, chosen);
        }
        accepted
    }

    /// A random move that the machine would refuse with a number.
    fn find_refused(&self, rng: &mut Rng, wanted: MoveRefusal) -> Option<Move> {
        let answers_so = |chosen: &Move| self.machine.clone().apply(*chosen) == Err(wanted);
        (0..ATTEMPTS)
            .map(|_| self.any_move(rng))
            .find(|chosen| answers_so(chosen))
    }

    fn any_move(&self, rng: &mut Rng) -> Move {
        let calls = self.machine.states().len();
        let worker = match rng.below(8) {
            0 => LARGEST_NUMBER,
            1 => self.machine.workers().len(),
            2 => rng.below(10),
            _ => rng.pick(&self.workers),
        };
        match rng.below(5) {
            0 => Move::Step { worker },
            1 => Move::Cancel { worker },
            2 => Move::Begin {
                worker,
                call: rng.pick(&[calls, calls + 1, 256, LARGEST_NUMBER]),
            },
            _ => Move::Begin {
                worker,
                call: rng.below(calls + 1),
            },
        }
    }

    /// Adds the line of a move. Among lines that are no moves, numbers may have
    /// leading zeros.
    fn push(&mut self, rng: &mut Rng, chosen: Move) {
        let zeros = self.plan.malformed > 0 && rng.chance(25);
        let width = if zeros { rng.between(2, MAX_DIGITS) } else { 1 };
        let line = match chosen {
            Move::Begin { worker, call } => format!("b {worker:0width$} {call:0width$}\n"),
            Move::Step { worker } => format!("s {worker:0width$}\n"),
            Move::Cancel { worker } => format!("c {worker:0width$}\n"),
        };
        self.text.extend(line.bytes());
    }
}
