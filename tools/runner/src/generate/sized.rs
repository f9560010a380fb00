//! Blocks of a wanted number of calls and keys, with runs of a wanted number of
//! lines: one number can grow while the others stay.

use super::draft::Draft;
use super::Case;
use crate::code::{op, Parts};
use crate::console::register;
use crate::emit::CallFields;
use crate::key::Key;
use crate::limits::{COMMON_FUEL, FIRST_CONTRACT, MAX_CALLS, MAX_KEYS, MAX_WORKERS};
use crate::machine::{open, Machine, Move, Opened, State};
use crate::rng::Rng;

/// The one contract that is called.
const CONTRACT: u16 = FIRST_CONTRACT;
/// Functions of the contract.
const FUNCTIONS: usize = 8;
/// Fields of which a call reads one cell each, by its first argument.
const READ_FIELDS: usize = 16;
/// Fields of which a call writes one cell each, by its second argument.
const WRITTEN_FIELDS: usize = 8;
/// Values of the second argument. Calls conflict where they have the same, which
/// is about one pair in eight.
const WRITTEN_INDICES: usize = 8;
/// Keys that are written, all of them opening cells.
const WRITTEN_KEYS: usize = WRITTEN_FIELDS * WRITTEN_INDICES;
/// The registers that are set and stored; those before them are loaded.
const STORED: [u8; 4] = [4, 5, 6, 7];
/// Additions and subtractions.
const CALCULATIONS: usize = 4;
/// Steps of each call: its entry, its instructions, reaching the end.
const STEPS: usize = 1 + STORED.len() + READ_FIELDS + WRITTEN_FIELDS + CALCULATIONS + 1;
/// Lines that run one call: its begin and its steps.
pub const CALL_LINES: usize = 1 + STEPS;

/// How many calls, distinct keys and lines there are.
#[derive(Clone, Copy, Debug, PartialEq, Eq)]
pub struct Sizes {
    /// Calls, each of 24 keys.
    pub calls: usize,
    /// Distinct keys of all calls together.
    pub keys: usize,
    /// Lines of the run, all accepted.
    pub lines: usize,
}

impl Sizes {
    /// Values of the first argument.
    fn read_indices(&self) -> usize {
        self.keys.saturating_sub(WRITTEN_KEYS) / READ_FIELDS
    }

    /// Lines beyond those that run each call once.
    fn more_lines(&self) -> Option<usize> {
        self.lines.checked_sub(self.calls * CALL_LINES)
    }

    /// Why no block has these sizes.
    fn fault(&self) -> Option<String> {
        let indices = self.read_indices();
        if indices == 0 || self.keys > MAX_KEYS || !self.keys.is_multiple_of(READ_FIELDS) {
            let fewest = WRITTEN_KEYS + READ_FIELDS;
            return Some(format!(
                "the keys are a multiple of {READ_FIELDS} from {fewest} to {MAX_KEYS}"
            ));
        }
        let fewest = indices.max(WRITTEN_INDICES);
        if !(fewest..=MAX_CALLS).contains(&self.calls) {
            return Some(format!("these keys need {fewest} to {MAX_CALLS} calls"));
        }
        if matches!(self.more_lines(), None | Some(1)) {
            let lines = self.calls * CALL_LINES;
            return Some(format!(
                "these calls need {lines} lines, or at least 2 more"
            ));
        }
        None
    }
}

/// A block of these sizes with a run of 8 workers. The last line is the step
/// that finishes the last call.
pub fn case(seed: u64, sizes: Sizes) -> Result<Case, String> {
    if let Some(fault) = sizes.fault() {
        return Err(fault);
    }
    let block = draft(&mut Rng::new(seed), sizes).bytes();
    let opened = open(&block, MAX_WORKERS).expect("the sizes are within the limits");
    let input = run(&opened, sizes.more_lines().unwrap_or(0));
    let output = register(&block, &input).into_bytes();
    Ok(Case {
        block,
        input,
        output,
    })
}

fn draft(rng: &mut Rng, sizes: Sizes) -> Draft {
    let mut draft = Draft::default();
    for number in 0..FUNCTIONS {
        let code = code(rng);
        draft.functions.insert((CONTRACT, number as u16), code);
    }
    for field in READ_FIELDS + 1..=READ_FIELDS + WRITTEN_FIELDS {
        for a in 0..WRITTEN_INDICES {
            let key = Key {
                address: CONTRACT,
                field: field as u16,
                a: a as u32,
                b: 0,
            };
            draft.cells.insert(key, rng.between(1, 1_000) as i64);
        }
    }
    let read = indices(rng, sizes.calls, sizes.read_indices());
    let written = indices(rng, sizes.calls, WRITTEN_INDICES);
    for (read, written) in read.into_iter().zip(written) {
        draft.calls.push(CallFields {
            sender: 0,
            contract: CONTRACT,
            function: rng.below(FUNCTIONS) as u16,
            value: 0,
            arguments: [read, written, 1, 2],
            fuel: COMMON_FUEL,
        });
    }
    draft
}

/// For each call a number below a bound, each number equally often.
fn indices(rng: &mut Rng, calls: usize, bound: usize) -> Vec<u32> {
    let mut all: Vec<u32> = (0..calls).map(|call| (call % bound) as u32).collect();
    shuffle(rng, &mut all);
    all
}

/// Code without jumps: sets the registers that are stored, then uses one cell of
/// each field and calculates between.
fn code(rng: &mut Rng) -> Vec<Parts> {
    let mut code = Vec::new();
    for field in 1..=READ_FIELDS {
        code.push(access(op::GET, loaded(rng), 1, field));
    }
    for field in READ_FIELDS + 1..=READ_FIELDS + WRITTEN_FIELDS {
        code.push(access(op::PUT, stored(rng), 2, field));
    }
    for _ in 0..CALCULATIONS {
        code.push(Parts {
            op: rng.pick(&[op::ADD, op::SUB]),
            x: stored(rng),
            y: loaded(rng),
            z: stored(rng),
            w: 0,
        });
    }
    shuffle(rng, &mut code);
    let sets = STORED.map(|x| Parts {
        op: op::SET,
        x,
        w: rng.between(1, 1_000) as u32,
        ..Parts::default()
    });
    [&sets, code.as_slice()].concat()
}

/// A GET or PUT of a field's cell, by an argument.
fn access(op: u8, x: u8, argument: u8, field: usize) -> Parts {
    Parts {
        op,
        x,
        y: argument,
        z: 0,
        w: field as u32,
    }
}

/// A register that is loaded from cells.
fn loaded(rng: &mut Rng) -> u8 {
    rng.below(usize::from(STORED[0])) as u8
}

/// A register that is stored to cells.
fn stored(rng: &mut Rng) -> u8 {
    rng.pick(&STORED)
}

fn shuffle<T>(rng: &mut Rng, items: &mut [T]) {
    for last in (1..items.len()).rev() {
        items.swap(last, rng.below(last + 1));
    }
}

/// The lines of a run: so many lines of calls begun, stepped and cancelled, then
/// all workers take turns until each call is finished.
fn run(opened: &Opened, cancelled: usize) -> Vec<u8> {
    let mut run = Run {
        machine: Machine::new(opened),
        text: String::new(),
    };
    run.cancelled(cancelled);
    run.to_end();
    run.text.into_bytes()
}

struct Run<'a> {
    machine: Machine<'a>,
    text: String,
}

impl Run<'_> {
    /// Makes a move and adds its line, if it is accepted.
    fn accept(&mut self, chosen: Move) -> bool {
        let accepted = self.machine.apply(chosen).is_ok();
        if accepted {
            self.text += &match chosen {
                Move::Begin { worker, call } => format!("b {worker} {call}\n"),
                Move::Step { worker } => format!("s {worker}\n"),
                Move::Cancel { worker } => format!("c {worker}\n"),
            };
        }
        accepted
    }

    /// Adds so many lines, not 1: calls that wait for none are begun, stepped to
    /// before their last step, and cancelled.
    fn cancelled(&mut self, lines: usize) {
        let rows = self.machine.opened().rows.iter();
        let calls: Vec<usize> = rows
            .enumerate()
            .filter(|(_, row)| row.is_empty())
            .map(|(call, _)| call)
            .collect();
        let mut left = lines;
        for round in 0.. {
            let size = match left {
                0 => return,
                _ if left == CALL_LINES + 1 => CALL_LINES - 1,
                _ => left.min(CALL_LINES),
            };
            let worker = round % MAX_WORKERS;
            let call = calls[round % calls.len()];
            self.accept(Move::Begin { worker, call });
            for _ in 2..size {
                self.accept(Move::Step { worker });
            }
            self.accept(Move::Cancel { worker });
            left -= size;
        }
    }

    /// Each worker in turn steps its call or begins the first that it can.
    fn to_end(&mut self) {
        while self.machine.receipts().is_none() {
            for worker in 0..MAX_WORKERS {
                if !self.accept(Move::Step { worker }) {
                    self.begin(worker);
                }
            }
        }
    }

    fn begin(&mut self, worker: usize) {
        for call in 0..self.machine.states().len() {
            let waits = self.machine.states()[call] == State::Waiting;
            if waits && self.accept(Move::Begin { worker, call }) {
                return;
            }
        }
    }
}
