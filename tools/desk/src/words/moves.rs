//! The moves of a run: which lines are refused and why, and what is unfinished.

use runner::console::{lines, parse};
use runner::machine::{Held, Machine, Move, Opened, State};
use runner::refusal::{MoveRefusal, SheetRefusal};

use super::{count, line_fault, outcome, receipt, LastStep, LineFault};

/// The most characters of a line that a remark repeats.
const SHOWN: usize = 60;

/// A refused line, or the refused sheet.
#[derive(Clone, Debug, PartialEq, Eq)]
pub struct Remark {
    /// The line's number from 1; 0 for the sheet.
    pub line: u64,
    /// The line as it was read, with other bytes than ASCII text as escapes, and
    /// cut if it is long.
    pub text: String,
    /// Document 01's number; 0 for a line in no form.
    pub number: u32,
    /// The explanation.
    pub words: String,
}

/// A run and what was remarkable in it.
pub struct Played<'a> {
    bytes: &'a [u8],
    /// The run behind the last line.
    pub machine: Machine<'a>,
    /// How many lines were read.
    pub lines: usize,
    /// The refused lines, and behind them the refused sheet.
    pub remarks: Vec<Remark>,
    /// Of each call, how it stood before the last step it took.
    last_steps: Vec<Option<LastStep>>,
}

/// Plays the lines of an input on a block: its bytes, and as it is opened.
pub fn play<'a>(bytes: &'a [u8], opened: &'a Opened, moves: &[u8]) -> Played<'a> {
    let mut played = Played {
        bytes,
        machine: Machine::new(opened),
        lines: 0,
        remarks: Vec::new(),
        last_steps: vec![None; opened.block.calls.len()],
    };
    for line in lines(moves) {
        played.line(line);
    }
    let unfinished = unfinished(&played.machine);
    if !unfinished.is_empty() {
        let calls = count(unfinished.len(), "call");
        played.remarks.push(Remark {
            line: 0,
            text: String::new(),
            number: SheetRefusal::Unfinished.number().into(),
            words: format!("{calls} unfinished: {}", unfinished.join("; ")),
        });
    }
    played
}

impl Played<'_> {
    /// A finished call's receipt, and why it ended so.
    pub fn receipt(&self, call: usize) -> Option<String> {
        let ended = self.machine.states()[call].receipt()?;
        let last = self.last_steps[call].as_ref()?;
        Some(receipt(
            self.bytes,
            self.machine.opened(),
            call,
            ended,
            last,
        ))
    }

    fn line(&mut self, line: &[u8]) {
        self.lines += 1;
        if let Err((number, words)) = self.answer(line) {
            self.remarks.push(Remark {
                line: self.lines as u64,
                text: shown(line),
                number,
                words,
            });
        }
    }

    /// Makes the move of a line, or says with which number it is refused and why.
    fn answer(&mut self, line: &[u8]) -> Result<(), (u32, String)> {
        let Some(chosen) = parse(line) else {
            let fault = line_fault(line);
            let words =
                fault.map(|LineFault { column, reason }| format!("column {column}: {reason}"));
            return Err((0, words.unwrap_or_default()));
        };
        if let Some((call, step)) = self.standing(chosen) {
            self.last_steps[call] = Some(step);
        }
        let made = self.machine.apply(chosen);
        made.map_err(|refusal| {
            let words = refusal_words(&self.machine, chosen, refusal);
            (refusal.number().into(), words)
        })
    }

    /// How the call stands that a move steps.
    fn standing(&self, chosen: Move) -> Option<(usize, LastStep)> {
        let Move::Step { worker } = chosen else {
            return None;
        };
        let held = self.machine.workers().get(worker)?.as_ref()?;
        let call = &self.machine.opened().block.calls[held.call];
        let step = LastStep::of(call, &held.running, self.machine.cells());
        Some((held.call, step))
    }
}

/// Why a move is refused.
fn refusal_words(machine: &Machine, chosen: Move, refusal: MoveRefusal) -> String {
    let (worker, call) = match chosen {
        Move::Begin { worker, call } => (worker, call),
        Move::Step { worker } | Move::Cancel { worker } => (worker, 0),
    };
    match refusal {
        MoveRefusal::Damaged => "the run is damaged".to_string(),
        MoveRefusal::NoSuchWorker => {
            let last = machine.workers().len() - 1;
            format!("there is no worker {worker}; workers are 0 to {last}")
        }
        MoveRefusal::NoSuchCall => no_such_call(machine, call),
        MoveRefusal::WorkerBusy | MoveRefusal::WorkerIdle => held_words(machine, worker),
        MoveRefusal::CallNotWaiting => format!("call {call} {}", state(machine, call)),
        MoveRefusal::EarlierUnfinished => format!("call {call} {}", waits(machine, call)),
    }
}

/// What a worker holds.
fn held_words(machine: &Machine, worker: usize) -> String {
    match &machine.workers()[worker] {
        Some(held) => format!("worker {worker} holds call {}", held.call),
        None => format!("worker {worker} holds no call"),
    }
}

fn no_such_call(machine: &Machine, call: usize) -> String {
    match machine.states().len() {
        0 => format!("there is no call {call}; the block has no calls"),
        calls => format!("there is no call {call}; calls are 0 to {}", calls - 1),
    }
}

/// The state of a call: `is waiting`, `runs on worker 2`.
fn state(machine: &Machine, call: usize) -> String {
    match (machine.states()[call], worker_of(machine, call)) {
        (State::Finished(receipt), _) => {
            let number = receipt.outcome.number();
            format!("is finished with outcome {number}, {}", outcome(number))
        }
        (_, Some(worker)) => format!("runs on worker {worker}"),
        (_, None) => "is waiting".to_string(),
    }
}

fn worker_of(machine: &Machine, call: usize) -> Option<usize> {
    let holds = |held: &Option<Held>| held.as_ref().is_some_and(|held| held.call == call);
    machine.workers().iter().position(holds)
}

/// What a call waits for: all its earlier conflicting calls that are unfinished.
fn waits(machine: &Machine, call: usize) -> String {
    let unfinished: Vec<String> = machine.opened().rows[call]
        .iter()
        .filter(|&&earlier| !machine.states()[earlier].is_finished())
        .map(|&earlier| format!("call {earlier}, which {}", state(machine, earlier)))
        .collect();
    if unfinished.is_empty() {
        "waits for no call and can begin".to_string()
    } else {
        format!("waits for {}", unfinished.join(", and "))
    }
}

/// Each unfinished call: where it runs or what it waits for.
pub fn unfinished(machine: &Machine) -> Vec<String> {
    let states = machine.states().iter().enumerate();
    let words = |(call, own): (usize, &State)| match own {
        State::Waiting => Some(format!("call {call} {}", waits(machine, call))),
        State::Running => Some(format!("call {call} {}", state(machine, call))),
        State::Finished(_) => None,
    };
    states.filter_map(words).collect()
}

/// A line as text of ASCII characters, cut behind so many.
fn shown(line: &[u8]) -> String {
    let text: String = line
        .iter()
        .take(SHOWN)
        .map(|byte| byte.escape_ascii().to_string())
        .collect();
    if line.len() > SHOWN {
        format!("{text}.. ({} bytes)", line.len())
    } else {
        text
    }
}
