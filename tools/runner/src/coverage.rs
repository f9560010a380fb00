//! What a list of cases shows: refusals, outcomes and executed opcodes.

use std::fmt::Write;

use crate::code::{Instruction, MNEMONICS};
use crate::console::{lines, parse};
use crate::execute::{Outcome, Place};
use crate::generate::Case;
use crate::limits::MAX_WORKERS;
use crate::machine::{open, Held, Machine, Move, Opened};

/// The numbers of refused blocks; 13 cannot be had with 8 workers.
const BLOCK_NUMBERS: std::ops::RangeInclusive<u16> = 1..=12;
/// The number of a line that is no move, and those of refused moves.
const LINE_NUMBERS: [u16; 7] = [0, 21, 22, 23, 24, 25, 26];
/// The number of refused sheets.
const SHEET_NUMBER: u16 = 27;
/// One more than the largest number.
const NUMBERS: usize = 1 + SHEET_NUMBER as usize;
/// How many outcomes there are.
const OUTCOMES: usize = Outcome::LAST as usize + 1;

/// Counts over cases.
#[derive(Clone, Debug, Default)]
pub struct Coverage {
    /// Accepted blocks.
    pub accepted: usize,
    /// Refusals of blocks, lines and sheets, by number.
    pub refusals: [usize; NUMBERS],
    /// Runs at their end.
    pub complete: usize,
    /// Accepted cancels.
    pub cancels: usize,
    /// Finished calls by outcome.
    pub outcomes: [usize; OUTCOMES],
    /// Executed instructions by opcode.
    pub opcodes: [usize; MNEMONICS.len()],
    /// Jumps that passed over an instruction or more.
    pub jumps: usize,
    /// Jumps to the own index or before it.
    pub loops: usize,
}

impl Coverage {
    /// The counts of some cases.
    pub fn of(cases: &[Case]) -> Coverage {
        let mut coverage = Coverage::default();
        for case in cases {
            match open(&case.block, MAX_WORKERS) {
                Ok(opened) => coverage.run(&opened, &case.input),
                Err(refusal) => coverage.refuse(refusal.fault.number()),
            }
        }
        coverage
    }

    fn refuse(&mut self, number: u16) {
        self.refusals[usize::from(number)] += 1;
    }

    fn run(&mut self, opened: &Opened, input: &[u8]) {
        self.accepted += 1;
        let mut machine = Machine::new(opened);
        for line in lines(input) {
            match parse(line) {
                Some(chosen) => self.make(&mut machine, chosen),
                None => self.refuse(0),
            }
        }
        match machine.receipts() {
            Some(_) => self.complete += 1,
            None => self.refuse(SHEET_NUMBER),
        }
        for receipt in machine.states().iter().filter_map(|state| state.receipt()) {
            self.outcomes[usize::from(receipt.outcome.number())] += 1;
        }
    }

    fn make(&mut self, machine: &mut Machine, chosen: Move) {
        let before = stepped(machine, chosen).and_then(|held| place(machine, held));
        if let Err(refusal) = machine.apply(chosen) {
            return self.refuse(refusal.number());
        }
        if let Move::Cancel { .. } = chosen {
            self.cancels += 1;
        }
        if let Some((index, instruction)) = before {
            self.opcodes[usize::from(instruction.op())] += 1;
            let after = stepped(machine, chosen).map(|held| held.running.place);
            let jumped = |place| matches!(place, Place::At(next) if next > index + 1);
            self.jumps += usize::from(after.is_some_and(jumped));
            let looped = |place| matches!(place, Place::At(next) if next <= index);
            self.loops += usize::from(after.is_some_and(looped));
        }
    }

    /// The counts as a table.
    pub fn table(&self) -> String {
        let mut rows = vec![("accepted blocks".to_string(), self.accepted)];
        let refusals = |name: &'static str, number: u16| {
            let count = self.refusals[usize::from(number)];
            (format!("{name} refusal {number}"), count)
        };
        rows.extend(BLOCK_NUMBERS.map(|number| refusals("block", number)));
        rows.extend(LINE_NUMBERS.map(|number| refusals("line", number)));
        rows.push(refusals("sheet", SHEET_NUMBER));
        rows.push(("complete runs".to_string(), self.complete));
        rows.push(("accepted cancels".to_string(), self.cancels));
        for (outcome, count) in self.outcomes.iter().enumerate() {
            rows.push((format!("outcome {outcome}"), *count));
        }
        for (name, count) in MNEMONICS.iter().zip(self.opcodes) {
            rows.push((format!("executed {name}"), count));
        }
        rows.push(("jumps over instructions".to_string(), self.jumps));
        rows.push(("jumps back".to_string(), self.loops));
        let mut text = String::new();
        for (name, count) in rows {
            writeln!(text, "{name:<24}{count:>8}").expect("a string takes all text");
        }
        text
    }
}

/// The call that a step would advance.
fn stepped<'a>(machine: &'a Machine, chosen: Move) -> Option<&'a Held> {
    match chosen {
        Move::Step { worker } => machine.workers().get(worker)?.as_ref(),
        Move::Begin { .. } | Move::Cancel { .. } => None,
    }
}

/// The next instruction of a held call and its index, if the call has fuel for it.
fn place<'a>(machine: &Machine<'a>, held: &Held) -> Option<(usize, &'a Instruction)> {
    let block = &machine.opened().block;
    let call = &block.calls[held.call];
    match held.running.place {
        Place::At(index) if held.running.count < call.fuel => {
            Some((index, block.code(call)?.get(index)?))
        }
        _ => None,
    }
}
