//! A running call and its steps.

use crate::block::{Block, Call};
use crate::cells::Cells;
use crate::code::{Instruction, Operation, Test};
use crate::key::{Account, Key};
use crate::limits::REGISTERS;
use crate::sets::{cell_key, KeySet};

/// How a call ended. Each variant's discriminant is its number.
#[derive(Clone, Copy, Debug, PartialEq, Eq)]
pub enum Outcome {
    /// The code stopped or was at its end.
    Done = 0,
    /// The function is unknown.
    UnknownFunction = 1,
    /// The sender's balance is below the value.
    LowBalance = 2,
    /// THROW.
    Thrown = 3,
    /// A result outside 64 signed bits.
    OutOfRange = 4,
    /// PAY with a negative amount, to no account or to account 0, or above the
    /// balance.
    Payment = 5,
    /// DIV by zero, whatever is divided (document 02, M-103).
    ZeroDivisor = 6,
    /// An instruction is due and no fuel is left (document 02, M-104).
    OutOfFuel = 7,
}

impl Outcome {
    /// The one with the highest number.
    pub const LAST: Outcome = Outcome::OutOfFuel;

    /// The number of document 01, or 02.
    pub fn number(self) -> u16 {
        self as u16
    }

    /// Whether the call's cells are restored.
    pub(crate) fn aborts(self) -> bool {
        matches!(
            self,
            Outcome::Thrown
                | Outcome::OutOfRange
                | Outcome::Payment
                | Outcome::ZeroDivisor
                | Outcome::OutOfFuel
        )
    }
}

/// What a finished call leaves in the closing sheet.
#[derive(Clone, Copy, Debug, PartialEq, Eq)]
pub struct Receipt {
    /// How the call ended.
    pub outcome: Outcome,
    /// How many instructions ran, also the one that failed.
    pub count: u16,
}

/// Where a running call stands.
#[derive(Clone, Copy, Debug, PartialEq, Eq)]
pub enum Place {
    /// Before its entry step.
    Entry,
    /// Before the instruction of this index, or at the code's length.
    At(usize),
}

/// The state of a running call.
#[derive(Clone, Debug, PartialEq, Eq)]
pub struct Running {
    /// Where the call stands.
    pub place: Place,
    /// The registers.
    pub registers: [i64; REGISTERS],
    /// How many instructions ran.
    pub count: u16,
    /// The values that the write set's cells had at BEGIN.
    pub old: Vec<(Key, i64)>,
}

impl Running {
    /// A call at its entry, with the old values of its write set kept.
    pub fn begin(writes: &KeySet, cells: &Cells) -> Running {
        let old = writes.keys().iter().map(|key| (*key, cells.get(key)));
        Running {
            place: Place::Entry,
            registers: [0; REGISTERS],
            count: 0,
            old: old.collect(),
        }
    }

    /// Gives every cell of the write set its old value.
    pub fn restore(&self, cells: &mut Cells) {
        for (key, value) in &self.old {
            cells.set(*key, *value);
        }
    }

    /// Takes one step. Answers the receipt if the call ends by it. Reaching the end
    /// needs no fuel; an instruction that is due needs some, or it does not run.
    pub fn step(&mut self, block: &Block, call: &Call, cells: &mut Cells) -> Option<Receipt> {
        let outcome = match (self.place, block.code(call)) {
            (_, None) => Some(Outcome::UnknownFunction),
            (Place::Entry, Some(_)) => self.enter(call, cells),
            (Place::At(index), Some(code)) => match code.get(index) {
                None => Some(Outcome::Done),
                Some(_) if self.count == call.fuel => Some(Outcome::OutOfFuel),
                Some(instruction) => self.run(index, instruction, call, cells),
            },
        }?;
        if outcome.aborts() {
            self.restore(cells);
        }
        Some(Receipt {
            outcome,
            count: self.count,
        })
    }

    /// The entry of a known function: the value moves, if the sender has it.
    fn enter(&mut self, call: &Call, cells: &mut Cells) -> Option<Outcome> {
        if call.value > 0 {
            let (sender, contract) = (call.sender.balance(), call.contract.balance());
            if cells.get(&sender) < call.value {
                return Some(Outcome::LowBalance);
            }
            cells.transfer(sender, contract, call.value);
        }
        self.place = Place::At(0);
        None
    }

    /// Runs and counts the instruction of an index.
    fn run(
        &mut self,
        index: usize,
        instruction: &Instruction,
        call: &Call,
        cells: &mut Cells,
    ) -> Option<Outcome> {
        self.count += 1;
        match execute(instruction, call, &mut self.registers, cells) {
            Flow::Next => self.place = Place::At(index + 1),
            Flow::To(target) => self.place = Place::At(target),
            Flow::End(outcome) => return Some(outcome),
        }
        None
    }
}

/// What follows an instruction.
enum Flow {
    Next,
    To(usize),
    End(Outcome),
}

fn execute(
    instruction: &Instruction,
    call: &Call,
    registers: &mut [i64; REGISTERS],
    cells: &mut Cells,
) -> Flow {
    match *instruction {
        Instruction::Stop => return Flow::End(Outcome::Done),
        Instruction::Throw => return Flow::End(Outcome::Thrown),
        Instruction::Set { x, value } => registers[x] = value.into(),
        Instruction::Argument { x, index } => registers[x] = call.arguments[index].into(),
        Instruction::Sender { x } => registers[x] = call.sender.address().into(),
        Instruction::Value { x } => registers[x] = call.value,
        Instruction::Arithmetic { operation, x, y, z } => {
            match calculate(operation, registers[y], registers[z]) {
                Ok(result) => registers[x] = result,
                Err(outcome) => return Flow::End(outcome),
            }
        }
        Instruction::Get { x, cell } => registers[x] = cells.get(&cell_key(call, cell)),
        Instruction::Put { x, cell } => cells.set(cell_key(call, cell), registers[x]),
        Instruction::Balance { x } => registers[x] = cells.get(&call.contract.balance()),
        Instruction::Pay { x, target } => {
            if !pay(call, registers[x], call.source(target), cells) {
                return Flow::End(Outcome::Payment);
            }
        }
        Instruction::Jump { test, x, y, to } => {
            if holds(test, registers[x], registers[y]) {
                return Flow::To(to);
            }
        }
    }
    Flow::Next
}

/// The result, or the outcome for a divisor of 0 or a result outside 64 signed
/// bits.
pub(crate) fn calculate(operation: Operation, y: i64, z: i64) -> Result<i64, Outcome> {
    let (y, z) = (i128::from(y), i128::from(z));
    let exact = match operation {
        Operation::Add => y + z,
        Operation::Sub => y - z,
        Operation::Mul => y * z,
        Operation::Div if z == 0 => return Err(Outcome::ZeroDivisor),
        Operation::Div => floor_quotient(y, z),
    };
    i64::try_from(exact).map_err(|_| Outcome::OutOfRange)
}

/// The quotient rounded toward minus infinity. The divisor is not 0.
fn floor_quotient(y: i128, z: i128) -> i128 {
    let rounded_up = y % z != 0 && (y < 0) != (z < 0);
    y / z - i128::from(rounded_up)
}

/// Whether the test of a jump holds.
pub(crate) fn holds(test: Test, x: i64, y: i64) -> bool {
    match test {
        Test::Equal => x == y,
        Test::Less => x < y,
    }
}

/// Pays from the contract's balance if the payment is good.
fn pay(call: &Call, amount: i64, target: u32, cells: &mut Cells) -> bool {
    let Some(account) = Account::paid(target) else {
        return false;
    };
    let own = call.contract.balance();
    if amount < 0 || cells.get(&own) < amount {
        return false;
    }
    cells.transfer(own, account.balance(), amount);
    true
}
