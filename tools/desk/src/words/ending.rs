//! How a call ended.

use runner::block::{Call, Function};
use runner::cells::Cells;
use runner::code::{Instruction, Operation, Parts};
use runner::execute::{Outcome, Place, Receipt, Running};
use runner::key::Account;
use runner::limits::{INSTRUCTION_BYTES, REGISTERS};
use runner::machine::Opened;

use super::code::sign;
use super::{count, function, outcome};
use crate::assembly;

/// What a call's last step starts from.
#[derive(Clone, Debug, PartialEq, Eq)]
pub struct LastStep {
    place: Place,
    registers: [i64; REGISTERS],
    sender_balance: i64,
    contract_balance: i64,
}

impl LastStep {
    /// A running call as it stands.
    pub fn of(call: &Call, running: &Running, cells: &Cells) -> LastStep {
        LastStep {
            place: running.place,
            registers: running.registers,
            sender_balance: cells.get(&call.sender.balance()),
            contract_balance: cells.get(&call.contract.balance()),
        }
    }
}

/// A finished call of a block: its receipt, and why it ended so.
pub fn receipt(
    bytes: &[u8],
    opened: &Opened,
    call: usize,
    receipt: Receipt,
    last: &LastStep,
) -> String {
    let number = receipt.outcome.number();
    let counted = count(receipt.count.into(), "instruction");
    let chosen = &opened.block.calls[call];
    let why = match opened.block.function(chosen) {
        None => {
            let name = function(chosen.contract.address(), chosen.function);
            format!("the block has no {name}")
        }
        Some(_) if receipt.outcome == Outcome::LowBalance => low_balance(chosen, last),
        Some(called) if receipt.outcome == Outcome::OutOfFuel => {
            let fuel = chosen.fuel;
            let due = due_instruction(bytes, called, last);
            format!("its fuel is {fuel}, and {due} is due; its cells are restored")
        }
        Some(called) => last_instruction(bytes, called, chosen, last),
    };
    format!(
        "call {call} ended with outcome {number}, {}, after {counted}: {why}",
        outcome(number)
    )
}

fn low_balance(call: &Call, last: &LastStep) -> String {
    let (sender, balance) = (call.sender.address(), last.sender_balance);
    format!(
        "account {sender} has {balance}, and the value is {}",
        call.value
    )
}

/// The instruction by which a call ended, or the code's end.
fn last_instruction(bytes: &[u8], called: &Function, call: &Call, last: &LastStep) -> String {
    let name = function(called.contract.address(), called.number);
    let Place::At(index) = last.place else {
        unreachable!("the entry ends a call with outcome 1 or 2");
    };
    let Some(instruction) = called.code.get(index) else {
        return format!("it came to the end of {name}");
    };
    let place = due_instruction(bytes, called, last);
    match failure(instruction, call, last) {
        Some(failure) => format!("{place}: {failure}; its cells are restored"),
        None if *instruction == Instruction::Throw => format!("{place}; its cells are restored"),
        None => place,
    }
}

/// The instruction before which a call stands.
fn due_instruction(bytes: &[u8], called: &Function, last: &LastStep) -> String {
    let name = function(called.contract.address(), called.number);
    let Place::At(index) = last.place else {
        unreachable!("at the entry no instruction is due");
    };
    let line = assembly::line(Parts::read(
        &bytes[called.start + index * INSTRUCTION_BYTES..],
    ));
    format!("instruction {index} of {name}, {line}")
}

/// Why an instruction fails.
fn failure(instruction: &Instruction, call: &Call, last: &LastStep) -> Option<String> {
    match *instruction {
        Instruction::Arithmetic {
            operation, y, z, ..
        } => {
            let (left, right) = (last.registers[y], last.registers[z]);
            Some(arithmetic_failure(operation, left, right))
        }
        Instruction::Pay { x, target } => {
            let (amount, target) = (last.registers[x], call.source(target));
            Some(payment_failure(amount, target, last.contract_balance))
        }
        _ => None,
    }
}

fn arithmetic_failure(operation: Operation, left: i64, right: i64) -> String {
    if operation == Operation::Div && right == 0 {
        return format!("{left} / 0");
    }
    format!(
        "{left} {} {right} is outside 64 signed bits",
        sign(operation)
    )
}

fn payment_failure(amount: i64, target: u32, balance: i64) -> String {
    if Account::named(target).is_none() {
        format!("{target} is no account; accounts are 0 to 32767")
    } else if Account::paid(target).is_none() {
        format!("account {target} marks withdrawn warrants, and no money goes there")
    } else if amount < 0 {
        format!("the amount is {amount}, below 0")
    } else {
        format!("the amount is {amount}, and the contract has {balance}")
    }
}
