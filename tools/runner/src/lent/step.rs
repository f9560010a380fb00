//! STEP on a lent run.

use super::moves::below;
use super::{
    key_words, Run, CODE_LENGTH, CODE_START, COUNT, EXECUTED, FINISHED, KEY_WORDS, OUTCOME, PLACE,
    STATE, STATUS_WORDS,
};
use crate::block::{read_call, Call};
use crate::code::{decode, Instruction, Parts, Source};
use crate::execute::{calculate, holds, Outcome};
use crate::key::{Account, Key};
use crate::limits::{
    CALL_BYTES, HEAD_BYTES, INSTRUCTION_BYTES, MAX_BALANCE_SUM, MAX_INSTRUCTIONS, REGISTERS,
};
use crate::refusal::MoveRefusal;
use crate::sets::{cell_key, Use};

/// What a step does to the call. Nothing is changed before it is known.
enum Turn {
    /// The call goes on at a place, and what the step stores is stored.
    Goes { place: u64 },
    /// The call ends, and the step stores nothing.
    Ends(Outcome),
}

/// The values that a step stores, by cell number.
type Stores = Vec<(usize, i64)>;

/// The held call that takes a step.
struct Stepping<'a> {
    run: &'a Run,
    number: usize,
    call: Call,
    registers: [i64; REGISTERS],
    stores: Stores,
}

impl Run {
    /// STEP(worker): 20, 21, 26, then one step of the worker's call. The entry looks
    /// at neither the fuel nor the seat's count; every other step tests both first.
    pub fn step(&mut self, block: &[u8], worker: usize) -> Result<(), MoveRefusal> {
        let number = self.held(worker)?;
        let place = self.seat_word(worker, PLACE);
        let count = self.seat_word(worker, COUNT);
        let code = self.plan_word(number, CODE_LENGTH);
        if code > MAX_INSTRUCTIONS as u64 + 1 || place > code {
            return Err(MoveRefusal::Damaged);
        }
        let mut stepping = Stepping {
            run: self,
            number,
            call: call_record(block, self.head.first, number)?,
            registers: self.registers(worker),
            stores: Stores::new(),
        };
        let (turn, count) = if place == 0 {
            (stepping.enter(code)?, 0)
        } else {
            let left = stepping.fuel_left(count)?;
            if place == code {
                (Turn::Ends(Outcome::Done), count)
            } else if left == 0 {
                (Turn::Ends(Outcome::OutOfFuel), count)
            } else {
                (stepping.run(block, place)?, count + 1)
            }
        };
        let Stepping {
            registers, stores, ..
        } = stepping;
        match turn {
            Turn::Goes { place } => {
                self.store(stores);
                self.stand(worker, place, count, registers);
                Ok(())
            }
            Turn::Ends(outcome) => self.finish(worker, number, outcome, count),
        }
    }

    /// The registers of a worker's frame.
    fn registers(&self, worker: usize) -> [i64; REGISTERS] {
        std::array::from_fn(|register| self.frame(worker)[register])
    }

    fn store(&mut self, stores: Stores) {
        for (cell, value) in stores {
            self.cells[cell] = value;
        }
    }

    /// The call ends, for every outcome alike: the later calls that wait for it
    /// wait for one less, the call has its receipt, and the worker is free. An
    /// abort restores the cells. The seat and the frame are left. 20 for what is
    /// to be lowered or restored, before anything is changed.
    fn finish(
        &mut self,
        worker: usize,
        number: usize,
        outcome: Outcome,
        count: u64,
    ) -> Result<(), MoveRefusal> {
        let waiting = self.waiting_for(number)?;
        if outcome.aborts() {
            let restored = self.restoring(worker, number)?;
            self.store(restored);
        }
        self.lower_waits(&waiting);
        let status = &mut self.status[number * STATUS_WORDS..];
        status[STATE] = FINISHED;
        status[OUTCOME] = outcome.number().into();
        status[EXECUTED] = count;
        self.head.held[worker] = 0;
        Ok(())
    }

    /// The cell that a call uses: the first of its entries with that key. 20 if
    /// an entry before it has no such cell, if no entry has the key, or if the
    /// entry lacks a flag.
    fn used_cell(&self, number: usize, used: Use) -> Result<usize, MoveRefusal> {
        for entry in self.entries(number)? {
            let cell = entry.cell()?;
            if self.keys[cell * KEY_WORDS..][..KEY_WORDS] == key_words(&used.key) {
                let flagged = (!used.reads || entry.reads()) && (!used.writes || entry.writes());
                return flagged.then_some(cell).ok_or(MoveRefusal::Damaged);
            }
        }
        Err(MoveRefusal::Damaged)
    }

    /// The balance in a cell: 20 below zero.
    fn balance(&self, cell: usize) -> Result<i64, MoveRefusal> {
        let balance = self.cells[cell];
        if balance < 0 {
            return Err(MoveRefusal::Damaged);
        }
        Ok(balance)
    }
}

impl Stepping<'_> {
    /// The entry: an unknown function, or the value moves, if the sender has it.
    fn enter(&mut self, code: u64) -> Result<Turn, MoveRefusal> {
        if code == 0 {
            return Ok(Turn::Ends(Outcome::UnknownFunction));
        }
        let (sender, contract) = (self.call.sender.balance(), self.call.contract.balance());
        let value = self.call.value;
        if value > 0 && !self.transfer(sender, contract, value)? {
            return Ok(Turn::Ends(Outcome::LowBalance));
        }
        Ok(Turn::Goes { place: 1 })
    }

    /// How much fuel is left behind a count: 20 if the lent record's fuel is 0 or
    /// the count is above it.
    fn fuel_left(&self, count: u64) -> Result<u64, MoveRefusal> {
        let fuel = Some(u64::from(self.call.fuel)).filter(|fuel| *fuel > 0);
        fuel.and_then(|fuel| fuel.checked_sub(count))
            .ok_or(MoveRefusal::Damaged)
    }

    /// Runs the instruction at a place behind the entry and before the end.
    fn run(&mut self, block: &[u8], place: u64) -> Result<Turn, MoveRefusal> {
        let index = place as usize - 1;
        match self.instruction(block, index)? {
            Instruction::Stop => return Ok(Turn::Ends(Outcome::Done)),
            Instruction::Throw => return Ok(Turn::Ends(Outcome::Thrown)),
            Instruction::Set { x, value } => self.registers[x] = value.into(),
            Instruction::Argument { x, index } => {
                self.registers[x] = self.call.arguments[index].into();
            }
            Instruction::Sender { x } => self.registers[x] = self.call.sender.address().into(),
            Instruction::Value { x } => self.registers[x] = self.call.value,
            Instruction::Arithmetic { operation, x, y, z } => {
                match calculate(operation, self.registers[y], self.registers[z]) {
                    Ok(result) => self.registers[x] = result,
                    Err(outcome) => return Ok(Turn::Ends(outcome)),
                }
            }
            Instruction::Get { x, cell } => {
                let cell = self.cell(Use::read(cell_key(&self.call, cell)))?;
                self.registers[x] = self.run.cells[cell];
            }
            Instruction::Put { x, cell } => {
                let cell = self.cell(Use::write(cell_key(&self.call, cell)))?;
                self.stores.push((cell, self.registers[x]));
            }
            Instruction::Balance { x } => {
                let cell = self.cell(Use::read(self.call.contract.balance()))?;
                self.registers[x] = self.run.balance(cell)?;
            }
            Instruction::Pay { x, target } => {
                if !self.pay(self.registers[x], target)? {
                    return Ok(Turn::Ends(Outcome::Payment));
                }
            }
            Instruction::Jump { test, x, y, to } => {
                if holds(test, self.registers[x], self.registers[y]) {
                    return Ok(Turn::Goes {
                        place: to as u64 + 1,
                    });
                }
            }
        }
        Ok(Turn::Goes { place: place + 1 })
    }

    /// The instruction of an index in the call's code, which lies in the lent
    /// block as a whole.
    fn instruction(&self, block: &[u8], index: usize) -> Result<Instruction, MoveRefusal> {
        let length = self.run.plan_word(self.number, CODE_LENGTH) as usize - 1;
        let start = self.run.plan_word(self.number, CODE_START);
        let code = stretch(block, start.into(), length * INSTRUCTION_BYTES)?;
        let parts = Parts::read(&code[index * INSTRUCTION_BYTES..]);
        decode(parts, length).ok_or(MoveRefusal::Damaged)
    }

    fn cell(&self, used: Use) -> Result<usize, MoveRefusal> {
        self.run.used_cell(self.number, used)
    }

    /// Pays from the contract's balance, unless the payment is bad.
    fn pay(&mut self, amount: i64, target: Source) -> Result<bool, MoveRefusal> {
        match Account::paid(self.call.source(target)) {
            Some(account) if amount >= 0 => {
                self.transfer(self.call.contract.balance(), account.balance(), amount)
            }
            _ => Ok(false),
        }
    }

    /// Moves an amount between two balances, or answers that the first is too
    /// low. The second is looked at only if it is not.
    fn transfer(&mut self, from: Key, to: Key, amount: i64) -> Result<bool, MoveRefusal> {
        let from = self.cell(Use::change(from))?;
        let left = self.run.balance(from)?;
        if left < amount {
            return Ok(false);
        }
        let to = self.cell(Use::write(to))?;
        let sum = i128::from(self.run.balance(to)?) + i128::from(amount);
        if sum > MAX_BALANCE_SUM {
            return Err(MoveRefusal::Damaged);
        }
        self.stores.push((from, left - amount));
        self.stores.push((to, sum as i64));
        Ok(true)
    }
}

/// The record of a call in the lent block: 20 if it is not all there or a field
/// other than the fuel is outside its range. Its length and kind are not looked at.
fn call_record(block: &[u8], first: u64, number: usize) -> Result<Call, MoveRefusal> {
    let record = HEAD_BYTES + CALL_BYTES;
    let start = u128::from(first) + (number * record) as u128;
    let body = &stretch(block, start, record)?[HEAD_BYTES..];
    read_call(body, start as usize).ok_or(MoveRefusal::Damaged)
}

/// A stretch of the lent block: 20 if it passes the block's end.
fn stretch(block: &[u8], start: u128, length: usize) -> Result<&[u8], MoveRefusal> {
    let start = u64::try_from(start).map_err(|_| MoveRefusal::Damaged)?;
    let start = below(start, block.len() + 1)?;
    let rest = &block[start..];
    rest.get(..length).ok_or(MoveRefusal::Damaged)
}
