//! The block reader: records, refusals 1 to 10 and their offsets.

use crate::bytes::{i64_at, u16_at, u32_at};
use crate::code::{decode, Instruction, Parts, Source};
use crate::emit::CallFields;
use crate::key::{Account, Contract, Key};
use crate::limits::{
    ARGUMENTS, CALL_BYTES, CELL_BYTES, FUEL_AT, FUNCTION_NAME_BYTES, HEAD_BYTES, INSTRUCTION_BYTES,
    KEY_BYTES, MAX_BALANCE_SUM, MAX_BLOCK_BYTES, MAX_CALLS, MAX_CELLS, MAX_FUNCTIONS,
    MAX_INSTRUCTIONS,
};
use crate::refusal::{BlockFault, BlockRefusal};

/// The kinds of a block's records, in the order they stand.
#[derive(Clone, Copy, Debug, PartialEq, Eq, PartialOrd, Ord)]
pub enum Kind {
    /// A function with its code.
    Function = 1,
    /// An opening cell.
    Cell = 2,
    /// A call.
    Call = 3,
    /// The end.
    End = 4,
}

impl Kind {
    /// The kind of a number, if there is one.
    pub fn numbered(number: u16) -> Option<Kind> {
        match number {
            1 => Some(Kind::Function),
            2 => Some(Kind::Cell),
            3 => Some(Kind::Call),
            4 => Some(Kind::End),
            _ => None,
        }
    }

    /// The kind's number in a record's head.
    pub fn number(self) -> u16 {
        self as u16
    }

    fn takes_length(self, length: usize) -> bool {
        match self {
            Kind::Function => length
                .checked_sub(FUNCTION_NAME_BYTES)
                .is_some_and(is_code_length),
            Kind::Cell => length == CELL_BYTES,
            Kind::Call => length == CALL_BYTES,
            Kind::End => length == 0,
        }
    }
}

fn is_code_length(bytes: usize) -> bool {
    bytes.is_multiple_of(INSTRUCTION_BYTES) && bytes <= MAX_INSTRUCTIONS * INSTRUCTION_BYTES
}

/// A function of a contract.
#[derive(Clone, Debug, PartialEq, Eq)]
pub struct Function {
    /// The contract it belongs to.
    pub contract: Contract,
    /// Its number in the contract.
    pub number: u16,
    /// The offset at which its code starts.
    pub start: usize,
    /// Its instructions.
    pub code: Vec<Instruction>,
}

impl Function {
    /// The pair by which functions rise.
    fn name(&self) -> (Contract, u16) {
        (self.contract, self.number)
    }
}

/// A call of a function.
#[derive(Clone, Copy, Debug, PartialEq, Eq)]
pub struct Call {
    /// The account that calls.
    pub sender: Account,
    /// The called contract.
    pub contract: Contract,
    /// The called function's number.
    pub function: u16,
    /// The value that moves from sender to contract at the entry, 0 or more.
    pub value: i64,
    /// The arguments.
    pub arguments: [u32; ARGUMENTS],
    /// The most instructions that it may execute, 1 or more in an accepted block.
    pub fuel: u16,
    /// The offset of the call's record.
    pub offset: usize,
}

impl Call {
    /// The number that a source gives in this call.
    pub fn source(&self, source: Source) -> u32 {
        match source {
            Source::Zero => 0,
            Source::Argument(index) => self.arguments[index],
            Source::Sender => self.sender.address().into(),
            Source::Constant(constant) => constant.into(),
        }
    }
}

/// The records of a block that passed refusals 1 to 10.
#[derive(Clone, Debug, Default, PartialEq, Eq)]
pub struct Block {
    /// Functions, rising by contract and number.
    pub functions: Vec<Function>,
    /// Opening cells, rising by key.
    pub opening: Vec<(Key, i64)>,
    /// Calls in block order.
    pub calls: Vec<Call>,
}

impl Block {
    /// The function that a call names, or `None` if it is unknown.
    pub fn function(&self, call: &Call) -> Option<&Function> {
        let name = (call.contract, call.function);
        let found = self.functions.binary_search_by_key(&name, Function::name);
        found.ok().map(|index| &self.functions[index])
    }

    /// The code that a call runs, or `None` if its function is unknown.
    pub fn code(&self, call: &Call) -> Option<&[Instruction]> {
        self.function(call).map(|function| function.code.as_slice())
    }
}

/// Reads a block, or answers the first of the refusals 1 to 10.
pub fn read(bytes: &[u8]) -> Result<Block, BlockRefusal> {
    if bytes.len() > MAX_BLOCK_BYTES {
        return Err(BlockFault::TooLong.at(0));
    }
    let mut reader = Reader {
        bytes,
        at: 0,
        kind_before: Kind::Function,
        balance_sum: 0,
        block: Block::default(),
    };
    reader.records()?;
    if reader.at < bytes.len() {
        return Err(BlockFault::BytesAfterEnd.at(reader.at));
    }
    Ok(reader.block)
}

struct Reader<'a> {
    bytes: &'a [u8],
    /// Where the next record is due.
    at: usize,
    kind_before: Kind,
    balance_sum: i128,
    block: Block,
}

/// A record whose head and length are good.
struct Record<'a> {
    offset: usize,
    kind: Kind,
    body: &'a [u8],
}

impl<'a> Reader<'a> {
    /// Reads all records up to and with the end.
    fn records(&mut self) -> Result<(), BlockRefusal> {
        loop {
            let record = self.record()?;
            match record.kind {
                Kind::Function => self.function(&record)?,
                Kind::Cell => self.cell(&record)?,
                Kind::Call => self.call(&record)?,
                Kind::End => return Ok(()),
            }
        }
    }

    /// Takes the next record: 2 for the head, 3, 4, 2 for the body.
    fn record(&mut self) -> Result<Record<'a>, BlockRefusal> {
        let offset = self.at;
        let rest = &self.bytes[offset..];
        if rest.len() < HEAD_BYTES {
            return Err(BlockFault::Cut.at(offset));
        }
        let length = usize::from(u16_at(rest, 0));
        let kind = Kind::numbered(u16_at(rest, 2))
            .filter(|kind| *kind >= self.kind_before)
            .ok_or(BlockFault::Kind.at(offset))?;
        if !kind.takes_length(length) {
            return Err(BlockFault::Length.at(offset));
        }
        let body = rest
            .get(HEAD_BYTES..HEAD_BYTES + length)
            .ok_or(BlockFault::Cut.at(offset))?;
        self.kind_before = kind;
        self.at = offset + HEAD_BYTES + length;
        Ok(Record { offset, kind, body })
    }

    /// Takes a function: 7, 5, 10, 6.
    fn function(&mut self, record: &Record) -> Result<(), BlockRefusal> {
        let functions = &mut self.block.functions;
        if functions.len() == MAX_FUNCTIONS {
            return Err(BlockFault::TooMany.at(record.offset));
        }
        let contract =
            Contract::named(u16_at(record.body, 0)).ok_or(BlockFault::Field.at(record.offset))?;
        let function = Function {
            contract,
            number: u16_at(record.body, 2),
            start: code_offset(record),
            code: read_code(record)?,
        };
        let rises = functions
            .last()
            .is_none_or(|before| before.name() < function.name());
        if !rises {
            return Err(BlockFault::NotRising.at(record.offset));
        }
        functions.push(function);
        Ok(())
    }

    /// Takes an opening cell: 7, 5, 6, 9.
    fn cell(&mut self, record: &Record) -> Result<(), BlockRefusal> {
        let opening = &mut self.block.opening;
        if opening.len() == MAX_CELLS {
            return Err(BlockFault::TooMany.at(record.offset));
        }
        let key = Key::read(record.body);
        let value = i64_at(record.body, KEY_BYTES);
        if !key.in_range() || !opens_with(&key, value) {
            return Err(BlockFault::Field.at(record.offset));
        }
        if opening.last().is_some_and(|(before, _)| *before >= key) {
            return Err(BlockFault::NotRising.at(record.offset));
        }
        if key.is_balance() {
            self.balance_sum += i128::from(value);
        }
        if self.balance_sum > MAX_BALANCE_SUM {
            return Err(BlockFault::BalanceSum.at(record.offset));
        }
        opening.push((key, value));
        Ok(())
    }

    /// Takes a call: 7, 5.
    fn call(&mut self, record: &Record) -> Result<(), BlockRefusal> {
        if self.block.calls.len() == MAX_CALLS {
            return Err(BlockFault::TooMany.at(record.offset));
        }
        let call = read_call(record.body, record.offset)
            .filter(|call| call.fuel > 0)
            .ok_or(BlockFault::Field.at(record.offset))?;
        self.block.calls.push(call);
        Ok(())
    }
}

/// Where the code of a function's record starts.
fn code_offset(record: &Record) -> usize {
    record.offset + HEAD_BYTES + FUNCTION_NAME_BYTES
}

/// Decodes a function's instructions; 10 at the first that breaks a rule.
fn read_code(record: &Record) -> Result<Vec<Instruction>, BlockRefusal> {
    let code = &record.body[FUNCTION_NAME_BYTES..];
    let length = code.len() / INSTRUCTION_BYTES;
    code.chunks_exact(INSTRUCTION_BYTES)
        .enumerate()
        .map(|(index, bytes)| {
            decode(Parts::read(bytes), length)
                .ok_or(BlockFault::Code.at(code_offset(record) + index * INSTRUCTION_BYTES))
        })
        .collect()
}

/// Whether a cell may open with a value: not zero, a balance above zero.
fn opens_with(key: &Key, value: i64) -> bool {
    if key.is_balance() {
        value > 0
    } else {
        value != 0
    }
}

/// The call of a record's body, or `None` if a field other than the fuel is outside
/// its range.
pub(crate) fn read_call(body: &[u8], offset: usize) -> Option<Call> {
    let fields = CallFields::read(body);
    if fields.value < 0 {
        return None;
    }
    Some(Call {
        sender: Account::named(fields.sender.into())?,
        contract: Contract::named(fields.contract)?,
        function: fields.function,
        value: fields.value,
        arguments: fields.arguments,
        fuel: fields.fuel,
        offset,
    })
}

impl CallFields {
    /// The fields in a call's body, in range or not.
    pub fn read(body: &[u8]) -> CallFields {
        CallFields {
            sender: u16_at(body, 0),
            contract: u16_at(body, 2),
            function: u16_at(body, 4),
            value: i64_at(body, 6),
            arguments: std::array::from_fn(|index| u32_at(body, 14 + 4 * index)),
            fuel: u16_at(body, FUEL_AT),
        }
    }
}
