//! The limits and fixed sizes of documents 01 and 02, each under one name.

/// Most bytes of a block file.
pub const MAX_BLOCK_BYTES: usize = 65_536;
/// Most function records of a block.
pub const MAX_FUNCTIONS: usize = 64;
/// Most opening cell records of a block.
pub const MAX_CELLS: usize = 1_024;
/// Most call records of a block.
pub const MAX_CALLS: usize = 256;
/// Most instructions of a function.
pub const MAX_INSTRUCTIONS: usize = 64;
/// Most distinct keys in the sets of one call.
pub const MAX_CALL_KEYS: usize = 24;
/// Most distinct keys in the opening and all sets together.
pub const MAX_KEYS: usize = 1_024;
/// Most workers; there is at least one.
pub const MAX_WORKERS: usize = 8;
/// Most fuel of a call, and so its highest count; the least is 1 (M-104).
pub const MAX_FUEL: u16 = u16::MAX;
/// The fuel of a call whose text names none.
pub const COMMON_FUEL: u16 = 64;
/// Most steps of a call: its entry, its instructions, and one for reaching the
/// end or for having no fuel left.
pub const MAX_STEPS: usize = 1 + MAX_FUEL as usize + 1;
/// The largest sum of all balances.
pub const MAX_BALANCE_SUM: i128 = i64::MAX as i128;

/// The lowest contract address; all lower addresses are accounts.
pub const FIRST_CONTRACT: u16 = 32_768;
/// The account that marks withdrawn warrants: no payment goes there (M-101).
pub const WITHDRAWN_ACCOUNT: u16 = 0;
/// The field that holds the balance.
pub const BALANCE_FIELD: u16 = 0;
/// Registers of a running call.
pub const REGISTERS: usize = 8;
/// Arguments of a call.
pub const ARGUMENTS: usize = 4;

/// Bytes of a record's head: body length and kind.
pub const HEAD_BYTES: usize = 4;
/// Bytes of a function's body before its code: contract and number.
pub const FUNCTION_NAME_BYTES: usize = 4;
/// Bytes of an instruction.
pub const INSTRUCTION_BYTES: usize = 8;
/// Bytes of a key.
pub const KEY_BYTES: usize = 12;
/// Bytes of a cell's body: key and value.
pub const CELL_BYTES: usize = KEY_BYTES + 8;
/// Where the fuel stands in a call's body, behind the arguments.
pub const FUEL_AT: usize = 2 + 2 + 2 + 8 + ARGUMENTS * 4;
/// Bytes of a call's body.
pub const CALL_BYTES: usize = FUEL_AT + 2;
/// Bytes of a receipt's body: outcome and count.
pub const RECEIPT_BYTES: usize = 4;
/// Bytes of the largest closing sheet.
pub const MAX_SHEET_BYTES: usize =
    MAX_KEYS * (HEAD_BYTES + CELL_BYTES) + MAX_CALLS * (HEAD_BYTES + RECEIPT_BYTES) + HEAD_BYTES;

/// Most digits of a number in a move line.
pub const MAX_DIGITS: usize = 5;
/// Standard input counts as ended after this many bytes.
pub const MAX_INPUT_BYTES: u64 = u32::MAX as u64;
