//! Damages to a good block's records. Each is meant for one refusal, which the
//! reader gives if no other damage stands before it.

use crate::block::Kind;
use crate::bytes::u16_at;
use crate::code::{decode, Parts};
use crate::emit;
use crate::key::Key;
use crate::limits::{
    FUEL_AT, FUNCTION_NAME_BYTES, HEAD_BYTES, INSTRUCTION_BYTES, KEY_BYTES, MAX_INSTRUCTIONS,
};
use crate::rng::Rng;

/// The damages that fit small blocks.
#[derive(Clone, Copy, Debug, PartialEq, Eq)]
pub enum Damage {
    /// A record's head or body is cut, or the end is missing (2).
    Cut,
    /// A kind is unknown or falls (3).
    Kind,
    /// A length is not the kind's (4).
    Length,
    /// A field is outside its range (5).
    Field,
    /// A record stands twice (6).
    NotRising,
    /// Bytes follow the end (8).
    BytesAfterEnd,
    /// The opening balances sum too high (9).
    BalanceSum,
    /// An instruction breaks a rule (10).
    Code,
}

/// All damages.
pub const DAMAGES: [Damage; 8] = [
    Damage::Cut,
    Damage::Kind,
    Damage::Length,
    Damage::Field,
    Damage::NotRising,
    Damage::BytesAfterEnd,
    Damage::BalanceSum,
    Damage::Code,
];

/// A block as records, one of which takes the damages that can be anywhere.
pub struct Damaged {
    records: Vec<Vec<u8>>,
    chosen: usize,
}

impl Damaged {
    /// The records of a good block, with a damaged one to be chosen.
    pub fn new(rng: &mut Rng, records: Vec<Vec<u8>>) -> Damaged {
        let chosen = rng.below(records.len());
        Damaged { records, chosen }
    }

    /// The block's bytes.
    pub fn bytes(&self) -> Vec<u8> {
        self.records.concat()
    }

    /// Does a damage, if the block has a record for it.
    pub fn apply(&mut self, rng: &mut Rng, damage: Damage) {
        match damage {
            Damage::Cut => self.cut(rng),
            Damage::Kind => self.kind(rng),
            Damage::Length => self.length(rng),
            Damage::Field => self.field(rng),
            Damage::NotRising => self.twice(rng),
            Damage::BytesAfterEnd => self.tail(rng),
            Damage::BalanceSum => self.balance_sum(rng),
            Damage::Code => self.code(rng),
        }
    }

    /// Cuts the chosen record and all that follow it.
    fn cut(&mut self, rng: &mut Rng) {
        self.records.truncate(self.chosen + 1);
        let record = &mut self.records[self.chosen];
        let kept = rng.below(record.len());
        record.truncate(kept);
    }

    /// Repeats a function or a cell before the end, or writes an unknown kind.
    fn kind(&mut self, rng: &mut Rng) {
        let rising = self.rising();
        if rng.chance(40) && !rising.is_empty() {
            let earlier = self.records[rng.pick(&rising)].clone();
            self.records.insert(self.records.len() - 1, earlier);
        } else {
            let kind: u16 = rng.pick(&[0, 5, 6, 257, 1024, u16::MAX]);
            self.records[self.chosen][2..HEAD_BYTES].copy_from_slice(&kind.to_le_bytes());
        }
    }

    /// Changes the length in the chosen record's head, not the body.
    fn length(&mut self, rng: &mut Rng) {
        let too_long = FUNCTION_NAME_BYTES + (MAX_INSTRUCTIONS + 1) * INSTRUCTION_BYTES;
        let record = &mut self.records[self.chosen];
        let length = match rng.below(4) {
            0 => record[0].wrapping_add(1).into(),
            1 => record[0].wrapping_sub(1).into(),
            2 => 3,
            _ => too_long as u16,
        };
        record[..2].copy_from_slice(&length.to_le_bytes());
    }

    /// Puts a field of a record outside its range: the chosen record's, or if
    /// it has none, the first record's.
    fn field(&mut self, rng: &mut Rng) {
        let is_end = kind_of(&self.records[self.chosen]) == Some(Kind::End);
        let at = if is_end { 0 } else { self.chosen };
        let record = &mut self.records[at];
        match kind_of(record) {
            Some(Kind::Function) => write(record, 0, &7u16.to_le_bytes()),
            Some(Kind::Cell) => break_cell(rng, record),
            Some(Kind::Call) => break_call(rng, record),
            Some(Kind::End) | None => {}
        }
    }

    /// The places of functions and cells.
    fn rising(&self) -> Vec<usize> {
        let rises = |record: &[u8]| matches!(kind_of(record), Some(Kind::Function | Kind::Cell));
        indices(&self.records, rises)
    }

    /// Repeats a function or a cell.
    fn twice(&mut self, rng: &mut Rng) {
        let rising = self.rising();
        if !rising.is_empty() {
            let at = rng.pick(&rising);
            self.records.insert(at, self.records[at].clone());
            self.chosen = at + 1;
        }
    }

    fn tail(&mut self, rng: &mut Rng) {
        let bytes = rng.between(1, 6);
        let tail = (0..bytes).map(|_| rng.pick(&[0, 0, 4, 255])).collect();
        self.records.push(tail);
    }

    /// Puts other cells in the place of all cells: balances that pass the limit
    /// by one or more, with a cell that does not count between them.
    fn balance_sum(&mut self, rng: &mut Rng) {
        let more = rng.between(0, 3) as i64;
        let field = Key {
            field: 1,
            ..Key::balance(40_000)
        };
        let cells = [
            (Key::balance(5), i64::MAX - more),
            (Key::balance(40_000), more.max(1)),
            (field, i64::MAX),
            (Key::balance(40_001), 1 + more),
            (Key::balance(40_002), 1),
        ];
        self.records
            .retain(|record| kind_of(record) != Some(Kind::Cell));
        let is_function = |record: &[u8]| kind_of(record) == Some(Kind::Function);
        let functions = indices(&self.records, is_function).len();
        let written = cells.iter().map(|(key, value)| {
            let mut record = Vec::new();
            emit::cell(&mut record, key, *value);
            record
        });
        self.records.splice(functions..functions, written);
        self.chosen = functions + 1;
    }

    /// Breaks one instruction, of the chosen record if it has code.
    fn code(&mut self, rng: &mut Rng) {
        let coded = indices(&self.records, has_code);
        if coded.is_empty() {
            return;
        }
        let at = if coded.contains(&self.chosen) {
            self.chosen
        } else {
            rng.pick(&coded)
        };
        break_instruction(rng, &mut self.records[at]);
        self.chosen = at;
    }
}

fn indices(records: &[Vec<u8>], wanted: impl Fn(&[u8]) -> bool) -> Vec<usize> {
    (0..records.len())
        .filter(|&index| wanted(&records[index]))
        .collect()
}

/// The kind in a record's head, if it is whole and good.
fn kind_of(record: &[u8]) -> Option<Kind> {
    let head = record.get(..HEAD_BYTES)?;
    Kind::numbered(u16_at(head, 2))
}

fn has_code(record: &[u8]) -> bool {
    kind_of(record) == Some(Kind::Function)
        && record.len() >= HEAD_BYTES + FUNCTION_NAME_BYTES + INSTRUCTION_BYTES
}

/// Writes bytes at a place of a record's body.
fn write(record: &mut [u8], at: usize, bytes: &[u8]) {
    let start = HEAD_BYTES + at;
    record[start..start + bytes.len()].copy_from_slice(bytes);
}

fn break_cell(rng: &mut Rng, record: &mut [u8]) {
    let value_at = KEY_BYTES;
    match rng.below(4) {
        0 => write(record, value_at, &0i64.to_le_bytes()),
        1 => {
            write(record, 2, &[0; 10]);
            write(record, value_at, &(-1i64).to_le_bytes());
        }
        2 => write(record, 0, &[5, 0, 1, 0]),
        _ => write(record, 2, &[0, 0, 0, 0, 0, 0, 1, 0, 0, 0]),
    }
}

fn break_call(rng: &mut Rng, record: &mut [u8]) {
    match rng.below(4) {
        0 => write(record, 0, &32_768u16.to_le_bytes()),
        1 => write(record, 2, &32_767u16.to_le_bytes()),
        2 => write(record, FUEL_AT, &[0, 0]),
        _ => write(record, 6, &rng.pick(&[-1, i64::MIN]).to_le_bytes()),
    }
}

fn break_instruction(rng: &mut Rng, record: &mut [u8]) {
    let code = &mut record[HEAD_BYTES + FUNCTION_NAME_BYTES..];
    let length = code.len() / INSTRUCTION_BYTES;
    let index = rng.below(length);
    let bytes = &mut code[index * INSTRUCTION_BYTES..][..INSTRUCTION_BYTES];
    loop {
        let broken = changed(rng, Parts::read(bytes), length);
        if decode(broken, length).is_none() {
            bytes.copy_from_slice(&broken.to_bytes());
            return;
        }
    }
}

/// An instruction with one part changed, broken by it or not.
fn changed(rng: &mut Rng, mut parts: Parts, length: usize) -> Parts {
    let byte = rng.pick(&[0, 1, 5, 6, 7, 8, 255]);
    match rng.below(6) {
        0 => parts.op = rng.pick(&[16, 17, 255]),
        1 => parts.x = byte,
        2 => parts.y = byte,
        3 => parts.z = byte,
        4 => parts.w = rng.pick(&[0, 1, length as u32 + 1, 65, 65_536, u32::MAX]),
        _ => parts.w ^= 1 << rng.below(32),
    }
    parts
}
