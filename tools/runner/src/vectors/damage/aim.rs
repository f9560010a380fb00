//! The values of damages.

use super::{bytes_at, Target};
use crate::bytes::u16_at;
use crate::code::op;
use crate::lent::{
    Sizes, BUFFERS, CODE_LENGTH, CODE_START, COUNT, ENTRIES, ENTRY_SCALE, FRAME_VALUES, KEY_COUNT,
    KEY_WORDS, OLDS, PLACE, PLAN_WORDS, READS, ROOM, SEAT_WORDS, STATE, STATUS_WORDS, WRITES,
};
use crate::limits::{
    CALL_BYTES, COMMON_FUEL, FUEL_AT, HEAD_BYTES, INSTRUCTION_BYTES, MAX_CALLS, MAX_CALL_KEYS,
    MAX_FUEL, MAX_KEYS, REGISTERS,
};
use crate::rng::Rng;
use crate::vectors::{Buffer, HeadField, Operation, Player};

/// Values of cells and registers at the edges.
const EDGE_VALUES: [i64; 8] = [-1, -1, 0, 1, i64::MAX, i64::MAX, i64::MAX - 1, i64::MIN];

/// A damage drawn for one move of a run.
pub struct Aim<'a> {
    /// The run.
    pub player: &'a Player,
    /// The worker of the move, below 8.
    pub worker: usize,
    /// The call that the move begins or that the worker holds, below 256.
    pub call: usize,
}

impl Aim<'_> {
    /// A damage of a target, if the run has such a thing.
    pub fn draw(&self, rng: &mut Rng, target: Target) -> Option<Operation> {
        let own = self.call as u64;
        let worker = self.worker as u64;
        Some(match target {
            Target::Workers => {
                let values = [0, 8, 9, worker, worker + 1, u64::MAX];
                head(HeadField::Workers, rng.pick(&values))
            }
            Target::Calls => {
                let values = [0, own, own + 1, 256, 257, u64::MAX];
                head(HeadField::Calls, rng.pick(&values))
            }
            Target::Cells => head(HeadField::Cells, rng.pick(&[0, 1025, u64::MAX])),
            Target::First => self.first(rng),
            Target::HeldCall => self.held(rng),
            Target::Place => self.place(rng),
            Target::Count => self.count(rng),
            Target::Register => self.set_frame(rng.below(REGISTERS), rng),
            Target::Room => {
                let word = rng.between(ROOM, SEAT_WORDS - 1);
                self.set_seat(word, rng.pick(&[1, 65, u64::MAX]))
            }
            Target::State => state(self.call, rng),
            Target::EarlierState => state(self.earlier(rng)?, rng),
            Target::LaterState => state(self.later(rng)?, rng),
            Target::Waits => self.waits(self.call, rng),
            Target::LaterWaits => self.waits(self.later(rng)?, rng),
            Target::Row => self.row(rng),
            Target::EarlierRow => {
                let earlier = (self.call > 0).then(|| rng.below(self.call));
                self.turn(earlier?, self.call)
            }
            Target::LaterRow => self.turn(self.later(rng)?, self.call),
            Target::KeyCount => self.key_count(rng),
            Target::Entry => self.entry(rng)?,
            Target::Key => self.key(rng)?,
            Target::Value => word(
                Buffer::Cells,
                self.some_cell(rng)?,
                rng.pick(&EDGE_VALUES) as u64,
            ),
            Target::Old => {
                let count = Some(self.entry_count()).filter(|count| *count > 0)?;
                self.set_frame(OLDS + rng.below(count), rng)
            }
            Target::Behind => {
                let place = OLDS + self.entry_count();
                (place < FRAME_VALUES)
                    .then(|| self.set_frame(rng.between(place, FRAME_VALUES - 1), rng))?
            }
            Target::CodeStart => self.code_start(rng),
            Target::CodeLength => self.code_length(rng),
            Target::BlockLength => self.block_length(rng),
            Target::Record => self.record(rng)?,
            Target::Fuel => self.set_fuel(rng)?,
            Target::Instruction => self.instruction(rng)?,
            Target::Size => self.size(rng),
            Target::Length => self.length(rng)?,
            Target::Beyond => self.beyond(rng)?,
        })
    }

    pub(super) fn plan(&self, place: usize) -> u64 {
        self.player.run.plan_word(self.call, place)
    }

    pub(super) fn set_plan(&self, place: usize, value: u64) -> Operation {
        word(Buffer::Plan, self.call * PLAN_WORDS + place, value)
    }

    pub(super) fn seat_word(&self, place: usize) -> u64 {
        self.player.run.seat_word(self.worker, place)
    }

    fn set_seat(&self, place: usize, value: u64) -> Operation {
        word(Buffer::Seats, self.worker * SEAT_WORDS + place, value)
    }

    /// A value of the worker's frame.
    fn set_frame(&self, place: usize, rng: &mut Rng) -> Operation {
        let value = rng.pick(&EDGE_VALUES) as u64;
        word(Buffer::Frames, self.worker * FRAME_VALUES + place, value)
    }

    /// The worker holds none, a call of the run, or one above them.
    fn held(&self, rng: &mut Rng) -> Operation {
        let most = u64::from(u16::MAX);
        let calls = self.player.run.head.calls.min(most - 1);
        let values = [0, 1, calls, calls + 1, calls + 1, 256, 257, most];
        head(HeadField::Held(self.worker), rng.pick(&values))
    }

    /// Another record stands for the call's own, or the lent block ends with
    /// it, or one byte before, or the sum of offset and length passes 64 bits.
    fn first(&self, rng: &mut Rng) -> Operation {
        let first = self.player.run.head.first;
        let record = HEAD_BYTES + CALL_BYTES;
        let behind = (record * (self.call + 1)) as u64;
        let last = (self.player.lent_block as u64).wrapping_sub(behind);
        let values = [
            first.wrapping_add(1),
            first.wrapping_add(record as u64),
            first.wrapping_sub(record as u64),
            last,
            last.wrapping_add(1),
            u64::MAX,
            behind.wrapping_neg(),
        ];
        head(HeadField::First, rng.pick(&values))
    }

    fn place(&self, rng: &mut Rng) -> Operation {
        let code = self.plan(CODE_LENGTH);
        let values = [
            0,
            1,
            code.wrapping_sub(1),
            code,
            code.wrapping_add(1),
            65,
            66,
            1 << 16,
            1 << 32,
            u64::MAX,
        ];
        self.set_seat(PLACE, rng.pick(&values))
    }

    /// A count at the fuel of the call's record, one less or one more, or far above.
    fn count(&self, rng: &mut Rng) -> Operation {
        let fuel = self.fuel().map_or(COMMON_FUEL, |(_, fuel)| fuel);
        let fuel = u64::from(fuel);
        let values = [
            fuel.saturating_sub(1),
            fuel,
            fuel,
            fuel + 1,
            fuel + 1,
            1 << 16,
            1 << 32,
            u64::MAX,
        ];
        self.set_seat(COUNT, rng.pick(&values))
    }

    /// Where the fuel of the call's record stands in the block, and how much it is.
    pub(super) fn fuel(&self) -> Option<(usize, u16)> {
        let at = self.record_start()? + HEAD_BYTES + FUEL_AT;
        Some((at, u16_at(&self.player.block, at)))
    }

    /// No fuel, as much as the seat's count, one less or one more, or the most.
    fn set_fuel(&self, rng: &mut Rng) -> Option<Operation> {
        let (at, _) = self.fuel()?;
        let count = self.seat_word(COUNT) as u16;
        let fuel: u16 = match rng.below(6) {
            0 | 1 => 0,
            2 => count.saturating_sub(1),
            3 => count,
            4 => count.saturating_add(1),
            _ => MAX_FUEL,
        };
        let mut bytes = bytes_at(self.player, at);
        bytes[..2].copy_from_slice(&fuel.to_le_bytes());
        Some(Operation::Bytes { at, bytes })
    }

    /// The count is the fuel, and the instruction that is due breaks a rule or its
    /// code passes the lent block's end, which outcome 7 does not look at.
    pub fn out_of_fuel(&self, rng: &mut Rng) -> Option<[Operation; 2]> {
        let (_, fuel) = self.fuel()?;
        self.code_offset()?;
        let unseen = match rng.below(2) {
            0 => self.instruction(rng)?,
            _ => self.set_plan(CODE_START, self.player.lent_block as u64),
        };
        Some([self.set_seat(COUNT, fuel.into()), unseen])
    }

    /// An earlier call, one of the row if there is any.
    fn earlier(&self, rng: &mut Rng) -> Option<usize> {
        let in_row = |earlier: &usize| self.player.run.row_names(self.call, *earlier);
        let row: Vec<usize> = (0..self.call).filter(in_row).collect();
        if row.is_empty() {
            return (self.call > 0).then(|| rng.below(self.call));
        }
        Some(rng.pick(&row))
    }

    /// A bit of the row is turned: below the call, at it, or above.
    fn row(&self, rng: &mut Rng) -> Operation {
        let bit = match rng.below(6) {
            0 => self.call,
            1 => rng.between(self.call, MAX_CALLS - 1),
            _ => rng.below(self.call.max(1)),
        };
        self.turn(self.call, bit)
    }

    fn key_count(&self, rng: &mut Rng) -> Operation {
        let count = self.plan(KEY_COUNT);
        let values = [
            0,
            count.wrapping_sub(1),
            count.wrapping_add(1),
            24,
            25,
            25,
            u64::MAX,
        ];
        self.set_plan(KEY_COUNT, rng.pick(&values))
    }

    /// The place in the plan of one of the call's entries: mostly of one that
    /// the next step uses.
    fn some_entry(&self, rng: &mut Rng) -> Option<usize> {
        let count = self.entry_count();
        let used = self.used_entries();
        if !used.is_empty() && rng.chance(75) {
            return Some(rng.pick(&used));
        }
        (count > 0).then(|| ENTRIES + rng.below(count))
    }

    pub(super) fn entry_count(&self) -> usize {
        self.plan(KEY_COUNT).min(MAX_CALL_KEYS as u64) as usize
    }

    /// Flags cleared or added, or a cell number at the edge.
    fn entry(&self, rng: &mut Rng) -> Option<Operation> {
        let place = self.some_entry(rng)?;
        let entry = self.plan(place);
        let (cell, flags) = (entry & !(READS | WRITES), entry & (READS | WRITES));
        let (last, past) = (1023 * ENTRY_SCALE, 1024 * ENTRY_SCALE);
        let values = [
            cell,
            cell | READS,
            cell | WRITES,
            cell | READS | WRITES,
            last | flags,
            past | flags,
            past | READS,
            last | WRITES,
            u64::MAX,
            !WRITES,
        ];
        Some(self.set_plan(place, rng.pick(&values)))
    }

    /// The cell of one of the call's entries.
    fn some_cell(&self, rng: &mut Rng) -> Option<usize> {
        let cell = self.plan(self.some_entry(rng)?) / ENTRY_SCALE;
        let cell = usize::try_from(cell).ok()?;
        (cell < MAX_KEYS).then_some(cell)
    }

    /// A word of a key takes another low bit, or a bit above its range.
    fn key(&self, rng: &mut Rng) -> Option<Operation> {
        let index = self.some_cell(rng)? * KEY_WORDS + rng.below(KEY_WORDS);
        let bit = rng.pick(&[0, 31, 32, 63]);
        let value = self.player.run.keys[index] ^ 1 << bit;
        Some(word(Buffer::Keys, index, value))
    }

    /// The lent block ends with the code, or one byte before, or the sum of
    /// start and length passes 64 bits.
    fn code_start(&self, rng: &mut Rng) -> Operation {
        let start = self.plan(CODE_START);
        let bytes = self.code_bytes() as u64;
        let last = (self.player.lent_block as u64).wrapping_sub(bytes);
        let values = [
            start.wrapping_add(1),
            start.wrapping_add(INSTRUCTION_BYTES as u64),
            last,
            last.wrapping_add(1),
            u64::MAX,
            bytes.wrapping_neg(),
        ];
        self.set_plan(CODE_START, rng.pick(&values))
    }

    fn code_length(&self, rng: &mut Rng) -> Operation {
        let (code, place) = (self.plan(CODE_LENGTH), self.seat_word(PLACE));
        let values = [
            0,
            1,
            place,
            place.wrapping_sub(1),
            code.wrapping_add(1),
            65,
            66,
            u64::MAX,
        ];
        self.set_plan(CODE_LENGTH, rng.pick(&values))
    }

    pub(super) fn code_bytes(&self) -> usize {
        let length = self.plan(CODE_LENGTH).saturating_sub(1).min(64) as usize;
        length * INSTRUCTION_BYTES
    }

    /// Where the instruction at the call's place starts in the code, if it is one.
    pub(super) fn code_offset(&self) -> Option<usize> {
        let index = usize::try_from(self.seat_word(PLACE).checked_sub(1)?).ok()?;
        let offset = index.checked_mul(INSTRUCTION_BYTES)?;
        (offset < self.code_bytes()).then_some(offset)
    }

    /// Where the call's record starts, if it lies in the block.
    pub(super) fn record_start(&self) -> Option<usize> {
        let first = usize::try_from(self.player.run.head.first).ok()?;
        let start = first.checked_add((HEAD_BYTES + CALL_BYTES) * self.call)?;
        let end = start.checked_add(HEAD_BYTES + CALL_BYTES)?;
        (end <= self.player.block.len()).then_some(start)
    }

    /// Where the call's code ends, if it lies in the block.
    pub(super) fn code_end(&self) -> Option<usize> {
        let start = usize::try_from(self.plan(CODE_START)).ok()?;
        let end = start.checked_add(self.code_bytes())?;
        (end <= self.player.block.len()).then_some(end)
    }

    /// The lent block ends with the code or the record, or one byte before.
    fn block_length(&self, rng: &mut Rng) -> Operation {
        let record_end = self
            .record_start()
            .map(|start| start + HEAD_BYTES + CALL_BYTES);
        let mut lengths = vec![0, self.player.block.len().saturating_sub(1)];
        for end in [record_end, self.code_end()].into_iter().flatten() {
            lengths.extend([end, end.saturating_sub(1)]);
        }
        Operation::Cut {
            length: rng.pick(&lengths),
        }
    }

    /// The head of the call's record, or a field of its body.
    fn record(&self, rng: &mut Rng) -> Option<Operation> {
        let at = self.record_start()?;
        let mut bytes = bytes_at(self.player, at);
        let sender_high = HEAD_BYTES + 1;
        let contract_high = HEAD_BYTES + 3;
        let function = HEAD_BYTES + 4;
        let value = HEAD_BYTES + 6;
        match rng.below(7) {
            0 => bytes[rng.below(HEAD_BYTES)] ^= 1,
            1 => bytes[sender_high] ^= 0x80,
            2 => bytes[contract_high] ^= 0x80,
            3 => bytes[sender_high - 1] ^= 1,
            4 => bytes[function] ^= 1,
            5 => bytes[value] = bytes[value].wrapping_add(1),
            _ => return Some(self.negative_value(at + value)),
        }
        Some(Operation::Bytes { at, bytes })
    }

    /// The value at an offset of the block is -1.
    fn negative_value(&self, at: usize) -> Operation {
        let mut bytes = bytes_at(self.player, at);
        bytes[..8].fill(u8::MAX);
        Operation::Bytes { at, bytes }
    }

    /// The instruction at the call's place breaks a rule, or is another.
    fn instruction(&self, rng: &mut Rng) -> Option<Operation> {
        self.code_end()?;
        let at = self.plan(CODE_START) as usize + self.code_offset()?;
        let mut bytes = bytes_at(self.player, at);
        match rng.below(7) {
            0 => bytes[0] = rng.pick(&[16, 255]),
            1 => bytes[1] = 8,
            2 => bytes[2] = rng.pick(&[7, 8]),
            3 => bytes[3] ^= 1,
            4 => bytes[7] ^= 0x80,
            _ => {
                bytes[..8].copy_from_slice(&[rng.pick(&[op::STOP, op::THROW]), 0, 0, 0, 0, 0, 0, 0])
            }
        }
        Some(Operation::Bytes { at, bytes })
    }

    /// One buffer is lent too short by one.
    fn size(&self, rng: &mut Rng) -> Operation {
        let mut sizes = self.player.sizes;
        let short = rng.below(BUFFERS);
        let size = &mut *sizes.each_mut()[short];
        *size = (*size).min(Sizes::FIXED.each()[short] - 1);
        Operation::Lend { sizes }
    }

    /// A buffer that is lent longer than its fixed size.
    fn long(&self, rng: &mut Rng) -> Option<usize> {
        let (lent, fixed) = (self.player.sizes.each(), Sizes::FIXED.each());
        let long: Vec<usize> = (0..BUFFERS).filter(|at| lent[*at] > fixed[*at]).collect();
        (!long.is_empty()).then(|| rng.pick(&long))
    }

    /// A longer buffer is lent up to a length that still suffices.
    fn length(&self, rng: &mut Rng) -> Option<Operation> {
        let long = self.long(rng)?;
        let mut sizes = self.player.sizes;
        let size = &mut *sizes.each_mut()[long];
        *size = rng.between(Sizes::FIXED.each()[long], *size - 1);
        Some(Operation::Lend { sizes })
    }

    /// A word of a longer buffer beyond the fixed size.
    fn beyond(&self, rng: &mut Rng) -> Option<Operation> {
        let long = self.long(rng)?;
        let (fixed, lent) = (Sizes::FIXED.each()[long], self.player.sizes.each()[long]);
        let index = rng.between(fixed, lent - 1);
        Some(word(Buffer::ALL[long], index, rng.pick(&[1, u64::MAX])))
    }
}

/// A state at and outside the range, for a call.
fn state(call: usize, rng: &mut Rng) -> Operation {
    let value = rng.pick(&[0, 1, 2, 3, 3, u64::MAX]);
    word(Buffer::Status, call * STATUS_WORDS + STATE, value)
}

pub(super) fn head(field: HeadField, value: u64) -> Operation {
    Operation::Head { field, value }
}

pub(super) fn word(buffer: Buffer, index: usize, value: u64) -> Operation {
    Operation::Word {
        buffer,
        index,
        value,
    }
}
