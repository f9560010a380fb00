//! What the next step of a call uses, so that damages meet it.

use super::{bytes_at, Aim};
use crate::block::read_call;
use crate::code::{decode, Parts};
use crate::lent::{
    key_words, CODE_LENGTH, CODE_START, ENTRIES, ENTRY_SCALE, KEY_COUNT, KEY_WORDS, PLACE, READS,
    ROW,
};
use crate::limits::{HEAD_BYTES, INSTRUCTION_BYTES, MAX_CALL_KEYS};
use crate::rng::Rng;
use crate::sets::{entry_uses, instruction_uses, Use};
use crate::vectors::Operation;

impl Aim<'_> {
    /// The places in the plan of the entries that the next step uses.
    pub fn used_entries(&self) -> Vec<usize> {
        let uses = self.next_uses().unwrap_or_default();
        let keys = &self.player.run.keys;
        let is_used = |place: &usize| {
            let cell = (self.plan(*place) / ENTRY_SCALE) as usize;
            let words = keys.get(cell * KEY_WORDS..(cell + 1) * KEY_WORDS);
            uses.iter()
                .any(|used| words == Some(key_words(&used.key).as_slice()))
        };
        (ENTRIES..ENTRIES + self.entry_count())
            .filter(is_used)
            .collect()
    }

    /// What the next step of the call uses, if its record and its code can be
    /// read.
    fn next_uses(&self) -> Option<Vec<Use>> {
        let start = self.record_start()?;
        let call = read_call(&self.player.block[start + HEAD_BYTES..], start)?;
        let code = self.plan(CODE_LENGTH).checked_sub(1)?;
        match self.seat_word(PLACE) {
            0 => Some(entry_uses(&call)),
            place if place <= code => {
                let end = self.code_end()?;
                let (index, length) = (place as usize - 1, self.code_bytes() / INSTRUCTION_BYTES);
                let bytes = &self.player.block[end - self.code_bytes()..end];
                let parts = Parts::read(bytes.get(index * INSTRUCTION_BYTES..)?);
                Some(instruction_uses(&call, &decode(parts, length)?))
            }
            _ => None,
        }
    }

    /// One key more than allowed, where the word behind the entries would pass
    /// for an entry: the number of keys, and the first word of the row.
    pub fn overfull(&self) -> Option<[Operation; 2]> {
        let full = self.entry_count() == MAX_CALL_KEYS;
        let row = self.plan(ROW) | READS;
        full.then(|| {
            [
                self.set_plan(ROW, row),
                self.set_plan(KEY_COUNT, MAX_CALL_KEYS as u64 + 1),
            ]
        })
    }

    /// The code moved to the block's end, with STOP at the call's place: its last
    /// byte is the block's last, or one behind it. The record before keeps its
    /// ranges, since only arguments and the end are written.
    pub fn code_at_end(&self, rng: &mut Rng) -> Option<[Operation; 2]> {
        let lent = self.player.lent_block;
        let start = (lent + rng.below(2)).checked_sub(self.code_bytes())?;
        let at = start.checked_add(self.code_offset()?)?;
        let left = lent.checked_sub(at)?;
        if !(2 * INSTRUCTION_BYTES - 1..=2 * INSTRUCTION_BYTES).contains(&left) {
            return None;
        }
        let mut bytes = bytes_at(self.player, at);
        bytes[..INSTRUCTION_BYTES].fill(0);
        Some([
            Operation::Bytes { at, bytes },
            self.set_plan(CODE_START, start as u64),
        ])
    }
}
