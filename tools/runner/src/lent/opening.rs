//! The opening of a block into lent buffers.

use std::collections::BTreeSet;

use super::{
    key_words, Head, Run, Sizes, CODE_LENGTH, CODE_START, ENTRIES, ENTRY_SCALE, KEY_COUNT,
    KEY_WORDS, PLAN_WORDS, READS, ROW, ROW_BITS, STATUS_WORDS, WAITS, WRITES,
};
use crate::block::Call;
use crate::key::Key;
use crate::limits::{CALL_BYTES, HEAD_BYTES};
use crate::machine::{self, Opened};
use crate::refusal::{BlockFault, BlockRefusal};
use crate::sets::{uses, Use};

/// Opens a block for some workers in buffers of some lengths: 20, then 13, then
/// 1 to 12. A refused block leaves the head and every buffer zero.
pub fn open(bytes: &[u8], workers: usize, sizes: Sizes) -> (Result<(), BlockRefusal>, Run) {
    let mut run = Run::zero(sizes);
    if !sizes.suffice() {
        return (Err(BlockFault::Buffers.at(0)), run);
    }
    match machine::open(bytes, workers) {
        Ok(opened) => {
            run.fill(bytes, &opened);
            (Ok(()), run)
        }
        Err(refusal) => (Err(refusal), run),
    }
}

impl Run {
    /// Every call waits, for all calls of its row, and no worker holds one.
    fn fill(&mut self, bytes: &[u8], opened: &Opened) {
        let block = &opened.block;
        let table = table(opened);
        let records = block.calls.len() * (HEAD_BYTES + CALL_BYTES) + HEAD_BYTES;
        self.head = Head {
            workers: opened.workers as u64,
            calls: block.calls.len() as u64,
            cells: table.len() as u64,
            first: (bytes.len() - records) as u64,
            ..Head::default()
        };
        for (cell, key) in table.iter().enumerate() {
            self.keys[cell * KEY_WORDS..][..KEY_WORDS].copy_from_slice(&key_words(key));
        }
        for (key, value) in &block.opening {
            self.cells[number(&table, key)] = *value;
        }
        for (index, call) in block.calls.iter().enumerate() {
            self.plan_call(opened, &table, index, call);
            self.status[index * STATUS_WORDS + WAITS] = opened.rows[index].len() as u64;
        }
    }

    fn plan_call(&mut self, opened: &Opened, table: &[Key], index: usize, call: &Call) {
        let words = &mut self.plan[index * PLAN_WORDS..][..PLAN_WORDS];
        if let Some(function) = opened.block.function(call) {
            words[CODE_START] = function.start as u64;
            words[CODE_LENGTH] = function.code.len() as u64 + 1;
        }
        let entries = entries(uses(&opened.block, call));
        words[KEY_COUNT] = entries.len() as u64;
        for (place, entry) in entries.iter().enumerate() {
            words[ENTRIES + place] = number(table, &entry.key) as u64 * ENTRY_SCALE
                + READS * u64::from(entry.reads)
                + WRITES * u64::from(entry.writes);
        }
        for earlier in &opened.rows[index] {
            words[ROW + earlier / ROW_BITS] |= 1 << (earlier % ROW_BITS);
        }
    }
}

/// All keys of the opening and of the sets, rising.
fn table(opened: &Opened) -> Vec<Key> {
    let opening = opened.block.opening.iter().map(|(key, _)| *key);
    let sets = opened.sets.iter().flat_map(|sets| sets.accesses.keys());
    let keys: BTreeSet<Key> = opening.chain(sets.copied()).collect();
    keys.into_iter().collect()
}

/// The cell number of a key of the table.
fn number(table: &[Key], key: &Key) -> usize {
    table.binary_search(key).expect("the table has every key")
}

/// The distinct keys in order of first use, each with the flags of all its uses.
fn entries(uses: Vec<Use>) -> Vec<Use> {
    let mut entries: Vec<Use> = Vec::new();
    for used in uses {
        match entries.iter_mut().find(|entry| entry.key == used.key) {
            Some(entry) => {
                entry.reads |= used.reads;
                entry.writes |= used.writes;
            }
            None => entries.push(used),
        }
    }
    entries
}
