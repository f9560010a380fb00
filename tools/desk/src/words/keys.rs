//! Calls with too many keys.

use std::collections::BTreeSet;

use runner::block::Block;
use runner::key::Key;
use runner::limits::{MAX_CALL_KEYS, MAX_KEYS};
use runner::refusal::{BlockFault, BlockRefusal};
use runner::sets::Sets;

use super::{call, count, key};

/// The call at which a block is refused for its keys, and how many there are.
pub fn too_many_keys(block: &Block, refusal: BlockRefusal) -> String {
    let BlockRefusal { fault, offset } = refusal;
    let before = block.calls.iter().take_while(|call| call.offset < offset);
    let index = before.count();
    let words = call(block, index);
    let keys = if fault == BlockFault::CallKeys {
        own_keys(block, index)
    } else {
        all_keys(block, index)
    };
    format!("call record {index} at offset {offset}: {words}\n{keys}")
}

/// The keys of a call, one a line.
fn own_keys(block: &Block, index: usize) -> String {
    let sets = Sets::of_call(block, &block.calls[index]);
    let keys = sets.accesses.keys();
    let names: String = keys.iter().map(|own| format!("\n  {}", key(own))).collect();
    format!("{} keys; at most {MAX_CALL_KEYS}:{names}", keys.len())
}

/// How many keys the opening and the calls up to one have together.
fn all_keys(block: &Block, index: usize) -> String {
    let opening = block.opening.len();
    let mut all: BTreeSet<Key> = block.opening.iter().map(|(key, _)| *key).collect();
    let mut own = 0;
    for call in &block.calls[..=index] {
        let sets = Sets::of_call(block, call);
        own = sets.accesses.keys().len();
        all.extend(sets.accesses.keys());
    }
    let (own, all) = (count(own, "key"), all.len());
    format!(
        "with its {own} the block has {all}, {opening} of them in the opening; at most {MAX_KEYS}"
    )
}
