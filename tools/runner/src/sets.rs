//! Read sets and write sets, refusals 11 and 12, and the waiting rows.

use std::cmp::Ordering;
use std::collections::BTreeSet;

use crate::block::{Block, Call};
use crate::code::{CellName, Instruction};
use crate::key::{Account, Key};
use crate::limits::{MAX_CALL_KEYS, MAX_KEYS};
use crate::refusal::{BlockFault, BlockRefusal};

/// A set of keys, rising and each once.
#[derive(Clone, Debug, Default, PartialEq, Eq)]
pub struct KeySet(Vec<Key>);

impl KeySet {
    /// The keys in rising order.
    pub fn keys(&self) -> &[Key] {
        &self.0
    }

    /// Whether the key is in the set.
    pub fn contains(&self, key: &Key) -> bool {
        self.0.binary_search(key).is_ok()
    }

    /// Whether the two sets have a key in common.
    pub fn meets(&self, other: &KeySet) -> bool {
        let (mut left, mut right) = (self.0.as_slice(), other.0.as_slice());
        while let ([a, left_rest @ ..], [b, right_rest @ ..]) = (left, right) {
            match a.cmp(b) {
                Ordering::Less => left = left_rest,
                Ordering::Greater => right = right_rest,
                Ordering::Equal => return true,
            }
        }
        false
    }
}

impl FromIterator<Key> for KeySet {
    fn from_iter<I: IntoIterator<Item = Key>>(keys: I) -> KeySet {
        let mut keys: Vec<Key> = keys.into_iter().collect();
        keys.sort_unstable();
        keys.dedup();
        KeySet(keys)
    }
}

/// The read set and the write set of a call, and both together.
#[derive(Clone, Debug, Default, PartialEq, Eq)]
pub struct Sets {
    /// The keys that the call may read.
    pub reads: KeySet,
    /// The keys that the call may write.
    pub writes: KeySet,
    /// The keys that the call may read or write.
    pub accesses: KeySet,
}

impl Sets {
    /// The sets of a call.
    pub fn of_call(block: &Block, call: &Call) -> Sets {
        let uses = uses(block, call);
        let keys = |kept: fn(&Use) -> bool| {
            let kept = uses.iter().filter(|used| kept(used));
            kept.map(|used| used.key).collect()
        };
        Sets {
            reads: keys(|used| used.reads),
            writes: keys(|used| used.writes),
            accesses: keys(|_| true),
        }
    }

    /// Whether either one's write set meets the other's reads or writes.
    pub fn conflict_with(&self, other: &Sets) -> bool {
        self.writes.meets(&other.accesses) || other.writes.meets(&self.accesses)
    }
}

/// A use of a cell.
#[derive(Clone, Copy, Debug, PartialEq, Eq)]
pub struct Use {
    /// The cell.
    pub key: Key,
    /// Whether it is read.
    pub reads: bool,
    /// Whether it is written.
    pub writes: bool,
}

impl Use {
    /// A cell that is read.
    pub fn read(key: Key) -> Use {
        Use {
            key,
            reads: true,
            writes: false,
        }
    }

    /// A cell that is written.
    pub fn write(key: Key) -> Use {
        Use {
            key,
            reads: false,
            writes: true,
        }
    }

    /// A cell that is read and written.
    pub fn change(key: Key) -> Use {
        Use {
            key,
            reads: true,
            writes: true,
        }
    }
}

/// The uses of a call: those of its entry and of every instruction of its
/// function, reached or not. An unknown function has none.
pub fn uses(block: &Block, call: &Call) -> Vec<Use> {
    let mut uses = Vec::new();
    if let Some(code) = block.code(call) {
        uses.extend(entry_uses(call));
        for instruction in code {
            uses.extend(instruction_uses(call, instruction));
        }
    }
    uses
}

/// A value above 0 reads the sender's balance and writes the sender's and the
/// contract's.
pub fn entry_uses(call: &Call) -> Vec<Use> {
    if call.value > 0 {
        let (sender, contract) = (call.sender.balance(), call.contract.balance());
        vec![Use::change(sender), Use::write(contract)]
    } else {
        Vec::new()
    }
}

/// The uses of an instruction in a call.
pub fn instruction_uses(call: &Call, instruction: &Instruction) -> Vec<Use> {
    match *instruction {
        Instruction::Get { cell, .. } => vec![Use::read(cell_key(call, cell))],
        Instruction::Put { cell, .. } => vec![Use::write(cell_key(call, cell))],
        Instruction::Balance { .. } => vec![Use::read(call.contract.balance())],
        Instruction::Pay { target, .. } => {
            let account = Account::paid(call.source(target));
            let paid = account.map(|account| Use::write(account.balance()));
            let own = Use::change(call.contract.balance());
            [own].into_iter().chain(paid).collect()
        }
        _ => Vec::new(),
    }
}

/// The key of the cell that GET or PUT uses in a call.
pub fn cell_key(call: &Call, cell: CellName) -> Key {
    call.contract
        .cell(cell.field, call.source(cell.a), call.source(cell.b))
}

/// The sets of all calls.
#[derive(Clone, Debug, PartialEq, Eq)]
pub struct Analysis {
    /// The sets by call.
    pub sets: Vec<Sets>,
    /// How many distinct keys the opening and the sets have together.
    pub keys: usize,
}

/// Finds the sets call by call; for each call 11, then 12.
pub fn analyse(block: &Block) -> Result<Analysis, BlockRefusal> {
    let mut all: BTreeSet<Key> = block.opening.iter().map(|(key, _)| *key).collect();
    let mut sets = Vec::with_capacity(block.calls.len());
    for call in &block.calls {
        let own = Sets::of_call(block, call);
        if own.accesses.keys().len() > MAX_CALL_KEYS {
            return Err(BlockFault::CallKeys.at(call.offset));
        }
        all.extend(own.accesses.keys());
        if all.len() > MAX_KEYS {
            return Err(BlockFault::AllKeys.at(call.offset));
        }
        sets.push(own);
    }
    Ok(Analysis {
        sets,
        keys: all.len(),
    })
}

/// For each call its earlier conflicting calls, rising.
pub fn rows(sets: &[Sets]) -> Vec<Vec<usize>> {
    let earlier = |later: usize| {
        (0..later)
            .filter(|&call| sets[call].conflict_with(&sets[later]))
            .collect()
    };
    (0..sets.len()).map(earlier).collect()
}
