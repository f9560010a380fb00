//! The cells of a run.

use std::collections::BTreeMap;

use crate::key::Key;

/// Values by key. Only cells that are not zero are kept.
#[derive(Clone, Debug, Default, PartialEq, Eq)]
pub struct Cells(BTreeMap<Key, i64>);

impl Cells {
    /// The cells of an opening.
    pub fn opening(opening: &[(Key, i64)]) -> Cells {
        Cells(opening.iter().copied().collect())
    }

    /// The value of a cell; an absent cell reads 0.
    pub fn get(&self, key: &Key) -> i64 {
        self.0.get(key).copied().unwrap_or(0)
    }

    /// Gives a cell a value.
    pub fn set(&mut self, key: Key, value: i64) {
        if value == 0 {
            self.0.remove(&key);
        } else {
            self.0.insert(key, value);
        }
    }

    /// Moves an amount from one balance to another. The first holds at least
    /// the amount, and all balances together are at most 2^63 - 1, so no
    /// balance leaves its range.
    pub fn transfer(&mut self, from: Key, to: Key, amount: i64) {
        self.set(from, self.get(&from) - amount);
        self.set(to, self.get(&to) + amount);
    }

    /// All cells that are not zero, by key.
    pub fn iter(&self) -> impl Iterator<Item = (&Key, i64)> {
        self.0.iter().map(|(key, value)| (key, *value))
    }
}
