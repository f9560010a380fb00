//! Addresses and the keys of cells.

use crate::bytes::{u16_at, u32_at};
use crate::limits::{BALANCE_FIELD, FIRST_CONTRACT, WITHDRAWN_ACCOUNT};

/// An account address, 0 to 32767.
#[derive(Clone, Copy, Debug, PartialEq, Eq, PartialOrd, Ord)]
pub struct Account(u16);

impl Account {
    /// The account that a number names, if it names one. The whole number counts.
    pub fn named(number: u32) -> Option<Account> {
        let address = u16::try_from(number).ok()?;
        (address < FIRST_CONTRACT).then_some(Account(address))
    }

    /// The account that PAY to a number pays, if it pays one: any that the
    /// number names but that of withdrawn warrants.
    pub fn paid(number: u32) -> Option<Account> {
        Account::named(number).filter(|account| account.0 != WITHDRAWN_ACCOUNT)
    }

    /// The address as a number.
    pub fn address(self) -> u16 {
        self.0
    }

    /// The key of this account's balance.
    pub fn balance(self) -> Key {
        Key::balance(self.0)
    }
}

/// A contract address, 32768 to 65535.
#[derive(Clone, Copy, Debug, PartialEq, Eq, PartialOrd, Ord)]
pub struct Contract(u16);

impl Contract {
    /// The contract that an address names, if it names one.
    pub fn named(address: u16) -> Option<Contract> {
        (address >= FIRST_CONTRACT).then_some(Contract(address))
    }

    /// The address as a number.
    pub fn address(self) -> u16 {
        self.0
    }

    /// The key of this contract's balance.
    pub fn balance(self) -> Key {
        Key::balance(self.0)
    }

    /// The key of a cell of this contract.
    pub fn cell(self, field: u16, a: u32, b: u32) -> Key {
        Key {
            address: self.0,
            field,
            a,
            b,
        }
    }
}

/// The key of a cell. Keys are compared field by field in this order.
#[derive(Clone, Copy, Debug, PartialEq, Eq, PartialOrd, Ord, Hash)]
pub struct Key {
    /// Account or contract address.
    pub address: u16,
    /// Field number; 0 is the balance.
    pub field: u16,
    /// First index.
    pub a: u32,
    /// Second index.
    pub b: u32,
}

impl Key {
    /// The key of the balance at an address.
    pub fn balance(address: u16) -> Key {
        Key {
            address,
            field: BALANCE_FIELD,
            a: 0,
            b: 0,
        }
    }

    /// The key in the first 12 bytes of a slice, in range or not.
    pub fn read(bytes: &[u8]) -> Key {
        Key {
            address: u16_at(bytes, 0),
            field: u16_at(bytes, 2),
            a: u32_at(bytes, 4),
            b: u32_at(bytes, 8),
        }
    }

    /// Whether this is the key of a balance.
    pub fn is_balance(&self) -> bool {
        self.field == BALANCE_FIELD
    }

    /// Whether there is such a cell: a balance has no indices, and an account
    /// has only its balance.
    pub fn in_range(&self) -> bool {
        if self.is_balance() {
            self.a == 0 && self.b == 0
        } else {
            self.address >= FIRST_CONTRACT
        }
    }
}
