//! The fields of records that are outside their range.

use runner::bytes::{i64_at, u16_at};
use runner::emit::CallFields;
use runner::key::{Account, Contract, Key};
use runner::limits::KEY_BYTES;

const CONTRACTS: &str = "contracts are 32768 to 65535";

/// The faults of a function's fields.
pub fn function_faults(body: &[u8]) -> Vec<String> {
    contract_fault(u16_at(body, 0)).into_iter().collect()
}

/// The faults of an opening cell's fields.
pub fn cell_faults(body: &[u8]) -> Vec<String> {
    let key = Key::read(body);
    let Key {
        address,
        field,
        a,
        b,
    } = key;
    let value = i64_at(body, KEY_BYTES);
    let mut faults = Vec::new();
    if key.is_balance() && !key.in_range() {
        faults.push(format!(
            "a is {a} and b is {b}: of a balance, field 0, both are 0"
        ));
    }
    if !key.is_balance() && !key.in_range() {
        faults.push(format!(
            "field {field}: account {address} has its balance alone, field 0"
        ));
    }
    if value == 0 {
        faults.push("value 0: a cell that is 0 has no record".to_string());
    }
    if key.is_balance() && value < 0 {
        faults.push(format!("value {value}: a balance is above 0"));
    }
    faults
}

/// The faults of a call's fields.
pub fn call_faults(body: &[u8]) -> Vec<String> {
    let CallFields {
        sender,
        contract,
        value,
        fuel,
        ..
    } = CallFields::read(body);
    let mut faults = Vec::new();
    if Account::named(sender.into()).is_none() {
        faults.push(format!("sender {sender}: accounts are 0 to 32767"));
    }
    faults.extend(contract_fault(contract));
    if value < 0 {
        faults.push(format!("value {value}: it is 0 or more"));
    }
    if fuel == 0 {
        faults.push("fuel 0: it is 1 to 65535".to_string());
    }
    faults
}

fn contract_fault(address: u16) -> Option<String> {
    let named = Contract::named(address);
    named
        .is_none()
        .then(|| format!("contract {address}: {CONTRACTS}"))
}
