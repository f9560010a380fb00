//! Document 02, M-101: no more money goes to account 0, which may still send.

use runner::execute::Outcome;
use runner::inspect::inspect;
use runner::key::{Account, Key};
use runner::lent::FINISHED;
use runner::serial;
use runner::sets::{instruction_uses, Use};

use crate::lent::{begin, each_drawn_call, lent, moved, step};
use crate::{block, opened, refusal, serially};

/// Account 0's balance, and that of the called contract.
const ACCOUNT_0: u16 = 0;
const CONTRACT: u16 = 32_768;

/// The sources that name account 0 in a call with these fields.
const NAMED: [(&str, &str); 5] = [
    ("zero", "call 7 32768 0 0"),
    ("const 0", "call 7 32768 0 0"),
    ("arg1", "call 7 32768 0 0 0 9 9 9"),
    ("arg4", "call 7 32768 0 0 9 9 9 0"),
    ("sender", "call 0 32768 0 0"),
];

/// A contract with 9 that puts 1 and pays an amount.
fn paying(amount: i64, target: &str, call: &str) -> String {
    format!(
        "function 32768 0\nset r0 {amount}\nput r0 1 zero zero\npay r0 {target}\n\
         cell 32768 0 0 0 9\n{call}\nend"
    )
}

/// The key of an address's balance.
fn balance(address: u16) -> Key {
    Key::balance(address)
}

#[test]
fn no_payment_goes_to_account_0() {
    for (target, call) in NAMED {
        for amount in [0, 1, 9, 10, -1] {
            let printed = serially(&paying(amount, target, call));
            assert_eq!(
                printed, "k 32768 0 0 0 9\nt 0 5 3\n",
                "{target} {amount}: counted, and restored"
            );
        }
    }
}

#[test]
fn another_account_is_paid_by_the_same_sources() {
    for (target, call) in [
        ("const 1", "call 7 32768 0 0"),
        ("arg1", "call 7 32768 0 0 1 0 0 0"),
        ("arg4", "call 7 32768 0 0 0 0 0 1"),
        ("sender", "call 1 32768 0 0"),
    ] {
        let printed = serially(&paying(9, target, call));
        assert_eq!(printed, "k 1 0 0 0 9\nk 32768 1 0 0 9\nt 0 0 3\n");
    }
}

#[test]
fn the_whole_number_names_account_0() {
    assert_eq!(Account::paid(0), None);
    assert_eq!(Account::paid(1), Account::named(1));
    assert_eq!(Account::paid(32_767), Account::named(32_767));
    for number in [32_768, 65_535, 65_536, 65_537, u32::MAX] {
        assert_eq!(Account::paid(number), None);
    }
    assert!(Account::named(0).is_some());
}

#[test]
fn its_balance_is_not_in_the_sets_of_that_payment() {
    let own = Use::change(balance(CONTRACT));
    for (target, call) in NAMED {
        let opened = opened(&paying(1, target, call));
        let call = &opened.block.calls[0];
        let code = opened.block.code(call).expect("the function is known");
        assert_eq!(instruction_uses(call, &code[2]), [own]);
        let sets = &opened.sets[0];
        assert!(sets.writes.contains(&balance(CONTRACT)));
        assert!(sets.reads.contains(&balance(CONTRACT)));
        assert!(!sets.writes.contains(&balance(ACCOUNT_0)));
        assert!(!sets.reads.contains(&balance(ACCOUNT_0)));
    }
    let other = opened(&paying(1, "const 1", "call 7 32768 0 0"));
    assert!(other.sets[0].writes.contains(&balance(1)));
}

#[test]
fn it_is_no_key_of_a_call_that_pays_it() {
    let code = |payment: &str| {
        let gets: String = (1..=23)
            .map(|field| format!("get r0 {field} zero zero\n"))
            .collect();
        block(&format!(
            "function 32768 0\n{gets}{payment}\ncall 5 32768 0 0\nend"
        ))
    };
    assert_eq!(inspect(&code("pay r0 zero")), "n 1 0 1 24\nw 0\n");
    assert_eq!(refusal(&code("pay r0 const 1")), (11, 200));
}

#[test]
fn calls_that_pay_it_do_not_wait_for_one_another() {
    let rows = |target: &str| {
        let code = format!("set r0 1\npay r0 {target}\n");
        inspect(&block(&format!(
            "function 32768 0\n{code}function 40000 0\n{code}\
             call 5 32768 0 0\ncall 5 40000 0 0\nend"
        )))
    };
    assert_eq!(rows("zero"), "n 2 0 2 2\nw 0\nw 1\n");
    assert_eq!(rows("const 1"), "n 2 0 2 3\nw 0\nw 1 0\n");
}

#[test]
fn account_0_may_send_what_it_holds() {
    let sends = |value: i64| {
        serially(&format!(
            "function 32768 0\nstop\ncell 0 0 0 0 5\ncall 0 32768 0 {value}\nend"
        ))
    };
    assert_eq!(sends(0), "k 0 0 0 0 5\nt 0 0 1\n");
    assert_eq!(sends(2), "k 0 0 0 0 3\nk 32768 0 0 0 2\nt 0 0 1\n");
    assert_eq!(sends(5), "k 32768 0 0 0 5\nt 0 0 1\n");
    assert_eq!(sends(6), "k 0 0 0 0 5\nt 0 2 0\n");
}

#[test]
fn as_a_sender_it_is_in_the_sets_as_before() {
    let of = |value: i64| {
        let opened = opened(&format!(
            "function 32768 0\npay r0 sender\ncall 0 32768 0 {value}\nend"
        ));
        opened.sets[0].clone()
    };
    for (value, sent) in [(0, false), (1, true)] {
        assert_eq!(of(value).reads.contains(&balance(ACCOUNT_0)), sent);
        assert_eq!(of(value).writes.contains(&balance(ACCOUNT_0)), sent);
        assert!(of(value).writes.contains(&balance(CONTRACT)));
    }
}

#[test]
fn its_value_is_restored_with_the_rest() {
    let text = "function 32768 0\npay r0 zero\ncell 0 0 0 0 5\ncall 0 32768 0 3\nend";
    assert_eq!(serially(text), "k 0 0 0 0 5\nt 0 5 1\n");
}

/// As for a target that is no account, a lent run's balances are not looked at.
#[test]
fn a_lent_run_looks_at_no_balance_for_it() {
    let text = paying(1, "zero", "call 7 32768 0 0");
    let begun = [begin(0, 0), step(0), step(0), step(0)];
    let (mut run, bytes) = moved(&text, &begun);
    let cells = lent(&text).0.cells;
    run.cells[0] = -1;
    assert_eq!(run.apply(&bytes, step(0)), Ok(()));
    assert_eq!(run.status[..3], [FINISHED, 5, 3]);
    assert_eq!(run.cells, cells);
}

/// In a block run in order account 0 has, behind each call, what it had before
/// it, less the value where it sent the call and the call was done. Its balance
/// is in the sets of the calls that it sends with a value, and of no other.
#[test]
fn account_0_only_loses_what_it_sends() {
    let (mut sent, mut paid) = (0, 0);
    each_drawn_call(101, |opened, number, cells| {
        let call = &opened.block.calls[number];
        let before = cells.get(&balance(ACCOUNT_0));
        let ended = serial::run_call(opened, number, cells, |_| {});
        let sends = call.sender.address() == ACCOUNT_0;
        let done = ended.receipt.outcome == Outcome::Done;
        let left = if sends && done { call.value } else { 0 };
        assert_eq!(cells.get(&balance(ACCOUNT_0)), before - left);

        let known = opened.block.code(call).is_some();
        let sets = &opened.sets[number];
        let written = sets.writes.contains(&balance(ACCOUNT_0));
        assert_eq!(written, known && sends && call.value > 0);
        assert_eq!(sets.reads.contains(&balance(ACCOUNT_0)), written);
        sent += usize::from(left > 0);
        paid += usize::from(sets.writes.contains(&balance(7)));
    });
    assert!(sent > 10 && paid > 10, "{sent} {paid}");
}
