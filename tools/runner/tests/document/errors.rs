//! The plausible errors, each shown not to be made here.

use runner::machine::Machine;
use runner::refusal::MoveRefusal;

use crate::{opened, serially};

const WRITER_AND_READER: &str = "
    function 32768 0
        set r0 1
        put r0 1 zero zero
    function 32768 1
        get r0 1 zero zero
";

fn rows(text: &str) -> Vec<Vec<usize>> {
    opened(text).rows
}

#[test]
fn write_sets_are_tested_against_reads_too() {
    let reads_after = format!("{WRITER_AND_READER}call 5 32768 0 0\ncall 6 32768 1 0\nend");
    let writes_after = format!("{WRITER_AND_READER}call 5 32768 1 0\ncall 6 32768 0 0\nend");
    let only_reads = format!("{WRITER_AND_READER}call 5 32768 1 0\ncall 6 32768 1 0\nend");
    assert_eq!(rows(&reads_after), [vec![], vec![0]]);
    assert_eq!(rows(&writes_after), [vec![], vec![0]]);
    assert_eq!(rows(&only_reads), [vec![], vec![]]);
}

#[test]
fn equal_calls_are_compared_by_position() {
    let equal = format!("{WRITER_AND_READER}call 5 32768 0 0\ncall 5 32768 0 0\nend");
    assert_eq!(rows(&equal), [vec![], vec![0]]);
}

#[test]
fn an_abort_restores_the_values_of_its_own_begin() {
    let text = "
        function 32768 0
            arg r0 arg1
            put r0 1 arg2 zero
        function 32768 1
            arg r0 arg1
            put r0 1 arg2 zero
            throw
        call 5 32768 0 0 4
        call 5 32768 1 0 8
        end";
    assert_eq!(serially(text), "k 32768 1 0 0 4\nt 0 0 2\nt 1 3 3\n");
}

#[test]
fn a_cancel_leaves_the_cells_of_other_calls() {
    let text = "
        function 32768 0
            arg r0 arg1
            put r0 1 arg1 zero
        call 5 32768 0 0 4
        call 5 32768 0 0 8
        end";
    let opened = opened(text);
    let mut machine = Machine::new(&opened);
    machine.begin(0, 0).unwrap();
    machine.begin(1, 1).unwrap();
    for _ in 0..4 {
        machine.step(0).unwrap();
    }
    for _ in 0..3 {
        machine.step(1).unwrap();
    }
    machine.cancel(1).unwrap();
    let cells: Vec<(u32, i64)> = machine
        .cells()
        .iter()
        .map(|(key, value)| (key.a, value))
        .collect();
    assert_eq!(cells, [(4, 4)]);
}

#[test]
fn at_value_0_the_senders_balance_is_in_no_set() {
    let text = |value: i64| {
        format!(
            "function 32768 0\nfunction 32769 0\ncell 5 0 0 0 9\n\
             call 5 32768 0 {value}\ncall 5 32769 0 {value}\nend"
        )
    };
    assert_eq!(rows(&text(0)), [vec![], vec![]]);
    assert_eq!(opened(&text(0)).keys, 1);
    assert_eq!(rows(&text(1)), [vec![], vec![0]]);
    assert_eq!(opened(&text(1)).keys, 3);
}

#[test]
fn an_unknown_function_has_empty_sets_with_a_value_too() {
    let text = "cell 5 0 0 0 9\ncall 5 32768 0 1\ncall 5 32768 0 1\nend";
    assert_eq!(rows(text), [vec![], vec![]]);
    assert_eq!(opened(text).keys, 1);
}

#[test]
fn a_payment_to_no_account_adds_only_the_contracts_balance() {
    let text =
        |target: &str| format!("function 32768 0\npay r0 {target}\ncall 5 32768 0 0 65541\nend");
    assert_eq!(opened(&text("const 7")).keys, 2);
    assert_eq!(opened(&text("const 32768")).keys, 1);
    assert_eq!(opened(&text("arg1")).keys, 1);
}

#[test]
fn a_cancelled_call_still_holds_its_waiters() {
    let text = format!("{WRITER_AND_READER}call 5 32768 0 0\ncall 6 32768 1 0\nend");
    let opened = opened(&text);
    let mut machine = Machine::new(&opened);
    machine.begin(0, 0).unwrap();
    assert_eq!(machine.begin(1, 1), Err(MoveRefusal::EarlierUnfinished));
    machine.cancel(0).unwrap();
    assert_eq!(machine.begin(1, 1), Err(MoveRefusal::EarlierUnfinished));
}

#[test]
fn division_rounds_toward_minus_infinity() {
    let text = "
        function 32768 0
            set r0 -7
            set r1 2
            div r2 r0 r1
            put r2 1 zero zero
        call 5 32768 0 0
        end";
    assert_eq!(serially(text), "k 32768 1 0 0 -4\nt 0 0 4\n");
}
