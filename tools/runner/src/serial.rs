//! The serial run, and the serial run of chosen calls alone.

use crate::cells::Cells;
use crate::execute::{Receipt, Running};
use crate::machine::Opened;

/// How a call went in a serial run.
#[derive(Clone, Copy, Debug, PartialEq, Eq)]
pub struct Ended {
    /// The call's receipt.
    pub receipt: Receipt,
    /// How many steps it took.
    pub steps: usize,
}

/// The end of a serial run.
#[derive(Clone, Debug, PartialEq, Eq)]
pub struct Serial {
    /// The cells.
    pub cells: Cells,
    /// The calls that were begun, in the order they were.
    pub ended: Vec<Ended>,
}

/// The serial run: calls 0, 1, .. from the opening, each stepped to its end.
pub fn run(opened: &Opened) -> Serial {
    run_alone(opened, 0..opened.block.calls.len())
}

/// The serial run in which only the chosen calls are begun.
pub fn run_alone(opened: &Opened, chosen: impl IntoIterator<Item = usize>) -> Serial {
    let mut cells = Cells::opening(&opened.block.opening);
    let ended = chosen
        .into_iter()
        .map(|call| run_call(opened, call, &mut cells, |_| {}))
        .collect();
    Serial { cells, ended }
}

/// Runs one call from its entry to its end. The observer sees the call as it
/// stands before each step.
pub fn run_call(
    opened: &Opened,
    call: usize,
    cells: &mut Cells,
    mut observer: impl FnMut(&Running),
) -> Ended {
    let block = &opened.block;
    let mut running = Running::begin(&opened.sets[call].writes, cells);
    let mut steps = 0;
    loop {
        observer(&running);
        steps += 1;
        if let Some(receipt) = running.step(block, &block.calls[call], cells) {
            return Ended { receipt, steps };
        }
    }
}
