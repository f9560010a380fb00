//! A lent run in memory of the test's own.

use runner::lent::{Run, Sizes};
use zumbiqa::raw::{View, Words, FIRST_HELD};

/// The head and the buffers of a run.
#[derive(Clone, Debug, PartialEq, Eq)]
pub struct Owned {
    pub head: Vec<u64>,
    pub plan: Vec<u64>,
    pub keys: Vec<u64>,
    pub cells: Vec<i64>,
    pub status: Vec<u64>,
    pub seats: Vec<u64>,
    pub frames: Vec<i64>,
}

impl Owned {
    /// A run as the runner has it.
    pub fn of(run: &Run) -> Owned {
        let head = &run.head;
        let numbers = [head.workers, head.calls, head.cells, head.first];
        let held = head.held.into_iter().map(u64::from);
        Owned {
            head: numbers.into_iter().chain(held).collect(),
            plan: run.plan.clone(),
            keys: run.keys.clone(),
            cells: run.cells.clone(),
            status: run.status.clone(),
            seats: run.seats.clone(),
            frames: run.frames.clone(),
        }
    }

    /// Every word the same, in a head of so many words and buffers of these sizes.
    pub fn filled(head: usize, sizes: Sizes, word: u8) -> Owned {
        Owned {
            head: vec![word.into(); head],
            plan: vec![word.into(); sizes.plan],
            keys: vec![word.into(); sizes.keys],
            cells: vec![word.into(); sizes.cells],
            status: vec![word.into(); sizes.status],
            seats: vec![word.into(); sizes.seats],
            frames: vec![word.into(); sizes.frames],
        }
    }

    /// The word that says what a worker holds.
    pub fn held(&mut self, worker: usize) -> &mut u64 {
        &mut self.head[FIRST_HELD + worker]
    }

    pub fn words(&mut self) -> Words<'_> {
        Words {
            head: &mut self.head,
            plan: &mut self.plan,
            keys: &mut self.keys,
            cells: &mut self.cells,
            status: &mut self.status,
            seats: &mut self.seats,
            frames: &mut self.frames,
        }
    }

    pub fn view(&self) -> View<'_> {
        View {
            head: &self.head,
            plan: &self.plan,
            keys: &self.keys,
            cells: &self.cells,
            status: &self.status,
            seats: &self.seats,
            frames: &self.frames,
        }
    }
}
