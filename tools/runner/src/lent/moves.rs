//! BEGIN and CANCEL on a lent run, and what STEP tests as they do.

use super::{
    Run, COUNT, ENTRIES, ENTRY_SCALE, FINISHED, FRAME_VALUES, KEY_COUNT, OLDS, PLACE, PLAN_WORDS,
    READS, RUNNING, SEAT_WORDS, STATE, STATUS_WORDS, WAITING, WRITES,
};
use crate::limits::{MAX_CALLS, MAX_CALL_KEYS, MAX_KEYS, MAX_WORKERS, REGISTERS};
use crate::refusal::MoveRefusal;

/// An entry of a call: a cell and how the call uses it.
#[derive(Clone, Copy, Debug, PartialEq, Eq)]
pub(super) struct Entry(u64);

impl Entry {
    pub(super) fn reads(self) -> bool {
        self.0 & READS != 0
    }

    pub(super) fn writes(self) -> bool {
        self.0 & WRITES != 0
    }

    /// The cell number: 20 if there is none such.
    pub(super) fn cell(self) -> Result<usize, MoveRefusal> {
        below(self.0 / ENTRY_SCALE, MAX_KEYS)
    }

    /// The cell that BEGIN keeps and an abort restores, if the entry is
    /// written: 20 if it has no flag or no such cell.
    fn kept(self) -> Result<Option<usize>, MoveRefusal> {
        if !self.reads() && !self.writes() {
            return Err(MoveRefusal::Damaged);
        }
        self.writes().then(|| self.cell()).transpose()
    }
}

/// A number that indexes so many things: 20 if it is outside.
pub(super) fn below(number: u64, bound: usize) -> Result<usize, MoveRefusal> {
    let index = usize::try_from(number).ok();
    index
        .filter(|index| *index < bound)
        .ok_or(MoveRefusal::Damaged)
}

impl Run {
    /// BEGIN(worker, call): 20 to 25, then the call runs on the worker. For 25 its
    /// own waiting count is looked at alone, and no count is changed.
    pub fn begin(&mut self, worker: usize, call: usize) -> Result<(), MoveRefusal> {
        self.test_worker(worker)?;
        if call >= self.calls()? {
            return Err(MoveRefusal::NoSuchCall);
        }
        let held = self.head.held[worker];
        if u64::from(held) > self.head.calls {
            return Err(MoveRefusal::Damaged);
        }
        if held != 0 {
            return Err(MoveRefusal::WorkerBusy);
        }
        if self.tested_state(call)? != WAITING {
            return Err(MoveRefusal::CallNotWaiting);
        }
        if self.tested_waits(call)? != 0 {
            return Err(MoveRefusal::EarlierUnfinished);
        }
        let kept = self.kept(call)?;
        let frame = &mut self.frames[worker * FRAME_VALUES..][..FRAME_VALUES];
        for (old, cell) in frame[OLDS..].iter_mut().zip(kept) {
            *old = cell.map_or(0, |cell| self.cells[cell]);
        }
        self.status[call * STATUS_WORDS + STATE] = RUNNING;
        self.head.held[worker] = call as u16 + 1;
        self.stand(worker, 0, 0, [0; REGISTERS]);
        Ok(())
    }

    /// Where the worker's call stands: its place and count in the seat, its
    /// registers in the frame.
    pub(super) fn stand(
        &mut self,
        worker: usize,
        place: u64,
        count: u64,
        registers: [i64; REGISTERS],
    ) {
        let seat = &mut self.seats[worker * SEAT_WORDS..];
        (seat[PLACE], seat[COUNT]) = (place, count);
        self.frames[worker * FRAME_VALUES..][..REGISTERS].copy_from_slice(&registers);
    }

    /// CANCEL(worker): 20, 21, 26, then the call's cells are restored, the call
    /// waits and the worker is free. Its seat, its frame and all waiting counts
    /// are left.
    pub fn cancel(&mut self, worker: usize) -> Result<(), MoveRefusal> {
        let call = self.held(worker)?;
        for (cell, old) in self.restoring(worker, call)? {
            self.cells[cell] = old;
        }
        self.status[call * STATUS_WORDS + STATE] = WAITING;
        self.head.held[worker] = 0;
        Ok(())
    }

    /// The sizes of the buffers and the number of workers, then 21.
    fn test_worker(&self, worker: usize) -> Result<(), MoveRefusal> {
        let workers = self.head.workers;
        if !self.sizes().suffice() || !(1..=MAX_WORKERS as u64).contains(&workers) {
            return Err(MoveRefusal::Damaged);
        }
        if worker as u64 >= workers {
            return Err(MoveRefusal::NoSuchWorker);
        }
        Ok(())
    }

    /// The number of calls.
    pub(super) fn calls(&self) -> Result<usize, MoveRefusal> {
        below(self.head.calls, MAX_CALLS + 1)
    }

    /// The call that a worker holds: 20, 21, 26, and 20 if it is none of the run.
    pub(super) fn held(&self, worker: usize) -> Result<usize, MoveRefusal> {
        self.test_worker(worker)?;
        match self.head.held[worker] {
            0 => Err(MoveRefusal::WorkerIdle),
            held => below(u64::from(held - 1), self.calls()?),
        }
    }

    /// The state of a call.
    fn tested_state(&self, call: usize) -> Result<u64, MoveRefusal> {
        let state = self.state(call);
        if state > FINISHED {
            return Err(MoveRefusal::Damaged);
        }
        Ok(state)
    }

    /// The entries of a call: 20 for a number of keys above 24.
    pub(super) fn entries(&self, call: usize) -> Result<Vec<Entry>, MoveRefusal> {
        let count = below(self.plan_word(call, KEY_COUNT), MAX_CALL_KEYS + 1)?;
        let words = &self.plan[call * PLAN_WORDS + ENTRIES..][..count];
        Ok(words.iter().copied().map(Entry).collect())
    }

    /// For each entry the cell that is kept, if the call writes it.
    fn kept(&self, call: usize) -> Result<Vec<Option<usize>>, MoveRefusal> {
        self.entries(call)?.into_iter().map(Entry::kept).collect()
    }

    /// The cells that an abort or CANCEL restores, with their old values, which
    /// are not tested.
    pub(super) fn restoring(
        &self,
        worker: usize,
        call: usize,
    ) -> Result<Vec<(usize, i64)>, MoveRefusal> {
        let olds = &self.frame(worker)[OLDS..];
        let kept = self.kept(call)?.into_iter().zip(olds);
        Ok(kept
            .filter_map(|(cell, old)| cell.map(|cell| (cell, *old)))
            .collect())
    }
}
