//! The waiting counts of a lent run: how many of its earlier conflicting calls a
//! call still waits for. The opening sets them to the numbers of the rows, BEGIN
//! looks at that of its call, and a finish lowers those of the later calls whose
//! rows name the finished one.

use super::moves::below;
use super::{Run, STATUS_WORDS, WAITS};
use crate::refusal::MoveRefusal;

impl Run {
    /// The waiting count of a call: 20 above the call's number, since there are
    /// no more earlier calls.
    pub(super) fn tested_waits(&self, call: usize) -> Result<usize, MoveRefusal> {
        below(self.waits(call), call + 1)
    }

    /// The later calls of the run whose rows name a call, whatever their states
    /// are. 20 if a waiting count of theirs cannot be lowered, as it is 0, or is
    /// above its call's number.
    pub(super) fn waiting_for(&self, call: usize) -> Result<Vec<usize>, MoveRefusal> {
        (call + 1..self.calls()?)
            .filter(|later| self.row_names(*later, call))
            .map(|later| match self.tested_waits(later)? {
                0 => Err(MoveRefusal::Damaged),
                _ => Ok(later),
            })
            .collect()
    }

    /// Lowers the waiting counts of some calls, none of which is 0.
    pub(super) fn lower_waits(&mut self, calls: &[usize]) {
        for call in calls {
            self.status[call * STATUS_WORDS + WAITS] -= 1;
        }
    }
}
