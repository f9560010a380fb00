//! Damages to the waiting counts, and to the bits of rows by which a finish lowers
//! them.

use super::aim::{head, word};
use super::Aim;
use crate::lent::{PLAN_WORDS, ROW, ROW_BITS, STATUS_WORDS, WAITS};
use crate::limits::MAX_CALLS;
use crate::rng::Rng;
use crate::vectors::{Buffer, HeadField, Operation};

impl Aim<'_> {
    fn calls(&self) -> usize {
        self.player.run.head.calls.min(MAX_CALLS as u64) as usize
    }

    /// The later calls of the run whose rows name the call, or do not.
    fn later_calls(&self, named: bool) -> Vec<usize> {
        (self.call + 1..self.calls())
            .filter(|later| self.player.run.row_names(*later, self.call) == named)
            .collect()
    }

    /// A later call: one whose row names the call, or one whose row does not, or
    /// seldom one behind the run's.
    pub(super) fn later(&self, rng: &mut Rng) -> Option<usize> {
        let calls = match rng.weighted(&[50, 40, 10]) {
            0 => self.later_calls(true),
            1 => self.later_calls(false),
            _ => vec![self.calls().max(self.call + 1), MAX_CALLS - 1],
        };
        let call = (!calls.is_empty()).then(|| rng.pick(&calls));
        call.filter(|call| (self.call + 1..MAX_CALLS).contains(call))
    }

    /// The waiting count of a call is 0, another of its range, or above it.
    pub(super) fn waits(&self, call: usize, rng: &mut Rng) -> Operation {
        let value = match rng.below(4) {
            0 => 0,
            1 => rng.pick(&[call as u64 + 1, u64::MAX]),
            _ => rng.between(1, call.max(1)) as u64,
        };
        set_waits(call, value)
    }

    /// A bit of the row of a call is turned.
    pub(super) fn turn(&self, row: usize, bit: usize) -> Operation {
        let place = ROW + bit / ROW_BITS;
        let value = self.player.run.plan_word(row, place) ^ 1 << (bit % ROW_BITS);
        word(Buffer::Plan, row * PLAN_WORDS + place, value)
    }

    /// A count that a finish cannot lower, of a later call that the number of
    /// calls leaves out.
    pub fn left_out(&self, rng: &mut Rng) -> Option<[Operation; 2]> {
        let named = self.later_calls(true);
        (!named.is_empty()).then(|| {
            let later = rng.pick(&named);
            [
                set_waits(later, rng.pick(&[0, later as u64 + 1])),
                head(HeadField::Calls, later as u64),
            ]
        })
    }
}

fn set_waits(call: usize, value: u64) -> Operation {
    word(Buffer::Status, call * STATUS_WORDS + WAITS, value)
}
