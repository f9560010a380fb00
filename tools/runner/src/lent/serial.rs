//! The serial run on a lent run as it stands: "calls 0, 1, .. each begun and
//! stepped to its end".

use super::Run;
use crate::limits::MAX_CALLS;
use crate::machine::Move;

/// The worker of the serial run.
const WORKER: usize = 0;

impl Run {
    /// Each call in turn is begun on worker 0, which then steps until it holds
    /// no call or a step is refused. A refused step changes nothing, so that
    /// trying it again would not help; the run goes on with the next call.
    pub fn run_serially(&mut self, block: &[u8]) {
        for call in 0..self.head.calls.min(MAX_CALLS as u64) as usize {
            let _ = self.apply(
                block,
                Move::Begin {
                    worker: WORKER,
                    call,
                },
            );
            while self.head.held[WORKER] != 0 {
                if self.apply(block, Move::Step { worker: WORKER }).is_err() {
                    break;
                }
            }
        }
    }
}
