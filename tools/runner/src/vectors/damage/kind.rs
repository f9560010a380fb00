//! What a damage of a waiting count, a state or a row is to a move.

use crate::lent::{
    Run, FINISHED, OUTCOME, PLAN_WORDS, ROW, ROW_BITS, ROW_WORDS, STATE, STATUS_WORDS, WAITS,
};
use crate::machine::Move;
use crate::vectors::{Buffer, Operation, Player};

/// What a move does without the damage. `Early` is a begin that is answered 25;
/// a step `Goes` on, or `Ends` its call, or ends and `Restores`.
#[derive(Clone, Copy, Debug, PartialEq, Eq, PartialOrd, Ord)]
#[allow(missing_docs)]
pub enum Moment {
    Begin,
    Early,
    Goes,
    Ends,
    Restores,
    Cancel,
}

/// What is damaged, and how.
#[derive(Clone, Copy, Debug, PartialEq, Eq, PartialOrd, Ord)]
pub struct Kind {
    /// What the move does.
    pub moment: Moment,
    /// Whose count, state or row it is: that of the move's own call, of an earlier
    /// or a later one, of one behind the run's. A count is of a later call whose
    /// row names the move's, or of one `unnamed`.
    pub what: &'static str,
    /// What it becomes.
    pub how: &'static str,
}

impl Kind {
    /// The kind of a damage to a move, if it is one of a count, a state or a row,
    /// and the move passes without it or is answered 25.
    pub fn of(before: &Player, chosen: Move, damage: Operation) -> Option<Kind> {
        let Operation::Word {
            buffer,
            index,
            value,
        } = damage
        else {
            return None;
        };
        let run = &before.run;
        let (moment, own) = moment(before, chosen)?;
        let (what, how) = match (buffer, index % STATUS_WORDS) {
            (Buffer::Status, WAITS) => count(run, own, index / STATUS_WORDS, value),
            (Buffer::Status, STATE) => state(own, index / STATUS_WORDS, value),
            (Buffer::Plan, _) if (ROW..ROW + ROW_WORDS).contains(&(index % PLAN_WORDS)) => {
                row(run, own, index, value)
            }
            _ => return None,
        };
        Some(Kind { moment, what, how })
    }
}

/// What a move does, and the call that it is about.
fn moment(before: &Player, chosen: Move) -> Option<(Moment, usize)> {
    let mut after = before.clone();
    let answer = after.play(Operation::Move(chosen))?;
    let number = answer.err().map_or(0, |refusal| refusal.number());
    let held = |worker: usize| usize::from(before.run.head.held[worker]) - 1;
    match (chosen, number) {
        (Move::Begin { call, .. }, 0) => Some((Moment::Begin, call)),
        (Move::Begin { call, .. }, 25) => Some((Moment::Early, call)),
        (Move::Cancel { worker }, 0) => Some((Moment::Cancel, held(worker))),
        (Move::Step { worker }, 0) => {
            let call = held(worker);
            let moment = match after.run.status_word(call, OUTCOME) {
                _ if after.run.head.held[worker] != 0 => Moment::Goes,
                0..=2 => Moment::Ends,
                _ => Moment::Restores,
            };
            Some((moment, call))
        }
        _ => None,
    }
}

/// A waiting count. 0 is a kind of its own where a move may look at it.
fn count(run: &Run, own: usize, call: usize, value: u64) -> (&'static str, &'static str) {
    let what = match call {
        _ if call == own => "own count",
        _ if call as u64 >= run.head.calls => "count behind",
        _ if call > own && run.row_names(call, own) => "named count",
        _ => "unnamed count",
    };
    let looked_at = call == own || what == "named count";
    let how = match value {
        0 if looked_at => "0",
        value if value <= call as u64 => "in range",
        _ => "above",
    };
    (what, how)
}

fn state(own: usize, call: usize, value: u64) -> (&'static str, &'static str) {
    let what = match call {
        _ if call < own => "earlier state",
        _ if call > own => "later state",
        _ => "own state",
    };
    let how = if value > FINISHED {
        "above"
    } else {
        "in range"
    };
    (what, how)
}

/// A turned bit of a row: that of the call in the row of another, or any in its
/// own. If it is set in a later row, a finish lowers the count there.
fn row(run: &Run, own: usize, index: usize, value: u64) -> (&'static str, &'static str) {
    let (call, place) = (index / PLAN_WORDS, index % PLAN_WORDS - ROW);
    let bit = (run.plan[index] ^ value).trailing_zeros() as usize % ROW_BITS;
    let turned = bit + ROW_BITS * place;
    let set = !run.row_names(call, turned);
    let how = if set { "bit set" } else { "bit cleared" };
    match call {
        _ if call == own && turned > own => ("own row", "bit above"),
        _ if call == own && turned == own => ("own row", "own bit"),
        _ if call == own => ("own row", how),
        _ if call < own => ("earlier row", how),
        _ if call as u64 >= run.head.calls => ("row behind", how),
        _ if set && run.waits(call) == 0 => ("later row", "bit set, count 0"),
        _ => ("later row", how),
    }
}
