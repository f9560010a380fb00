//! The turns of cases of waiting counts: begins, also too early ones, steps, above
//! all those that end a call, and cancels, each with damages of counts, states and
//! rows until it passes.

use super::{Shown, Writer};
use crate::lent::{STATUS_WORDS, WAITS};
use crate::limits::{MAX_CALLS, MAX_WORKERS};
use crate::machine::Move;
use crate::rng::Rng;
use crate::vectors::damage::{
    repair, Kind, Target, OF_WAITS_AT_BEGIN, OF_WAITS_AT_CANCEL, OF_WAITS_AT_STEP,
};
use crate::vectors::{Buffer, Operation, Player};

/// Of so many damages that are drawn, that of the kind that was shown least is
/// made.
const DRAWS: usize = 12;
/// How many damages a begin meets at most.
const BEGINS: usize = 2;
/// How many another move meets.
const STEPS: usize = 4;
/// Most steps of a worker up to the last of its call.
const MOST_STEPS: usize = 8;

impl Writer<'_> {
    /// A begin that is too early, the last step of a call, a cancel or any move
    /// that passes, with some damages until it passes.
    pub(super) fn waits_turn(&mut self, rng: &mut Rng) {
        let chosen = match rng.weighted(&[2, 9, 4, 9]) {
            0 => self.early_begin(rng),
            1 => self.last_step(),
            2 => self.busy().map(|worker| Move::Cancel { worker }),
            _ => self.passing_move(rng),
        };
        let Some(chosen) = chosen else {
            return;
        };
        if rng.chance(10) {
            return self.leave_out(rng, chosen);
        }
        let tries = match chosen {
            Move::Begin { .. } => BEGINS,
            Move::Step { .. } | Move::Cancel { .. } => STEPS,
        };
        for _ in 0..tries {
            if self.meets(rng, chosen) {
                return;
            }
        }
        let _ = self.make(chosen);
    }

    /// The last step of a worker's call, to which the worker steps; it begins one
    /// if no worker holds any.
    fn last_step(&mut self) -> Option<Move> {
        let worker = match self.busy() {
            Some(worker) => worker,
            None => self.first_begin()?,
        };
        let chosen = Move::Step { worker };
        for _ in 0..MOST_STEPS {
            let after = self.after(chosen)?;
            if after.run.head.held[worker] == 0 {
                return Some(chosen);
            }
            let _ = self.make(chosen);
        }
        None
    }

    /// A worker that holds a call.
    fn busy(&self) -> Option<usize> {
        let held = self.player.run.head.held;
        (0..MAX_WORKERS).find(|worker| held[*worker] != 0)
    }

    /// An idle worker begins the first call that passes, so that there are later
    /// ones; the worker.
    fn first_begin(&mut self) -> Option<usize> {
        let worker = self.idle()?;
        let begins = self.waiting_calls().into_iter();
        let mut begins = begins.map(|call| Move::Begin { worker, call });
        let chosen = begins.find(|begin| self.after(*begin).is_some())?;
        let _ = self.make(chosen);
        Some(worker)
    }

    /// A damage, the move, and the damage taken back; whether the move passed. All
    /// counts are then those of the move without the damage.
    fn meets(&mut self, rng: &mut Rng, chosen: Move) -> bool {
        let targets = match chosen {
            Move::Begin { .. } => OF_WAITS_AT_BEGIN.as_slice(),
            Move::Step { .. } => &OF_WAITS_AT_STEP,
            Move::Cancel { .. } => &OF_WAITS_AT_CANCEL,
        };
        let drawn: Vec<(Target, Operation)> = (0..DRAWS)
            .filter_map(|_| self.drawn(rng, chosen, |rng| rng.pick(targets)))
            .collect();
        let kind = |damage: Operation| Kind::of(&self.player, chosen, damage);
        let times = |damage: Operation| {
            let kind = kind(damage);
            self.shown.iter().filter(|one| one.kind == kind).count()
        };
        let least = drawn.into_iter().min_by_key(|(_, damage)| times(*damage));
        let Some((target, damage)) = least else {
            return false;
        };
        let kind = kind(damage);
        let back = repair(&self.player, damage);
        let good = self.after(chosen);
        self.play(damage);
        let answer = self.make(chosen);
        self.shown.push(Shown {
            target,
            chosen,
            answer,
            kind,
        });
        self.play(back);
        if let (Ok(()), Some(good)) = (answer, good) {
            self.mend(&good);
        }
        answer.is_ok()
    }

    /// The move while the number of calls leaves out a later call that it would
    /// lower the count of.
    fn leave_out(&mut self, rng: &mut Rng, chosen: Move) {
        let left_out = self.aim(chosen).and_then(|aim| aim.left_out(rng));
        let good = self.after(chosen);
        let damages = left_out.into_iter().flatten();
        let backs: Vec<Operation> = damages
            .map(|damage| {
                let back = repair(&self.player, damage);
                self.play(damage);
                back
            })
            .collect();
        let answer = self.make(chosen);
        for back in backs {
            self.play(back);
        }
        if let (Ok(()), Some(good)) = (answer, good) {
            self.mend(&good);
        }
    }

    /// The case behind a move, if it passes.
    fn after(&self, chosen: Move) -> Option<Player> {
        let mut after = self.player.clone();
        let answer = after.play(Operation::Move(chosen));
        (answer == Some(Ok(()))).then_some(after)
    }

    /// Gives each waiting count the value that it has elsewhere.
    fn mend(&mut self, good: &Player) {
        for call in 0..MAX_CALLS {
            let value = good.run.waits(call);
            if self.player.run.waits(call) != value {
                self.play(Operation::Word {
                    buffer: Buffer::Status,
                    index: call * STATUS_WORDS + WAITS,
                    value,
                });
            }
        }
    }

    /// An idle worker begins a call that waits for another.
    fn early_begin(&self, rng: &mut Rng) -> Option<Move> {
        let worker = self.idle()?;
        let mut early = self.waiting_calls();
        early.retain(|call| self.player.run.waits(*call) > 0);
        (!early.is_empty()).then(|| Move::Begin {
            worker,
            call: rng.pick(&early),
        })
    }
}
