//! Random cases of moves on lent runs. The operations are tried as they are
//! drawn, so that most damages meet a move that would pass without them. Each
//! case ends in the serial run on the run as it stands.

mod waits;

use super::damage::{repair, target, Aim, Kind, Target};
use super::{Case, Operation, Player, SPARE};
use crate::generate::draft::{Draft, Shape, CALCULATING, MIXED, PAYING, TOUCHING};
use crate::generate::{edges, programs};
use crate::lent::{Sizes, BUFFERS, WAITING};
use crate::limits::{MAX_CALLS, MAX_CALL_KEYS, MAX_WORKERS};
use crate::machine::Move;
use crate::refusal::MoveRefusal;
use crate::rng::Rng;

/// How often a move or a damage is looked for.
const ATTEMPTS: usize = 12;

/// Of so many damages that are drawn, that which was shown least is made.
const DRAWS: usize = 4;

/// How many turns a case of waiting counts has.
const WAITS_TURNS: usize = 16;

/// Blocks of cases of waiting counts, with more calls than others.
const WAITS_TOUCHING: Shape = Shape {
    calls: (4, 6),
    bytes: 392,
    ..TOUCHING
};

/// The same with payments.
const WAITS_PAYING: Shape = Shape {
    calls: (4, 6),
    bytes: 392,
    ..PAYING
};

/// The same with all instructions.
const WAITS_MIXED: Shape = Shape {
    instructions: (2, 4),
    calls: (4, 6),
    bytes: 392,
    ..MIXED
};

/// Worker and call numbers that no run has.
const NONE_SUCH: [usize; 4] = [8, 9, 99_999, usize::MAX];

/// A damage that was made alone, and what the move behind it answered.
#[derive(Clone, Copy, Debug, PartialEq, Eq)]
pub struct Shown {
    /// What was damaged.
    pub target: Target,
    /// The move that it was aimed at.
    pub chosen: Move,
    /// Its answer.
    pub answer: Result<(), MoveRefusal>,
    /// What the damage is to the move, if it is one of a waiting count, a state or
    /// a row.
    pub kind: Option<Kind>,
}

/// The cases of a seed, and what their damages show.
pub fn cases(seed: u64, count: usize) -> (Vec<Case>, Vec<Shown>) {
    let mut rng = Rng::new(seed);
    let mut shown = Vec::new();
    let cases = (0..count)
        .map(|index| case(&mut rng, index, &mut shown))
        .collect();
    (cases, shown)
}

fn case(rng: &mut Rng, index: usize, shown: &mut Vec<Shown>) -> Case {
    let block = block(rng, index);
    let (sizes, workers) = (sizes(rng), workers(rng));
    let (opened, player) = Player::open(&block, workers, sizes);
    let mut writer = Writer {
        player,
        operations: Vec::new(),
        shown,
    };
    if opened.is_ok() && is_of_waits(index) {
        for _ in 0..WAITS_TURNS {
            writer.waits_turn(rng);
        }
    } else if opened.is_ok() {
        for _ in 0..rng.between(8, 15) {
            writer.turn(rng);
        }
    } else {
        for _ in 0..3 {
            let chosen = writer.any_move(rng);
            let _ = writer.make(chosen);
        }
    }
    writer.play(Operation::Serial);
    Case {
        block,
        sizes,
        workers,
        operations: writer.operations,
    }
}

/// Whether a case is one of waiting counts.
fn is_of_waits(index: usize) -> bool {
    matches!(index % 12, 8 | 10)
}

/// Mostly blocks that are accepted.
fn block(rng: &mut Rng, index: usize) -> Vec<u8> {
    let random = |rng: &mut Rng, shape: Shape| Draft::random(rng, shape.long()).bytes();
    match index % 12 {
        0 | 6 => random(rng, MIXED),
        1 | 7 => random(rng, TOUCHING),
        2 | 5 => random(rng, PAYING),
        8 => random(rng, WAITS_TOUCHING),
        10 if rng.chance(50) => random(rng, WAITS_PAYING),
        10 => random(rng, WAITS_MIXED),
        3 => programs::block(rng.below(MAX_CALLS)),
        4 => Draft::with_keys(rng, MAX_CALL_KEYS).bytes(),
        9 => random(rng, CALCULATING),
        _ if rng.chance(40) => edges::block(rng.below(1_000)),
        _ => random(rng, MIXED),
    }
}

/// Mostly the fixed sizes; sometimes longer, seldom one too short.
fn sizes(rng: &mut Rng) -> Sizes {
    match rng.weighted(&[70, 24, 6]) {
        0 => Sizes::FIXED,
        1 => longer(rng),
        _ => one_short(rng),
    }
}

/// The fixed sizes, each with some words more.
pub(super) fn longer(rng: &mut Rng) -> Sizes {
    let mut sizes = Sizes::FIXED;
    for size in sizes.each_mut() {
        *size += rng.below(SPARE + 1);
    }
    sizes
}

/// The fixed sizes with one of them one less.
pub(super) fn one_short(rng: &mut Rng) -> Sizes {
    let mut sizes = Sizes::FIXED;
    *sizes.each_mut()[rng.below(BUFFERS)] -= 1;
    sizes
}

/// Mostly two to eight workers.
fn workers(rng: &mut Rng) -> usize {
    match rng.weighted(&[80, 10, 6, 2, 2]) {
        0 => rng.between(2, MAX_WORKERS),
        1 => MAX_WORKERS,
        2 => 1,
        3 => 0,
        _ => MAX_WORKERS + 1,
    }
}

/// Whether two moves are both begins, both steps or both cancels.
fn same_kind(one: Move, other: Move) -> bool {
    std::mem::discriminant(&one) == std::mem::discriminant(&other)
}

struct Writer<'a> {
    player: Player,
    operations: Vec<Operation>,
    shown: &'a mut Vec<Shown>,
}

impl Writer<'_> {
    /// Some moves that pass, a move that may not, or a damage with the move that
    /// it is aimed at.
    fn turn(&mut self, rng: &mut Rng) {
        match rng.weighted(&[3, 2, 6]) {
            0 => {
                for _ in 0..rng.between(1, 3) {
                    self.advance(rng);
                }
            }
            1 => {
                let chosen = self.any_move(rng);
                let _ = self.make(chosen);
            }
            _ => self.damaged_move(rng),
        }
    }

    fn play(&mut self, operation: Operation) -> Option<Result<(), MoveRefusal>> {
        self.operations.push(operation);
        self.player.play(operation)
    }

    fn make(&mut self, chosen: Move) -> Result<(), MoveRefusal> {
        let answer = self.play(Operation::Move(chosen));
        answer.expect("a move has an answer")
    }

    /// Makes a move that passes, if one is found.
    fn advance(&mut self, rng: &mut Rng) {
        if let Some(chosen) = self.passing_move(rng) {
            let _ = self.make(chosen);
        }
    }

    /// Damages one or two things that a passing move uses, makes the move, and
    /// mostly takes the damages back and makes it again.
    fn damaged_move(&mut self, rng: &mut Rng) {
        let Some(chosen) = self.passing_move(rng) else {
            return;
        };
        let mut damaged = Vec::new();
        let mut repairs = Vec::new();
        if let Some(damages) = self.paired(rng, chosen).filter(|_| rng.chance(30)) {
            for damage in damages {
                repairs.push(repair(&self.player, damage));
                self.play(damage);
            }
        } else {
            for _ in 0..rng.pick(&[1, 1, 1, 2]) {
                if let Some((target, damage)) = self.damage(rng, chosen) {
                    damaged.push((target, Kind::of(&self.player, chosen, damage)));
                    repairs.push(repair(&self.player, damage));
                    self.play(damage);
                }
            }
        }
        let answer = self.make(chosen);
        if let [(target, kind)] = damaged[..] {
            self.shown.push(Shown {
                target,
                chosen,
                answer,
                kind,
            });
        }
        if rng.chance(30) {
            let other = self.any_move(rng);
            let _ = self.make(other);
        }
        if rng.chance(90) {
            for back in repairs.into_iter().rev() {
                self.play(back);
            }
            let _ = self.make(chosen);
        }
    }

    /// Two damages that show something only together.
    fn paired(&self, rng: &mut Rng, chosen: Move) -> Option<[Operation; 2]> {
        let aim = self.aim(chosen)?;
        match chosen {
            Move::Step { .. } => {
                let at_end = aim.code_at_end(rng).or_else(|| aim.overfull());
                at_end.or_else(|| aim.out_of_fuel(rng))
            }
            Move::Begin { .. } | Move::Cancel { .. } => aim.overfull(),
        }
    }

    /// A damage aimed at a move: of some that are drawn that which was shown least.
    fn damage(&self, rng: &mut Rng, chosen: Move) -> Option<(Target, Operation)> {
        let uses_cell = !self.aim(chosen)?.used_entries().is_empty();
        let drawn: Vec<(Target, Operation)> = (0..DRAWS)
            .filter_map(|_| self.drawn(rng, chosen, |rng| target(rng, chosen, uses_cell)))
            .collect();
        let times = |(target, damage): &(Target, Operation)| self.times(chosen, *target, *damage);
        drawn.into_iter().min_by_key(times)
    }

    /// How often a target was shown by moves of a kind with 20, or without, as the
    /// move answers behind a damage.
    fn times(&self, chosen: Move, target: Target, damage: Operation) -> usize {
        let mut damaged = self.player.clone();
        damaged.play(damage);
        let answer = damaged.play(Operation::Move(chosen));
        let is_20 = |answer| answer == Err(MoveRefusal::Damaged);
        let such = |one: &&Shown| {
            one.target == target
                && same_kind(one.chosen, chosen)
                && Some(is_20(one.answer)) == answer.map(is_20)
        };
        self.shown.iter().filter(such).count()
    }

    /// A damage aimed at a move that changes something, of a target that is drawn.
    fn drawn(
        &self,
        rng: &mut Rng,
        chosen: Move,
        mut target: impl FnMut(&mut Rng) -> Target,
    ) -> Option<(Target, Operation)> {
        let aim = self.aim(chosen)?;
        (0..ATTEMPTS).find_map(|_| {
            let target = target(rng);
            let damage = aim.draw(rng, target)?;
            let changes = repair(&self.player, damage) != damage;
            changes.then_some((target, damage))
        })
    }

    /// What a move is about, if it is about a worker and a call of the buffers.
    fn aim(&self, chosen: Move) -> Option<Aim<'_>> {
        let (worker, call) = match chosen {
            Move::Begin { worker, call } => (worker, call),
            Move::Step { worker } | Move::Cancel { worker } => {
                let held = self.player.run.head.held.get(worker)?;
                (worker, usize::from(held.checked_sub(1)?))
            }
        };
        if call >= MAX_CALLS {
            return None;
        }
        Some(Aim {
            player: &self.player,
            worker,
            call,
        })
    }

    /// A random move that passes: a step more often than a begin, seldom a
    /// cancel.
    fn passing_move(&self, rng: &mut Rng) -> Option<Move> {
        let head = &self.player.run.head;
        let workers = head.workers.clamp(1, MAX_WORKERS as u64) as usize;
        let busy: Vec<usize> = (0..workers)
            .filter(|worker| head.held[*worker] != 0)
            .collect();
        for _ in 0..ATTEMPTS {
            let worker = if !busy.is_empty() && rng.chance(60) {
                rng.pick(&busy)
            } else {
                rng.below(workers)
            };
            let chosen = if head.held[worker] == 0 {
                match self.waiting_call(rng) {
                    Some(call) => Move::Begin { worker, call },
                    None => continue,
                }
            } else if rng.chance(20) {
                Move::Cancel { worker }
            } else {
                Move::Step { worker }
            };
            let answer = self.player.clone().play(Operation::Move(chosen));
            if answer == Some(Ok(())) {
                return Some(chosen);
            }
        }
        None
    }

    fn waiting_call(&self, rng: &mut Rng) -> Option<usize> {
        let waiting = self.waiting_calls();
        (!waiting.is_empty()).then(|| rng.pick(&waiting))
    }

    fn waiting_calls(&self) -> Vec<usize> {
        let calls = self.player.run.head.calls.min(MAX_CALLS as u64) as usize;
        (0..calls)
            .filter(|call| self.player.run.state(*call) == WAITING)
            .collect()
    }

    /// Any move, also of workers and calls that there are not.
    fn any_move(&self, rng: &mut Rng) -> Move {
        let head = &self.player.run.head;
        let worker = match rng.below(8) {
            0 => rng.pick(&NONE_SUCH),
            1 => head.workers.min(MAX_WORKERS as u64) as usize,
            _ => rng.below(head.workers.clamp(1, MAX_WORKERS as u64) as usize),
        };
        let calls = head.calls.min(MAX_CALLS as u64) as usize;
        match rng.below(8) {
            6.. => self.eager_begin(rng).unwrap_or(Move::Step { worker }),
            0 => Move::Step { worker },
            1 => Move::Cancel { worker },
            2 => Move::Begin {
                worker,
                call: rng.pick(&[calls, calls + 1, MAX_CALLS, usize::MAX]),
            },
            _ => Move::Begin {
                worker,
                call: rng.below(calls + 1),
            },
        }
    }

    /// An idle worker begins a waiting call, perhaps too early.
    fn eager_begin(&self, rng: &mut Rng) -> Option<Move> {
        let worker = self.idle()?;
        let call = self.waiting_call(rng)?;
        Some(Move::Begin { worker, call })
    }

    fn idle(&self) -> Option<usize> {
        let head = &self.player.run.head;
        let workers = head.workers.min(MAX_WORKERS as u64) as usize;
        (0..workers).find(|worker| head.held[*worker] == 0)
    }
}
