//! Cases of serial runs: a block opened, some moves, some damages to what the
//! moves of the serial run use, the serial run; the damages are taken back, and
//! the serial run again. The first case has as many calls as there can be, of
//! the longest code, and the second a call of the most fuel.

use super::damage::{repair, Aim, Target, OF_BEGIN, OF_STEP};
use super::moves::longer;
use super::{Case, HeadField, Operation, Player};
use crate::assemble::assemble;
use crate::generate::draft::{Draft, CALCULATING, MIXED, PAYING, TOUCHING};
use crate::lent::Sizes;
use crate::limits::{MAX_CALLS, MAX_INSTRUCTIONS, MAX_WORKERS};
use crate::machine::Move;
use crate::rng::Rng;

/// The worker of the serial run.
const WORKER: usize = 0;
/// How many workers the moves before it have.
const WORKERS: usize = 3;
/// Most of these moves.
const MOST_MOVES: usize = 8;
/// Of so many cases one has no damage.
const GOOD: usize = 6;
/// Of so many cases one has longer buffers.
const LONG: usize = 3;

/// The cases of a seed.
pub fn cases(seed: u64, count: usize) -> Vec<Case> {
    let mut rng = Rng::new(seed);
    let fixed = [longest(), most_fuel()].into_iter().take(count);
    let drawn = (2..count).map(|index| case(&mut rng, index));
    fixed.chain(drawn).collect()
}

/// 256 calls of 66 steps each, which all change one cell; first with one call
/// too many in the head.
fn longest() -> Case {
    let adds = "add r0 r0 r1\n".repeat(MAX_INSTRUCTIONS - 3);
    let calls = "call 5 32768 0 0\n".repeat(MAX_CALLS);
    let text = format!(
        "function 32768 0\nget r0 1 zero zero\nset r1 1\n{adds}put r0 1 zero zero\n{calls}end\n"
    );
    let calls = |value: usize| Operation::Head {
        field: HeadField::Calls,
        value: value as u64,
    };
    Case {
        block: assemble(&text).expect("the text is a block's"),
        sizes: Sizes::FIXED,
        workers: 1,
        operations: vec![
            calls(MAX_CALLS + 1),
            Operation::Serial,
            calls(MAX_CALLS),
            Operation::Serial,
        ],
    }
}

/// A call of fuel 65,535 that loops over a PUT, which is restored, and its sheet.
fn most_fuel() -> Case {
    let text = "function 32768 0\nadd r0 r0 r1\nput r0 1 zero zero\nset r1 1\njeq r0 r0 0\n\
                cell 32768 1 0 0 9\ncall 5 32768 0 0 fuel 65535\ncall 5 32768 0 0 fuel 1\nend\n";
    Case {
        block: assemble(text).expect("the text is a block's"),
        sizes: Sizes::FIXED,
        workers: 1,
        operations: vec![Operation::Serial, Operation::Sheet { room: 44 }],
    }
}

fn case(rng: &mut Rng, index: usize) -> Case {
    let (block, mut player) = opened(rng, index);
    let sizes = player.sizes;
    let mut operations = Vec::new();
    let mut play = |player: &mut Player, operation| {
        operations.push(operation);
        player.play(operation);
    };
    for _ in 0..rng.below(MOST_MOVES + 1) {
        let chosen = some_move(rng, &player);
        play(&mut player, Operation::Move(chosen));
    }
    let mut repairs = Vec::new();
    for target in targets(rng, index) {
        if let Some(damage) = damage(rng, &player, target) {
            repairs.push(repair(&player, damage));
            play(&mut player, damage);
        }
    }
    play(&mut player, Operation::Serial);
    for back in repairs.into_iter().rev() {
        play(&mut player, back);
    }
    play(&mut player, Operation::Serial);
    Case {
        block,
        sizes,
        workers: MAX_WORKERS,
        operations,
    }
}

/// A block that is accepted and has a call; sometimes in longer buffers.
fn opened(rng: &mut Rng, index: usize) -> (Vec<u8>, Player) {
    let shape = [PAYING, MIXED, TOUCHING, CALCULATING][index % 4];
    let sizes = match index % LONG {
        0 => longer(rng),
        _ => Sizes::FIXED,
    };
    loop {
        let block = Draft::random(rng, shape.long()).bytes();
        let (opened, player) = Player::open(&block, MAX_WORKERS, sizes);
        if opened.is_ok() && player.run.head.calls > 0 {
            return (block, player);
        }
    }
}

/// A worker that holds no call begins one, and another steps.
fn some_move(rng: &mut Rng, player: &Player) -> Move {
    let head = &player.run.head;
    let worker = rng.below(WORKERS);
    if head.held[worker] == 0 {
        let call = rng.below(head.calls as usize);
        return Move::Begin { worker, call };
    }
    Move::Step { worker }
}

/// What is damaged: all things that BEGIN and STEP use in turn, sometimes with
/// another.
fn targets(rng: &mut Rng, index: usize) -> Vec<Target> {
    if index % GOOD == 0 {
        return Vec::new();
    }
    let mut all = [OF_BEGIN.as_slice(), &OF_STEP].concat();
    all.sort();
    all.dedup();
    let mut targets = vec![all[index % all.len()]];
    if rng.chance(30) {
        targets.push(rng.pick(&all));
    }
    targets
}

/// A damage aimed at a call of the block on the worker of the serial run.
fn damage(rng: &mut Rng, player: &Player, target: Target) -> Option<Operation> {
    let calls = player.run.head.calls.clamp(1, MAX_CALLS as u64) as usize;
    let aim = Aim {
        player,
        worker: WORKER,
        call: rng.below(calls),
    };
    aim.draw(rng, target)
}
