//! Cases of closing sheets: a block run to its end, then the sheet of the run as
//! it is, and of the run with one or two damages, each with several outputs.

use super::damage::repair;
use super::moves::{longer, one_short};
use super::{Buffer, Case, HeadField, Operation, Player};
use crate::generate::draft::{Draft, MIXED, PAYING, TOUCHING};
use crate::lent::{
    Run, Sizes, EXECUTED, FINISHED, FRAME_VALUES, KEY_WORDS, OUTCOME, RUNNING, SEAT_WORDS, STATE,
    STATUS_WORDS, WAITING, WAITS,
};
use crate::limits::{
    BALANCE_FIELD, CELL_BYTES, HEAD_BYTES, MAX_CALLS, MAX_FUEL, MAX_KEYS, MAX_WORKERS,
    RECEIPT_BYTES,
};
use crate::machine::Move;
use crate::rng::Rng;

/// Most moves of a case.
const MOST_MOVES: usize = 60;
/// Of so many cases one has longer buffers.
const LONG: usize = 3;

/// What is damaged before a sheet; `Unused` is a waiting count, or what a worker
/// holds, its seat or its frame, which the sheet does not use.
#[derive(Clone, Copy, Debug, PartialEq, Eq, PartialOrd, Ord)]
#[allow(missing_docs)]
pub enum Target {
    Size,
    Calls,
    State,
    Cells,
    Balance,
    Value,
    Key,
    Outcome,
    Count,
    Unused,
}

/// All of them.
pub const TARGETS: [Target; 10] = [
    Target::Size,
    Target::Calls,
    Target::State,
    Target::Cells,
    Target::Balance,
    Target::Value,
    Target::Key,
    Target::Outcome,
    Target::Count,
    Target::Unused,
];

/// The cases of a seed.
pub fn cases(seed: u64, count: usize) -> Vec<Case> {
    let mut rng = Rng::new(seed);
    (0..count).map(|index| case(&mut rng, index)).collect()
}

fn case(rng: &mut Rng, index: usize) -> Case {
    let (block, mut player, mut operations) = finished(rng, index);
    let sizes = player.sizes;
    ask(&mut operations, &player);
    for target in TARGETS {
        let other = rng.pick(&TARGETS);
        damaged(rng, &mut player, &mut operations, &[target]);
        damaged(rng, &mut player, &mut operations, &[target, other]);
    }
    ask(&mut operations, &player);
    Case {
        block,
        sizes,
        workers: MAX_WORKERS,
        operations,
    }
}

/// Makes some damages, asks for the sheet, and takes the damages back.
fn damaged(
    rng: &mut Rng,
    player: &mut Player,
    operations: &mut Vec<Operation>,
    targets: &[Target],
) {
    let mut repairs = Vec::new();
    for target in targets {
        if let Some(damage) = damage(rng, &player.run, *target) {
            repairs.push(repair(player, damage));
            operations.push(damage);
            player.play(damage);
        }
    }
    ask(operations, player);
    for back in repairs.into_iter().rev() {
        operations.push(back);
        player.play(back);
    }
}

/// A block that is accepted and has some calls, its run with all calls finished,
/// sometimes in longer buffers, and the moves that led there.
fn finished(rng: &mut Rng, index: usize) -> (Vec<u8>, Player, Vec<Operation>) {
    let shape = [PAYING, MIXED, TOUCHING, PAYING][index % 4];
    let sizes = match index % LONG {
        0 => longer(rng),
        _ => Sizes::FIXED,
    };
    loop {
        let block = Draft::random(rng, shape).bytes();
        let (opened, player) = Player::open(&block, MAX_WORKERS, sizes);
        if opened.is_err() || player.run.head.calls < 2 {
            continue;
        }
        let mut played = player;
        let operations = serially(&mut played);
        if operations.len() <= MOST_MOVES {
            return (block, played, operations);
        }
    }
}

/// Runs all calls in order on worker 0.
fn serially(player: &mut Player) -> Vec<Operation> {
    let mut operations = Vec::new();
    for call in 0..player.run.head.calls as usize {
        let mut make = |chosen| {
            operations.push(Operation::Move(chosen));
            player.play(Operation::Move(chosen));
            player.run.state(call)
        };
        make(Move::Begin { worker: 0, call });
        while make(Move::Step { worker: 0 }) != FINISHED {}
    }
    operations
}

/// Asks for the sheet with outputs of exactly its length, of one byte less and
/// of some bytes more, and with none.
fn ask(operations: &mut Vec<Operation>, player: &Player) {
    let length = length(&player.run);
    let rooms = [length, length - 1, length + 5, 0];
    operations.extend(rooms.map(|room| Operation::Sheet { room }));
}

/// The length of a run's sheet, its numbers of calls and cells cut to their
/// limits.
fn length(run: &Run) -> usize {
    let calls = run.head.calls.min(MAX_CALLS as u64) as usize;
    let cells = &run.cells[..run.head.cells.min(MAX_KEYS as u64) as usize];
    let used = cells.iter().filter(|value| **value != 0).count();
    used * (HEAD_BYTES + CELL_BYTES) + calls * (HEAD_BYTES + RECEIPT_BYTES) + HEAD_BYTES
}

/// A damage with a value at the edge of its range or outside it.
fn damage(rng: &mut Rng, run: &Run, target: Target) -> Option<Operation> {
    let calls = run.head.calls.clamp(1, MAX_CALLS as u64) as usize;
    let call = rng.below(calls);
    let status = |word: usize, value: u64| Operation::Word {
        buffer: Buffer::Status,
        index: call * STATUS_WORDS + word,
        value,
    };
    Some(match target {
        Target::Size => Operation::Lend {
            sizes: one_short(rng),
        },
        Target::Calls => Operation::Head {
            field: HeadField::Calls,
            value: rng.pick(&[
                0,
                calls as u64 - 1,
                calls as u64 + 1,
                MAX_CALLS as u64,
                MAX_CALLS as u64 + 1,
                u64::MAX,
            ]),
        },
        Target::State => status(STATE, rng.pick(&[WAITING, RUNNING, FINISHED + 1, u64::MAX])),
        Target::Cells => Operation::Head {
            field: HeadField::Cells,
            value: rng.pick(&[
                0,
                1,
                MAX_KEYS as u64,
                MAX_KEYS as u64 + 1,
                MAX_KEYS as u64 + 1,
                u64::MAX,
            ]),
        },
        Target::Balance => value(cell(rng, run, true)?, rng),
        Target::Value => value(cell(rng, run, false)?, rng),
        Target::Key => {
            let balance = rng.chance(50);
            let index = cell(rng, run, balance)? * KEY_WORDS;
            let flipped = rng.pick(&[1 << 32, 1 << 48, 1, 1 << 63]);
            Operation::Word {
                buffer: Buffer::Keys,
                index,
                value: run.keys[index] ^ flipped,
            }
        }
        Target::Outcome => status(OUTCOME, rng.pick(&[7, 8, 8, 65_536, u64::MAX])),
        Target::Count => {
            let most = u64::from(MAX_FUEL);
            status(
                EXECUTED,
                rng.pick(&[65, most, most + 1, most + 1, 1 << 32, u64::MAX]),
            )
        }
        Target::Unused if rng.chance(25) => status(WAITS, rng.pick(&[1, 257, u64::MAX])),
        Target::Unused => of_worker(rng),
    })
}

/// A worker holds a call, or a word of its seat or its frame takes a value.
fn of_worker(rng: &mut Rng) -> Operation {
    let worker = rng.below(MAX_WORKERS);
    let value = rng.pick(&[1, 257, 65_535, u64::MAX]);
    let (buffer, index) = match rng.below(3) {
        0 => {
            return Operation::Head {
                field: HeadField::Held(worker),
                value: value.min(u16::MAX.into()),
            }
        }
        1 => (Buffer::Seats, worker * SEAT_WORDS + rng.below(SEAT_WORDS)),
        _ => (
            Buffer::Frames,
            worker * FRAME_VALUES + rng.below(FRAME_VALUES),
        ),
    };
    Operation::Word {
        buffer,
        index,
        value,
    }
}

/// A cell of the run that is a balance, or that is none.
fn cell(rng: &mut Rng, run: &Run, balance: bool) -> Option<usize> {
    let count = run.head.cells.min(MAX_KEYS as u64) as usize;
    let field = |cell: usize| (run.keys[cell * KEY_WORDS] >> 32) as u16;
    let cells: Vec<usize> = (0..count)
        .filter(|cell| (field(*cell) == BALANCE_FIELD) == balance)
        .collect();
    (!cells.is_empty()).then(|| rng.pick(&cells))
}

/// A cell takes a value, mostly below zero.
fn value(cell: usize, rng: &mut Rng) -> Operation {
    let value: i64 = rng.pick(&[-1, -1, i64::MIN, 0, 1, i64::MAX]);
    Operation::Word {
        buffer: Buffer::Cells,
        index: cell,
        value: value as u64,
    }
}
