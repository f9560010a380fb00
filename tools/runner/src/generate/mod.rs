//! Generated cases of the program REGISTER: block, input, expected output. All
//! are drawn from a seed; the expected output is this runner's own.

mod code;
mod damage;
pub mod draft;
pub mod edges;
pub mod large;
pub mod loops;
pub mod moves;
pub mod programs;
pub mod sized;

use crate::console::register;
use crate::limits::MAX_WORKERS;
use crate::machine::open;
use crate::rng::Rng;
use code::Style;
use damage::{Damaged, DAMAGES};
use draft::{Draft, Shape, CALCULATING, MIXED, PAYING, TOUCHING};
use large::LARGES;
use moves::Plan;

/// A case of REGISTER.
#[derive(Clone, Debug, PartialEq, Eq)]
pub struct Case {
    /// The bytes of block.bin.
    pub block: Vec<u8>,
    /// The bytes of standard input.
    pub input: Vec<u8>,
    /// The bytes that are printed.
    pub output: Vec<u8>,
}

/// Runs to the end, with refused moves between.
pub const COMPLETE: Plan = Plan {
    complete: true,
    malformed: 0,
    refused: 15,
    cancels: 5,
};
/// Runs that stop before the end.
const INCOMPLETE: Plan = Plan {
    complete: false,
    ..COMPLETE
};
/// Runs with many lines that are no moves.
const MALFORMED: Plan = Plan {
    malformed: 20,
    refused: 5,
    ..COMPLETE
};
/// Runs of large blocks.
const LONG: Plan = Plan {
    refused: 1,
    cancels: 1,
    ..COMPLETE
};

/// Runs in which calls are often begun too early.
const EAGER: Plan = Plan {
    refused: 50,
    cancels: 3,
    ..COMPLETE
};

/// Blocks of many calls over few cells.
const MANY_CALLS: Shape = Shape {
    style: Style::Mixed,
    functions: (4, 12),
    instructions: (4, 24),
    calls: (20, 120),
    values: 50,
    bytes: 8_240,
    loops: None,
};

/// Behind how many numbers of the seed these blocks begin, whatever the large ones
/// before them drew.
const MANY_CALLS_NUMBERS: u64 = 456_163;

/// Keys of a call at the limit, one above it and more.
const KEY_COUNTS: [usize; 3] = [24, 25, 26];

/// The kinds of small cases. A number is one of a round's turns.
#[derive(Clone, Copy, Debug)]
enum Theme {
    Accepted(Shape, Plan),
    Program(usize),
    Keys,
    Edge(usize),
    Edited,
    Damaged(usize),
    DamagedTwice,
}

/// Where the turns of `Edge` begin is drawn below this.
const MANY_EDGES: usize = 1_000;
/// How many turns of `Edge` a round has.
const EDGE_TURNS: usize = 6;
/// How many turns of `Program` a round has.
const PROGRAM_TURNS: usize = 2;
/// How many turns of `Damaged` a round has.
const DAMAGED_TURNS: usize = 2;

/// The themes of consecutive small cases.
const THEMES: [Theme; 23] = [
    Theme::Accepted(MIXED, COMPLETE),
    Theme::Program(0),
    Theme::Edge(0),
    Theme::Accepted(TOUCHING, EAGER),
    Theme::Damaged(0),
    Theme::Accepted(CALCULATING, COMPLETE),
    Theme::Edge(1),
    Theme::Accepted(PAYING, COMPLETE),
    Theme::DamagedTwice,
    Theme::Accepted(MIXED, MALFORMED),
    Theme::Edge(2),
    Theme::Keys,
    Theme::Program(1),
    Theme::Accepted(CALCULATING, COMPLETE),
    Theme::Edge(3),
    Theme::Accepted(TOUCHING, EAGER),
    Theme::Damaged(1),
    Theme::Accepted(MIXED, INCOMPLETE),
    Theme::Edge(4),
    Theme::Accepted(MIXED, COMPLETE),
    Theme::Edited,
    Theme::Edge(5),
    Theme::DamagedTwice,
];

/// Small cases of a seed.
pub fn small_cases(seed: u64, count: usize) -> Vec<Case> {
    let mut rng = Rng::new(seed);
    let first_edge = rng.below(MANY_EDGES);
    (0..count)
        .map(|index| small_case(&mut rng, index, first_edge))
        .collect()
}

/// Large cases of a seed.
pub fn large_cases(seed: u64, count: usize) -> Vec<Case> {
    let mut rng = Rng::new(seed);
    (0..count)
        .map(|index| large_case(&mut rng, seed, index))
        .collect()
}

fn small_case(rng: &mut Rng, index: usize, first_edge: usize) -> Case {
    let (round, theme) = (index / THEMES.len(), THEMES[index % THEMES.len()]);
    let (block, plan) = match theme {
        Theme::Accepted(shape, plan) => (Draft::random(rng, shape).bytes(), plan),
        Theme::Program(turn) => {
            let program = round * PROGRAM_TURNS + turn;
            (programs::block(program), EAGER)
        }
        Theme::Keys => {
            let keys = KEY_COUNTS[round % KEY_COUNTS.len()];
            (Draft::with_keys(rng, keys).bytes(), COMPLETE)
        }
        Theme::Edge(turn) => {
            let edge = first_edge + round * EDGE_TURNS + turn;
            (edges::block(edge), COMPLETE)
        }
        Theme::Edited => (edited(rng), COMPLETE),
        Theme::Damaged(turn) => (damaged(rng, round * DAMAGED_TURNS + turn), COMPLETE),
        Theme::DamagedTwice => (damaged_twice(rng), COMPLETE),
    };
    case(rng, block, plan)
}

fn large_case(rng: &mut Rng, seed: u64, index: usize) -> Case {
    let kinds = LARGES.len() + 1;
    let (round, kind) = (index / kinds, index % kinds);
    match LARGES.get(kind) {
        Some(large) => {
            let block = large::block(rng, *large);
            case(rng, block, LONG)
        }
        None => {
            let mut rng = Rng::behind(seed, MANY_CALLS_NUMBERS + round as u64);
            let block = Draft::random(&mut rng, MANY_CALLS).bytes();
            case(&mut rng, block, LONG)
        }
    }
}

/// A block with one byte changed, which may still be good.
fn edited(rng: &mut Rng) -> Vec<u8> {
    let mut bytes = Draft::random(rng, MIXED).bytes();
    let at = rng.below(bytes.len());
    bytes[at] = if rng.chance(50) {
        bytes[at] ^ (1 << rng.below(8))
    } else {
        rng.bits() as u8
    };
    bytes
}

/// A block with one damage; the damages take turns.
fn damaged(rng: &mut Rng, turn: usize) -> Vec<u8> {
    let records = Draft::random(rng, MIXED).records();
    let mut damaged = Damaged::new(rng, records);
    damaged.apply(rng, DAMAGES[turn % DAMAGES.len()]);
    damaged.bytes()
}

/// A block with two damages, often to the same record, or with one damage and a
/// call of too many keys.
fn damaged_twice(rng: &mut Rng) -> Vec<u8> {
    let too_many_keys = rng.chance(25);
    let draft = if too_many_keys {
        Draft::with_keys(rng, 25)
    } else {
        Draft::random(rng, MIXED)
    };
    let mut damaged = Damaged::new(rng, draft.records());
    let first = rng.below(DAMAGES.len());
    let second = (first + rng.between(1, DAMAGES.len() - 1)) % DAMAGES.len();
    // Damages to the bytes come first in the list and are done last.
    damaged.apply(rng, DAMAGES[first.max(second)]);
    if !too_many_keys {
        damaged.apply(rng, DAMAGES[first.min(second)]);
    }
    damaged.bytes()
}

/// The case of a block, with lines that fit it.
fn case(rng: &mut Rng, block: Vec<u8>, plan: Plan) -> Case {
    let input = match open(&block, MAX_WORKERS) {
        Ok(opened) => moves::lines(rng, &opened, plan),
        Err(_) => moves::unanswered(rng),
    };
    let output = register(&block, &input).into_bytes();
    Case {
        block,
        input,
        output,
    }
}
