//! Streams of many blocks, and of blocks with moves, for a program that is run
//! once, and what it must print. In a stream each part is its length in four
//! bytes, little-endian, and its bytes.

use crate::console::register;
use crate::generate::{large_cases, small_cases};
use crate::inspect::inspect;
use crate::limits::MAX_WORKERS;
use crate::machine::{open, Machine, Move};
use crate::rng::Rng;
use crate::serial;

/// How many small blocks, and large ones: each kind of these once.
const SMALL: usize = 300;
const LARGE: usize = 9;
/// How many good blocks are damaged, and how often by one byte and by two.
const DAMAGED: usize = 8;
const SINGLE: usize = 40;
const DOUBLE: usize = 15;
/// How many large blocks are run, how many blocks in every schedule, how many
/// steps such a block takes at most, and how many of its schedules are taken.
const LARGE_RUNS: usize = 3;
const ROUND_BLOCKS: usize = 60;
/// The numbers of workers of a round: each block is run on so many.
const WORKERS: [usize; 4] = [1, 2, 5, 8];
const SCHEDULE_BLOCKS: usize = 3;
const MAX_SCHEDULE_STEPS: usize = 10;
const MOST_SCHEDULES: usize = 100;

/// A stream, and the text that is printed for it.
#[derive(Clone, Debug, PartialEq, Eq)]
pub struct Stream {
    /// The bytes of standard input.
    pub input: Vec<u8>,
    /// The bytes that are printed.
    pub output: Vec<u8>,
}

/// Blocks that are opened: good ones and refused ones of every number, limits
/// met exactly and passed by one, and good blocks with one or two bytes changed.
pub fn opened(seed: u64) -> Stream {
    let mut stream = Stream {
        input: Vec::new(),
        output: Vec::new(),
    };
    for block in blocks(seed) {
        put(&mut stream.input, &block);
        stream.output.extend_from_slice(inspect(&block).as_bytes());
    }
    stream
}

/// Cases of REGISTER: each block, then its moves. Small blocks of every theme
/// with complete, incomplete, malformed and refused moves, large ones, a round in
/// which each block is run on different numbers of workers, and every schedule
/// of a few blocks on two workers.
pub fn registered(seed: u64) -> Stream {
    let mut stream = Stream {
        input: Vec::new(),
        output: Vec::new(),
    };
    let mut cases = small_cases(seed, SMALL);
    cases.extend(large_cases(seed, LARGE_RUNS));
    for case in cases {
        put(&mut stream.input, &case.block);
        put(&mut stream.input, &case.input);
        stream.output.extend_from_slice(&case.output);
    }
    let mut rng = Rng::new(seed);
    for block in good_blocks(seed) {
        for workers in WORKERS {
            let moves = random_schedule(&mut rng, &block, workers);
            put(&mut stream.input, &block);
            put(&mut stream.input, moves.as_bytes());
            let text = register(&block, moves.as_bytes());
            stream.output.extend_from_slice(text.as_bytes());
        }
    }
    for block in schedule_blocks(seed) {
        for moves in schedules(&block) {
            put(&mut stream.input, &block);
            put(&mut stream.input, moves.as_bytes());
            let text = register(&block, moves.as_bytes());
            stream.output.extend_from_slice(text.as_bytes());
        }
    }
    stream
}

/// Good blocks with calls.
fn good_blocks(seed: u64) -> Vec<Vec<u8>> {
    small_cases(seed, SMALL)
        .into_iter()
        .map(|case| case.block)
        .filter(|block| open(block, MAX_WORKERS).is_ok_and(|opened| !opened.block.calls.is_empty()))
        .take(ROUND_BLOCKS)
        .collect()
}

/// A run to the end on so many workers, each accepted move chosen at random;
/// one in twenty cancels a call. No move is refused, so nothing but the sheet
/// is printed.
fn random_schedule(rng: &mut Rng, block: &[u8], workers: usize) -> String {
    let opened = open(block, MAX_WORKERS).expect("the block is accepted");
    let calls = opened.block.calls.len();
    let mut machine = Machine::new(&opened);
    let mut moves = String::new();
    while machine.receipts().is_none() {
        let worker = rng.below(workers);
        let next = match rng.below(20) {
            0 => Move::Cancel { worker },
            1..=9 => Move::Begin {
                worker,
                call: rng.below(calls),
            },
            _ => Move::Step { worker },
        };
        if machine.apply(next).is_ok() {
            moves += &line(next);
        }
    }
    moves
}

/// Good blocks of two or three short calls.
fn schedule_blocks(seed: u64) -> Vec<Vec<u8>> {
    small_cases(seed, SMALL)
        .into_iter()
        .map(|case| case.block)
        .filter(|block| {
            open(block, MAX_WORKERS).is_ok_and(|opened| {
                let calls = opened.block.calls.len();
                let steps: usize = serial::run(&opened)
                    .ended
                    .iter()
                    .map(|ended| ended.steps)
                    .sum();
                (2..=3).contains(&calls) && steps <= MAX_SCHEDULE_STEPS
            })
        })
        .take(SCHEDULE_BLOCKS)
        .collect()
}

/// The moves of each way to run the block to its end on two workers, each call
/// begun by the first idle one; some of them where there are very many.
fn schedules(block: &[u8]) -> Vec<String> {
    let opened = open(block, MAX_WORKERS).expect("the block is accepted");
    let mut found = Vec::new();
    let mut moves = Vec::new();
    follow(&Machine::new(&opened), &mut moves, &mut found);
    found
}

fn follow(machine: &Machine, moves: &mut Vec<Move>, found: &mut Vec<String>) {
    if found.len() >= MOST_SCHEDULES {
        return;
    }
    if machine.receipts().is_some() {
        found.push(moves.iter().map(|&one| line(one)).collect());
        return;
    }
    let calls = machine.states().len();
    let begins = (0..calls).map(|call| (0..2).map(move |worker| Move::Begin { worker, call }));
    let steps = (0..2).map(|worker| Move::Step { worker });
    for next in begins.flatten().chain(steps) {
        let mut after = machine.clone();
        if after.apply(next).is_ok() {
            moves.push(next);
            follow(&after, moves, found);
            moves.pop();
        }
    }
}

/// A move as a line.
fn line(one: Move) -> String {
    match one {
        Move::Begin { worker, call } => format!("b {worker} {call}\n"),
        Move::Step { worker } => format!("s {worker}\n"),
        Move::Cancel { worker } => format!("c {worker}\n"),
    }
}

/// The blocks of a stream.
pub fn blocks(seed: u64) -> Vec<Vec<u8>> {
    let mut rng = Rng::new(seed);
    let mut all: Vec<Vec<u8>> = Vec::new();
    for case in small_cases(seed, SMALL) {
        all.push(case.block);
    }
    let good: Vec<Vec<u8>> = all
        .iter()
        .filter(|block| block.len() < 600 && open(block, MAX_WORKERS).is_ok())
        .take(DAMAGED)
        .cloned()
        .collect();
    for block in &good {
        for _ in 0..SINGLE {
            all.push(edited(&mut rng, block, 1));
        }
        for _ in 0..DOUBLE {
            all.push(edited(&mut rng, block, 2));
        }
    }
    all.extend(large_cases(seed, LARGE).into_iter().map(|case| case.block));
    all
}

/// A block with so many bytes changed, by one bit or as a whole.
fn edited(rng: &mut Rng, block: &[u8], edits: usize) -> Vec<u8> {
    let mut bytes = block.to_vec();
    for _ in 0..edits {
        let at = rng.below(bytes.len());
        bytes[at] ^= if rng.chance(50) {
            1 << rng.below(8)
        } else {
            rng.between(1, 255) as u8
        };
    }
    bytes
}

pub(super) fn put(stream: &mut Vec<u8>, bytes: &[u8]) {
    let length = u32::try_from(bytes.len()).expect("a block is far below 2^32 bytes");
    stream.extend_from_slice(&length.to_le_bytes());
    stream.extend_from_slice(bytes);
}

#[cfg(test)]
mod tests {
    use super::*;

    #[test]
    fn every_refusal_of_an_input_is_there() {
        let stream = opened(1);
        let text = String::from_utf8(stream.output).expect("the text is ASCII");
        for number in 1..=12 {
            let start = format!("e {number} ");
            assert!(
                text.lines().any(|line| line.starts_with(&start)),
                "no refusal {number}"
            );
        }
        assert!(text.lines().filter(|line| line.starts_with('n')).count() > 100);
        assert!(blocks(1).iter().any(|block| block.len() == 65_536));
    }

    #[test]
    fn every_number_of_workers_prints_one_sheet() {
        let mut rng = Rng::new(1);
        for block in good_blocks(1) {
            let texts = WORKERS.map(|workers| {
                let moves = random_schedule(&mut rng, &block, workers);
                register(&block, moves.as_bytes())
            });
            assert!(texts.iter().all(|text| *text == texts[0]));
        }
    }

    #[test]
    fn every_schedule_of_a_block_prints_one_sheet() {
        for block in schedule_blocks(1) {
            let found = schedules(&block);
            assert!(found.len() > 1);
            let first = register(&block, found[0].as_bytes());
            assert!(found
                .iter()
                .all(|moves| register(&block, moves.as_bytes()) == first));
        }
    }

    #[test]
    fn a_block_stands_behind_its_length() {
        let mut stream = Vec::new();
        put(&mut stream, &[7, 8, 9]);
        assert_eq!(stream, [3, 0, 0, 0, 7, 8, 9]);
    }
}
