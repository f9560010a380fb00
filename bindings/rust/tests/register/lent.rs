//! The raw layer against the runner's lent runs: damaged words, short and long
//! buffers, blocks cut and changed, heads of every length and words of the head
//! beyond 16 bits.

use runner::lent::Run;
use runner::limits::MAX_WORKERS;
use runner::machine::Move;
use runner::rng::Rng;
use runner::vectors::{fuel, moves, serial, sheets, waits, Case, Operation, Player, OUTPUT_BYTE};
use zumbiqa::raw::{size, Size};
use zumbiqa::Answer;

use crate::words::Owned;

/// How many cases of each kind are played.
const MOVES: usize = 1_500;
const SHEETS: usize = 150;
const SERIALS: usize = 150;

/// Words lent behind a head, and what they are.
const MORE_WORDS: usize = 3;
const BEHIND: u64 = 7;

/// A word of a head beyond 16 bits is read as the largest number of 16 bits.
const LARGEST: u16 = u16::MAX;

/// What an operation answers: its number, and the length of a sheet.
type Told = (u64, usize);

/// Does an operation on lent words; the output is that of a sheet.
fn play(owned: &mut Owned, block: &[u8], operation: Operation, output: &mut [u8]) -> Told {
    let number = |answer: Result<(), Answer>| (answer.map_or_else(Answer::number, |()| 0), 0);
    let mut words = owned.words();
    match operation {
        Operation::Move(Move::Begin { worker, call }) => number(words.begin(worker, call)),
        Operation::Move(Move::Step { worker }) => number(words.step(block, worker)),
        Operation::Move(Move::Cancel { worker }) => number(words.cancel(worker)),
        Operation::Serial => number(words.serial_run(block)),
        Operation::Sheet { .. } => match owned.view().sheet(output) {
            Ok(length) => (0, length),
            Err(answer) => (answer.number(), 0),
        },
        _ => unreachable!("a damage is done by the runner"),
    }
}

/// What the runner answers and leaves of the same.
fn wanted(player: &Player, operation: Operation) -> (Told, Run, Vec<u8>) {
    let mut player = player.clone();
    let room = match operation {
        Operation::Sheet { room } => room,
        _ => 0,
    };
    let (closed, output) = player.close(room);
    let told = match (operation, player.play(operation)) {
        (Operation::Sheet { .. }, _) => match closed {
            Ok(length) => (0, length),
            Err(refusal) => (refusal.number().into(), 0),
        },
        (Operation::Serial, _) if !player.sizes.suffice() => (Answer::Damaged.number(), 0),
        (_, Some(Err(refusal))) => (refusal.number().into(), 0),
        _ => (0, 0),
    };
    (told, player.lent(), output)
}

/// The operation on the run as it is lent, with some words behind the head.
fn compare(player: &Player, operation: Operation) {
    let (told, after, output) = wanted(player, operation);
    let mut owned = Owned::of(&player.lent());
    owned.head.extend([BEHIND; MORE_WORDS]);
    let mut written = vec![OUTPUT_BYTE; output.len()];
    let found = play(&mut owned, lent_block(player), operation, &mut written);
    assert_eq!(found, told, "{operation:?}");
    assert_eq!(written, output);
    let behind = owned.head.split_off(size(Size::Head));
    assert_eq!(behind, [BEHIND; MORE_WORDS]);
    assert_eq!(owned, Owned::of(&after), "{operation:?}");
}

/// The same where a worker's word is beyond 16 bits: the answer is that of the
/// largest number of 16 bits, and the word stays.
fn compare_beyond(player: &Player, operation: Operation, worker: usize, word: u64) {
    let mut player = player.clone();
    player.run.head.held[worker] = LARGEST;
    let (told, after, output) = wanted(&player, operation);
    let mut owned = Owned::of(&player.lent());
    *owned.held(worker) = word;
    let mut written = vec![OUTPUT_BYTE; output.len()];
    let found = play(&mut owned, lent_block(&player), operation, &mut written);
    assert_eq!(found, told, "{operation:?} with {word} held by {worker}");
    assert_eq!(written, output);
    let mut left = Owned::of(&after);
    assert_eq!(*left.held(worker), u64::from(LARGEST));
    *left.held(worker) = word;
    assert_eq!(owned, left, "{operation:?} with {word} held by {worker}");
}

/// A head that is too short is 20, and nothing changes.
fn compare_short(player: &Player, operation: Operation, words: usize) {
    let mut owned = Owned::of(&player.lent());
    owned.head.truncate(words);
    let before = owned.clone();
    let mut output = vec![OUTPUT_BYTE; size(Size::Sheet)];
    let found = play(&mut owned, lent_block(player), operation, &mut output);
    assert_eq!(found, (Answer::Damaged.number(), 0), "{operation:?}");
    assert_eq!(owned, before, "{operation:?}");
    assert!(output.iter().all(|byte| *byte == OUTPUT_BYTE));
}

fn lent_block(player: &Player) -> &[u8] {
    &player.block[..player.lent_block]
}

/// The opening of a case in buffers that held something, with some words behind
/// the head, and with a head that is too short.
fn compare_opening(case: &Case, short: usize) {
    let (wanted, player) = Player::open(&case.block, case.workers, case.sizes);
    let told = wanted.map_err(|refusal| (refusal.fault.number().into(), refusal.offset as u64));
    let mut owned = Owned::filled(size(Size::Head) + MORE_WORDS, case.sizes, OUTPUT_BYTE);
    let found = owned.words().open(&case.block, case.workers);
    assert_eq!(found.map_err(|r| (r.number(), r.offset)), told);
    let behind = owned.head.split_off(size(Size::Head));
    assert_eq!(behind, [0; MORE_WORDS]);
    assert_eq!(owned, Owned::of(&player.run));

    let mut owned = Owned::filled(short, case.sizes, OUTPUT_BYTE);
    let found = owned.words().open(&case.block, case.workers);
    let refused = Err((Answer::Damaged.number(), 0));
    assert_eq!(found.map_err(|r| (r.number(), r.offset)), refused);
    assert_eq!(owned, Owned::filled(short, case.sizes, 0));
}

/// Plays the cases; each operation is done once as it is, once with a word of the
/// head beyond 16 bits and once with a short head.
fn compare_cases(seed: u64, cases: &[Case]) {
    let mut rng = Rng::new(seed);
    for case in cases {
        compare_opening(case, rng.below(size(Size::Head)));
        let (_, mut player) = Player::open(&case.block, case.workers, case.sizes);
        for operation in &case.operations {
            if let Operation::Move(_) | Operation::Serial | Operation::Sheet { .. } = operation {
                compare(&player, *operation);
                let beyond = u64::from(LARGEST) + 1 + (rng.bits() >> rng.between(1, 63));
                compare_beyond(&player, *operation, rng.below(MAX_WORKERS), beyond);
                compare_short(&player, *operation, rng.below(size(Size::Head)));
            }
            player.play(*operation);
        }
    }
}

#[test]
fn moves_agree() {
    compare_cases(1, &moves::cases(2_303, MOVES).0);
}

#[test]
fn sheets_agree() {
    compare_cases(2, &sheets::cases(2_304, SHEETS));
}

#[test]
fn serial_runs_agree() {
    compare_cases(3, &serial::cases(2_305, SERIALS));
}

#[test]
fn damaged_waiting_counts_agree() {
    compare_cases(4, &waits::cases());
}

#[test]
fn fuel_agrees() {
    compare_cases(5, &fuel::cases());
}
