//! What the vectors of moves, sheets and serial runs on damaged runs show.

use std::collections::BTreeMap;

use runner::lent::{Run, FINISHED};
use runner::limits::MAX_CALLS;
use runner::machine::Move;
use runner::vectors::damage::{Target, OF_BEGIN, OF_CANCEL, OF_STEP};
use runner::vectors::fuel;
use runner::vectors::moves::cases;
use runner::vectors::serial;
use runner::vectors::sheets;
use runner::vectors::stream::{hash, input, output};
use runner::vectors::waits;
use runner::vectors::{answers, Answer, HeadField, Left, Operation, Player};

/// As many cases as the stored file has.
pub(crate) const COUNT: usize = 400;
/// The seed of the stored file.
pub(crate) const SEED: u64 = 1;
/// Most bytes of the stored file.
const MOST_BYTES: usize = 1_100_000;
/// The answers of moves, and how often each stands in the file at least.
const ANSWERS: [(u16, usize); 8] = [
    (0, 2_000),
    (20, 600),
    (21, 100),
    (22, 100),
    (23, 100),
    (24, 100),
    (25, 100),
    (26, 100),
];
/// As many cases of sheets as the stored file has.
const SHEETS: usize = 40;
/// The answers of sheets, and how often each stands in the file at least.
const CLOSINGS: [(u16, usize); 4] = [(0, 400), (20, 800), (27, 200), (28, 600)];
/// As many cases of serial runs as the stored file has.
const SERIAL: usize = 100;
/// Serial runs that leave all as it was, that finish every call, and that finish
/// some calls and not all, and how often each stands in the file at least.
const RUNS: [(Outcome, usize); 3] = [
    (Outcome::Unchanged, 40),
    (Outcome::Complete, 40),
    (Outcome::Partial, 40),
];
/// How often each damage is answered 20, and not, at least.
pub(crate) const LEAST: usize = 2;
/// Damages that a move never answers with 20 if they stand alone.
const HARMLESS: [Target; 13] = [
    Target::Cells,
    Target::Row,
    Target::EarlierRow,
    Target::EarlierState,
    Target::LaterState,
    Target::Waits,
    Target::Old,
    Target::Behind,
    Target::Register,
    Target::Room,
    Target::Length,
    Target::Beyond,
    Target::State,
];
/// Those of a move that is no step.
const HARMLESS_BUT_TO_STEPS: [Target; 3] = [Target::Place, Target::Count, Target::LaterWaits];
/// Those of which BEGIN answers some with 20.
const OF_BEGIN_ALONE: [Target; 2] = [Target::State, Target::Waits];

#[test]
fn all_answers_are_well_covered() {
    let (cases, _) = cases(SEED, COUNT);
    let mut counts: BTreeMap<u16, usize> = BTreeMap::new();
    for (answer, _) in cases.iter().flat_map(answers) {
        if let Answer::Moved(moved) = answer {
            let number = moved.err().map_or(0, |refusal| refusal.number());
            *counts.entry(number).or_default() += 1;
        }
    }
    for (number, least) in ANSWERS {
        assert!(counts[&number] >= least, "{number}: {counts:?}");
    }
    let sheets = sheets::cases(SEED, SHEETS);
    let serial = serial::cases(SEED, SERIAL);
    let all = [cases, sheets, serial, waits::cases(), fuel::cases()].concat();
    assert!(input(&all).len() < MOST_BYTES);
}

#[test]
fn all_answers_of_sheets_are_well_covered() {
    let cases = sheets::cases(SEED, SHEETS);
    let mut counts: BTreeMap<u16, usize> = BTreeMap::new();
    for (answer, _) in cases.iter().flat_map(answers) {
        match answer {
            Answer::Opened(opened) => assert_eq!(opened, Ok(())),
            Answer::Moved(moved) => assert_eq!(moved, Ok(())),
            Answer::Ran => panic!("a case of sheets has no serial run"),
            Answer::Closed(closed) => {
                let number = closed.err().map_or(0, |refusal| refusal.number());
                *counts.entry(number).or_default() += 1;
            }
        }
    }
    for (number, least) in CLOSINGS {
        assert!(counts[&number] >= least, "{number}: {counts:?}");
    }
}

/// How a serial run went.
#[derive(Clone, Copy, Debug, PartialEq, Eq, PartialOrd, Ord)]
enum Outcome {
    Unchanged,
    Complete,
    Partial,
}

#[test]
fn serial_runs_of_all_kinds_are_well_covered() {
    let all_finished = |run: &Run| {
        let calls = run.head.calls.min(MAX_CALLS as u64) as usize;
        run.sizes().suffice() && (0..calls).all(|call| run.state(call) == FINISHED)
    };
    let mut counts: BTreeMap<Outcome, usize> = BTreeMap::new();
    let moves = cases(SEED, COUNT).0;
    for case in moves.iter().chain(&serial::cases(SEED, SERIAL)) {
        let mut player = Player::open(&case.block, case.workers, case.sizes).1;
        for operation in &case.operations {
            let before = player.lent();
            player.play(*operation);
            if *operation == Operation::Serial {
                let outcome = match player.lent() {
                    after if after == before => Outcome::Unchanged,
                    after if all_finished(&after) => Outcome::Complete,
                    _ => Outcome::Partial,
                };
                *counts.entry(outcome).or_default() += 1;
            }
        }
    }
    for (outcome, least) in RUNS {
        let count = counts.get(&outcome).copied().unwrap_or(0);
        assert!(count >= least, "{counts:?}");
    }
}

#[test]
fn the_first_serial_run_is_the_longest() {
    let case = &serial::cases(SEED, 1)[0];
    let Some((Answer::Ran, Left::Run(run))) = answers(case).pop() else {
        panic!("the case ends in a serial run");
    };
    for call in 0..MAX_CALLS {
        assert_eq!(run.status[4 * call..4 * call + 3], [FINISHED, 0, 64]);
    }
    assert_eq!(run.cells[..run.head.cells as usize], [256 * 61]);
}

#[test]
fn the_second_serial_run_has_the_most_fuel() {
    let case = &serial::cases(SEED, 2)[1];
    let Some((Answer::Closed(closed), Left::Output(output))) = answers(case).pop() else {
        panic!("the case ends in a sheet");
    };
    assert_eq!(closed, Ok(44));
    let sheet = "cell 32768 1 0 0 9\nraw 0400 0500 0700 ffff\nraw 0400 0500 0700 0100\nend";
    assert_eq!(output, crate::block(sheet));
}

/// What the moves of the fixed cases of fuel answer, and the last receipt.
const FUEL: [(&[u16], [u64; 2]); 7] = [
    (&[0, 0, 20, 0], [0, 3]),
    (&[0, 0], [1, 0]),
    (&[0, 0], [2, 0]),
    (&[0, 0, 0, 20, 20, 20, 20, 20, 20, 20, 0, 0], [0, 2]),
    (&[0, 0, 0, 0, 0, 20, 20, 20, 20, 0], [0, 3]),
    (&[0, 0, 0, 0, 20, 20, 0], [7, 2]),
    (&[0, 0, 0, 0, 20, 20, 20, 20, 0], [7, 2]),
];

#[test]
fn the_fixed_cases_of_fuel_answer_as_they_should() {
    let cases = fuel::cases();
    assert_eq!(cases.len(), FUEL.len());
    for (place, (case, (wanted, receipt))) in cases.iter().zip(FUEL).enumerate() {
        let answered = answers(case);
        let moved = |(answer, _): &(Answer, Left)| match answer {
            Answer::Moved(moved) => Some(moved.err().map_or(0, |refusal| refusal.number())),
            _ => None,
        };
        let found: Vec<u16> = answered.iter().filter_map(moved).collect();
        assert_eq!(found, wanted, "case {place}");
        let ran = |(answer, left): &(Answer, Left)| match (answer, left) {
            (Answer::Ran, Left::Run(run)) => Some([run.status[0], run.status[1], run.status[2]]),
            _ => None,
        };
        let ended = answered.iter().find_map(ran);
        assert_eq!(
            ended,
            Some([FINISHED, receipt[0], receipt[1]]),
            "case {place}"
        );
    }
}

/// A run that is answered 28 by a short output and 20 with room has a broken
/// receipt; one that is answered 20 by both has another damage.
#[test]
fn sheets_with_and_without_room_are_answered_by_both_orders() {
    let (mut behind, mut before) = (0, 0);
    for case in sheets::cases(SEED, SHEETS) {
        let closings: Vec<u16> = answers(&case)
            .into_iter()
            .filter_map(|(answer, _)| match answer {
                Answer::Closed(closed) => Some(closed.err().map_or(0, |refusal| refusal.number())),
                _ => None,
            })
            .collect();
        for asked in closings.chunks(4) {
            behind += usize::from(asked == [20, 28, 20, 28]);
            before += usize::from(asked == [20, 20, 20, 20]);
        }
    }
    assert!(behind >= 80 && before >= 150, "{behind} {before}");
}

#[test]
fn a_refused_sheet_changes_no_byte() {
    for case in sheets::cases(SEED + 1, SHEETS) {
        let rooms = case
            .operations
            .iter()
            .filter_map(|operation| match operation {
                Operation::Sheet { room } => Some(*room),
                _ => None,
            });
        let closings = answers(&case)
            .into_iter()
            .filter(|(answer, _)| matches!(answer, Answer::Closed(_)));
        for ((answer, left), room) in closings.zip(rooms) {
            let Left::Output(output) = left else {
                panic!("a sheet leaves an output");
            };
            assert_eq!(output.len(), room);
            if let Answer::Closed(Err(_)) = answer {
                assert_eq!(output, vec![7; room]);
            }
        }
    }
}

#[test]
fn every_target_is_met_by_every_move_that_uses_it() {
    let (_, shown) = cases(SEED, COUNT);
    let name = |chosen: Move| match chosen {
        Move::Begin { .. } => "begin",
        Move::Step { .. } => "step",
        Move::Cancel { .. } => "cancel",
    };
    let mut damaged: BTreeMap<(&str, Target), usize> = BTreeMap::new();
    let mut passed = damaged.clone();
    for one in shown {
        let number = one.answer.err().map(|refusal| refusal.number());
        let counts = match number {
            Some(20) => &mut damaged,
            _ => &mut passed,
        };
        *counts.entry((name(one.chosen), one.target)).or_default() += 1;
    }
    let lists = [
        ("begin", OF_BEGIN.as_slice()),
        ("step", &OF_STEP),
        ("cancel", &OF_CANCEL),
    ];
    for (name, targets) in lists {
        for target in targets {
            let counts = damaged.get(&(name, *target)).copied().unwrap_or(0);
            let harmless = match name {
                "begin" if OF_BEGIN_ALONE.contains(target) => false,
                "step" => HARMLESS.contains(target),
                _ => HARMLESS.contains(target) || HARMLESS_BUT_TO_STEPS.contains(target),
            };
            assert!(harmless || counts >= LEAST, "{name} {target:?} {counts}");
            let counts = passed.get(&(name, *target)).copied().unwrap_or(0);
            let size = *target == Target::Size;
            assert!(size || counts >= LEAST, "{name} {target:?} {counts}");
        }
    }
}

#[test]
fn a_refused_move_changes_no_word() {
    let (cases, _) = cases(SEED + 1, COUNT);
    for case in &cases {
        let mut before: Option<u64> = None;
        let mut player = Player::open(&case.block, case.workers, case.sizes).1;
        for operation in &case.operations {
            before = before.or(Some(hash(&player.lent())));
            match player.play(*operation) {
                Some(Err(_)) => assert_eq!(before, Some(hash(&player.lent())), "{operation:?}"),
                _ => before = None,
            }
        }
    }
}

#[test]
fn the_streams_follow_from_the_seed() {
    let (first, _) = cases(SEED, 50);
    let (again, _) = cases(SEED, 50);
    assert_eq!(input(&first), input(&again));
    assert_eq!(output(&first), output(&again));
    assert_ne!(input(&first), input(&cases(SEED + 1, 50).0));
    assert_eq!(input(&first).len() % 32, 0);
}

#[test]
fn the_hash_sees_every_word() {
    let sizes = runner::lent::Sizes::FIXED;
    let zero = Run::zero(sizes);
    let mut run = zero.clone();
    run.head.held[7] = 1;
    assert_ne!(hash(&run), hash(&zero));
    let mut run = zero.clone();
    run.seats[127] = 1;
    assert_ne!(hash(&run), hash(&zero));
    let mut run = zero.clone();
    run.frames[255] = -1;
    assert_ne!(hash(&run), hash(&zero));
    assert_eq!(
        run.words().count(),
        4 + 8 + 8192 + 2048 + 1024 + 1024 + 128 + 256
    );
}

#[test]
fn held_takes_the_low_16_bits() {
    let (_, mut player) = Player::open(&[], 1, runner::lent::Sizes::FIXED);
    let field = HeadField::Held(3);
    for (value, held) in [
        (256, 256),
        (65_535, 65_535),
        (65_536, 0),
        (u64::MAX, 65_535),
    ] {
        player.play(Operation::Head { field, value });
        assert_eq!(
            (player.run.head.held[3], player.head(field)),
            (held, held.into())
        );
    }
}
