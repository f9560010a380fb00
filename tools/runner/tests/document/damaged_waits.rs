//! What the vectors show of damaged waiting counts, and of the states and rows
//! that are looked at with them or no more.

use std::collections::BTreeMap;

use runner::execute::Outcome;
use runner::lent::{FINISHED, OUTCOME};
use runner::vectors::damage::Moment::{self, Begin, Cancel, Early, Ends, Goes, Restores};
use runner::vectors::moves::cases;
use runner::vectors::{answers, waits, Answer, Player};

use crate::vectors::{COUNT, LEAST, SEED};

/// What is damaged, how, and what the move then answers.
type Answered = (&'static str, &'static str, u16);

/// Of a begin that passes without the damage.
const OF_BEGIN: [Answered; 8] = [
    ("own count", "in range", 25),
    ("own count", "above", 20),
    ("named count", "0", 0),
    ("named count", "above", 0),
    ("earlier state", "in range", 0),
    ("earlier state", "above", 0),
    ("own row", "bit set", 0),
    ("own row", "bit cleared", 0),
];
/// Of one that is answered 25.
const OF_EARLY: [Answered; 6] = [
    ("own count", "0", 0),
    ("own count", "in range", 25),
    ("own count", "above", 20),
    ("earlier state", "in range", 25),
    ("earlier state", "above", 25),
    ("own row", "bit cleared", 25),
];
/// Of a step that ends the call, with and without restoring.
const OF_LAST_STEP: [Answered; 17] = [
    ("named count", "0", 20),
    ("named count", "above", 20),
    ("named count", "in range", 0),
    ("unnamed count", "in range", 0),
    ("unnamed count", "above", 0),
    ("count behind", "in range", 0),
    ("count behind", "above", 0),
    ("own count", "in range", 0),
    ("own count", "above", 0),
    ("later row", "bit cleared", 0),
    ("later row", "bit set, count 0", 20),
    ("later row", "bit set", 0),
    ("later state", "in range", 0),
    ("later state", "above", 0),
    ("earlier row", "bit set", 0),
    ("own row", "own bit", 0),
    ("row behind", "bit set", 0),
];
/// Of a step that goes on.
const OF_STEP: [Answered; 8] = [
    ("named count", "0", 0),
    ("named count", "above", 0),
    ("named count", "in range", 0),
    ("unnamed count", "above", 0),
    ("own count", "above", 0),
    ("later row", "bit cleared", 0),
    ("later row", "bit set, count 0", 0),
    ("earlier row", "bit set", 0),
];
/// Of a cancel.
const OF_CANCEL: [Answered; 4] = [
    ("named count", "0", 0),
    ("named count", "above", 0),
    ("own count", "in range", 0),
    ("own count", "above", 0),
];

#[test]
fn every_kind_of_damaged_count_is_met() {
    let (_, shown) = cases(SEED, COUNT);
    let mut counts: BTreeMap<(Moment, Answered), usize> = BTreeMap::new();
    for one in shown {
        let number = one.answer.err().map_or(0, |refusal| refusal.number());
        if let Some(kind) = one.kind {
            let answered = (kind.what, kind.how, number);
            *counts.entry((kind.moment, answered)).or_default() += 1;
        }
    }
    let lists = [
        (Begin, OF_BEGIN.as_slice()),
        (Early, &OF_EARLY),
        (Goes, &OF_STEP),
        (Ends, &OF_LAST_STEP),
        (Restores, &OF_LAST_STEP),
        (Cancel, &OF_CANCEL),
    ];
    for (moment, kinds) in lists {
        for answered in kinds {
            let count = counts.get(&(moment, *answered)).copied().unwrap_or(0);
            assert!(count >= LEAST, "{moment:?} {answered:?} of {counts:#?}");
        }
    }
}

/// What the moves of the fixed cases answer: the last step of a call of each
/// outcome, then the others.
const FIXED: [&[u16]; 13] = [
    &[0, 0, 0, 0, 20, 20, 20, 20, 20, 20, 0, 20, 0, 24, 25],
    &[0, 20, 20, 20, 20, 20, 20, 0, 20, 0, 24, 25],
    &[0, 20, 20, 20, 20, 20, 20, 0, 20, 0, 24, 25],
    &[0, 0, 0, 0, 20, 20, 20, 20, 20, 20, 0, 20, 0, 24, 25],
    &[0, 0, 0, 0, 0, 20, 20, 20, 20, 20, 20, 0, 20, 0, 24, 25],
    &[0, 0, 0, 0, 20, 20, 20, 20, 20, 20, 0, 20, 0, 24, 25],
    &[0, 0, 0, 0, 20, 20, 20, 20, 20, 20, 0, 20, 0, 24, 25],
    &[
        0, 0, 0, 0, 0, 0, 0, 20, 20, 20, 20, 20, 20, 0, 20, 0, 24, 25,
    ],
    &[25, 20, 20, 25, 25, 25, 20, 20, 0, 0, 0, 0, 0, 25, 20, 0],
    &[0, 0, 0, 0, 0, 20, 0, 0],
    &[0, 0, 0, 0, 0, 0, 0, 0, 0, 0, 25, 25, 0],
    &[0, 0, 0, 0, 0, 20, 20, 0],
    &[0, 0, 0, 0, 0, 20, 0, 0, 0],
];

#[test]
fn the_fixed_cases_answer_as_they_should() {
    let cases = waits::cases();
    assert_eq!(cases.len(), FIXED.len());
    for (place, (case, wanted)) in cases.iter().zip(FIXED).enumerate() {
        let moved = |(answer, _)| match answer {
            Answer::Moved(moved) => Some(moved.err().map_or(0, |refusal| refusal.number())),
            _ => None,
        };
        let found: Vec<u16> = answers(case).into_iter().filter_map(moved).collect();
        assert_eq!(found, wanted, "case {place}");
    }
}

#[test]
fn the_fixed_finishes_are_of_each_outcome_and_lower_alike() {
    for (outcome, case) in waits::cases()[..=Outcome::LAST as usize].iter().enumerate() {
        let mut player = Player::open(&case.block, case.workers, case.sizes).1;
        for operation in &case.operations {
            player.play(*operation);
            if player.run.state(0) == FINISHED {
                break;
            }
        }
        assert_eq!(player.run.status_word(0, OUTCOME), outcome as u64);
        let counts: Vec<u64> = (0..6).map(|call| player.run.waits(call)).collect();
        assert_eq!(counts, [u64::MAX, 0, 3, 2, 2, 9]);
    }
}
