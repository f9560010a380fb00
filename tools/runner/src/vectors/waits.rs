//! Fixed cases of damaged waiting counts: what BEGIN does with its call's count,
//! which later counts a finish tests and lowers for each outcome, and that other
//! moves look at none.

use super::damage::repair;
use super::{Buffer, Case, HeadField, Operation, Player};
use crate::assemble::assemble;
use crate::execute::Outcome;
use crate::lent::{Sizes, FINISHED, PLAN_WORDS, ROW, RUNNING, STATE, STATUS_WORDS, WAITING, WAITS};
use crate::limits::{MAX_CALLS, MAX_WORKERS};
use crate::machine::Move;

/// How a function ends: its text, the value and the fuel of its calls, and their
/// steps.
struct Ending {
    function: &'static str,
    value: u64,
    fuel: u16,
    steps: usize,
}

/// A function of each outcome, by the outcome's number.
const ENDINGS: [Ending; Outcome::LAST as usize + 1] = [
    Ending {
        function: "function 32768 0\nset r0 1\nput r0 1 zero zero\n",
        value: 0,
        fuel: 64,
        steps: 4,
    },
    Ending {
        function: "",
        value: 0,
        fuel: 64,
        steps: 1,
    },
    Ending {
        function: "function 32768 0\nput r0 1 zero zero\n",
        value: 3,
        fuel: 64,
        steps: 1,
    },
    Ending {
        function: "function 32768 0\nset r0 1\nput r0 1 zero zero\nthrow\n",
        value: 2,
        fuel: 64,
        steps: 4,
    },
    Ending {
        function: "function 32768 0\nset r0 -2147483648\nput r0 1 zero zero\n\
                   mul r1 r0 r0\nadd r1 r1 r1\n",
        value: 2,
        fuel: 64,
        steps: 5,
    },
    Ending {
        function: "function 32768 0\nset r0 3\nput r0 1 zero zero\npay r0 const 7\n",
        value: 2,
        fuel: 64,
        steps: 4,
    },
    Ending {
        function: "function 32768 0\nset r0 1\nput r0 1 zero zero\ndiv r0 r0 r1\n",
        value: 2,
        fuel: 64,
        steps: 4,
    },
    Ending {
        function: "function 32768 0\nset r0 1\nput r0 1 zero zero\njeq r0 r0 1\n",
        value: 2,
        fuel: 5,
        steps: 7,
    },
];

/// How many calls each block has.
const CALLS: usize = 5;

/// All cases.
pub fn cases() -> Vec<Case> {
    let each = ENDINGS.iter().map(finish);
    let more = [
        begin(),
        early_begin(),
        other_rows(),
        left_out(),
        no_finish(),
    ];
    each.chain(more).collect()
}

/// A case as it is written.
struct Script {
    block: Vec<u8>,
    player: Player,
    operations: Vec<Operation>,
}

impl Script {
    /// A block of five calls of one function, of which all conflict if it is
    /// known.
    fn of(ending: &Ending) -> Script {
        let call = format!("call 5 32768 0 {} fuel {}\n", ending.value, ending.fuel);
        let text = format!(
            "{}cell 5 0 0 0 2\n{}end\n",
            ending.function,
            call.repeat(CALLS)
        );
        let block = assemble(&text).expect("the text is a block's");
        let (_, player) = Player::open(&block, MAX_WORKERS, Sizes::FIXED);
        Script {
            block,
            player,
            operations: Vec::new(),
        }
    }

    fn play(&mut self, operation: Operation) {
        self.operations.push(operation);
        self.player.play(operation);
    }

    fn play_all(&mut self, operations: &[Operation]) {
        for operation in operations {
            self.play(*operation);
        }
    }

    /// A move of each damage, each of which is taken back.
    fn tried(&mut self, chosen: Operation, damages: &[Operation]) {
        for damage in damages {
            let back = repair(&self.player, *damage);
            self.play_all(&[*damage, chosen, back]);
        }
    }

    /// The rest of the run, serially.
    fn ended(mut self) -> Case {
        self.play(Operation::Serial);
        Case {
            block: self.block,
            sizes: Sizes::FIXED,
            workers: MAX_WORKERS,
            operations: self.operations,
        }
    }
}

/// Worker 0 comes to the last step of call 0; call 1 waits for it alone, call 3
/// for it and two others, and calls 2 and 4 for others. Each count that is to be
/// lowered is damaged, then what is not looked at; last the row of call 4 names
/// call 0 too, so that its count is lowered with the others.
fn finish(ending: &Ending) -> Case {
    let mut script = Script::of(ending);
    script.play(begins(0, 0));
    script.play_all(&vec![steps(0); ending.steps - 1]);
    for (call, names, count) in [(1, 1, 1), (2, 0b10, 0), (3, 0b111, 3), (4, 0b1110, 3)] {
        script.play_all(&[row(call, names), waits(call, count)]);
    }
    let damages = [
        waits(1, 0),
        waits(1, 2),
        waits(3, 0),
        waits(3, 4),
        waits(3, u64::MAX),
        row(2, 0b11),
    ];
    script.tried(steps(0), &damages);
    let unseen = [
        waits(0, u64::MAX),
        waits(2, 3),
        waits(CALLS, 9),
        row(0, u64::MAX),
        state(1, FINISHED + 1),
        state(3, RUNNING),
    ];
    script.play_all(&unseen);
    script.play_all(&[row(4, 0b1111), steps(0)]);
    script.play_all(&[begins(0, 1), state(1, WAITING), begins(0, 1)]);
    script.play_all(&[begins(1, 3), state(3, WAITING), begins(1, 3)]);
    script.ended()
}

/// BEGIN of a call that waits and of one that does not, with each count and with
/// states and rows that it does not look at.
fn begin() -> Case {
    let mut script = Script::of(&ENDINGS[0]);
    let damages = [
        waits(4, 1),
        waits(4, 5),
        waits(4, u64::MAX),
        state(0, FINISHED),
        state(0, FINISHED + 1),
        row(4, 0),
    ];
    script.tried(begins(1, 4), &damages);
    script.tried(begins(1, 0), &[waits(0, 1), waits(0, u64::MAX)]);
    script.play(begins(0, 0));
    script.play_all(&vec![steps(0); ENDINGS[0].steps]);
    script.tried(begins(1, 1), &[waits(1, 1), waits(1, 2)]);
    script.play_all(&[state(0, FINISHED + 1), row(1, u64::MAX), waits(2, 9)]);
    script.play_all(&[begins(1, 1), state(0, FINISHED), waits(2, 1)]);
    script.ended()
}

/// A count of 0 lets a call begin before those that it waits for; the finish of
/// one of these cannot lower it, and lowers it once it is mended.
fn early_begin() -> Case {
    let mut script = Script::of(&ENDINGS[3]);
    script.play_all(&[waits(2, 0), begins(1, 2), begins(0, 0)]);
    script.play_all(&vec![steps(0); ENDINGS[3].steps]);
    script.play_all(&[waits(2, 2), steps(0), begins(0, 1)]);
    script.ended()
}

/// Behind call 0, the finish of call 1 does not lower the count of call 2, whose
/// row does not name it, lowers that of call 3, and lowers a wrong count of call 4,
/// which then begins too early.
fn other_rows() -> Case {
    let mut script = Script::of(&ENDINGS[0]);
    script.play(begins(0, 0));
    script.play_all(&vec![steps(0); ENDINGS[0].steps]);
    script.play(begins(0, 1));
    script.play_all(&vec![steps(0); ENDINGS[0].steps - 1]);
    script.play_all(&[row(2, 0b1), row(3, 0b11), waits(4, 1), steps(0)]);
    script.play_all(&[begins(0, 2), begins(1, 3), begins(2, 4)]);
    script.ended()
}

/// Counts that cannot be lowered at and above the number of calls, and one below
/// it.
fn left_out() -> Case {
    let mut script = Script::of(&ENDINGS[4]);
    let calls = |value: usize| Operation::Head {
        field: HeadField::Calls,
        value: value as u64,
    };
    script.play(begins(0, 0));
    script.play_all(&vec![steps(0); ENDINGS[4].steps - 1]);
    script.play_all(&[waits(3, 0), waits(4, 9)]);
    script.tried(steps(0), &[calls(4), calls(MAX_CALLS)]);
    script.play_all(&[calls(3), steps(0), calls(CALLS)]);
    script.ended()
}

/// Steps that do not end the call and a CANCEL, with counts that none of them
/// looks at.
fn no_finish() -> Case {
    let mut script = Script::of(&ENDINGS[5]);
    script.play(begins(0, 0));
    for (call, count) in [(0, u64::MAX), (1, 0), (2, 3), (3, u64::MAX), (CALLS, 1)] {
        script.play(waits(call, count));
    }
    script.play_all(&[steps(0), steps(0), steps(0), cancels(0), begins(0, 0)]);
    script.play_all(&[waits(0, 0), begins(0, 0), steps(0), cancels(0)]);
    script.ended()
}

fn begins(worker: usize, call: usize) -> Operation {
    Operation::Move(Move::Begin { worker, call })
}

fn steps(worker: usize) -> Operation {
    Operation::Move(Move::Step { worker })
}

fn cancels(worker: usize) -> Operation {
    Operation::Move(Move::Cancel { worker })
}

/// The waiting count of a call takes a value.
fn waits(call: usize, value: u64) -> Operation {
    status(call, WAITS, value)
}

fn state(call: usize, value: u64) -> Operation {
    status(call, STATE, value)
}

fn status(call: usize, word: usize, value: u64) -> Operation {
    Operation::Word {
        buffer: Buffer::Status,
        index: call * STATUS_WORDS + word,
        value,
    }
}

/// The first word of a call's row takes a value.
fn row(call: usize, value: u64) -> Operation {
    Operation::Word {
        buffer: Buffer::Plan,
        index: call * PLAN_WORDS + ROW,
        value,
    }
}
