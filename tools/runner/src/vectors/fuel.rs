//! Fixed cases of fuel: what a step does with the lent record's fuel and the seat's
//! count at the entry, behind it, at the code's end, and where no fuel is left.

use super::damage::repair;
use super::{Buffer, Case, HeadField, Operation, Player, CHANGED_BYTES};
use crate::assemble::assemble;
use crate::lent::{Sizes, CODE_LENGTH, CODE_START, COUNT, ENTRIES, KEY_COUNT, PLACE};
use crate::limits::{FUEL_AT, HEAD_BYTES, MAX_WORKERS};
use crate::machine::Move;

/// One call of three instructions, with a value and fuel 3.
const TEXT: &str = "function 32768 0\nset r0 1\nput r0 1 zero zero\nset r1 2\n\
                    cell 5 0 0 0 3\ncell 32768 1 0 0 9\ncall 5 32768 0 2 fuel 3\nend\n";
/// Where the function's code starts, and how long it is.
const CODE: usize = 8;
const LENGTH: u64 = 3;

/// All cases.
pub fn cases() -> Vec<Case> {
    vec![
        entry(),
        unknown_function(),
        low_balance(),
        behind(),
        at_the_end(),
        out_of_fuel(),
        restored(),
    ]
}

/// A case as it is written.
struct Script {
    block: Vec<u8>,
    player: Player,
    operations: Vec<Operation>,
}

impl Script {
    /// The call is begun on worker 0 and takes some steps.
    fn begun(steps: usize) -> Script {
        let block = assemble(TEXT).expect("the text is a block's");
        let (_, player) = Player::open(&block, MAX_WORKERS, Sizes::FIXED);
        let mut script = Script {
            block,
            player,
            operations: Vec::new(),
        };
        let begin = Move::Begin { worker: 0, call: 0 };
        script.play(&[Operation::Move(begin)]);
        script.play(&vec![STEP; steps]);
        script
    }

    fn play(&mut self, operations: &[Operation]) {
        for operation in operations {
            self.operations.push(*operation);
            self.player.play(*operation);
        }
    }

    /// A step behind each damage, which is taken back.
    fn tried(&mut self, damages: &[Operation]) {
        for damage in damages {
            let back = repair(&self.player, *damage);
            self.play(&[*damage, STEP, back]);
        }
    }

    /// The call's record has another fuel.
    fn fuel(&self, fuel: u16) -> Operation {
        let at = self.player.run.head.first as usize + HEAD_BYTES + FUEL_AT;
        self.bytes(at, &fuel.to_le_bytes())
    }

    /// Other bytes at an offset of the block.
    fn bytes(&self, at: usize, written: &[u8]) -> Operation {
        let mut bytes = [0; CHANGED_BYTES];
        for (byte, from) in bytes.iter_mut().zip(&self.player.block[at..]) {
            *byte = *from;
        }
        bytes[..written.len()].copy_from_slice(written);
        Operation::Bytes { at, bytes }
    }

    /// The rest of the run, serially, and its sheet.
    fn ended(mut self) -> Case {
        self.play(&[Operation::Serial, Operation::Sheet { room: 200 }]);
        Case {
            block: self.block,
            sizes: Sizes::FIXED,
            workers: MAX_WORKERS,
            operations: self.operations,
        }
    }
}

const STEP: Operation = Operation::Move(Move::Step { worker: 0 });

/// The entry looks at neither, and leaves count 0.
fn entry() -> Case {
    let mut script = Script::begun(0);
    let none = script.fuel(0);
    let three = script.fuel(3);
    script.play(&[none, seat(COUNT, u64::MAX), STEP]);
    script.play(&[STEP, three, STEP]);
    script.ended()
}

/// An unknown function writes count 0.
fn unknown_function() -> Case {
    let mut script = Script::begun(0);
    let none = script.fuel(0);
    script.play(&[none, seat(COUNT, 9), plan(CODE_LENGTH, 0), STEP]);
    script.ended()
}

/// A balance below the value too.
fn low_balance() -> Case {
    let mut script = Script::begun(0);
    let none = script.fuel(0);
    let balance = Operation::Word {
        buffer: Buffer::Cells,
        index: 0,
        value: 1,
    };
    script.play(&[none, seat(COUNT, 65_536), balance, STEP]);
    script.ended()
}

/// Behind the entry fuel 0 and a count above the fuel are 20; a count below it is
/// believed.
fn behind() -> Case {
    let mut script = Script::begun(2);
    let (none, one) = (script.fuel(0), script.fuel(1));
    let damages = [
        none,
        seat(COUNT, 4),
        seat(COUNT, 65_535),
        seat(COUNT, 65_536),
        seat(COUNT, 1 << 32),
        seat(COUNT, u64::MAX),
    ];
    script.tried(&damages);
    script.play(&[seat(COUNT, 2), one, STEP]);
    let two = script.fuel(2);
    script.play(&[seat(COUNT, 0), two, STEP, STEP]);
    script.ended()
}

/// At the code's end both are tested as well, and a count that is the fuel ends the
/// call with 0.
fn at_the_end() -> Case {
    let mut script = Script::begun(4);
    let none = script.fuel(0);
    let two = script.fuel(2);
    script.tried(&[none, two, seat(COUNT, 4), seat(COUNT, u64::MAX)]);
    script.play(&[seat(PLACE, LENGTH + 1), seat(COUNT, 3), STEP]);
    script.ended()
}

/// Where the count is the fuel the instruction is not looked at; with fuel left it
/// is.
fn out_of_fuel() -> Case {
    let mut script = Script::begun(3);
    let broken = script.bytes(CODE, &[255; CHANGED_BYTES]);
    let rest = script.bytes(CODE + 8, &[255; CHANGED_BYTES]);
    let past = plan(CODE_START, u64::MAX);
    script.tried(&[rest, past]);
    let two = script.fuel(2);
    script.play(&[broken, rest, past, two, STEP]);
    script.ended()
}

/// Outcome 7 restores, and tests what it restores.
fn restored() -> Case {
    let mut script = Script::begun(3);
    let two = script.fuel(2);
    script.play(&[two]);
    let damages = [
        plan(KEY_COUNT, 25),
        plan(ENTRIES, 0),
        plan(ENTRIES + 2, 1024 * 4 + 2),
        Operation::Head {
            field: HeadField::Calls,
            value: 257,
        },
    ];
    script.tried(&damages);
    script.play(&[STEP]);
    script.ended()
}

/// A word of worker 0's seat takes a value.
fn seat(word: usize, value: u64) -> Operation {
    Operation::Word {
        buffer: Buffer::Seats,
        index: word,
        value,
    }
}

/// A plan word of the call takes a value.
fn plan(word: usize, value: u64) -> Operation {
    Operation::Word {
        buffer: Buffer::Plan,
        index: word,
        value,
    }
}
