//! Blocks of few bytes at the edges of the reader's rules, on both sides.

use crate::assemble::assemble;
use crate::code::{decode, op, Parts, SOURCE_CONSTANT};
use crate::emit;
use crate::limits::FIRST_CONTRACT;

/// Records at the edges, as the assembler's text.
const TEXTS: [&str; 62] = [
    // Missing or cut records.
    "",
    "raw 000004",
    "cell 5 0 0 0 1",
    "function 32768 0\nraw 0000",
    "cell 5 0 0 0 1\nraw 20000300 0500",
    "raw 0c000100 0080 0000 00000000000000",
    // Kinds.
    "raw 00000000",
    "raw 04000500 00000000",
    "raw 00000401",
    "cell 5 0 0 0 1\nfunction 32768 0\nend",
    "call 5 32768 0 0\ncell 5 0 0 0 1\nend",
    "call 5 32768 0 0\nfunction 32768 0\nend",
    // Lengths.
    "raw 00000100",
    "raw 05000100 0080000000",
    "raw 0c020100",
    "raw 13000200",
    "raw 15000200",
    "raw 1e000300 0500 0080 0000 0000000000000000 00000000000000000000000000000000\nend",
    "raw 1f000300",
    "raw 21000300",
    "raw 01000400 00",
    // Fields outside their ranges.
    "function 32767 0\nend",
    "cell 5 0 1 0 1\nend",
    "cell 32768 0 0 1 1\nend",
    "cell 32767 1 0 0 1\nend",
    "cell 32768 1 0 0 0\nend",
    "cell 5 0 0 0 0\nend",
    "cell 5 0 0 0 -1\nend",
    "cell 32768 0 0 0 -9223372036854775808\nend",
    "call 32768 32768 0 0\nend",
    "call 5 32767 0 0\nend",
    "call 5 32768 0 -1\nend",
    "function 32768 0\ncall 5 32768 0 0 fuel 0\nend",
    "call 5 32768 9 0\ncall 5 32768 9 0 fuel 0\nend",
    // Fields at the edges of their ranges.
    "function 32768 0\nfunction 65535 65535\ncall 32767 65535 65535 0\nend",
    "cell 0 0 0 0 1\ncell 32767 0 0 0 1\ncell 65535 0 0 0 1\nend",
    "cell 32768 1 4294967295 4294967295 -9223372036854775808\nend",
    "call 0 65535 65535 9223372036854775807 4294967295 0 0 4294967295\nend",
    "function 32768 0\ncall 5 32768 0 0 fuel 1\ncall 5 32768 1 0 fuel 65535\nend",
    // Order.
    "function 32768 0\nfunction 32768 0\nend",
    "function 32769 0\nfunction 32768 1\nend",
    "function 32768 1\nfunction 32768 0\nend",
    "function 32768 255\nfunction 32768 256\nend",
    "cell 5 0 0 0 1\ncell 5 0 0 0 2\nend",
    "cell 32768 1 1 0 1\ncell 32768 1 0 9 1\nend",
    "cell 32768 2 0 0 1\ncell 32768 1 0 9 1\nend",
    "cell 255 0 0 0 1\ncell 256 0 0 0 1\nend",
    "cell 32768 1 255 1 1\ncell 32768 1 256 0 1\nend",
    // After the end.
    "end\nraw 00",
    "cell 5 0 0 0 1\nend\nend",
    // The sum of balances.
    "cell 5 0 0 0 9223372036854775806\ncell 32768 0 0 0 1\ncell 32768 1 0 0 1\nend",
    "cell 5 0 0 0 9223372036854775806\ncell 32768 0 0 0 2\nend",
    "cell 5 0 0 0 9223372036854775807\ncell 6 0 0 0 9223372036854775807\nend",
    // Two faults in one record.
    "raw 07000900",
    "raw 13000200 0500",
    "raw 20000300 ffff",
    "function 5 0\nword 99 0 0 0 0\nend",
    "function 32768 0\nfunction 32768 0\nstop\nword 99 0 0 0 0\nend",
    "cell 5 0 0 0 1\ncell 5 0 0 0 0\nend",
    "cell 5 0 0 0 1\ncell 5 0 0 0 9223372036854775807\nend",
    // Two faults in two records.
    "cell 5 0 0 0 0\nraw 00000900",
    "function 32768 0\nword 99 0 0 0 0\ncell 5 0 0 0 0\nend\nraw 00",
];

/// A good instruction of each opcode, the only one of its code.
const GOOD: [(u8, u8, u8, u8, u32); 19] = [
    (op::STOP, 0, 0, 0, 0),
    (op::THROW, 0, 0, 0, 0),
    (op::SET, 7, 0, 0, u32::MAX),
    (op::ARG, 7, 4, 0, 0),
    (op::SENDER, 7, 0, 0, 0),
    (op::VALUE, 7, 0, 0, 0),
    (op::ADD, 7, 7, 7, 0),
    (op::SUB, 7, 7, 7, 0),
    (op::MUL, 7, 7, 7, 0),
    (op::DIV, 7, 7, 7, 0),
    (op::GET, 7, 5, 5, 0xffff),
    (op::PUT, 7, 5, SOURCE_CONSTANT, u32::MAX),
    (op::BAL, 7, 0, 0, 0),
    (op::PAY, 7, 5, 0, 0),
    (op::PAY, 7, SOURCE_CONSTANT, 0, 0xffff_0000),
    (op::JEQ, 7, 7, 0, 0),
    (op::JEQ, 7, 7, 0, 1),
    (op::JLT, 7, 7, 0, 0),
    (op::JLT, 7, 7, 0, 1),
];
/// Numbers that are tried in the place of each good w.
const NUMBERS: [u32; 4] = [0, 2, 0x1_0000, 0x1_0001];
/// A prime by which both lists are walked, so that neighbours are not alike.
const STRIDE: usize = 37;

/// The block of a turn: records and code in turn.
pub fn block(turn: usize) -> Vec<u8> {
    let half = turn / 2;
    if turn.is_multiple_of(2) {
        let text = TEXTS[half * STRIDE % TEXTS.len()];
        return assemble(text).expect("the text is a block's");
    }
    let instructions = instructions();
    let parts = instructions[half * STRIDE % instructions.len()];
    let mut bytes = Vec::new();
    emit::function(&mut bytes, FIRST_CONTRACT, 0, &[parts]);
    emit::end(&mut bytes);
    bytes
}

/// The good instructions, and those that one changed part breaks.
fn instructions() -> Vec<Parts> {
    let good = GOOD.map(|(op, x, y, z, w)| Parts { op, x, y, z, w });
    let unknown = Parts {
        op: op::JLT + 1,
        ..Parts::default()
    };
    let mut all = vec![unknown];
    for parts in good {
        all.push(parts);
        all.extend(broken_bytes(|x| Parts { x, ..parts }));
        all.extend(broken_bytes(|y| Parts { y, ..parts }));
        all.extend(broken_bytes(|z| Parts { z, ..parts }));
        let changed = NUMBERS.map(|w| Parts { w, ..parts });
        all.extend(changed.into_iter().filter(|parts| !is_good(*parts)));
    }
    all
}

/// The bytes that break a rule next to bytes that do not.
fn broken_bytes(with: impl Fn(u8) -> Parts) -> Vec<Parts> {
    let good = |byte: Option<u8>| byte.is_some_and(|byte| is_good(with(byte)));
    (0..=u8::MAX)
        .filter(|&byte| !good(Some(byte)))
        .filter(|&byte| good(byte.checked_sub(1)) || good(byte.checked_add(1)))
        .map(&with)
        .collect()
}

fn is_good(parts: Parts) -> bool {
    decode(parts, 1).is_some()
}
