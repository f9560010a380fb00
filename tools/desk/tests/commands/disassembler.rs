//! Texts of blocks that assemble to the same bytes.

use desk::disassemble::disassemble;
use runner::assemble::assemble;
use runner::examples::EXAMPLES;
use runner::rng::Rng;

use crate::{block, block_p, cases};

fn comes_back(bytes: &[u8]) {
    let text = disassemble(bytes);
    let assembled = assemble(&text).unwrap_or_else(|error| panic!("{error}\n{text}"));
    assert!(assembled == bytes, "{text}");
}

#[test]
fn block_p_has_labels_and_comments() {
    let text = "\
# 232 bytes: 3 functions, 1 opening cell, 3 calls, 4 keys

function 32768 0                    # offset 0
    set r0 1                        # 0: sets r0 to 1
    put r0 1 zero zero              # 1: stores r0 in field 1 [0, 0]

function 32768 1                    # offset 24
    get r0 1 zero zero              # 0: sets r0 to field 1 [0, 0]
    jeq r0 r1 at3                   # 1: goes to 3 if r0 = r1
    stop                            # 2: ends the call
at3:
    set r2 1                        # 3: sets r2 to 1
    pay r2 const 7                  # 4: pays r2 to account 7

function 32768 2                    # offset 72
    set r0 1                        # 0: sets r0 to 1
    pay r0 const 7                  # 1: pays r0 to account 7

cell 5 0 0 0 2                      # cell 0: balance of account 5

call 5 32768 0 0 fuel 64            # call 0
call 5 32768 1 1 fuel 64            # call 1
call 5 32768 2 1 fuel 64            # call 2

end
";
    assert_eq!(disassemble(&block_p()), text);
}

#[test]
fn damaged_records_stand_as_words_and_bytes() {
    let text = "\
# e 10 8
# 10 at offset 8: an instruction breaks a rule
# function record 0 at offset 0: function 0 of contract 32768
# instruction 0 of 2 at offset 8: bytes 0b 08 00 00 01 00 00 00: put r8 1 zero zero
# x is 8: registers are 0 to 7

function 32768 0                    # offset 0
    word 11 8 0 0 1                 # 0: put r8 1 zero zero: x is 8: registers are 0 to 7
    jlt r0 r1 at2                   # 1: goes to 2 if r0 < r1
at2:

cell 5 1 0 0 0                      # cell 0: field 1 [0, 0] of account 5; field 1: account 5 has \
its balance alone, field 0; value 0: a cell that is 0 has no record

call 40000 7 1 -1 0 4 fuel 0        # call 0, unknown function; sender 40000: accounts are 0 to \
32767; contract 7: contracts are 32768 to 65535; value -1: it is 0 or more; fuel 0: it is 1 to 65535

# offset 84: a record of kind 9 and length 1 has no item
raw 01 00 09 00 ff

end
# offset 93: behind the last record
raw 07
";
    assert_eq!(disassemble(&block(text)), text);
}

#[test]
fn a_cut_record_is_bytes() {
    let bytes = block("call 1 32768 0 0\nend");
    let text = disassemble(&bytes[..20]);
    assert!(
        text.contains(
            "# offset 0: a record of kind 3 and length 32 is cut behind 16\nraw 20 00 03 00"
        ),
        "{text}"
    );
    let text = disassemble(&bytes[..38]);
    assert!(
        text.contains("# offset 36: behind the last record\nraw 00 00\n"),
        "{text}"
    );
}

#[test]
fn examples_come_back() {
    for example in EXAMPLES {
        comes_back(&example.block());
    }
}

#[test]
fn generated_and_damaged_blocks_come_back() {
    for case in cases() {
        comes_back(&case.block);
    }
}

#[test]
fn a_block_with_any_byte_changed_or_cut_comes_back() {
    let bytes = block_p();
    for at in 0..bytes.len() {
        for bit in 0..8 {
            let mut changed = bytes.clone();
            changed[at] ^= 1 << bit;
            comes_back(&changed);
        }
        comes_back(&bytes[..at]);
    }
}

#[test]
fn random_bytes_come_back() {
    let mut rng = Rng::new(11);
    for _ in 0..2_000 {
        let length = rng.below(200);
        let bytes: Vec<u8> = (0..length)
            .map(|_| rng.pick(&[0, 0, 0, 1, 2, 3, 4, 12, 20, 30, 32, 128, 255]))
            .collect();
        comes_back(&bytes);
    }
}

#[test]
fn the_longest_function_comes_back() {
    let mut bytes = vec![0xfc, 0xff, 1, 0];
    bytes.resize(4 + 0xfffc, 0);
    comes_back(&bytes);
}
