//! Blocks at the edges of what instructions and sets mean.

use crate::assemble::assemble;

/// The blocks, as the assembler's text.
const TEXTS: [&str; 12] = [
    // A loop that adds the first argument as often as the second says, with fuel
    // for all of it, for all but the last instruction, and for the end alone.
    "function 32768 0
        arg r0 arg1
        arg r1 arg2
        set r2 1
        jlt r1 r2 8
        add r3 r3 r0
        sub r1 r1 r2
        put r3 1 zero zero
        jeq r0 r0 3
    call 5 32768 0 0 7 2 fuel 14
    call 5 32768 0 0 7 2 fuel 13
    call 5 32768 0 0 7 1 fuel 64
    call 5 32768 0 0 7 0 fuel 4
    call 5 32768 0 0 7 0 fuel 3
    end",
    // A jump to its own index, and an endless loop over PUT behind a value: both
    // run out of fuel and all is restored.
    "function 32768 0
        value r0
        put r0 1 zero zero
        jeq r0 r0 1
    function 32768 1
        jeq r0 r0 0
    function 32768 2
        jlt r0 r1 0
    cell 5 0 0 0 3
    cell 32768 1 0 0 9
    call 5 32768 0 2 fuel 12
    call 5 32768 1 0 fuel 1
    call 5 32768 1 0 fuel 18
    call 5 32768 2 0 fuel 1
    call 5 32768 0 3 fuel 2
    end",
    // STOP, THROW and a failing instruction that are due without fuel; jumps to
    // the code's length from its end and from its middle.
    "function 32768 0
        jeq r0 r1 2
        stop
        jeq r0 r0 4
        throw
    function 32768 1
        sender r0
        stop
    function 32768 2
        set r0 1
        throw
    function 32768 3
        set r0 1
        div r0 r0 r1
    call 5 32768 0 0 fuel 2
    call 5 32768 0 0 fuel 1
    call 5 32768 1 0 fuel 1
    call 5 32768 1 0 fuel 2
    call 5 32768 2 0 fuel 1
    call 5 32768 2 0 fuel 2
    call 5 32768 3 0 fuel 1
    call 5 32768 9 0 fuel 1
    end",
    // Quotients of all signs.
    "function 32768 0
        set r0 -7
        set r1 2
        set r2 7
        set r3 -2
        div r4 r0 r1
        put r4 1 zero zero
        div r4 r2 r3
        put r4 2 zero zero
        div r4 r0 r3
        put r4 3 zero zero
        div r4 r2 r1
        put r4 4 zero zero
    call 5 32768 0 0
    end",
    // Results outside 64 signed bits: -2^63 by -1, times -1, plus -1.
    "function 32768 0
        get r0 1 zero zero
        set r1 -1
        div r2 r0 r1
    function 32768 1
        get r0 1 zero zero
        set r1 -1
        mul r2 r0 r1
    function 32768 2
        get r0 1 zero zero
        set r1 -1
        add r2 r0 r1
    cell 32768 1 0 0 -9223372036854775808
    call 5 32768 0 0
    call 5 32768 1 0
    call 5 32768 2 0
    end",
    // Results at the edge, a sum above it and a zero divisor.
    "function 32768 0
        get r0 1 zero zero
        set r1 -1
        sub r2 r1 r0
        put r2 2 zero zero
        sub r2 r2 r1
    function 32768 1
        div r0 r1 r2
    cell 32768 1 0 0 -9223372036854775808
    call 5 32768 0 0
    call 5 32768 1 0
    end",
    // Comparisons of signed numbers; a jump to the code's length.
    "function 32768 0
        set r0 -1
        jlt r0 r1 3
        put r0 1 zero zero
        jlt r1 r0 5
        put r0 2 zero zero
        jlt r0 r0 7
        put r0 3 zero zero
        jeq r0 r1 9
        put r0 4 zero zero
        jeq r0 r0 11
        throw
    call 5 32768 0 0
    end",
    // Payments: amounts and targets at the edges.
    "function 32768 0
        arg r0 arg1
        pay r0 arg2
    function 32768 1
        set r0 -1
        pay r0 sender
    cell 32768 0 0 0 2
    call 5 32768 0 0 0 32768
    call 5 32768 0 0 0 65541
    call 5 32768 0 0 3 32767
    call 5 32768 0 0 2 32767
    call 5 32768 1 0
    end",
    // Account 0: not paid by an argument, the sender or with amount 0; it sends.
    "function 32768 0
        arg r0 arg1
        pay r0 arg2
    function 32768 1
        pay r0 sender
    function 40000 0
        value r0
        pay r0 zero
    cell 0 0 0 0 2
    cell 40000 0 0 0 1
    call 5 32768 0 0 0 1
    call 5 32768 0 0 0 0
    call 5 40000 0 0
    call 0 32768 1 1
    call 0 40000 0 1
    call 0 32768 0 2 2 1
    end",
    // A reader between two writers; two readers.
    "function 32768 0
        set r0 1
        put r0 1 zero zero
    function 32768 1
        get r0 1 zero zero
        put r0 2 arg1 zero
    call 5 32768 1 0 1
    call 5 32768 0 0
    call 5 32768 1 0 2
    call 5 32768 1 0 3
    end",
    // Balances: read by BAL, written by a value and by a payment.
    "function 32768 0
        bal r0
        put r0 1 arg1 zero
    function 32768 1
        value r0
        pay r0 const 7
    cell 5 0 0 0 2
    call 5 32768 0 0 1
    call 5 32768 1 2
    call 7 32768 0 2 2
    call 7 32768 0 1 3
    end",
    // An abort and an unknown function whose value is too high.
    "function 32768 0
        put r0 1 zero zero
        throw
    cell 5 0 0 0 2
    cell 32768 1 0 0 9
    call 5 32768 0 1
    call 5 32768 3 9
    call 5 32768 0 3
    end",
];

/// The block of a turn.
pub fn block(turn: usize) -> Vec<u8> {
    assemble(TEXTS[turn % TEXTS.len()]).expect("the text is a block's")
}
