//! A block whose calls loop until their fuel is out, with moves that run it on one
//! worker. There may be millions of lines, so that they are written one by one.

use std::io::{self, Write};

use crate::assemble::assemble;
use crate::limits::MAX_CALLS;

/// Adds 1 to a register and stores it, again and again.
const CODE: &str = "function 32768 0
    set r1 1
again:
    add r0 r0 r1
    put r0 1 arg1 zero
    jeq r0 r0 again
";

/// How many calls there are, and how much fuel each has.
#[derive(Clone, Copy, Debug, PartialEq, Eq)]
pub struct Loops {
    /// Calls, each with a cell of its own.
    pub calls: usize,
    /// Fuel of each call.
    pub fuel: u16,
}

impl Loops {
    /// The block, or why there is none.
    pub fn block(&self) -> Result<Vec<u8>, String> {
        if self.calls > MAX_CALLS || self.fuel == 0 {
            return Err(format!("there are at most {MAX_CALLS} calls, each of fuel"));
        }
        let Loops { calls, fuel } = self;
        let calls = (0..*calls).map(|call| format!("call 0 32768 0 0 {call} fuel {fuel}\n"));
        let text = format!("{CODE}{}end\n", calls.collect::<String>());
        Ok(assemble(&text).expect("the text is a block's"))
    }

    /// Steps of each call: its entry, as many instructions as it has fuel, and the
    /// one that ends it.
    pub fn steps(&self) -> usize {
        usize::from(self.fuel) + 2
    }

    /// Writes the lines that begin each call on worker 0 and step it to its end.
    pub fn write_moves(&self, out: &mut impl Write) -> io::Result<()> {
        for call in 0..self.calls {
            writeln!(out, "b 0 {call}")?;
            for _ in 0..self.steps() {
                out.write_all(b"s 0\n")?;
            }
        }
        out.flush()
    }
}
