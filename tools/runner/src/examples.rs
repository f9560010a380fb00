//! The examples of document 01, some of document 02, and those of document 003
//! over the instructions, in the order of the documents. The files of `examples`
//! hold them.

use crate::assemble::assemble;

/// An example of a document.
#[derive(Clone, Copy, Debug, PartialEq, Eq)]
pub struct Example {
    /// The name of its moves and output among the files.
    pub name: &'static str,
    /// Which example it is.
    pub shows: &'static str,
    /// The block's text.
    pub text: &'static str,
    /// The move lines.
    pub moves: &'static str,
    /// What REGISTER prints.
    pub output: &'static str,
}

impl Example {
    /// The name and which example it is.
    pub fn title(&self) -> String {
        format!("{}: {}", self.name, self.shows)
    }

    /// The bytes of the block.
    pub fn block(&self) -> Vec<u8> {
        assemble(self.text).expect("the text of an example is a block's")
    }
}

/// The example with a name.
pub fn example(name: &str) -> Option<&'static Example> {
    EXAMPLES.iter().find(|example| example.name == name)
}

macro_rules! file {
    ($name:literal, $extension:literal) => {
        include_str!(concat!("../examples/", $name, ".", $extension))
    };
}

/// An example on the block of its name, or on another's.
macro_rules! example {
    ($name:literal, $shows:literal) => {
        example!($name, $shows, on $name)
    };
    ($name:literal, $shows:literal, on $block:literal) => {
        Example {
            name: $name,
            shows: $shows,
            text: file!($block, "txt"),
            moves: file!($name, "moves"),
            output: file!($name, "out"),
        }
    };
}

/// All of them.
pub const EXAMPLES: [Example; 32] = [
    example!("p", "block P of document 01"),
    example!("p_refused", "BEGIN(1, 1) first on P, STEP on an idle worker", on "p"),
    example!("divisions", "-7 by 2, 7 by -2, -2^63 by -1, 1 by 0"),
    example!("value", "a value equal to the balance, and one more"),
    example!("throw", "PUT then THROW"),
    example!("keys24", "a call of 24 keys"),
    example!("keys25", "a call of 25 keys"),
    example!("empty_code", "code of 0 instructions"),
    example!("no_calls", "a block of no calls"),
    example!(
        "account_0",
        "document 02, M-101: payments to account 0, and what it sends"
    ),
    example!(
        "zero_divisor",
        "document 02, M-103: divisors of 0, and a quotient outside the range"
    ),
    example!(
        "fuel",
        "document 02, M-104: fuel at, before and after the end, STOP, loops, restored"
    ),
    example!("fuel_zero", "document 02, M-104: fuel 0, unknown function"),
    example!("fuel_none", "document 02, M-104: a call without fuel"),
    example!("fuel_past", "document 02, M-104: a jump past the length"),
    example!(
        "interest",
        "document 02, M-104: interest over several periods by a loop"
    ),
    example!("paper_ex5", "document 003, example 5, serially"),
    example!("paper_ex5_workers", "document 003, example 5, T2 ends before T1", on "paper_ex5"),
    example!("paper_ex6", "document 003, example 6, T1 T2 serially"),
    example!("paper_ex6_workers", "document 003, example 6, T1 cancelled and begun anew", on "paper_ex6"),
    example!("paper_ex6_swapped", "document 003, example 6, T2 T1"),
    example!(
        "paper_ex6_guard",
        "document 003, example 6, second case, T1 T2"
    ),
    example!(
        "paper_ex6_guard_swapped",
        "document 003, example 6, second case, T2 T1"
    ),
    example!(
        "paper_ex7",
        "document 003, example 7 and figure 3, Tf Th Tg serially"
    ),
    example!("paper_ex8", "document 003, example 8, Tg Tf"),
    example!("paper_ex9_u", "document 003, example 9, U = {tf, th}{tg}", on "paper_ex7"),
    example!("paper_ex9_u1", "document 003, example 9, U' = {tf}{tg, th}", on "paper_ex7"),
    example!("paper_ex9_u2", "document 003, example 9, U'' = {th}{tf, tg} is not enabled", on "paper_ex7"),
    example!(
        "paper_token",
        "document 003, section 5 and figure 4, T1 T2 T3 T4 serially"
    ),
    example!("paper_token_u", "document 003, section 5, U = {T1, T2}{T3, T4}", on "paper_token"),
    example!("paper_token_overlap", "document 003, section 5, T4 begun while T2 runs", on "paper_token"),
    example!(
        "paper_token_reversed",
        "document 003, section 5, T4 T3 T2 T1"
    ),
];
