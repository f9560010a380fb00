//! Cases of REGISTER and of the program that writes the sheet, as folders with
//! real files: `data/block.bin`, `stdin` and `stdout`.

use std::fs;
use std::io::{self, ErrorKind};
use std::path::Path;

use super::edges::{block_p, full_block, long_line, too_long_block, LONG_LINE_BYTES};
use crate::console::{register, sheet_bytes};
use crate::generate::moves::{lines, Plan};
use crate::limits::MAX_WORKERS;
use crate::machine::open;
use crate::rng::Rng;

/// The seed of the moves on the block of the largest size.
const SEED: u64 = 1;
/// How these moves are drawn.
const PLAN: Plan = Plan {
    complete: true,
    malformed: 0,
    refused: 2,
    cancels: 1,
};
/// Moves for a block that answers none.
const UNANSWERED: &str = "b 0 0\ns 0\n\nx\ns 99999";

/// P's moves with refused lines of every kind before, among and behind them: 0,
/// 21, 22, 23, 24, 25 and 26.
const REFUSED_AMONG: &str = "b 1 1\ns 0\n\nb 0 0\nb 0 2\nb 1 0\ns 0\ns 0\nx\ns 0\ns 0\n\
    b 1 1\ns 8\ns 1\ns 1\ns 1\ns 1\nb 0 3\nb 0 2\ns 0\ns 0\ns 0\ns 0\nc 0\ns :\n";
/// The same moves without the last step of the last call.
const REFUSED_UNFINISHED: &str = "b 1 1\ns 0\n\nb 0 0\nb 0 2\nb 1 0\ns 0\ns 0\nx\ns 0\ns 0\n\
    b 1 1\ns 8\ns 1\ns 1\ns 1\ns 1\nb 0 3\nb 0 2\ns 0\ns 0\ns 0\nc 1\ns :\n";

/// What a program prints.
#[derive(Clone, Copy, Debug, PartialEq, Eq)]
pub enum Prints {
    /// The lines of REGISTER.
    Lines,
    /// The bytes of the closing sheet.
    Sheet,
}

/// A case of a program with its files.
#[derive(Clone, Debug, PartialEq, Eq)]
pub struct Folder {
    /// The folder's name.
    pub name: &'static str,
    /// The bytes of block.bin, or `None` if there is no such file.
    pub block: Option<Vec<u8>>,
    /// The bytes of standard input.
    pub input: Vec<u8>,
    /// What is printed.
    pub prints: Prints,
}

impl Folder {
    /// What the program prints; a missing block.bin is read as empty.
    pub fn output(&self) -> Vec<u8> {
        let block = self.block.as_deref().unwrap_or_default();
        match self.prints {
            Prints::Lines => register(block, &self.input).into_bytes(),
            Prints::Sheet => sheet_bytes(block, &self.input),
        }
    }

    /// Writes the files in the folder of its name.
    pub fn write(&self, directory: &Path) -> io::Result<()> {
        let folder = directory.join(self.name);
        let data = folder.join("data");
        fs::create_dir_all(&folder)?;
        match &self.block {
            Some(block) => {
                fs::create_dir_all(&data)?;
                fs::write(data.join("block.bin"), block)?;
            }
            None if data.exists() => {
                let message = format!("{} must not be there", data.display());
                return Err(io::Error::new(ErrorKind::AlreadyExists, message));
            }
            None => {}
        }
        fs::write(folder.join("stdin"), &self.input)?;
        fs::write(folder.join("stdout"), self.output())
    }
}

/// All folders.
pub fn folders() -> Vec<Folder> {
    vec![
        Folder {
            name: "test_edge_full",
            block: Some(full_block()),
            input: full_input(),
            prints: Prints::Lines,
        },
        Folder {
            name: "test_edge_long",
            block: Some(too_long_block()),
            input: UNANSWERED.into(),
            prints: Prints::Lines,
        },
        Folder {
            name: "test_edge_none",
            block: None,
            input: UNANSWERED.into(),
            prints: Prints::Lines,
        },
        Folder {
            name: "test_edge_silent",
            block: Some(block_p()),
            input: Vec::new(),
            prints: Prints::Lines,
        },
        Folder {
            name: "write_sheet",
            block: Some(block_p()),
            input: REFUSED_AMONG.into(),
            prints: Prints::Sheet,
        },
        Folder {
            name: "test_edge_unfinished",
            block: Some(block_p()),
            input: REFUSED_UNFINISHED.into(),
            prints: Prints::Sheet,
        },
    ]
}

/// A run of the largest block to its end, with refused moves, a long line behind
/// the first, and a last line without line feed.
fn full_input() -> Vec<u8> {
    let opened = open(&full_block(), MAX_WORKERS).expect("the block is accepted");
    let moves = lines(&mut Rng::new(SEED), &opened, PLAN);
    let first = moves.iter().take_while(|byte| **byte != b'\n').count() + 1;
    let mut input = moves[..first].to_vec();
    input.extend(long_line(LONG_LINE_BYTES).bytes());
    input.extend(&moves[first..]);
    input.pop();
    input
}
