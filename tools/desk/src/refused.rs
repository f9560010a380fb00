//! Blocks that the register refuses.

use runner::console::refused_block;
use runner::limits::MAX_WORKERS;
use runner::machine::{self, Opened};

use crate::words;

/// The text for a block that the register refuses: the line that REGISTER
/// prints, then why in words.
#[derive(Clone, Debug, PartialEq, Eq)]
pub struct Refused(pub String);

/// Opens a block for 8 workers, or says why it is refused.
pub fn open(bytes: &[u8]) -> Result<Opened, Refused> {
    machine::open(bytes, MAX_WORKERS).map_err(|refusal| {
        let why = words::refused_block(bytes).unwrap_or_default();
        Refused(format!("{}{why}\n", refused_block(refusal)))
    })
}
