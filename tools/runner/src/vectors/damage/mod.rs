//! Damages to a lent run, aimed at what one move uses, with values at and just
//! outside the ranges.

mod aim;
mod kind;
mod used;
mod waits;

pub use aim::Aim;
pub use kind::{Kind, Moment};

use super::{Operation, Player, CHANGED_BYTES};
use crate::machine::Move;
use crate::rng::Rng;

/// What is damaged. `Room` is a word of a seat behind place and count, `Behind` a
/// frame value behind those of the call's entries, `Beyond` a word of a buffer
/// beyond its fixed size, `Length` a longer buffer's length. `Waits` is the call's
/// own waiting count and `LaterWaits` that of a later call; `EarlierRow` and
/// `LaterRow` are the call's bits in the rows of others.
#[derive(Clone, Copy, Debug, PartialEq, Eq, PartialOrd, Ord)]
#[allow(missing_docs)]
pub enum Target {
    Workers,
    Calls,
    Cells,
    First,
    HeldCall,
    Place,
    Count,
    Register,
    Room,
    State,
    EarlierState,
    LaterState,
    Waits,
    LaterWaits,
    Row,
    EarlierRow,
    LaterRow,
    KeyCount,
    Entry,
    Key,
    Value,
    Old,
    Behind,
    CodeStart,
    CodeLength,
    BlockLength,
    Record,
    Fuel,
    Instruction,
    Size,
    Length,
    Beyond,
}

/// What BEGIN may use, and the worker's seat and frame, the row, and other calls'
/// states and waiting counts, which it does not.
pub const OF_BEGIN: [Target; 22] = [
    Target::Workers,
    Target::Calls,
    Target::HeldCall,
    Target::HeldCall,
    Target::Place,
    Target::Count,
    Target::Register,
    Target::Room,
    Target::State,
    Target::EarlierState,
    Target::EarlierState,
    Target::Waits,
    Target::LaterWaits,
    Target::Row,
    Target::KeyCount,
    Target::Entry,
    Target::Entry,
    Target::Old,
    Target::Behind,
    Target::Size,
    Target::Length,
    Target::Beyond,
];

/// What STEP may use, and the call's state and waiting count, later states,
/// earlier rows, the number of cells and the rest of the seat, the frame and
/// longer buffers, which it does not. Only one that ends the call uses later
/// counts and rows, and the entry uses neither count nor fuel.
pub const OF_STEP: [Target; 46] = [
    Target::Workers,
    Target::Calls,
    Target::Cells,
    Target::First,
    Target::First,
    Target::HeldCall,
    Target::Place,
    Target::Place,
    Target::Count,
    Target::Count,
    Target::Register,
    Target::Register,
    Target::Room,
    Target::State,
    Target::LaterState,
    Target::Waits,
    Target::LaterWaits,
    Target::EarlierRow,
    Target::LaterRow,
    Target::KeyCount,
    Target::KeyCount,
    Target::Entry,
    Target::Entry,
    Target::Entry,
    Target::Key,
    Target::Key,
    Target::Value,
    Target::Value,
    Target::Value,
    Target::Old,
    Target::Old,
    Target::Behind,
    Target::CodeStart,
    Target::CodeStart,
    Target::CodeLength,
    Target::BlockLength,
    Target::Record,
    Target::Record,
    Target::Fuel,
    Target::Fuel,
    Target::Instruction,
    Target::Instruction,
    Target::Size,
    Target::Size,
    Target::Length,
    Target::Beyond,
];

/// What CANCEL may use, the old values, which it does not test, and the waiting
/// counts and the rest of the seat, the frame and longer buffers, which it does
/// not use.
pub const OF_CANCEL: [Target; 17] = [
    Target::Workers,
    Target::Calls,
    Target::HeldCall,
    Target::Place,
    Target::Count,
    Target::Register,
    Target::Room,
    Target::Waits,
    Target::LaterWaits,
    Target::KeyCount,
    Target::Entry,
    Target::Entry,
    Target::Old,
    Target::Behind,
    Target::Size,
    Target::Length,
    Target::Beyond,
];

/// What a begin looks at for 25, and what it does not look at for it.
pub const OF_WAITS_AT_BEGIN: [Target; 9] = [
    Target::Waits,
    Target::Waits,
    Target::Waits,
    Target::EarlierState,
    Target::EarlierState,
    Target::Row,
    Target::Row,
    Target::LaterWaits,
    Target::LaterWaits,
];

/// What a cancel does not look at.
pub const OF_WAITS_AT_CANCEL: [Target; 3] = [Target::Waits, Target::LaterWaits, Target::LaterRow];

/// What a step lowers counts by if it ends its call, and what it does not look at
/// then.
pub const OF_WAITS_AT_STEP: [Target; 12] = [
    Target::LaterWaits,
    Target::LaterWaits,
    Target::LaterWaits,
    Target::LaterWaits,
    Target::LaterWaits,
    Target::LaterRow,
    Target::LaterRow,
    Target::LaterRow,
    Target::LaterState,
    Target::EarlierRow,
    Target::Row,
    Target::Waits,
];

/// What a step that uses a cell finds it by.
const OF_USED: [Target; 6] = [
    Target::Entry,
    Target::Entry,
    Target::Key,
    Target::Value,
    Target::Value,
    Target::Value,
];

/// A target of a move; of a step that uses a cell mostly that cell.
pub fn target(rng: &mut Rng, chosen: Move, uses_cell: bool) -> Target {
    match chosen {
        Move::Begin { .. } => rng.pick(&OF_BEGIN),
        Move::Step { .. } if uses_cell && rng.chance(65) => rng.pick(&OF_USED),
        Move::Step { .. } => rng.pick(&OF_STEP),
        Move::Cancel { .. } => rng.pick(&OF_CANCEL),
    }
}

/// The operation that takes a damage back.
pub fn repair(player: &Player, damage: Operation) -> Operation {
    match damage {
        Operation::Move(_) | Operation::Sheet { .. } | Operation::Serial => damage,
        Operation::Word { buffer, index, .. } => Operation::Word {
            buffer,
            index,
            value: player.word(buffer, index),
        },
        Operation::Head { field, .. } => Operation::Head {
            field,
            value: player.head(field),
        },
        Operation::Cut { .. } => Operation::Cut {
            length: player.lent_block,
        },
        Operation::Bytes { at, .. } => Operation::Bytes {
            at,
            bytes: bytes_at(player, at),
        },
        Operation::Lend { .. } => Operation::Lend {
            sizes: player.sizes,
        },
    }
}

/// The bytes of the block from an offset on, zero behind its end.
fn bytes_at(player: &Player, at: usize) -> [u8; CHANGED_BYTES] {
    let mut bytes = [0; CHANGED_BYTES];
    for (byte, from) in bytes.iter_mut().zip(&player.block[at..]) {
        *byte = *from;
    }
    bytes
}
