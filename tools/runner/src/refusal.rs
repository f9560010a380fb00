//! The refusals of document 01. Each variant's discriminant is its number.

/// Why a block is not opened.
#[derive(Clone, Copy, Debug, PartialEq, Eq)]
pub enum BlockFault {
    /// The input is above 65,536 bytes.
    TooLong = 1,
    /// A record or the end is missing or cut.
    Cut = 2,
    /// The kind is not 1 to 4, or falls.
    Kind = 3,
    /// The length is not the kind's.
    Length = 4,
    /// A field is outside its range.
    Field = 5,
    /// The record does not rise above the one before.
    NotRising = 6,
    /// The record is beyond its kind's limit.
    TooMany = 7,
    /// There are bytes after the end.
    BytesAfterEnd = 8,
    /// The opening balances sum above 2^63 - 1.
    BalanceSum = 9,
    /// An instruction breaks a rule.
    Code = 10,
    /// A call has over 24 keys.
    CallKeys = 11,
    /// The opening and the sets have over 1,024 keys.
    AllKeys = 12,
    /// The number of workers is not 1 to 8.
    Workers = 13,
    /// A lent buffer is shorter than its fixed size.
    Buffers = 20,
}

impl BlockFault {
    /// The refusal with this fault at an offset of the file.
    pub fn at(self, offset: usize) -> BlockRefusal {
        BlockRefusal {
            fault: self,
            offset,
        }
    }

    /// The number of document 01.
    pub fn number(self) -> u16 {
        self as u16
    }
}

/// A refused block: the fault and where it is.
#[derive(Clone, Copy, Debug, PartialEq, Eq)]
pub struct BlockRefusal {
    /// What is wrong.
    pub fault: BlockFault,
    /// The offset that document 01 gives for this fault.
    pub offset: usize,
}

/// Why a move is refused.
#[derive(Clone, Copy, Debug, PartialEq, Eq)]
pub enum MoveRefusal {
    /// A lent buffer is too short, or a value that the move needs is outside
    /// its range. Only a lent run has such values.
    Damaged = 20,
    /// There is no such worker.
    NoSuchWorker = 21,
    /// There is no such call.
    NoSuchCall = 22,
    /// The worker holds a call.
    WorkerBusy = 23,
    /// The call is not waiting.
    CallNotWaiting = 24,
    /// An earlier conflicting call is unfinished.
    EarlierUnfinished = 25,
    /// The worker holds no call.
    WorkerIdle = 26,
}

impl MoveRefusal {
    /// The number of document 01.
    pub fn number(self) -> u16 {
        self as u16
    }
}

/// Why the closing sheet is refused.
#[derive(Clone, Copy, Debug, PartialEq, Eq)]
pub enum SheetRefusal {
    /// A lent buffer is too short, or a value that the sheet needs is outside
    /// its range. Only a lent run has such values.
    Damaged = 20,
    /// A call is unfinished.
    Unfinished = 27,
    /// The sheet is longer than the output buffer.
    OutputShort = 28,
}

impl SheetRefusal {
    /// The number of document 01.
    pub fn number(self) -> u16 {
        self as u16
    }
}
