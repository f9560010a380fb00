//! What the register answers, with the numbers and the words of document 01.

use std::error::Error;
use std::fmt::{self, Display, Formatter};

/// Why a move, a serial run or a sheet is refused. Nothing is changed then.
#[derive(Clone, Copy, Debug, PartialEq, Eq, Hash)]
pub enum Answer {
    /// A buffer is too short, or a value that is needed is outside its range.
    /// It does not occur in a [`Run`](crate::Run).
    Damaged = 20,
    /// There is no such worker.
    NoWorker = 21,
    /// There is no such call.
    NoCall = 22,
    /// The worker holds a call.
    WorkerBusy = 23,
    /// The call is not waiting.
    NotWaiting = 24,
    /// An earlier conflicting call is unfinished.
    EarlierUnfinished = 25,
    /// The worker holds no call.
    WorkerIdle = 26,
    /// A sheet is wanted with a call unfinished.
    CallUnfinished = 27,
    /// The sheet is longer than the output.
    SheetTooLong = 28,
}

impl Answer {
    /// The number of document 01.
    pub fn number(self) -> u64 {
        self as u64
    }

    /// What a number says: 0 is accepted. The library is proved to answer no
    /// number but these.
    pub(crate) fn told(number: u64) -> Result<(), Answer> {
        Err(match number {
            0 => return Ok(()),
            20 => Answer::Damaged,
            21 => Answer::NoWorker,
            22 => Answer::NoCall,
            23 => Answer::WorkerBusy,
            24 => Answer::NotWaiting,
            25 => Answer::EarlierUnfinished,
            26 => Answer::WorkerIdle,
            27 => Answer::CallUnfinished,
            28 => Answer::SheetTooLong,
            _ => unreachable!("the library answers {number}"),
        })
    }
}

impl Display for Answer {
    fn fmt(&self, f: &mut Formatter) -> fmt::Result {
        f.write_str(match self {
            Answer::Damaged => "a buffer too short, or a value outside its range",
            Answer::NoWorker => "no such worker",
            Answer::NoCall => "no such call",
            Answer::WorkerBusy => "worker holds a call",
            Answer::NotWaiting => "call not waiting",
            Answer::EarlierUnfinished => "an earlier conflicting call unfinished",
            Answer::WorkerIdle => "worker holds none",
            Answer::CallUnfinished => "sheet wanted with a call unfinished",
            Answer::SheetTooLong => "sheet longer than the output buffer",
        })
    }
}

impl Error for Answer {}

/// What is wrong with a block, or with what it is to be opened in.
#[derive(Clone, Copy, Debug, PartialEq, Eq, Hash)]
pub enum Fault {
    /// The input is above 65,536 bytes.
    InputTooLong = 1,
    /// A record or the end is missing or cut.
    Missing = 2,
    /// The kind is not 1 to 4, or falls.
    Kind = 3,
    /// The length is not the kind's.
    Length = 4,
    /// A field is outside its range.
    Field = 5,
    /// The record does not rise above the one before.
    NotRising = 6,
    /// The record is beyond its kind's limit.
    BeyondLimit = 7,
    /// There are bytes after the end.
    Behind = 8,
    /// The opening balances sum above 2^63 - 1.
    Balances = 9,
    /// Code breaks a rule.
    Code = 10,
    /// A call has over 24 keys.
    CallKeys = 11,
    /// The opening and the sets have over 1,024 keys.
    AllKeys = 12,
    /// The number of workers is not 1 to 8.
    Workers = 13,
    /// A buffer is too short. It does not occur in [`Run::open`](crate::Run::open).
    Buffers = 20,
}

impl Display for Fault {
    fn fmt(&self, f: &mut Formatter) -> fmt::Result {
        f.write_str(match self {
            Fault::InputTooLong => "input above 65,536 bytes",
            Fault::Missing => "record or end missing or cut",
            Fault::Kind => "kind not 1 to 4, or falling",
            Fault::Length => "length not the kind's",
            Fault::Field => "a field outside its range",
            Fault::NotRising => "not rising",
            Fault::BeyondLimit => "a record beyond its kind's limit",
            Fault::Behind => "bytes after the end",
            Fault::Balances => "opening balances sum above 2^63 - 1",
            Fault::Code => "code breaks a rule",
            Fault::CallKeys => "over 24 keys",
            Fault::AllKeys => "over 1,024 keys",
            Fault::Workers => "workers not 1 to 8",
            Fault::Buffers => "a buffer too short",
        })
    }
}

/// A refused opening: what is wrong, and where in the block.
#[derive(Clone, Copy, Debug, PartialEq, Eq, Hash)]
pub struct Refusal {
    /// What is wrong.
    pub fault: Fault,
    /// The offset that document 01 gives for it.
    pub offset: u64,
}

impl Refusal {
    /// The number of document 01.
    pub fn number(self) -> u64 {
        self.fault as u64
    }

    /// What a number and an offset say: 0 is accepted. The library is proved to
    /// answer no number but these.
    pub(crate) fn told(number: u64, offset: u64) -> Result<(), Refusal> {
        let fault = match number {
            0 => return Ok(()),
            1 => Fault::InputTooLong,
            2 => Fault::Missing,
            3 => Fault::Kind,
            4 => Fault::Length,
            5 => Fault::Field,
            6 => Fault::NotRising,
            7 => Fault::BeyondLimit,
            8 => Fault::Behind,
            9 => Fault::Balances,
            10 => Fault::Code,
            11 => Fault::CallKeys,
            12 => Fault::AllKeys,
            13 => Fault::Workers,
            20 => Fault::Buffers,
            _ => unreachable!("the library answers {number}"),
        };
        Err(Refusal { fault, offset })
    }
}

impl Display for Refusal {
    fn fmt(&self, f: &mut Formatter) -> fmt::Result {
        let Refusal { fault, offset } = self;
        write!(f, "{fault}, at offset {offset}")
    }
}

impl Error for Refusal {}
