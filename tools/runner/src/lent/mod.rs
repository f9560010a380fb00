//! A run that a caller lends: a head and six buffers of words in fixed places.
//! Any of these words may be damaged. A move then answers 20 where it first
//! uses such a word, and changes nothing.

mod moves;
mod opening;
mod serial;
mod sheet;
mod step;
mod waits;

pub use opening::open;

use crate::key::Key;
use crate::limits::{MAX_CALLS, MAX_CALL_KEYS, MAX_KEYS, MAX_WORKERS, REGISTERS};
use crate::machine::Move;
use crate::refusal::MoveRefusal;

/// Words of a call in the plan.
pub const PLAN_WORDS: usize = 32;
/// The plan word that holds the offset of the call's code.
pub const CODE_START: usize = 0;
/// The plan word that holds the code's length plus 1, or 0 if it is unknown.
pub const CODE_LENGTH: usize = 1;
/// The plan word that holds the number of the call's keys.
pub const KEY_COUNT: usize = 2;
/// The first of the plan words that hold the entries.
pub const ENTRIES: usize = 3;
/// The first of the plan words that hold the row.
pub const ROW: usize = ENTRIES + MAX_CALL_KEYS;
/// Words of a row.
pub const ROW_WORDS: usize = MAX_CALLS / ROW_BITS;
/// Bits of one word of a row.
pub const ROW_BITS: usize = 64;
/// Words of a cell in the keys.
pub const KEY_WORDS: usize = 2;
/// Words of a call in the status.
pub const STATUS_WORDS: usize = 4;
/// The status word that holds the call's state.
pub const STATE: usize = 0;
/// The status word that holds the outcome, if the call is finished.
pub const OUTCOME: usize = 1;
/// The status word that holds how many instructions the finished call executed.
pub const EXECUTED: usize = 2;
/// The status word that holds the waiting count: the number of the call's earlier
/// conflicting calls that are still unfinished.
pub const WAITS: usize = 3;
/// Words of a worker in the seats. Behind the place and the count is room that
/// no move touches.
pub const SEAT_WORDS: usize = 16;
/// The seat word that holds the place: 0 at the entry, else the index of the next
/// instruction plus 1.
pub const PLACE: usize = 0;
/// The seat word that holds how many instructions ran.
pub const COUNT: usize = 1;
/// The first of the seat words that are room.
pub const ROOM: usize = 2;
/// Values of a worker in the frames: the registers, then the old values, one for
/// each entry of its call.
pub const FRAME_VALUES: usize = REGISTERS + MAX_CALL_KEYS;
/// The first of the frame values that are old values.
pub const OLDS: usize = REGISTERS;

/// The state word of a waiting call.
pub const WAITING: u64 = 0;
/// The state word of a running call.
pub const RUNNING: u64 = 1;
/// The state word of a finished call.
pub const FINISHED: u64 = 2;

/// An entry is its cell number times this, plus its flags.
pub const ENTRY_SCALE: u64 = 4;
/// The flag of an entry that the call reads.
pub const READS: u64 = 1;
/// The flag of an entry that the call writes.
pub const WRITES: u64 = 2;

/// The number of buffers.
pub const BUFFERS: usize = 6;

/// The lengths of the buffers.
#[derive(Clone, Copy, Debug, PartialEq, Eq)]
#[allow(missing_docs)]
pub struct Sizes {
    pub plan: usize,
    pub keys: usize,
    pub cells: usize,
    pub status: usize,
    pub seats: usize,
    pub frames: usize,
}

impl Sizes {
    /// The fixed sizes for the limits of document 01.
    pub const FIXED: Sizes = Sizes {
        plan: MAX_CALLS * PLAN_WORDS,
        keys: MAX_KEYS * KEY_WORDS,
        cells: MAX_KEYS,
        status: MAX_CALLS * STATUS_WORDS,
        seats: MAX_WORKERS * SEAT_WORDS,
        frames: MAX_WORKERS * FRAME_VALUES,
    };

    /// The lengths in the order of the buffers.
    pub fn each(self) -> [usize; BUFFERS] {
        [
            self.plan,
            self.keys,
            self.cells,
            self.status,
            self.seats,
            self.frames,
        ]
    }

    /// The same, to be changed.
    pub fn each_mut(&mut self) -> [&mut usize; BUFFERS] {
        [
            &mut self.plan,
            &mut self.keys,
            &mut self.cells,
            &mut self.status,
            &mut self.seats,
            &mut self.frames,
        ]
    }

    /// Whether no buffer is shorter than its fixed size.
    pub fn suffice(self) -> bool {
        let fixed = Sizes::FIXED.each();
        self.each()
            .iter()
            .zip(fixed)
            .all(|(size, fixed)| *size >= fixed)
    }
}

/// The head of a run.
#[derive(Clone, Copy, Debug, Default, PartialEq, Eq)]
pub struct Head {
    /// The number of workers.
    pub workers: u64,
    /// The number of calls.
    pub calls: u64,
    /// The number of cells.
    pub cells: u64,
    /// The offset of the first call record, or where it would be.
    pub first: u64,
    /// For each worker the number of the call that it holds plus 1, or 0 for none.
    pub held: [u16; MAX_WORKERS],
}

/// A lent run.
#[derive(Clone, Debug, PartialEq, Eq)]
pub struct Run {
    /// The head.
    pub head: Head,
    /// What is fixed of each call.
    pub plan: Vec<u64>,
    /// The keys by cell number.
    pub keys: Vec<u64>,
    /// The values by cell number.
    pub cells: Vec<i64>,
    /// The state, the receipt and the waiting count of each call.
    pub status: Vec<u64>,
    /// The place and the count of each worker's call.
    pub seats: Vec<u64>,
    /// The registers of each worker's call, and the old values that it keeps.
    pub frames: Vec<i64>,
}

impl Run {
    /// A run whose words are all zero.
    pub fn zero(sizes: Sizes) -> Run {
        Run {
            head: Head::default(),
            plan: vec![0; sizes.plan],
            keys: vec![0; sizes.keys],
            cells: vec![0; sizes.cells],
            status: vec![0; sizes.status],
            seats: vec![0; sizes.seats],
            frames: vec![0; sizes.frames],
        }
    }

    /// The lengths of the buffers.
    pub fn sizes(&self) -> Sizes {
        Sizes {
            plan: self.plan.len(),
            keys: self.keys.len(),
            cells: self.cells.len(),
            status: self.status.len(),
            seats: self.seats.len(),
            frames: self.frames.len(),
        }
    }

    /// Makes a move. STEP is lent the block too. A refused move changes nothing.
    pub fn apply(&mut self, block: &[u8], chosen: Move) -> Result<(), MoveRefusal> {
        match chosen {
            Move::Begin { worker, call } => self.begin(worker, call),
            Move::Step { worker } => self.step(block, worker),
            Move::Cancel { worker } => self.cancel(worker),
        }
    }

    /// A word of a call in the plan.
    pub fn plan_word(&self, call: usize, word: usize) -> u64 {
        self.plan[call * PLAN_WORDS + word]
    }

    /// Whether the row of a call names another.
    pub fn row_names(&self, call: usize, other: usize) -> bool {
        self.plan_word(call, ROW + other / ROW_BITS) >> (other % ROW_BITS) & 1 == 1
    }

    /// A word of a call in the status.
    pub fn status_word(&self, call: usize, word: usize) -> u64 {
        self.status[call * STATUS_WORDS + word]
    }

    /// The state word of a call.
    pub fn state(&self, call: usize) -> u64 {
        self.status_word(call, STATE)
    }

    /// The waiting count of a call.
    pub fn waits(&self, call: usize) -> u64 {
        self.status_word(call, WAITS)
    }

    /// A word of a worker in the seats.
    pub fn seat_word(&self, worker: usize, word: usize) -> u64 {
        self.seats[worker * SEAT_WORDS + word]
    }

    /// A worker's frame.
    pub fn frame(&self, worker: usize) -> &[i64] {
        &self.frames[worker * FRAME_VALUES..][..FRAME_VALUES]
    }

    /// The words of the head, then those of plan, keys, cells, status, seats and
    /// frames. The head has workers, calls, cells, first, and for each worker
    /// what it holds. A signed value is taken as its 64 bits.
    pub fn words(&self) -> impl Iterator<Item = u64> + '_ {
        let head = &self.head;
        [head.workers, head.calls, head.cells, head.first]
            .into_iter()
            .chain(head.held.into_iter().map(u64::from))
            .chain(self.plan.iter().copied())
            .chain(self.keys.iter().copied())
            .chain(self.cells.iter().copied().map(bits))
            .chain(self.status.iter().copied())
            .chain(self.seats.iter().copied())
            .chain(self.frames.iter().copied().map(bits))
    }
}

/// The two words of a key: address, field and a; then b.
pub fn key_words(key: &Key) -> [u64; KEY_WORDS] {
    let (address, field) = (u64::from(key.address), u64::from(key.field));
    [
        address << 48 | field << 32 | u64::from(key.a),
        u64::from(key.b),
    ]
}

/// The 64 bits of a signed value.
fn bits(value: i64) -> u64 {
    value as u64
}
