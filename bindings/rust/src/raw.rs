//! The register over slices that the caller owns, of any length and any
//! contents: what is too short or out of its range is refused by 20.
//! [`Run`](crate::Run) is the same over buffers of its own.

use crate::answer::{Answer, Refusal};
use crate::ffi;

/// What has a fixed size; the discriminant is its number.
#[derive(Clone, Copy, Debug, PartialEq, Eq)]
#[allow(missing_docs)]
pub enum Size {
    Head = 0,
    Plan = 1,
    Keys = 2,
    Cells = 3,
    Status = 4,
    Seats = 5,
    Frames = 6,
    /// The bytes of the largest sheet.
    Sheet = 7,
    /// The bytes of the largest block.
    Block = 8,
}

/// The fixed size, in elements.
pub fn size(of: Size) -> usize {
    size_of_number(of as usize)
}

/// The fixed size of a number of [`Size`], and 0 for any other.
pub fn size_of_number(which: usize) -> usize {
    usize::try_from(ffi::size(which)).expect("a size in memory is a usize")
}

/// The first of the head's words that say what the workers hold: the number of
/// the call plus 1, or 0 for none. Before it stand the numbers of workers, calls
/// and cells and the offset of the first call record.
pub const FIRST_HELD: usize = 4;

/// Words of a call in the status.
pub const STATUS_WORDS: usize = 4;

/// A word of a call in the status; the discriminant is its place among these.
#[derive(Clone, Copy, Debug, PartialEq, Eq)]
pub enum StatusWord {
    /// Its state: waiting 0, running 1 or finished 2.
    State = 0,
    /// The outcome of a finished call, 0 to 7.
    Outcome = 1,
    /// How many instructions a finished call executed, 0 to 65,535.
    Count = 2,
    /// The waiting count: how many of its earlier conflicting calls are
    /// unfinished. While it is above 0, a begin of the call is refused by 25.
    Waits = 3,
}

impl StatusWord {
    /// The place of this word of a call, one of the 256 that a run can have, in
    /// the status.
    pub fn of(self, call: usize) -> usize {
        STATUS_WORDS * call + self as usize
    }
}

/// The head and the buffers of a run, lent to be changed.
#[derive(Debug, PartialEq, Eq)]
#[allow(missing_docs)]
pub struct Words<'a> {
    pub head: &'a mut [u64],
    pub plan: &'a mut [u64],
    pub keys: &'a mut [u64],
    pub cells: &'a mut [i64],
    pub status: &'a mut [u64],
    pub seats: &'a mut [u64],
    pub frames: &'a mut [i64],
}

/// The head and the buffers of a run, lent to be read.
#[derive(Clone, Copy, Debug, PartialEq, Eq)]
#[allow(missing_docs)]
pub struct View<'a> {
    pub head: &'a [u64],
    pub plan: &'a [u64],
    pub keys: &'a [u64],
    pub cells: &'a [i64],
    pub status: &'a [u64],
    pub seats: &'a [u64],
    pub frames: &'a [i64],
}

impl Words<'_> {
    /// Opens a block for 1 to 8 workers. A refused opening leaves every word
    /// zero.
    pub fn open(&mut self, block: &[u8], workers: usize) -> Result<(), Refusal> {
        let (number, offset) = ffi::open(block, workers, self);
        Refusal::told(number, offset)
    }

    /// BEGIN(worker, call).
    pub fn begin(&mut self, worker: usize, call: usize) -> Result<(), Answer> {
        Answer::told(ffi::begin(self, worker, call))
    }

    /// STEP(worker), lent the block of the run.
    pub fn step(&mut self, block: &[u8], worker: usize) -> Result<(), Answer> {
        Answer::told(ffi::step(block, self, worker))
    }

    /// CANCEL(worker).
    pub fn cancel(&mut self, worker: usize) -> Result<(), Answer> {
        Answer::told(ffi::cancel(self, worker))
    }

    /// The serial run on the run as it stands: each call begun on worker 0 and
    /// stepped to its end. It is refused by a slice that is too short alone.
    pub fn serial_run(&mut self, block: &[u8]) -> Result<(), Answer> {
        Answer::told(ffi::serial_run(block, self))
    }

    /// The same, to be read.
    pub fn view(&self) -> View<'_> {
        View {
            head: self.head,
            plan: self.plan,
            keys: self.keys,
            cells: self.cells,
            status: self.status,
            seats: self.seats,
            frames: self.frames,
        }
    }
}

impl View<'_> {
    /// Writes the closing sheet to the front of an output and answers its
    /// length, the offset behind its last record. Bytes behind it are
    /// unchanged; a refused sheet changes none.
    pub fn sheet(&self, output: &mut [u8]) -> Result<usize, Answer> {
        let (number, length) = ffi::sheet(self, output);
        Answer::told(number)?;
        Ok(usize::try_from(length).expect("a sheet is within its output"))
    }
}
