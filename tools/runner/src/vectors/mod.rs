//! Vectors for lent runs: cases of a block, its opening, and moves, serial runs
//! and sheets with damages between them; the stream that carries them, and the
//! lines they answer.

pub mod blocks;
pub mod damage;
pub mod edges;
pub mod files;
pub mod fuel;
pub mod moves;
pub mod serial;
pub mod sheets;
pub mod stream;
pub mod titled;
pub mod waits;

use crate::lent::{open, Run, Sizes, BUFFERS};
use crate::machine::Move;
use crate::refusal::{BlockRefusal, MoveRefusal, SheetRefusal};

/// How much longer than its fixed size a lent buffer may be.
pub const SPARE: usize = 8;

/// How many bytes a change of the block writes.
pub const CHANGED_BYTES: usize = 16;

/// What the bytes of an output are before a sheet is written to it.
pub const OUTPUT_BYTE: u8 = 7;

/// A buffer of the run, by its number in the stream.
#[derive(Clone, Copy, Debug, PartialEq, Eq)]
#[allow(missing_docs)]
pub enum Buffer {
    Plan = 0,
    Keys = 1,
    Cells = 2,
    Status = 3,
    Seats = 4,
    Frames = 5,
}

impl Buffer {
    /// All buffers in their order.
    pub const ALL: [Buffer; BUFFERS] = [
        Buffer::Plan,
        Buffer::Keys,
        Buffer::Cells,
        Buffer::Status,
        Buffer::Seats,
        Buffer::Frames,
    ];
}

/// A number of the head; in the stream 0 to 3, and from 4 on what the workers
/// hold.
#[derive(Clone, Copy, Debug, PartialEq, Eq)]
#[allow(missing_docs)]
pub enum HeadField {
    Workers,
    Calls,
    Cells,
    First,
    Held(usize),
}

impl HeadField {
    /// The field's number in the stream.
    pub fn number(self) -> u64 {
        match self {
            HeadField::Workers => 0,
            HeadField::Calls => 1,
            HeadField::Cells => 2,
            HeadField::First => 3,
            HeadField::Held(worker) => 4 + worker as u64,
        }
    }
}

/// An operation behind the opening. A signed value is written as its 64 bits.
#[derive(Clone, Copy, Debug, PartialEq, Eq)]
#[allow(missing_docs)]
pub enum Operation {
    /// A move.
    Move(Move),
    /// A word of a buffer takes a value.
    Word {
        buffer: Buffer,
        index: usize,
        value: u64,
    },
    /// A number of the head takes a value; what a worker holds its low 16 bits.
    Head { field: HeadField, value: u64 },
    /// The block is lent up to a length from now on.
    Cut { length: usize },
    /// Bytes of the block are written.
    Bytes {
        at: usize,
        bytes: [u8; CHANGED_BYTES],
    },
    /// The buffers are lent up to these lengths from now on, at most those of
    /// the opening.
    Lend { sizes: Sizes },
    /// The closing sheet is asked for, with an output of so many bytes.
    Sheet { room: usize },
    /// The serial run, on the run as it stands.
    Serial,
}

/// A case: a block opened for some workers in buffers of some lengths, and what
/// is done behind that.
#[derive(Clone, Debug, PartialEq, Eq)]
pub struct Case {
    /// The block.
    pub block: Vec<u8>,
    /// The lengths at the opening.
    pub sizes: Sizes,
    /// The number of workers.
    pub workers: usize,
    /// What follows.
    pub operations: Vec<Operation>,
}

/// What an operation answers.
#[derive(Clone, Copy, Debug, PartialEq, Eq)]
pub enum Answer {
    /// Of the opening.
    Opened(Result<(), BlockRefusal>),
    /// Of a move.
    Moved(Result<(), MoveRefusal>),
    /// Of a closing sheet.
    Closed(Result<usize, SheetRefusal>),
    /// Of a serial run, which refuses nothing.
    Ran,
}

/// A case as it is played.
#[derive(Clone, Debug)]
pub struct Player {
    /// The whole block; only its front may be lent.
    pub block: Vec<u8>,
    /// How much of the block is lent.
    pub lent_block: usize,
    /// The run with all its buffers; only their fronts may be lent.
    pub run: Run,
    /// How much of the buffers is lent.
    pub sizes: Sizes,
}

impl Player {
    /// Opens the block of a case.
    pub fn open(block: &[u8], workers: usize, sizes: Sizes) -> (Result<(), BlockRefusal>, Player) {
        let (answer, run) = open(block, workers, sizes);
        let player = Player {
            block: block.to_vec(),
            lent_block: block.len(),
            run,
            sizes,
        };
        (answer, player)
    }

    /// Does an operation; the answer is that of a move.
    pub fn play(&mut self, operation: Operation) -> Option<Result<(), MoveRefusal>> {
        match operation {
            Operation::Move(chosen) => return Some(self.make(chosen)),
            Operation::Word {
                buffer,
                index,
                value,
            } => self.set_word(buffer, index, value),
            Operation::Head { field, value } => self.set_head(field, value),
            Operation::Cut { length } => self.lent_block = length,
            Operation::Bytes { at, bytes } => {
                let kept = self.block.len().saturating_sub(at).min(CHANGED_BYTES);
                self.block[at..at + kept].copy_from_slice(&bytes[..kept]);
            }
            Operation::Lend { sizes } => self.sizes = sizes,
            Operation::Serial => {
                self.on_lent(Run::run_serially);
            }
            Operation::Sheet { .. } => (),
        }
        None
    }

    /// Asks for the closing sheet of what is lent, with an output of so many
    /// bytes: the answer, and the output behind it.
    pub fn close(&self, room: usize) -> (Result<usize, SheetRefusal>, Vec<u8>) {
        let mut output = vec![OUTPUT_BYTE; room];
        let answer = self.lent().sheet(&mut output);
        (answer, output)
    }

    /// Makes a move on what is lent.
    fn make(&mut self, chosen: Move) -> Result<(), MoveRefusal> {
        self.on_lent(|lent, block| lent.apply(block, chosen))
    }

    /// Changes what is lent, with the block as it is lent.
    fn on_lent<T>(&mut self, change: impl FnOnce(&mut Run, &[u8]) -> T) -> T {
        let mut lent = self.lent();
        let answer = change(&mut lent, &self.block[..self.lent_block]);
        self.run.head = lent.head;
        self.run.plan[..lent.plan.len()].copy_from_slice(&lent.plan);
        self.run.keys[..lent.keys.len()].copy_from_slice(&lent.keys);
        self.run.cells[..lent.cells.len()].copy_from_slice(&lent.cells);
        self.run.status[..lent.status.len()].copy_from_slice(&lent.status);
        self.run.seats[..lent.seats.len()].copy_from_slice(&lent.seats);
        self.run.frames[..lent.frames.len()].copy_from_slice(&lent.frames);
        answer
    }

    /// The run as it is lent.
    pub fn lent(&self) -> Run {
        let (run, sizes) = (&self.run, &self.sizes);
        Run {
            head: run.head,
            plan: run.plan[..sizes.plan].to_vec(),
            keys: run.keys[..sizes.keys].to_vec(),
            cells: run.cells[..sizes.cells].to_vec(),
            status: run.status[..sizes.status].to_vec(),
            seats: run.seats[..sizes.seats].to_vec(),
            frames: run.frames[..sizes.frames].to_vec(),
        }
    }

    /// The word of a buffer.
    pub fn word(&self, buffer: Buffer, index: usize) -> u64 {
        match buffer {
            Buffer::Plan => self.run.plan[index],
            Buffer::Keys => self.run.keys[index],
            Buffer::Cells => self.run.cells[index] as u64,
            Buffer::Status => self.run.status[index],
            Buffer::Seats => self.run.seats[index],
            Buffer::Frames => self.run.frames[index] as u64,
        }
    }

    fn set_word(&mut self, buffer: Buffer, index: usize, value: u64) {
        match buffer {
            Buffer::Plan => self.run.plan[index] = value,
            Buffer::Keys => self.run.keys[index] = value,
            Buffer::Cells => self.run.cells[index] = value as i64,
            Buffer::Status => self.run.status[index] = value,
            Buffer::Seats => self.run.seats[index] = value,
            Buffer::Frames => self.run.frames[index] = value as i64,
        }
    }

    /// The number of the head.
    pub fn head(&self, field: HeadField) -> u64 {
        let head = &self.run.head;
        match field {
            HeadField::Workers => head.workers,
            HeadField::Calls => head.calls,
            HeadField::Cells => head.cells,
            HeadField::First => head.first,
            HeadField::Held(worker) => head.held[worker].into(),
        }
    }

    fn set_head(&mut self, field: HeadField, value: u64) {
        let head = &mut self.run.head;
        match field {
            HeadField::Workers => head.workers = value,
            HeadField::Calls => head.calls = value,
            HeadField::Cells => head.cells = value,
            HeadField::First => head.first = value,
            HeadField::Held(worker) => head.held[worker] = value as u16,
        }
    }
}

/// What an answer leaves in the caller's hands.
#[derive(Clone, Debug, PartialEq, Eq)]
pub enum Left {
    /// The run as it is lent then.
    Run(Box<Run>),
    /// The output of a closing sheet.
    Output(Vec<u8>),
}

/// The answers of a case in order, each with what it leaves.
pub fn answers(case: &Case) -> Vec<(Answer, Left)> {
    let (opened, mut player) = Player::open(&case.block, case.workers, case.sizes);
    let run = |player: &Player| Left::Run(Box::new(player.lent()));
    let mut answers = vec![(Answer::Opened(opened), run(&player))];
    for operation in &case.operations {
        if let Operation::Sheet { room } = *operation {
            let (closed, output) = player.close(room);
            answers.push((Answer::Closed(closed), Left::Output(output)));
        }
        if let Some(moved) = player.play(*operation) {
            answers.push((Answer::Moved(moved), run(&player)));
        }
        if let Operation::Serial = *operation {
            answers.push((Answer::Ran, run(&player)));
        }
    }
    answers
}
