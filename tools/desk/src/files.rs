//! The files that a command reads and writes.

use std::ffi::OsStr;
use std::fs;
use std::io::{self, ErrorKind, Read, Write};
use std::os::unix::fs::MetadataExt;
use std::path::{Path, PathBuf};
use std::process;

use runner::console::read_input;
use runner::limits::{MAX_BLOCK_BYTES, MAX_SHEET_BYTES};

use crate::cli::Failure;

/// What stands for standard input or output.
const STANDARD: &str = "-";
/// Most bytes of a text: the text of every file that can be disassembled is
/// shorter.
const MAX_TEXT_BYTES: usize = 4_194_304;

/// A file of a command line.
#[derive(Clone, Debug, PartialEq, Eq)]
pub enum File {
    /// Standard input or output.
    Standard,
    /// A file by its path.
    Named(PathBuf),
}

impl File {
    /// The file that an argument names.
    pub fn named(argument: &OsStr) -> File {
        if argument == STANDARD {
            File::Standard
        } else {
            File::Named(argument.into())
        }
    }

    /// The name of a file that is read.
    pub fn input_name(&self) -> String {
        self.name("standard input")
    }

    /// The name of a file that is written.
    pub fn output_name(&self) -> String {
        self.name("standard output")
    }

    fn name(&self, standard: &str) -> String {
        match self {
            File::Standard => standard.to_string(),
            File::Named(path) => path.display().to_string(),
        }
    }

    /// The bytes of a block, or of a longer file one more than the longest has: by
    /// that one it is refused.
    pub fn read_block(&self) -> Result<Vec<u8>, Failure> {
        self.read_beyond(MAX_BLOCK_BYTES)
    }

    /// The bytes of a closing sheet, or likewise one more than the longest has.
    pub fn read_sheet(&self) -> Result<Vec<u8>, Failure> {
        self.read_beyond(MAX_SHEET_BYTES)
    }

    /// All bytes of a file of any form that is not longer than a block.
    pub fn read_any(&self) -> Result<Vec<u8>, Failure> {
        self.read_within(MAX_BLOCK_BYTES, "a block")
    }

    /// All bytes of a text, or of what may be one.
    pub fn read_text(&self) -> Result<Vec<u8>, Failure> {
        self.read_within(MAX_TEXT_BYTES, "a text")
    }

    /// All bytes of a file that has at most so many.
    fn read_within(&self, most: usize, of: &str) -> Result<Vec<u8>, Failure> {
        let bytes = self.read_beyond(most)?;
        if bytes.len() > most {
            let name = self.input_name();
            let why = format!("above {most} bytes, the most of {of}; no more were read");
            return Err(Failure::Failed(format!("{name}: {why}")));
        }
        Ok(bytes)
    }

    /// The first bytes, as many as can be right and one more.
    fn read_beyond(&self, most: usize) -> Result<Vec<u8>, Failure> {
        self.read_by(|input| {
            let mut bytes = Vec::new();
            input.take(most as u64 + 1).read_to_end(&mut bytes)?;
            Ok(bytes)
        })
    }

    /// The bytes of a list of moves, as many as REGISTER reads.
    pub fn read_moves(&self) -> Result<Vec<u8>, Failure> {
        self.read_by(read_input)
    }

    fn read_by(
        &self,
        reads: impl FnOnce(Box<dyn Read>) -> io::Result<Vec<u8>>,
    ) -> Result<Vec<u8>, Failure> {
        let read = match self {
            File::Standard => reads(Box::new(io::stdin().lock())),
            File::Named(path) => fs::File::open(path).and_then(|file| reads(Box::new(file))),
        };
        read.map_err(|error| failure(self.input_name(), error))
    }

    /// Writes all bytes, or leaves a file as it was.
    pub fn write(&self, bytes: &[u8]) -> Result<(), Failure> {
        let written = match self {
            File::Standard => {
                let mut output = io::stdout().lock();
                output.write_all(bytes).and_then(|()| output.flush())
            }
            File::Named(path) => replace(path, bytes),
        };
        written.map_err(|error| failure(self.output_name(), error))
    }

    /// Whether both are one file on the disk, whatever their paths.
    pub fn is_same(&self, other: &File) -> bool {
        let own = self.identity();
        own.is_some() && own == other.identity()
    }

    /// The device and the number on it of a regular file that is there.
    fn identity(&self) -> Option<(u64, u64)> {
        let File::Named(path) = self else {
            return None;
        };
        let found = fs::metadata(path).ok().filter(fs::Metadata::is_file)?;
        Some((found.dev(), found.ino()))
    }
}

/// Writes a file whole or not at all: the bytes go into a new file beside it,
/// which then takes its name. What is no regular file, a device say, is written
/// as it stands.
fn replace(path: &Path, bytes: &[u8]) -> io::Result<()> {
    let old = match fs::metadata(path) {
        Err(error) if error.kind() == ErrorKind::NotFound => None,
        found => Some(found?),
    };
    let is_link = fs::symlink_metadata(path).is_ok_and(|found| found.is_symlink());
    let target = match &old {
        Some(old) if old.is_file() => {
            // A file that may not be written is not replaced either.
            fs::OpenOptions::new().write(true).open(path)?;
            fs::canonicalize(path)?
        }
        None if !is_link => path.to_path_buf(),
        _ => return fs::write(path, bytes),
    };
    let (name, file) = beside(&target)?;
    let written = fill(file, bytes, old).and_then(|()| fs::rename(&name, &target));
    if written.is_err() {
        // What is told is why the bytes could not be written.
        let _ = fs::remove_file(&name);
    }
    written
}

/// A new file in the folder of another.
fn beside(path: &Path) -> io::Result<(PathBuf, fs::File)> {
    let mut number = 0;
    loop {
        let name = path.with_file_name(format!(".desk-{}-{number}.part", process::id()));
        match fs::File::create_new(&name) {
            Err(error) if error.kind() == ErrorKind::AlreadyExists => number += 1,
            made => return made.map(|file| (name, file)),
        }
    }
}

/// Writes the bytes to the disk, with the rights of the file whose place they take.
fn fill(mut file: fs::File, bytes: &[u8], old: Option<fs::Metadata>) -> io::Result<()> {
    if let Some(old) = old {
        file.set_permissions(old.permissions())?;
    }
    file.write_all(bytes)?;
    file.sync_all()
}

/// A file and the reason for which it is not read or written.
fn failure(name: String, error: io::Error) -> Failure {
    Failure::Failed(format!("{name}: {error}"))
}
