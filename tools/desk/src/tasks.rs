//! What each command does with its files, which stand in the order of its
//! arguments.

use runner::assemble;

use crate::cli::Failure;
use crate::files::File;
use crate::next::{self, Fault};
use crate::refused::Refused;
use crate::{disassemble, explain, inspect, page, schedule, waits};

pub fn assemble(files: &[File]) -> Result<(), Failure> {
    let (text, block) = (&files[0], &files[1]);
    let assembled = assemble::assemble(text.read_text()?);
    block.write(&assembled.map_err(|error| in_text(text, error))?)
}

pub fn disassemble(files: &[File]) -> Result<(), Failure> {
    let text = disassemble::disassemble(&files[0].read_any()?);
    let output = files.get(1).unwrap_or(&File::Standard);
    output.write(text.as_bytes())
}

pub fn inspect(files: &[File]) -> Result<(), Failure> {
    report(inspect::inspect(&files[0].read_block()?))
}

pub fn explain(files: &[File]) -> Result<(), Failure> {
    let block = files[0].read_block()?;
    report(match files.get(1) {
        None => explain::block(&block),
        Some(moves) => explain::run(&block, &moves.read_moves()?),
    })
}

pub fn next(files: &[File]) -> Result<(), Failure> {
    let (sheet, day, block) = (&files[0], &files[1], &files[2]);
    let made = next::block(&sheet.read_sheet()?, &day.read_text()?);
    let bytes = made.map_err(|fault| match fault {
        Fault::Sheet(why) => {
            let why = format!("not a closing sheet: {why}");
            failed(&sheet.input_name(), &why)
        }
        Fault::Text(error) => in_text(day, error),
        Fault::Day(why) => failed(&day.input_name(), &why),
        Fault::Block(why) => failed(&block.output_name(), &why),
    })?;
    block.write(&bytes)
}

pub fn waits(files: &[File]) -> Result<(), Failure> {
    let (block, svg) = (&files[0], &files[1]);
    let drawn = waits::svg(&block.read_block()?);
    made(block, drawn, svg)
}

pub fn schedule(files: &[File]) -> Result<(), Failure> {
    let (block, moves, svg) = (&files[0], &files[1], &files[2]);
    let drawn = schedule::svg(&block.read_block()?, &moves.read_moves()?);
    made(block, drawn, svg)
}

pub fn day(files: &[File]) -> Result<(), Failure> {
    let (block, moves, html) = (&files[0], &files[1], &files[2]);
    let title = block.input_name();
    let page = page::html(&title, &block.read_block()?, &moves.read_moves()?);
    html.write(page.as_bytes())
}

/// Writes what was made of a block, or tells why nothing was.
fn made(block: &File, made: Result<String, String>, output: &File) -> Result<(), Failure> {
    let text = made.map_err(|why| failed(&block.input_name(), &why))?;
    output.write(text.as_bytes())
}

/// Prints a text about a block. One about a refused block is a failure too.
fn report(text: Result<String, Refused>) -> Result<(), Failure> {
    match text {
        Ok(text) => File::Standard.write(text.as_bytes()),
        Err(Refused(why)) => {
            File::Standard.write(why.as_bytes())?;
            Err(Failure::Refused)
        }
    }
}

/// A file and what is wrong with it.
fn failed(name: &str, why: &str) -> Failure {
    Failure::Failed(format!("{name}: {why}"))
}

/// A text and what is wrong at a place of it.
fn in_text(text: &File, error: assemble::Error) -> Failure {
    Failure::Failed(format!("{}:{error}", text.input_name()))
}
