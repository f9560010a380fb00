//! The commands: their files and their help.

use crate::cli::Failure;
use crate::files::File;
use crate::tasks;

/// Whether a file is read or written.
#[derive(Clone, Copy, Debug, PartialEq, Eq)]
pub enum Role {
    Input,
    Output,
}

/// A file of a command's line.
pub struct Argument {
    pub name: &'static str,
    pub role: Role,
    /// Whether it can be left out; only the last can.
    pub optional: bool,
}

const fn input(name: &'static str) -> Argument {
    Argument {
        name,
        role: Role::Input,
        optional: false,
    }
}

const fn output(name: &'static str) -> Argument {
    Argument {
        name,
        role: Role::Output,
        optional: false,
    }
}

const fn optional(argument: Argument) -> Argument {
    Argument {
        optional: true,
        ..argument
    }
}

/// A command.
pub struct Command {
    pub name: &'static str,
    pub arguments: &'static [Argument],
    /// What it does, in one line.
    pub does: &'static str,
    /// What it reads and writes, and what is worth knowing.
    pub details: &'static str,
    pub example: &'static str,
    pub run: fn(&[File]) -> Result<(), Failure>,
}

impl Command {
    /// The command with its files.
    pub fn form(&self) -> String {
        let argument = |argument: &Argument| match argument.optional {
            true => format!(" [{}]", argument.name),
            false => format!(" {}", argument.name),
        };
        let arguments: String = self.arguments.iter().map(argument).collect();
        format!("{}{arguments}", self.name)
    }

    /// What `--help` prints.
    pub fn help(&self) -> String {
        let (form, does) = (self.form(), self.does);
        let (details, example) = (self.details, self.example);
        format!("usage: desk {form}\n\n{does}\n\n{details}\n\nexample:\n  {example}\n")
    }
}

/// All commands, in the order in which the help lists them.
pub const COMMANDS: [Command; 8] = [
    Command {
        name: "assemble",
        arguments: &[input("TEXT"), output("BLOCK")],
        does: "write the block of a text",
        details: "\
TEXT is a block's text of at most 4,194,304 bytes: functions with their instructions,
opening cells, calls and the end. tools/runner/README.md has its form. BLOCK is
written with the bytes, also of a block that the register refuses; `desk explain
BLOCK` says whether it does. A text that is none is told as TEXT:LINE:COLUMN: and the
reason, and nothing is written. A column counts characters from 1.",
        example: "desk assemble pledge.txt block.bin",
        run: tasks::assemble,
    },
    Command {
        name: "disassemble",
        arguments: &[input("BLOCK"), optional(output("TEXT"))],
        does: "write the text of a block",
        details: "\
BLOCK is a block file or any other file of at most 65,536 bytes. TEXT, or standard
output, is a text with comments that assembles to the same bytes: jumps go to labels,
an instruction that the register refuses stands as `word`, and bytes that are no
record as `raw`.",
        example: "desk disassemble block.bin",
        run: tasks::disassemble,
    },
    Command {
        name: "inspect",
        arguments: &[input("BLOCK")],
        does: "list sizes, calls, sets and who waits for whom",
        details: "\
BLOCK is a block file. Standard output has its sizes beside their limits, its
functions, and each call with the cells that it may read and write and the earlier
calls that it waits for, each with the cells that are the reason.
A refused block is explained as by `desk explain`, with exit status 1.",
        example: "desk inspect block.bin",
        run: tasks::inspect,
    },
    Command {
        name: "explain",
        arguments: &[input("BLOCK"), optional(input("MOVES"))],
        does: "say why a block is refused, or what happens in a run",
        details: "\
BLOCK is a block file, MOVES the lines that REGISTER reads (b WORKER CALL, s WORKER,
c WORKER). Standard output says in words what REGISTER prints with 8 workers: of a
refused block the record, function and instruction and the rule that is broken; of a
run each refused line, each finished call's receipt, the closing cells or what is
unfinished, and a summary. A closing sheet in place of a block is told as one.
The exit status is 1 if the block is refused. Refused lines and an unfinished run
leave it 0.",
        example: "desk explain block.bin moves.txt",
        run: tasks::explain,
    },
    Command {
        name: "next",
        arguments: &[input("SHEET"), input("DAY"), output("BLOCK")],
        does: "write the block that opens with a closing sheet's cells",
        details: "\
SHEET is a closing sheet's bytes (not the lines that REGISTER prints). DAY has the new
day's functions and calls and no cells: a text as of `desk assemble`, with or without
its end, or a block file. BLOCK is written with the day's functions, the sheet's
cells, the day's calls and the end. A sheet or a day that is none, and a block that
the register would refuse, are told with offset and reason, and nothing is written.",
        example: "desk next sheet.bin tuesday.txt block.bin",
        run: tasks::next,
    },
    Command {
        name: "waits",
        arguments: &[input("BLOCK"), output("SVG")],
        does: "draw which calls wait for which",
        details: "\
BLOCK is a block file. SVG is written with a drawing of its calls and an arrow for
each call that waits for another. A refused block is told and nothing is written.",
        example: "desk waits block.bin waits.svg",
        run: tasks::waits,
    },
    Command {
        name: "schedule",
        arguments: &[input("BLOCK"), input("MOVES"), output("SVG")],
        does: "draw which worker ran which call when",
        details: "\
BLOCK is a block file, MOVES the lines that REGISTER reads. SVG is written with a
drawing of the workers against the moves. A refused block is told and nothing is
written.",
        example: "desk schedule block.bin moves.txt schedule.svg",
        run: tasks::schedule,
    },
    Command {
        name: "day",
        arguments: &[input("BLOCK"), input("MOVES"), output("HTML")],
        does: "write a page about a day",
        details: "\
BLOCK is a block file, MOVES the lines that REGISTER reads. HTML is written with one
page that needs no other file: the block, the run and its end. The page of a refused
block says why it is refused.",
        example: "desk day block.bin moves.txt day.html",
        run: tasks::day,
    },
];
