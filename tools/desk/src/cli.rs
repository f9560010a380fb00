//! The command line: which command is meant, its files, and how a failure is
//! told.

use std::ffi::{OsStr, OsString};
use std::process::ExitCode;

use crate::commands::{Argument, Command, Role, COMMANDS};
use crate::files::File;

/// What goes before the list of commands.
const ABOUT: &str = "desk: write, read and explain blocks and runs of the warrant register

usage: desk COMMAND FILES
";

/// What goes behind the list of commands.
const NOTES: &str = "
`desk COMMAND --help` or `desk help COMMAND` says what a command reads and writes,
`desk --version` which version this is.
`-` in place of a file is standard input or standard output.
Exit status: 0 done; 1 failed, or the block is refused; 2 wrong usage.
";

/// Why a command did not do its work.
#[derive(Clone, Debug, PartialEq, Eq)]
pub enum Failure {
    /// The command line is wrong: the program and command, and what is wrong.
    Usage(String, String),
    /// Something failed, told on standard error.
    Failed(String),
    /// The block is refused, as standard output says.
    Refused,
}

/// Runs the command of a command line without the program's own name.
pub fn run(arguments: Vec<OsString>) -> ExitCode {
    match command(&arguments) {
        Ok(()) => ExitCode::SUCCESS,
        Err(Failure::Usage(name, wrong)) => {
            eprintln!("{name}: {wrong}; see {name} --help");
            ExitCode::from(2)
        }
        Err(Failure::Failed(why)) => {
            eprintln!("{why}");
            ExitCode::FAILURE
        }
        Err(Failure::Refused) => ExitCode::FAILURE,
    }
}

fn command(arguments: &[OsString]) -> Result<(), Failure> {
    let Some((name, rest)) = arguments.split_first() else {
        return Err(wrong("a command is missing"));
    };
    if asks_help(name) || name == "help" {
        return help(rest);
    }
    if name == "--version" || name == "-V" {
        return version(rest);
    }
    let command = named(name)?;
    if rest.iter().any(|argument| asks_help(argument)) {
        return print(&command.help());
    }
    (command.run)(&files(command, rest)?)
}

/// The command with a name.
fn named(name: &OsStr) -> Result<&'static Command, Failure> {
    let found = COMMANDS.iter().find(|command| name == command.name);
    found.ok_or_else(|| wrong(format!("there is no command {}", shown(name))))
}

fn asks_help(argument: &OsStr) -> bool {
    argument == "--help" || argument == "-h"
}

/// The help of the program, or of the command that is named.
fn help(names: &[OsString]) -> Result<(), Failure> {
    match names {
        [] => print(&general_help()),
        [name] => print(&named(name)?.help()),
        [_, more, ..] => Err(one_too_many(more)),
    }
}

/// The name and the version of the program, in one line.
fn version(rest: &[OsString]) -> Result<(), Failure> {
    match rest.first() {
        None => print(concat!("desk ", env!("CARGO_PKG_VERSION"), "\n")),
        Some(more) => Err(one_too_many(more)),
    }
}

fn one_too_many(word: &OsStr) -> Failure {
    wrong(format!("{} is one word too many", shown(word)))
}

fn general_help() -> String {
    let line = |command: &Command| format!("  {:<32}{}\n", command.form(), command.does);
    let commands: String = COMMANDS.iter().map(line).collect();
    format!("{ABOUT}\n{commands}{NOTES}")
}

/// The files of a command's arguments.
fn files(command: &Command, given: &[OsString]) -> Result<Vec<File>, Failure> {
    let wrong = |wrong: String| Failure::Usage(format!("desk {}", command.name), wrong);
    let is_option = |argument: &&OsString| {
        let bytes = argument.as_encoded_bytes();
        bytes.starts_with(b"-") && bytes.len() > 1
    };
    if let Some(option) = given.iter().find(is_option) {
        return Err(wrong(format!("there is no option {}", shown(option))));
    }
    if let Some(missing) = command.arguments.get(given.len()) {
        if !missing.optional {
            return Err(wrong(format!("{} is missing", missing.name)));
        }
    }
    if let Some(more) = given.get(command.arguments.len()) {
        return Err(wrong(format!("{} is one file too many", shown(more))));
    }
    let files: Vec<File> = given.iter().map(|argument| File::named(argument)).collect();
    test_roles(command.arguments, &files).map_err(wrong)?;
    Ok(files)
}

/// Standard input is read once, and no file is read and then written over.
fn test_roles(arguments: &[Argument], files: &[File]) -> Result<(), String> {
    let of = |role: Role| {
        let pairs = arguments.iter().zip(files);
        let pairs = pairs.filter(move |(argument, _)| argument.role == role);
        pairs.map(|(_, file)| file)
    };
    let streams = of(Role::Input).filter(|file| **file == File::Standard);
    if streams.count() > 1 {
        return Err("standard input can be one file only".to_string());
    }
    for output in of(Role::Output) {
        if of(Role::Input).any(|input| input.is_same(output)) {
            return Err(format!("{} would be written over", output.output_name()));
        }
    }
    Ok(())
}

/// An argument within one line.
fn shown(argument: &OsStr) -> String {
    argument.to_string_lossy().escape_debug().to_string()
}

/// A wrong command line of the program itself.
fn wrong(wrong: impl Into<String>) -> Failure {
    Failure::Usage("desk".to_string(), wrong.into())
}

fn print(text: &str) -> Result<(), Failure> {
    File::Standard.write(text.as_bytes())
}
