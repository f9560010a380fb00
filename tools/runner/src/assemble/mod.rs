//! The assembler: a block's text form to its bytes. The form is described in
//! the README. Only what cannot be written at all is an error here; whether the
//! block is good is the reader's question.

mod instruction;
mod words;

use std::collections::BTreeMap;
use std::fmt;

use crate::code::Parts;
use crate::emit::{self, CallFields};
use crate::key::Key;
use crate::limits::{ARGUMENTS, COMMON_FUEL, FUNCTION_NAME_BYTES, INSTRUCTION_BYTES};
use instruction::Target;
use words::{Place, Word, Words};

/// What begins a comment.
const COMMENT: char = '#';

/// What stands before a call's fuel.
const FUEL: &str = "fuel";

/// How many instructions the 16 bits of a record's length have room for.
const MOST_INSTRUCTIONS: usize = (u16::MAX as usize - FUNCTION_NAME_BYTES) / INSTRUCTION_BYTES;

/// A text that is no block's text form.
#[derive(Clone, Debug, PartialEq, Eq)]
pub struct Error {
    /// The line, from 1.
    pub line: usize,
    /// The column, from 1. A character counts 1, a tab too. Of a missing part it
    /// is the column behind the word before.
    pub column: usize,
    /// What is wrong there.
    pub message: String,
}

impl fmt::Display for Error {
    fn fmt(&self, formatter: &mut fmt::Formatter) -> fmt::Result {
        let Error {
            line,
            column,
            message,
        } = self;
        write!(formatter, "{line}:{column}: {message}")
    }
}

/// Assembles a block.
pub fn assemble(text: impl AsRef<[u8]>) -> Result<Vec<u8>, Error> {
    let mut assembler = Assembler::default();
    let lines = text.as_ref().split(|byte| *byte == b'\n');
    for (index, bytes) in lines.enumerate() {
        let line = index + 1;
        assembler.line(&mut Words::new(line, item(line, bytes)?))?;
    }
    assembler.close_function()?;
    Ok(assembler.bytes)
}

/// The characters of a line before its comment.
fn item(line: usize, bytes: &[u8]) -> Result<&str, Error> {
    let text = characters(line, bytes)?;
    if let Some((before, _)) = text.split_once('\r') {
        let message = "carriage return: a line ends in a line feed alone";
        return Err(Place::behind(line, before).error(message));
    }
    Ok(text.split(COMMENT).next().unwrap_or_default())
}

/// The characters of a line, which is UTF-8.
fn characters(line: usize, bytes: &[u8]) -> Result<&str, Error> {
    std::str::from_utf8(bytes).map_err(|error| {
        let (before, rest) = bytes.split_at(error.valid_up_to());
        let place = Place::behind(line, &String::from_utf8_lossy(before));
        place.error(format!("byte {:#04x}: the text is not UTF-8", rest[0]))
    })
}

#[derive(Default)]
struct Assembler<'a> {
    bytes: Vec<u8>,
    function: Option<OpenFunction<'a>>,
}

/// A function whose instructions are still being read.
struct OpenFunction<'a> {
    contract: u16,
    number: u16,
    code: Vec<Parts>,
    labels: BTreeMap<&'a str, Label>,
    /// Jumps to labels: instruction index, label.
    jumps: Vec<(usize, Word<'a>)>,
}

/// A label: the instruction that it names, and the line that it stands in.
struct Label {
    index: usize,
    line: usize,
}

impl<'a> Assembler<'a> {
    fn line(&mut self, words: &mut Words<'a>) -> Result<(), Error> {
        let Some(first) = words.optional() else {
            return Ok(());
        };
        if let Some(text) = first.text.strip_suffix(':') {
            self.label(Word { text, ..first })?;
        } else if !self.top_item(first, words)? {
            self.instruction(first, words)?;
        }
        words.finish()
    }

    /// Takes an item that is not part of a function; false if it is none.
    fn top_item(&mut self, first: Word, words: &mut Words<'a>) -> Result<bool, Error> {
        if !["function", "cell", "call", "end", "raw"].contains(&first.text) {
            return Ok(false);
        }
        self.close_function()?;
        match first.text {
            "function" => self.function = Some(OpenFunction::read(words)?),
            "cell" => self.cell(words)?,
            "call" => self.call(words)?,
            "end" => emit::end(&mut self.bytes),
            _ => self.bytes.extend(words.hexadecimal()?),
        }
        Ok(true)
    }

    fn cell(&mut self, words: &mut Words) -> Result<(), Error> {
        let key = Key {
            address: words.number("address")?,
            field: words.number("field")?,
            a: words.number("a")?,
            b: words.number("b")?,
        };
        emit::cell(&mut self.bytes, &key, words.number("value")?);
        Ok(())
    }

    fn call(&mut self, words: &mut Words) -> Result<(), Error> {
        let mut fields = CallFields {
            sender: words.number("sender")?,
            contract: words.number("contract")?,
            function: words.number("function")?,
            value: words.number("value")?,
            arguments: [0; ARGUMENTS],
            fuel: COMMON_FUEL,
        };
        let mut arguments = fields.arguments.iter_mut();
        while let Some(word) = words.optional() {
            if word.text == FUEL {
                fields.fuel = words.number(FUEL)?;
                break;
            }
            match arguments.next() {
                Some(argument) => *argument = word.number("argument")?,
                None => return Err(word.error("word", "one too many")),
            }
        }
        emit::call(&mut self.bytes, &fields);
        Ok(())
    }

    fn label(&mut self, name: Word<'a>) -> Result<(), Error> {
        let outside = || name.error("label", "outside a function");
        let function = self.function.as_mut().ok_or_else(outside)?;
        if name.text.is_empty() {
            return Err(name.place.error("a label without a name"));
        }
        if name.looks_like_number() {
            return Err(name.error("label", "a name does not begin with a digit or -"));
        }
        let label = Label {
            index: function.code.len(),
            line: name.place.line,
        };
        match function.labels.insert(name.text, label) {
            None => Ok(()),
            Some(first) => Err(name.error("label", format!("line {} has it too", first.line))),
        }
    }

    fn instruction(&mut self, mnemonic: Word<'a>, words: &mut Words<'a>) -> Result<(), Error> {
        let (parts, target) = instruction::read(mnemonic, words)?;
        let outside = || mnemonic.error("instruction", "outside a function");
        let function = self.function.as_mut().ok_or_else(outside)?;
        if function.code.len() == MOST_INSTRUCTIONS {
            let message = format!("a record has room for {MOST_INSTRUCTIONS}");
            return Err(mnemonic.error("instruction", message));
        }
        if let Target::Label(name) = target {
            function.jumps.push((function.code.len(), name));
        }
        function.code.push(parts);
        Ok(())
    }

    /// Gives the jumps their targets and writes the function's record.
    fn close_function(&mut self) -> Result<(), Error> {
        let Some(mut function) = self.function.take() else {
            return Ok(());
        };
        for (index, name) in function.jumps {
            let found = function.labels.get(name.text);
            let label = found.ok_or_else(|| name.error("label", "not in this function"))?;
            function.code[index].w = label.index as u32;
        }
        let (contract, number) = (function.contract, function.number);
        emit::function(&mut self.bytes, contract, number, &function.code);
        Ok(())
    }
}

impl OpenFunction<'_> {
    fn read(words: &mut Words) -> Result<Self, Error> {
        Ok(OpenFunction {
            contract: words.number("contract")?,
            number: words.number("function")?,
            code: Vec::new(),
            labels: BTreeMap::new(),
            jumps: Vec::new(),
        })
    }
}
