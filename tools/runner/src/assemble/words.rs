//! The words of one line, each with its place.

use super::Error;
use crate::code::{SOURCE_CONSTANT, SOURCE_SENDER, SOURCE_ZERO};
use crate::limits::{ARGUMENTS, REGISTERS};

/// What divides words.
const SPACES: [char; 2] = [' ', '\t'];

/// A place in a text: line and column, both from 1.
#[derive(Clone, Copy, Debug, PartialEq, Eq)]
pub struct Place {
    pub line: usize,
    pub column: usize,
}

impl Place {
    /// The place behind some characters of a line.
    pub fn behind(line: usize, before: &str) -> Place {
        Place {
            line,
            column: before.chars().count() + 1,
        }
    }

    /// What is wrong here.
    pub fn error(self, message: impl Into<String>) -> Error {
        Error {
            line: self.line,
            column: self.column,
            message: message.into(),
        }
    }
}

/// A word of a text.
#[derive(Clone, Copy, Debug)]
pub struct Word<'a> {
    pub text: &'a str,
    pub place: Place,
}

impl Word<'_> {
    /// What is wrong with this word, which was read as a part with a name.
    pub fn error(&self, name: &str, message: impl Into<String>) -> Error {
        let shown = self.text.escape_debug();
        self.place
            .error(format!("{name} {shown}: {}", message.into()))
    }

    /// Whether the word is meant as a number.
    pub fn looks_like_number(&self) -> bool {
        self.text
            .starts_with(|first: char| first == '-' || first.is_ascii_digit())
    }

    /// The word as a decimal number.
    pub fn number<T: Number>(&self, name: &str) -> Result<T, Error> {
        let number = decimal(self.text).and_then(|number| T::try_from(number).ok());
        number.ok_or_else(|| {
            let (least, most) = (T::LEAST, T::MOST);
            self.error(name, format!("not a number from {least} to {most}"))
        })
    }

    /// The values of hexadecimal digits.
    fn hexadecimal(&self) -> Result<Vec<u32>, Error> {
        let Place { line, column } = self.place;
        let value = |(index, digit): (usize, char)| {
            let column = column + index;
            let message = format!("digit {}: not hexadecimal", digit.escape_debug());
            let value = digit.to_digit(16);
            value.ok_or_else(|| Place { line, column }.error(message))
        };
        self.text.chars().enumerate().map(value).collect()
    }

    /// The index in a list of the name that the word is.
    fn index_among(&self, names: impl IntoIterator<Item = String>) -> Option<u8> {
        let found = names.into_iter().position(|name| name == self.text);
        found.map(|index| index as u8)
    }

    /// The number of the argument that the word names, from 1.
    fn argument(&self) -> Option<u8> {
        let found = self.index_among((1..=ARGUMENTS).map(|number| format!("arg{number}")));
        found.map(|index| index + 1)
    }
}

/// A source as it is written.
pub struct SourceWord {
    /// Its number.
    pub number: u8,
    /// Its constant, if it is one.
    pub constant: Option<u16>,
    /// Where it begins.
    pub place: Place,
}

/// The words of a line that are not yet taken.
pub struct Words<'a> {
    line: usize,
    text: &'a str,
    /// How many bytes of the text are taken.
    taken: usize,
}

impl<'a> Words<'a> {
    /// The words of a line.
    pub fn new(line: usize, text: &'a str) -> Words<'a> {
        Words {
            line,
            text,
            taken: 0,
        }
    }

    /// The next word, if there is one.
    pub fn optional(&mut self) -> Option<Word<'a>> {
        let rest = self.text[self.taken..].trim_start_matches(SPACES);
        let length = rest.find(SPACES).unwrap_or(rest.len());
        if length == 0 {
            return None;
        }
        let start = self.text.len() - rest.len();
        self.taken = start + length;
        Some(Word {
            text: &rest[..length],
            place: Place::behind(self.line, &self.text[..start]),
        })
    }

    /// The next word.
    pub fn word(&mut self, name: &str) -> Result<Word<'a>, Error> {
        self.optional()
            .ok_or_else(|| self.here().error(format!("{name} is missing")))
    }

    /// The next word as a decimal number.
    pub fn number<T: Number>(&mut self, name: &str) -> Result<T, Error> {
        self.word(name)?.number(name)
    }

    /// The next word as a register, `r0` to `r7`.
    pub fn register(&mut self) -> Result<u8, Error> {
        let word = self.word("register")?;
        let found = word.index_among((0..REGISTERS).map(|number| format!("r{number}")));
        found.ok_or_else(|| word.error("register", "there are r0 to r7"))
    }

    /// The next word as an argument, `arg1` to `arg4`.
    pub fn argument(&mut self) -> Result<u8, Error> {
        let word = self.word("argument")?;
        let found = word.argument();
        found.ok_or_else(|| word.error("argument", "there are arg1 to arg4"))
    }

    /// The next source.
    pub fn source(&mut self) -> Result<SourceWord, Error> {
        let word = self.word("source")?;
        let (number, constant) = match word.text {
            "zero" => (SOURCE_ZERO, None),
            "sender" => (SOURCE_SENDER, None),
            "const" => (SOURCE_CONSTANT, Some(self.number("constant")?)),
            _ => match word.argument() {
                Some(number) => (number, None),
                None => {
                    let sources = "there are zero, arg1 to arg4, sender and const NUMBER";
                    return Err(word.error("source", sources));
                }
            },
        };
        Ok(SourceWord {
            number,
            constant,
            place: word.place,
        })
    }

    /// All other words as hexadecimal bytes, two digits each.
    pub fn hexadecimal(&mut self) -> Result<Vec<u8>, Error> {
        let mut digits = Vec::new();
        while let Some(word) = self.optional() {
            digits.extend(word.hexadecimal()?);
        }
        if digits.len() % 2 != 0 {
            return Err(self.here().error("the second digit of a byte is missing"));
        }
        let byte = |pair: &[u32]| (pair[0] * 16 + pair[1]) as u8;
        Ok(digits.chunks_exact(2).map(byte).collect())
    }

    /// Tests that no word is left.
    pub fn finish(&mut self) -> Result<(), Error> {
        match self.optional() {
            None => Ok(()),
            Some(word) => Err(word.error("word", "one too many")),
        }
    }

    /// The place behind the words that are taken.
    fn here(&self) -> Place {
        Place::behind(self.line, &self.text[..self.taken])
    }
}

/// A type of numbers in a text, with its range.
pub trait Number: TryFrom<i128> {
    const LEAST: i128;
    const MOST: i128;
}

macro_rules! numbers {
    ($($number:ty),*) => {
        $(impl Number for $number {
            const LEAST: i128 = <$number>::MIN as i128;
            const MOST: i128 = <$number>::MAX as i128;
        })*
    };
}

numbers!(u8, u16, u32, i32, i64);

/// The number of decimal digits behind a minus sign or none. One that 128 bits
/// do not hold is in no part's range.
fn decimal(text: &str) -> Option<i128> {
    let digits = text.strip_prefix('-').unwrap_or(text);
    let all_digits = digits.bytes().all(|byte| byte.is_ascii_digit());
    all_digits.then(|| text.parse().ok()).flatten()
}
