//! What in a line keeps it from being a move.

use runner::limits::MAX_DIGITS;

/// Why a line is in no form.
#[derive(Clone, Debug, PartialEq, Eq)]
pub struct LineFault {
    /// The byte that is wrong, counted from 1. Of a missing part it is the one
    /// behind the line's last.
    pub column: usize,
    /// What is wrong with it.
    pub reason: String,
}

/// The first fault of a line, or `None` if it is a move, accepted or not.
pub fn fault(line: &[u8]) -> Option<LineFault> {
    Scan { line, at: 0 }.line().err()
}

/// A line and how far it is read.
struct Scan<'a> {
    line: &'a [u8],
    at: usize,
}

impl Scan<'_> {
    fn line(&mut self) -> Result<(), LineFault> {
        let numbers: &[&str] = match self.peek() {
            None => return Err(self.wrong("the line is empty")),
            Some(b'b') => &["worker", "call"],
            Some(b's' | b'c') => &["worker"],
            Some(byte) => return Err(self.wrong(no_letter(byte))),
        };
        self.at += 1;
        for name in numbers {
            self.space(name)?;
            self.number(name)?;
        }
        match self.peek() {
            None => Ok(()),
            Some(b' ') if self.at + 1 == self.line.len() => {
                Err(self.wrong("a space at the end of the line"))
            }
            Some(b' ') => Err(self.wrong("one part too many")),
            Some(byte) => Err(self.wrong(byte_words(byte))),
        }
    }

    /// Takes the space before a number.
    fn space(&mut self, name: &str) -> Result<(), LineFault> {
        match self.peek() {
            Some(b' ') => {
                self.at += 1;
                Ok(())
            }
            None => Err(self.wrong(format!("the {name} is missing"))),
            Some(byte) => Err(self.wrong(byte_words(byte))),
        }
    }

    /// Takes a number of one to five digits.
    fn number(&mut self, name: &str) -> Result<(), LineFault> {
        let rest = &self.line[self.at..];
        let digits = rest.iter().take_while(|byte| byte.is_ascii_digit()).count();
        if digits > MAX_DIGITS {
            let reason = format!("a number of {digits} digits; at most {MAX_DIGITS} are one");
            return Err(self.wrong(reason));
        }
        if digits == 0 {
            return Err(match self.peek() {
                None => self.wrong(format!("the {name} is missing behind the space")),
                Some(b' ') => self.wrong("two spaces; one divides the parts"),
                Some(byte) => self.wrong(byte_words(byte)),
            });
        }
        self.at += digits;
        Ok(())
    }

    fn peek(&self) -> Option<u8> {
        self.line.get(self.at).copied()
    }

    /// What is wrong at the next byte.
    fn wrong(&self, reason: impl Into<String>) -> LineFault {
        LineFault {
            column: self.at + 1,
            reason: reason.into(),
        }
    }
}

/// A first byte that is no move's letter.
fn no_letter(byte: u8) -> String {
    match byte {
        b'B' | b'S' | b'C' => format!("a capital {}; moves are b, s and c", char::from(byte)),
        b' ' => "a space before the move".to_string(),
        _ if byte.is_ascii_graphic() => {
            format!("unknown letter {}; moves are b, s and c", char::from(byte))
        }
        _ => byte_words(byte),
    }
}

/// A byte that has no place in a line, or not here.
fn byte_words(byte: u8) -> String {
    match byte {
        b'\r' => "a carriage return; a line ends in a line feed alone".to_string(),
        b'\t' => "a tab; one space divides the parts".to_string(),
        b'+' | b'-' => "a sign; numbers are of digits alone".to_string(),
        _ if byte.is_ascii_graphic() => {
            format!("{} where a space or a number is due", char::from(byte))
        }
        _ => format!("byte {byte:#04x}, which has no place in a move"),
    }
}
