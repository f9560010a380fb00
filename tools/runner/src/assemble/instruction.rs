//! One instruction line.

use super::words::{Word, Words};
use super::Error;
use crate::code::{op, Parts, MNEMONICS};

/// The name of the line that gives an instruction's five parts as they are.
const WORD: &str = "word";

/// What the part w of an instruction is.
pub enum Target<'a> {
    /// The number that already stands there.
    Given,
    /// The place of a label of the function.
    Label(Word<'a>),
}

/// Reads the instruction of a mnemonic.
pub fn read<'a>(mnemonic: Word<'a>, words: &mut Words<'a>) -> Result<(Parts, Target<'a>), Error> {
    if mnemonic.text == WORD {
        return Ok((parts(words)?, Target::Given));
    }
    let found = MNEMONICS.iter().position(|name| *name == mnemonic.text);
    let number = found.ok_or_else(|| mnemonic.error("word", "no item and no instruction"))?;
    let mut parts = Parts {
        op: number as u8,
        ..Parts::default()
    };
    let target = operands(&mut parts, words)?;
    Ok((parts, target))
}

/// Reads `OP X Y Z W` as numbers.
fn parts(words: &mut Words) -> Result<Parts, Error> {
    Ok(Parts {
        op: words.number("op")?,
        x: words.number("x")?,
        y: words.number("y")?,
        z: words.number("z")?,
        w: words.number("w")?,
    })
}

fn operands<'a>(parts: &mut Parts, words: &mut Words<'a>) -> Result<Target<'a>, Error> {
    match parts.op {
        op::STOP | op::THROW => {}
        op::SET => {
            parts.x = words.register()?;
            parts.w = words.number::<i32>("constant")? as u32;
        }
        op::ARG => {
            parts.x = words.register()?;
            parts.y = words.argument()?;
        }
        op::SENDER | op::VALUE | op::BAL => parts.x = words.register()?,
        op::ADD | op::SUB | op::MUL | op::DIV => {
            parts.x = words.register()?;
            parts.y = words.register()?;
            parts.z = words.register()?;
        }
        op::GET | op::PUT => cell_access(parts, words)?,
        op::PAY => {
            parts.x = words.register()?;
            let target = words.source()?;
            parts.y = target.number;
            parts.w = high(target.constant.unwrap_or(0));
        }
        _ => return jump(parts, words),
    }
    Ok(Target::Given)
}

/// Reads register, field, and the sources of a and b.
fn cell_access(parts: &mut Parts, words: &mut Words) -> Result<(), Error> {
    parts.x = words.register()?;
    let field: u16 = words.number("field")?;
    let (a, b) = (words.source()?, words.source()?);
    let constant = match (a.constant, b.constant) {
        (Some(first), Some(second)) if first != second => {
            let message = format!("constant {second}: an instruction has one, here {first}");
            return Err(b.place.error(message));
        }
        (first, second) => first.or(second).unwrap_or(0),
    };
    (parts.y, parts.z) = (a.number, b.number);
    parts.w = high(constant) | u32::from(field);
    Ok(())
}

fn jump<'a>(parts: &mut Parts, words: &mut Words<'a>) -> Result<Target<'a>, Error> {
    parts.x = words.register()?;
    parts.y = words.register()?;
    let target = words.word("target")?;
    if target.looks_like_number() {
        parts.w = target.number("target")?;
        Ok(Target::Given)
    } else {
        Ok(Target::Label(target))
    }
}

/// A constant as the upper half of w.
fn high(constant: u16) -> u32 {
    u32::from(constant) << 16
}
