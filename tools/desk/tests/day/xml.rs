//! A small test of whether a text is well-formed XML, as far as pictures and
//! pages use it.

use std::collections::BTreeSet;

const ENTITIES: [&str; 5] = ["amp;", "lt;", "gt;", "quot;", "#39;"];

/// The elements of a well-formed text, by name in the order they begin.
pub fn elements(text: &str) -> Result<Vec<String>, String> {
    let mut reader = Reader {
        rest: text.strip_prefix("<!DOCTYPE html>\n").unwrap_or(text),
        open: Vec::new(),
        seen: Vec::new(),
    };
    if let Some(bad) = text.chars().find(|character| !allowed(*character)) {
        return Err(format!("the character {bad:?}"));
    }
    while !reader.rest.is_empty() {
        reader.item()?;
    }
    match reader.open.as_slice() {
        [] => Ok(reader.seen),
        open => Err(format!("{open:?} are not closed")),
    }
}

fn allowed(character: char) -> bool {
    let low = character < ' ' && !matches!(character, '\t' | '\n');
    !low && !matches!(character, '\u{fffe}' | '\u{ffff}')
}

struct Reader<'a> {
    rest: &'a str,
    open: Vec<String>,
    seen: Vec<String>,
}

impl<'a> Reader<'a> {
    fn item(&mut self) -> Result<(), String> {
        if let Some(rest) = self.rest.strip_prefix("</") {
            let (name, rest) = rest.split_once('>').ok_or("a tag without end")?;
            self.rest = rest;
            return match self.open.pop() {
                Some(open) if open == name => Ok(()),
                open => Err(format!("{name} closes {open:?}")),
            };
        }
        if let Some(rest) = self.rest.strip_prefix('<') {
            self.rest = rest;
            return self.tag();
        }
        let end = self.rest.find('<').unwrap_or(self.rest.len());
        let (text, rest) = self.rest.split_at(end);
        self.rest = rest;
        if self.open.is_empty() && !text.trim().is_empty() {
            return Err(format!("{text} outside of all elements"));
        }
        escaped(text)
    }

    /// Reads a tag behind its first character.
    fn tag(&mut self) -> Result<(), String> {
        let name = self.word();
        if self.open.is_empty() && !self.seen.is_empty() {
            return Err(format!("{name} behind the end"));
        }
        let mut attributes = BTreeSet::new();
        while let Some(rest) = self.rest.strip_prefix(' ') {
            self.rest = rest;
            let attribute = self.word();
            let value = self.rest.strip_prefix("=\"").ok_or("no value")?;
            let (value, rest) = value.split_once('"').ok_or("a value without end")?;
            self.rest = rest;
            escaped(value)?;
            if value.contains('<') || !attributes.insert(attribute.to_string()) {
                return Err(format!("{attribute} of {name}"));
            }
        }
        self.seen.push(name.to_string());
        if let Some(rest) = self.rest.strip_prefix("/>") {
            self.rest = rest;
        } else {
            self.rest = self.rest.strip_prefix('>').ok_or("a tag without end")?;
            self.open.push(name.to_string());
        }
        Ok(())
    }

    fn word(&mut self) -> &'a str {
        let letter =
            |character: char| character.is_ascii_alphanumeric() || "-:".contains(character);
        let end = self.rest.find(|character| !letter(character));
        let (word, rest) = self.rest.split_at(end.unwrap_or(self.rest.len()));
        self.rest = rest;
        word
    }
}

/// Each & begins one of the entities.
fn escaped(text: &str) -> Result<(), String> {
    for part in text.split('&').skip(1) {
        if !ENTITIES.iter().any(|entity| part.starts_with(entity)) {
            return Err(format!("& before {part}"));
        }
    }
    Ok(())
}

#[test]
fn tells_well_formed_texts_from_others() {
    assert_eq!(elements("<a b=\"1\"><c/>&lt;</a>\n").unwrap(), ["a", "c"]);
    for bad in [
        "<a>",
        "<a></b>",
        "<a b=1/>",
        "<a b=\"1\" b=\"2\"/>",
        "<a>&</a>",
        "<a/><b/>",
        "<a/>x",
        "<a>\u{1}</a>",
        "<a b=\"<\"/>",
    ] {
        assert!(elements(bad).is_err(), "{bad}");
    }
}
