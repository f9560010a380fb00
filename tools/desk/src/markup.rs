//! Elements of XML and HTML. Whatever is written as text or as an attribute's
//! value is escaped here, so no other module writes a tag by hand.

use std::fmt::{Display, Write};

/// What stands for a character that XML cannot hold.
const NO_CHARACTER: char = '\u{fffd}';

/// The attributes of an element.
pub type Attributes<'a> = &'a [(&'a str, &'a dyn Display)];

/// Elements that are written one behind the other, each on a line of its own.
#[derive(Clone, Debug, Default)]
pub struct Markup(String);

impl Markup {
    /// Nothing written yet.
    pub fn new() -> Markup {
        Markup::default()
    }

    /// Writes an element with what the function writes inside it.
    pub fn element(&mut self, name: &str, attributes: Attributes, inside: impl FnOnce(&mut Self)) {
        self.tag(name, attributes);
        self.0.push_str(">\n");
        inside(self);
        self.close(name);
    }

    /// Writes an element that holds a text.
    pub fn leaf(&mut self, name: &str, attributes: Attributes, text: impl Display) {
        self.tag(name, attributes);
        self.0.push('>');
        push_escaped(&mut self.0, &text.to_string());
        self.close(name);
    }

    /// Writes an element that holds nothing.
    pub fn empty(&mut self, name: &str, attributes: Attributes) {
        self.tag(name, attributes);
        self.0.push_str("/>\n");
    }

    /// Writes a style sheet. It holds none of the characters that are escaped.
    pub fn style(&mut self, sheet: &'static str) {
        debug_assert!(!sheet.contains(['<', '&']));
        self.tag("style", &[]);
        self.0.push_str(">\n");
        self.0.push_str(sheet);
        self.close("style");
    }

    /// Writes markup that is whole by itself.
    pub fn append(&mut self, other: &Markup) {
        self.0.push_str(&other.0);
    }

    /// All that was written.
    pub fn into_string(self) -> String {
        self.0
    }

    fn tag(&mut self, name: &str, attributes: Attributes) {
        self.0.push('<');
        self.0.push_str(name);
        for (attribute, value) in attributes {
            write!(self.0, " {attribute}=\"").expect("a string takes all text");
            push_escaped(&mut self.0, &value.to_string());
            self.0.push('"');
        }
    }

    fn close(&mut self, name: &str) {
        writeln!(self.0, "</{name}>").expect("a string takes all text");
    }
}

/// A text with every character that has a meaning in XML or HTML escaped.
pub fn escaped(text: &str) -> String {
    let mut out = String::with_capacity(text.len());
    push_escaped(&mut out, text);
    out
}

fn push_escaped(out: &mut String, text: &str) {
    for character in text.chars() {
        match character {
            '&' => out.push_str("&amp;"),
            '<' => out.push_str("&lt;"),
            '>' => out.push_str("&gt;"),
            '"' => out.push_str("&quot;"),
            '\'' => out.push_str("&#39;"),
            '\t' | '\n' => out.push(character),
            '\u{fffe}' | '\u{ffff}' => out.push(NO_CHARACTER),
            control if control.is_control() => out.push(NO_CHARACTER),
            plain => out.push(plain),
        }
    }
}
