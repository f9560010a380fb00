//! Small helpers for drawing: lengths, and a picture with its title, its
//! description and its style.

use std::fmt;

use crate::markup::{Attributes, Markup};

/// A length or a place in tenths of a pixel, so that pictures are the same
/// bytes everywhere.
#[derive(Clone, Copy, Debug, Default, PartialEq, Eq, PartialOrd, Ord)]
pub struct Tenths(pub i64);

impl Tenths {
    /// A number of whole pixels.
    pub const fn pixels(pixels: i64) -> Tenths {
        Tenths(pixels * 10)
    }
}

impl fmt::Display for Tenths {
    fn fmt(&self, formatter: &mut fmt::Formatter) -> fmt::Result {
        let sign = if self.0 < 0 { "-" } else { "" };
        let (whole, tenth) = (self.0.abs() / 10, self.0.abs() % 10);
        match tenth {
            0 => write!(formatter, "{sign}{whole}"),
            _ => write!(formatter, "{sign}{whole}.{tenth}"),
        }
    }
}

/// What a picture says of itself.
#[derive(Clone, Copy, Debug)]
pub struct About<'a> {
    /// The name that its class and its ids begin with; pictures on one page
    /// have different names.
    pub name: &'static str,
    /// The title.
    pub title: &'a str,
    /// What can be seen, for readers who cannot see it.
    pub description: &'a str,
    /// The style of its classes.
    pub style: &'static str,
}

/// A picture of a size in pixels, drawn on its own ground.
pub fn picture(about: About, width: i64, height: i64, drawn: &Markup) -> Markup {
    let title_id = format!("{}-title", about.name);
    let description_id = format!("{}-description", about.name);
    let labels = format!("{title_id} {description_id}");
    let view = format!("0 0 {width} {height}");
    let attributes: Attributes = &[
        ("xmlns", &"http://www.w3.org/2000/svg"),
        ("class", &about.name),
        ("width", &width),
        ("height", &height),
        ("viewBox", &view),
        ("role", &"img"),
        ("aria-labelledby", &labels),
    ];
    let mut out = Markup::new();
    out.element("svg", attributes, |out| {
        out.leaf("title", &[("id", &title_id)], about.title);
        out.leaf("desc", &[("id", &description_id)], about.description);
        out.style(about.style);
        let ground: Attributes = &[
            ("class", &"ground"),
            ("width", &width),
            ("height", &height),
            ("rx", &6),
        ];
        out.empty("rect", ground);
        out.append(drawn);
    });
    out
}

/// Draws a text at a place, anchored as its class says.
pub fn text(out: &mut Markup, class: &str, x: Tenths, y: Tenths, words: impl fmt::Display) {
    let attributes: Attributes = &[("class", &class), ("x", &x), ("y", &y)];
    out.leaf("text", attributes, words);
}

/// Draws a rectangle.
pub fn rectangle(out: &mut Markup, class: &str, corner: (Tenths, Tenths), size: (Tenths, Tenths)) {
    let attributes: Attributes = &[
        ("class", &class),
        ("x", &corner.0),
        ("y", &corner.1),
        ("width", &size.0),
        ("height", &size.1),
    ];
    out.empty("rect", attributes);
}

/// Draws a path.
pub fn path(out: &mut Markup, class: &str, data: &str) {
    out.empty("path", &[("class", &class), ("d", &data)]);
}
