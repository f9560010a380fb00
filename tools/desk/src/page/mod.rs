//! One page of a day: the block in words, who waits for whom, what the workers
//! did, what was refused and why, and the closing sheet. The page is whole by
//! itself: it loads nothing and runs nothing.

mod block;
mod end;
mod run;
mod table;

use runner::console::{lines, refused_block};
use runner::limits::MAX_WORKERS;
use runner::machine::{open, Opened};

use crate::markup::{Attributes, Markup};
use crate::trace::{play, Span, Trace};
use crate::words::{self, Remark};

/// The namespace of a page's elements.
const XHTML: &str = "http://www.w3.org/1999/xhtml";

/// The page of a block and its moves. A refused block has a page too, which
/// says why it is refused.
pub fn html(title: &str, bytes: &[u8], moves: &[u8]) -> String {
    let main = match open(bytes, MAX_WORKERS) {
        Ok(opened) => Day::of(&opened, bytes, moves).draw(),
        Err(refusal) => {
            let why = words::refused_block(bytes).unwrap_or_default();
            refused(&why, &refused_block(refusal), lines(moves).count())
        }
    };
    let page = document(title, &main).into_string();
    format!("<!DOCTYPE html>\n{page}")
}

/// An accepted block with its run.
struct Day<'a> {
    opened: &'a Opened,
    trace: Trace<'a>,
    spans: Vec<Span>,
    /// The refused lines, and the refused sheet.
    remarks: Vec<Remark>,
}

impl<'a> Day<'a> {
    fn of(opened: &'a Opened, bytes: &[u8], moves: &[u8]) -> Day<'a> {
        let trace = play(opened, moves);
        Day {
            opened,
            spans: trace.spans(),
            trace,
            remarks: words::play(bytes, opened, moves).remarks,
        }
    }

    fn draw(&self) -> Markup {
        let parts: [Part<'_>; 7] = [
            ("glance", "The day at a glance", &|out| self.glance(out)),
            ("contracts", "The contracts in words", &|out| {
                self.contracts(out)
            }),
            ("calls", "The calls", &|out| self.calls(out)),
            ("order", "Who waits for whom", &|out| self.order(out)),
            ("moves", "The schedule", &|out| self.schedule(out)),
            ("refused", "Refused lines", &|out| self.refusals(out)),
            ("sheet", "The closing sheet", &|out| self.sheet(out)),
        ];
        let mut out = Markup::new();
        contents(&mut out, &parts);
        for part in &parts {
            section(&mut out, part);
        }
        out
    }
}

/// A section: its id, its heading and what writes it.
type Part<'a> = (&'static str, &'static str, &'a dyn Fn(&mut Markup));

/// The links to the sections.
fn contents(out: &mut Markup, parts: &[Part]) {
    out.element("nav", &[("aria-label", &"Contents")], |out| {
        out.element("ul", &[], |out| {
            for (id, heading, _) in parts {
                let target = format!("#{id}");
                out.element("li", &[], |out| {
                    out.leaf("a", &[("href", &target)], heading)
                });
            }
        });
    });
}

fn section(out: &mut Markup, (id, heading, write): &Part) {
    let label = format!("{id}-heading");
    out.element(
        "section",
        &[("id", id), ("aria-labelledby", &label)],
        |out| {
            out.leaf("h2", &[("id", &label)], heading);
            write(out);
        },
    );
}

/// The page of a refused block.
fn refused(why: &str, line: &str, moves: usize) -> Markup {
    let mut out = Markup::new();
    let part: Part = ("refusal", "The block is refused", &|out| {
        out.leaf("p", &[("class", &"alarm")], why);
        out.leaf(
            "p",
            &[],
            format_args!("REGISTER prints one line: {}", line.trim_end()),
        );
        out.leaf(
            "p",
            &[],
            format_args!("Nothing runs. Lines of moves that are not answered: {moves}."),
        );
    });
    section(&mut out, &part);
    out
}

/// The whole document around its main part.
fn document(title: &str, main: &Markup) -> Markup {
    let mut out = Markup::new();
    let page: Attributes = &[("lang", &"en"), ("xmlns", &XHTML)];
    out.element("html", page, |out| {
        out.element("head", &[], |out| {
            out.empty("meta", &[("charset", &"utf-8")]);
            let view = "width=device-width, initial-scale=1";
            out.empty("meta", &[("name", &"viewport"), ("content", &view)]);
            out.leaf("title", &[], title);
            out.style(include_str!("style.css"));
        });
        out.element("body", &[], |out| {
            out.element("header", &[], |out| out.leaf("h1", &[], title));
            out.element("main", &[], |out| out.append(main));
        });
    });
    out
}
