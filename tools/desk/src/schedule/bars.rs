//! The calls as bars in the rows of their workers.

use std::fmt::Write;

use super::scale::Band;
use super::{count, row_top, worker, Chart, ROW, STEP_ROOM};
use crate::markup::{Attributes, Markup};
use crate::svg::{self, Tenths};
use crate::trace::{Deed, Span, SpanEnd};
use crate::words;

/// Bars that the description lists.
const MOST_DESCRIBED: usize = 40;
/// Height of a bar.
const BAR: i64 = 20;
/// Where a bar begins in its row.
const ABOVE: i64 = (ROW - BAR) / 2;
/// Width of a character of a bar's name.
const CHARACTER: i64 = 8;
/// Width of the cross of a cancel, and of the narrowest bar that has one.
const CROSS: i64 = 8;

impl Chart<'_> {
    /// Draws what the workers do at the lines of a band.
    pub fn bars(&self, out: &mut Markup, band: &Band) {
        if !self.has_bars() {
            return self.busy(out, band);
        }
        for span in self.spans {
            if span.first <= band.last && span.last >= band.first {
                bar(out, band, span);
            }
        }
        if band.column() >= STEP_ROOM {
            self.steps(out, band);
            self.refused_moves(out, band);
        }
    }

    /// A dot in the bar for each step.
    fn steps(&self, out: &mut Markup, band: &Band) {
        let mut dots = String::new();
        for (line, done) in self.trace.accepted() {
            let stepped = matches!(done.deed, Deed::Stepped(_) | Deed::Finished(..));
            if stepped && band.holds(line) {
                let (x, y) = (band.middle(line), row_top(band, done.worker) + ROW - 8);
                write!(dots, "M{x} {y}h0.1").expect("a string takes all text");
            }
        }
        svg::path(out, "steps", &dots);
    }

    /// A small mark in the row of the worker that a refused move names.
    fn refused_moves(&self, out: &mut Markup, band: &Band) {
        let mut marks = String::new();
        for (line, chosen, _) in self.trace.refused() {
            let named = worker(chosen).filter(|_| band.holds(line));
            if let Some(worker) = named {
                let left = Tenths(band.middle(line).0 - 35);
                let y = row_top(band, worker) + ROW - 2;
                write!(marks, "M{left} {y}h7l-3.5 -5z").expect("a string takes all text");
            }
        }
        svg::path(out, "refused", &marks);
    }

    /// The pixels in which a worker holds a call, without single bars.
    fn busy(&self, out: &mut Markup, band: &Band) {
        let mut times: Vec<Vec<(i64, i64)>> = vec![Vec::new(); self.rows];
        for span in self.spans {
            let pixel = |line| band.start(line).0 / 10;
            let left = pixel(span.first);
            let right = pixel(span.last + 1).max(left + 1);
            match times[span.worker].last_mut() {
                Some(time) if time.1 >= left => time.1 = right,
                _ => times[span.worker].push((left, right)),
            }
        }
        let mut strokes = String::new();
        for (worker, times) in times.iter().enumerate() {
            let y = row_top(band, worker) + ROW / 2;
            for (left, right) in times {
                write!(strokes, "M{left} {y}h{}", right - left).expect("a string takes all text");
            }
        }
        svg::path(out, "busy", &strokes);
    }

    /// The picture in words: what each bar says.
    pub fn description(&self) -> String {
        if self.spans.is_empty() {
            return "No call is begun.".to_string();
        }
        let first = self.spans.iter().take(MOST_DESCRIBED);
        let mut sentences: Vec<String> = first.map(|span| told(span) + ".").collect();
        let more = self.spans.len().saturating_sub(MOST_DESCRIBED);
        if more > 0 {
            sentences.push(format!("And {}.", count(more, "bar more", "bars more")));
        }
        sentences.join(" ")
    }
}

/// Draws the part of a bar that stands in a band.
fn bar(out: &mut Markup, band: &Band, span: &Span) {
    let left = band.start(span.first.max(band.first));
    let width = Tenths(10.max(band.start(span.last.min(band.last) + 1).0 - left.0));
    let top = row_top(band, span.worker) + ABOVE;
    let class = format!("bar {}", class(span.end));
    let attributes: Attributes = &[
        ("class", &class),
        ("x", &left),
        ("y", &top),
        ("width", &width),
        ("height", &BAR),
        ("rx", &3),
    ];
    out.element("g", &[], |out| {
        out.leaf("title", &[], told(span));
        out.empty("rect", attributes);
        if let Some(name) = name_that_fits(span, width) {
            let (x, y) = (name_middle(span, left, width), Tenths::pixels(top + 12));
            svg::text(out, "name middle", x, y, name);
        }
        let cancelled_here = span.end == SpanEnd::Cancelled && band.holds(span.last);
        if cancelled_here && width >= Tenths::pixels(CROSS) {
            let x = Tenths(band.middle(span.last).0.min(left.0 + width.0 - 50));
            cross(out, x, top + BAR / 2);
        }
    });
}

/// Draws the cross of a cancel around a place.
pub fn cross(out: &mut Markup, x: Tenths, y: i64) {
    let corner = Tenths(x.0 - 5 * CROSS);
    let data = format!(
        "M{corner} {}l{CROSS} {CROSS}m0 -{CROSS}l-{CROSS} {CROSS}",
        y - CROSS / 2
    );
    svg::path(out, "cross", &data);
}

/// The class of a bar.
pub fn class(end: SpanEnd) -> String {
    match end {
        SpanEnd::Finished(receipt) => format!("outcome{}", receipt.outcome.number()),
        SpanEnd::Cancelled => "cancelled".to_string(),
        SpanEnd::Running => "running".to_string(),
    }
}

/// A span in words.
fn told(span: &Span) -> String {
    let (call, worker) = (span.call, span.worker);
    let (first, last) = (span.first, span.last);
    let steps = count(span.steps, "step", "steps");
    let end = match span.end {
        SpanEnd::Finished(receipt) => {
            let number = receipt.outcome.number();
            format!("outcome {number}, {}", words::outcome(number))
        }
        SpanEnd::Cancelled => "cancelled".to_string(),
        SpanEnd::Running => "not finished".to_string(),
    };
    format!("Call {call} on worker {worker}, lines {first} to {last}, {steps}: {end}")
}

/// The whole name of a bar: the call, and how it ended.
pub fn name(span: &Span) -> String {
    let call = span.call;
    match span.end {
        SpanEnd::Finished(receipt) => format!("{call}\u{2192}{}", receipt.outcome.number()),
        SpanEnd::Cancelled => call.to_string(),
        SpanEnd::Running => format!("{call}\u{2026}"),
    }
}

/// The longest name of a bar for which there is room.
fn name_that_fits(span: &Span, width: Tenths) -> Option<String> {
    let room = width.0 - cross_room(span).0;
    let fits = |name: &String| 10 * (name.chars().count() as i64 * CHARACTER + 3) <= room;
    [name(span), span.call.to_string()].into_iter().find(fits)
}

/// Where the name of a bar has its middle.
fn name_middle(span: &Span, left: Tenths, width: Tenths) -> Tenths {
    Tenths(left.0 + (width.0 - cross_room(span).0) / 2)
}

/// What the cross of a cancel takes from a bar.
fn cross_room(span: &Span) -> Tenths {
    match span.end {
        SpanEnd::Cancelled => Tenths::pixels(CROSS + 2),
        SpanEnd::Finished(_) | SpanEnd::Running => Tenths(0),
    }
}
