//! What the colours and marks of a schedule mean.

use runner::execute::Outcome;

use super::scale::Band;
use super::{bars, count, Chart, GAP, STEP_ROOM};
use crate::markup::{Attributes, Markup};
use crate::svg::{self, Tenths};
use crate::trace::{Span, SpanEnd};
use crate::words;

/// Height of a line of the legend.
const LINE: i64 = 20;
/// Size of the sample before its words.
const SAMPLE: (i64, i64) = (26, 12);
/// Where the words begin.
const WORDS: i64 = GAP + 44;

/// What a line of the legend shows before its words.
enum Sample {
    /// A bar of this class.
    Bar(String),
    /// The name of a bar.
    Name(String),
    /// A hatched bar with its cross.
    Cancelled,
    /// A piece of a busy time.
    Busy,
    /// A dot.
    Step,
    /// A red mark.
    Refused,
    /// Nothing.
    None,
}

impl Chart<'_> {
    /// Draws the legend from a height on and answers where it ends.
    pub fn legend(&self, out: &mut Markup, bands: &[Band], top: i64) -> i64 {
        let items = self.items(bands);
        for (line, (sample, words)) in (0..).zip(&items) {
            let top = top + LINE * line;
            draw_sample(out, sample, top + 2);
            let (x, y) = (Tenths::pixels(WORDS), Tenths::pixels(top + 13));
            svg::text(out, "words", x, y, words);
        }
        top + LINE * items.len() as i64 + GAP / 2
    }

    fn items(&self, bands: &[Band]) -> Vec<(Sample, String)> {
        if self.trace.lines.is_empty() {
            return vec![(Sample::None, "There are no moves.".to_string())];
        }
        let mut items = if self.has_bars() {
            self.bar_items()
        } else {
            let words = format!("busy ({} bars are too many to draw)", self.spans.len());
            vec![(Sample::Busy, words)]
        };
        let steps = self.has_bars() && bands[0].column() >= STEP_ROOM;
        if steps && !self.spans.is_empty() {
            items.push((Sample::Step, "a step of the call".to_string()));
        }
        let refused = self.trace.refused().count();
        if refused > 0 {
            let lines = count(refused, "refused line", "refused lines");
            let words = format!("{lines}, by the number of the refusal");
            items.push((Sample::Refused, words));
        }
        items
    }

    /// The kinds of bars that occur.
    fn bar_items(&self) -> Vec<(Sample, String)> {
        let finished = |span: &&Span| matches!(span.end, SpanEnd::Finished(_));
        let example = self.spans.iter().find(finished).map(named);
        let outcomes = (0..=Outcome::LAST.number()).filter_map(|number| self.outcome_item(number));
        let mut items: Vec<_> = example.into_iter().chain(outcomes).collect();
        let cancelled = self.ended(|end| end == SpanEnd::Cancelled);
        if cancelled > 0 {
            let times = count(cancelled, "time", "times");
            let words = format!("cancelled at the cross: the call waits again ({times})");
            items.push((Sample::Cancelled, words));
        }
        let running = self.ended(|end| end == SpanEnd::Running);
        if running > 0 {
            let calls = count(running, "call", "calls");
            let words = format!("not finished when the moves end ({calls})");
            items.push((Sample::Bar(bars::class(SpanEnd::Running)), words));
        }
        items
    }

    fn outcome_item(&self, number: u16) -> Option<(Sample, String)> {
        let ended = self.ended(|end| match end {
            SpanEnd::Finished(receipt) => receipt.outcome.number() == number,
            SpanEnd::Cancelled | SpanEnd::Running => false,
        });
        let calls = count(ended, "call", "calls");
        let words = format!("outcome {number}: {} ({calls})", words::outcome(number));
        (ended > 0).then(|| (Sample::Bar(format!("outcome{number}")), words))
    }

    /// How many spans ended in a way.
    fn ended(&self, way: impl Fn(SpanEnd) -> bool) -> usize {
        self.spans.iter().filter(|span| way(span.end)).count()
    }
}

/// How the name of a bar is read, by that of a finished call.
fn named(span: &Span) -> (Sample, String) {
    let name = bars::name(span);
    let end = bars::class(span.end).replace("outcome", "outcome ");
    let words = format!("in a bar: call {} ends with {end}", span.call);
    (Sample::Name(name), words)
}

fn draw_sample(out: &mut Markup, sample: &Sample, y: i64) {
    let middle = Tenths::pixels(GAP + SAMPLE.0 / 2);
    match sample {
        Sample::Bar(class) => sample_bar(out, class, y),
        Sample::Name(name) => svg::text(out, "name middle", middle, Tenths::pixels(y + 10), name),
        Sample::Cancelled => {
            sample_bar(out, &bars::class(SpanEnd::Cancelled), y);
            bars::cross(out, middle, y + SAMPLE.1 / 2);
        }
        Sample::Busy => svg::path(
            out,
            "busy sample",
            &format!("M{GAP} {}h{}", y + 6, SAMPLE.0),
        ),
        Sample::Step => svg::path(out, "steps", &format!("M{middle} {}h0.1", y + 6)),
        Sample::Refused => {
            let corner = (Tenths(middle.0 - 60), Tenths::pixels(y));
            let size = (Tenths::pixels(12), Tenths::pixels(SAMPLE.1));
            svg::rectangle(out, "refused", corner, size);
        }
        Sample::None => {}
    }
}

fn sample_bar(out: &mut Markup, class: &str, y: i64) {
    let class = format!("bar {class}");
    let attributes: Attributes = &[
        ("class", &class),
        ("x", &GAP),
        ("y", &y),
        ("width", &SAMPLE.0),
        ("height", &SAMPLE.1),
        ("rx", &3),
    ];
    out.empty("rect", attributes);
}
