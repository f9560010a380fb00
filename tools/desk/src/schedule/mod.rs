//! A picture of a run: workers against the lines of the moves.

mod bars;
mod legend;
mod refusals;
mod scale;

use runner::limits::MAX_WORKERS;
use runner::machine::{open, Move};

use crate::markup::{Attributes, Markup};
use crate::svg::{self, About, Tenths};
use crate::trace::{play, Span, Trace};
use crate::words;
use refusals::Lanes;
use scale::{Band, LEFT, MOST_WIDTH};

/// Where the first band begins, below the heading.
const TOP: i64 = 40;
/// Height of the numbers of lines.
const AXIS: i64 = 26;
/// Height of a worker's row.
const ROW: i64 = 30;
/// Room between the parts of the picture and at its sides.
const GAP: i64 = 14;
/// Least width of the picture, so that heading and legend have room.
const LEAST_WIDTH: i64 = 760;
/// Beyond so many bars only the busy time of the workers is drawn.
const MOST_BARS: usize = 1_000;
/// The width that bars have on average, if there is room for it.
const WANTED_BAR: usize = 48;
/// Most rows of all bands together, if there is more than one.
const MOST_ROWS: usize = 32;
/// Most bands.
const MOST_BANDS: usize = 10;
/// Columns of this width show single steps.
const STEP_ROOM: Tenths = Tenths::pixels(5);

/// Draws the schedule of a block run with moves. A refused block has none; the
/// answer then says why it is refused.
pub fn svg(bytes: &[u8], moves: &[u8]) -> Result<String, String> {
    let Ok(opened) = open(bytes, MAX_WORKERS) else {
        return Err(words::refused_block(bytes).unwrap_or_default());
    };
    Ok(markup(&play(&opened, moves)).into_string())
}

/// Draws the schedule of a trace.
pub fn markup(trace: &Trace) -> Markup {
    let spans = trace.spans();
    let chart = Chart {
        rows: rows(trace, &spans),
        trace,
        spans: &spans,
    };
    chart.draw()
}

/// How many workers have a row: those up to the last that begins a call, and in
/// a short run those that a refused move names.
fn rows(trace: &Trace, spans: &[Span]) -> usize {
    let short = STEP_ROOM.0 * trace.lines.len() as i64 <= 10 * MOST_WIDTH;
    let refused = trace.refused().filter(|_| short);
    let named = refused.filter_map(|(_, chosen, _)| worker(chosen));
    let begun = spans.iter().map(|span| span.worker);
    begun.chain(named).max().map_or(1, |last| last + 1)
}

/// The worker that a move names, if there is such a one.
fn worker(chosen: Option<Move>) -> Option<usize> {
    match chosen? {
        Move::Begin { worker, .. } | Move::Step { worker } | Move::Cancel { worker } => {
            Some(worker).filter(|worker| *worker < MAX_WORKERS)
        }
    }
}

struct Chart<'a> {
    rows: usize,
    trace: &'a Trace<'a>,
    spans: &'a [Span],
}

impl Chart<'_> {
    fn draw(&self) -> Markup {
        let mut out = Markup::new();
        hatch(&mut out);
        let title = self.title();
        let left = Tenths::pixels(GAP);
        svg::text(&mut out, "heading", left, Tenths::pixels(26), &title);
        let mut bands = Band::cut(self.trace.lines.len(), self.bands());
        let width = LEAST_WIDTH.max(bands[0].right() + 2 * GAP);
        let mut bottom = TOP;
        for band in &mut bands {
            band.top = bottom + AXIS;
            bottom = self.band(&mut out, band) + GAP;
        }
        let height = self.legend(&mut out, &bands, bottom + GAP / 2);
        let description = self.description();
        let about = About {
            name: "schedule",
            title: &title,
            description: &description,
            style: include_str!("style.css"),
        };
        svg::picture(about, width, height, &out)
    }

    fn title(&self) -> String {
        let lines = count(self.trace.lines.len(), "line", "lines");
        let begins = count(self.spans.len(), "begin", "begins");
        format!("Schedule: {lines} of moves, {begins}")
    }

    /// How many bands give bars of the wanted width, as far as there is room.
    fn bands(&self) -> usize {
        if !self.has_bars() {
            return 1;
        }
        let length = |span: &Span| span.last - span.first + 1;
        let held: usize = self.spans.iter().map(length).sum();
        let lines = self.trace.lines.len();
        let wanted = lines * WANTED_BAR * self.spans.len() / held.max(1);
        let most = (MOST_ROWS / self.rows).clamp(1, MOST_BANDS);
        wanted.div_ceil(MOST_WIDTH as usize).clamp(1, most)
    }

    /// Whether each bar is drawn.
    fn has_bars(&self) -> bool {
        self.spans.len() <= MOST_BARS
    }

    /// Draws a band and answers where it ends.
    fn band(&self, out: &mut Markup, band: &Band) -> i64 {
        self.ground(out, band);
        let lanes = Lanes::of(self.trace, band, row_top(band, self.rows) + GAP / 2);
        let bottom = lanes.bottom();
        band.axis(out, bottom);
        self.bars(out, band);
        lanes.draw(out, band);
        bottom
    }

    /// The rows with the workers' names.
    fn ground(&self, out: &mut Markup, band: &Band) {
        let left = Tenths::pixels(LEFT);
        let width = Tenths(band.start(band.last + 1).0 - left.0);
        for worker in 0..self.rows {
            let top = row_top(band, worker);
            let size = (width, Tenths::pixels(ROW - 4));
            svg::rectangle(out, "row", (left, Tenths::pixels(top + 2)), size);
            let (x, y) = (Tenths(left.0 - 100), Tenths::pixels(top + ROW / 2 + 4));
            svg::text(out, "right", x, y, format_args!("worker {worker}"));
        }
    }
}

/// Where the row of a worker begins.
fn row_top(band: &Band, worker: usize) -> i64 {
    band.top + ROW * worker as i64
}

/// The pattern of cancelled calls.
fn hatch(out: &mut Markup) {
    let attributes: Attributes = &[
        ("id", &"schedule-hatch"),
        ("width", &6),
        ("height", &6),
        ("patternUnits", &"userSpaceOnUse"),
        ("patternTransform", &"rotate(45)"),
    ];
    out.element("pattern", attributes, |out| {
        let size = Tenths::pixels(6);
        svg::rectangle(out, "hatch", (Tenths(0), Tenths(0)), (size, size));
        svg::path(out, "hatching", "M1 0v6");
    });
}

/// A number with its noun.
fn count(number: usize, one: &str, many: &str) -> String {
    format!("{number} {}", if number == 1 { one } else { many })
}
