//! All pairs of calls as a matrix: a row for each call, a column for each
//! earlier one.

use std::fmt::Write;

use runner::block::Block;

use super::order::{Arrow, Order};
use super::{function_name, title, Drawing};
use crate::markup::{Attributes, Markup};
use crate::svg::{self, Tenths};

/// Where the matrix begins.
const TOP: i64 = 62;
/// Room at the right and below.
const SIDE: i64 = 16;
/// Up to so many calls each row has a name.
const MOST_NAMED: usize = 96;
/// Side of a cell where rows have names.
const LARGE: i64 = 12;
/// Side of a cell in larger matrices.
const SMALL: i64 = 4;
/// From one call with a number to the next.
const STEP: usize = 8;
/// Least width of the picture, so that heading and legend have room.
const LEAST_WIDTH: i64 = 680;

/// Width of the legend.
const LEGEND: i64 = 330;

/// Draws the matrix of a block.
pub fn draw(block: &Block, order: &Order) -> Drawing {
    let calls = order.layers.len();
    let named = calls <= MOST_NAMED;
    let matrix = Matrix {
        left: if named { 130 } else { 56 },
        side: if named { LARGE } else { SMALL },
        calls,
    };
    let mut out = Markup::new();
    let heading = Tenths::pixels(SIDE);
    svg::text(
        &mut out,
        "heading",
        heading,
        Tenths::pixels(26),
        title(order),
    );
    matrix.grid(&mut out);
    matrix.numbers(&mut out);
    if named {
        matrix.names(&mut out, block);
    }
    for (class, implied) in [("implied-pairs", true), ("pairs", false)] {
        let wanted = order.arrows.iter().filter(|arrow| arrow.implied == implied);
        matrix.pairs(&mut out, class, wanted);
    }
    matrix.legend(&mut out, order);
    Drawing {
        markup: out,
        width: LEAST_WIDTH.max(matrix.left + matrix.size() + SIDE),
        height: TOP + matrix.size() + SIDE,
    }
}

struct Matrix {
    left: i64,
    /// Side of a cell.
    side: i64,
    calls: usize,
}

impl Matrix {
    fn size(&self) -> i64 {
        self.side * self.calls as i64
    }

    /// The place of a call's row or column, from the matrix' begin.
    fn place(&self, call: usize) -> i64 {
        self.side * call as i64
    }

    /// Lines at every call that has a number, up to the diagonal, and the
    /// diagonal.
    fn grid(&self, out: &mut Markup) {
        let (left, size) = (self.left, self.size());
        let mut lines = String::new();
        for call in (0..self.calls).step_by(STEP) {
            let place = self.place(call);
            write!(
                lines,
                "M{left} {}h{place}M{} {}V{}",
                TOP + place,
                left + place,
                TOP + place,
                TOP + size
            )
            .expect("a string takes all text");
        }
        svg::path(out, "grid", &lines);
        svg::path(out, "diagonal", &format!("M{left} {TOP}l{size} {size}"));
    }

    /// The numbers of the columns along the diagonal's upper side, and those of
    /// the rows if they have no names.
    fn numbers(&self, out: &mut Markup) {
        for call in (0..self.calls).step_by(STEP) {
            let (x, y) = (self.left + self.place(call), TOP + self.place(call));
            svg::text(
                out,
                "small",
                Tenths::pixels(x + 8),
                Tenths::pixels(y + 4),
                call,
            );
            if self.side == SMALL {
                let x = Tenths::pixels(self.left - 6);
                svg::text(out, "small right", x, Tenths::pixels(y + 6), call);
            }
        }
    }

    fn names(&self, out: &mut Markup, block: &Block) {
        for call in 0..self.calls {
            let y = Tenths::pixels(TOP + self.place(call) + 10);
            let x = Tenths::pixels(self.left - 6);
            svg::text(out, "small right", x, y, function_name(block, call));
            svg::text(out, "small right", Tenths::pixels(32), y, call);
        }
    }

    /// The cells of some pairs, those beside each other in one stroke.
    fn pairs<'a>(&self, out: &mut Markup, class: &str, pairs: impl Iterator<Item = &'a Arrow>) {
        let pairs: Vec<&Arrow> = pairs.collect();
        let beside = |one: &&Arrow, next: &&Arrow| one.to == next.to && one.from + 1 == next.from;
        let mut data = String::new();
        for run in pairs.chunk_by(beside) {
            let x = self.left + self.place(run[0].from);
            let y = TOP + self.place(run[0].to) + self.side / 2;
            let width = self.place(run.len());
            write!(data, "M{x} {y}h{width}").expect("a string takes all text");
        }
        strokes(out, class, self.side, &data);
    }

    /// The legend, in the empty half above the diagonal.
    fn legend(&self, out: &mut Markup, order: &Order) {
        let x = (self.left + self.size()).max(LEAST_WIDTH - SIDE) - LEGEND;
        let implied = order.implied();
        let direct = order.arrows.len() - implied;
        let samples = [
            (
                "pairs",
                format!("the row's call waits for the column's: {direct}"),
            ),
            (
                "implied-pairs",
                format!("waits, which follows from others: {implied}"),
            ),
        ];
        for (line, (class, words)) in (0..).zip(samples) {
            let y = TOP + 20 * line;
            let sample = format!("M{x} {}h14", y + 6);
            strokes(out, class, 12, &sample);
            let place = (Tenths::pixels(x + 22), Tenths::pixels(y + 10));
            svg::text(out, "quiet", place.0, place.1, words);
        }
        let words = match self.side {
            SMALL => "rows and columns: calls by number",
            _ => "rows: number; contract, f with function, ? if unknown",
        };
        let (x, y) = (Tenths::pixels(x), Tenths::pixels(TOP + 50));
        svg::text(out, "quiet", x, y, words);
    }
}

/// Draws strokes of a width.
fn strokes(out: &mut Markup, class: &str, width: i64, data: &str) {
    let attributes: Attributes = &[("class", &class), ("stroke-width", &width), ("d", &data)];
    out.empty("path", attributes);
}
