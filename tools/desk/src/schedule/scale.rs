//! Where the lines of the moves stand: in bands below each other, each with a
//! column for every line.

use std::fmt::Write;

use crate::markup::Markup;
use crate::svg::{self, Tenths};

/// Where the first line of a band stands, right of the labels.
pub const LEFT: i64 = 152;
/// Width of a line's column where there is room.
const COLUMN: i64 = 24;
/// Width of a band where there are many lines.
pub const MOST_WIDTH: i64 = 1_000;
/// Least room from the middle of a line's number to that of the next.
const LABEL_ROOM: i64 = 40;
/// Width of a digit of such a number, and the gap between two numbers.
const DIGIT: i64 = 7;
const LABEL_GAP: i64 = 8;

/// A stretch of lines that stand side by side.
#[derive(Clone, Copy, Debug)]
pub struct Band {
    /// The first line, from 1.
    pub first: usize,
    /// The last line; one less than the first if there are no lines.
    pub last: usize,
    /// Where its rows begin.
    pub top: i64,
    /// How many lines fill the width.
    full: usize,
    /// The width of so many lines, in tenths of a pixel.
    width: i64,
}

impl Band {
    /// Cuts lines into at most so many bands of equal columns.
    pub fn cut(lines: usize, bands: usize) -> Vec<Band> {
        let full = lines.div_ceil(bands.max(1)).max(1);
        let wanted = i64::try_from(full).unwrap_or(i64::MAX);
        let width = 10 * wanted.saturating_mul(COLUMN).min(MOST_WIDTH);
        let number = lines.div_ceil(full).max(1);
        let band = |index| Band {
            first: index * full + 1,
            last: lines.min((index + 1) * full),
            top: 0,
            full,
            width,
        };
        (0..number).map(band).collect()
    }

    /// Whether the band has this line.
    pub fn holds(&self, line: usize) -> bool {
        (self.first..=self.last).contains(&line)
    }

    /// The right edge of a full band, in pixels.
    pub fn right(&self) -> i64 {
        LEFT + self.width / 10
    }

    /// The left edge of a line's column; the line behind the last has one too.
    pub fn start(&self, line: usize) -> Tenths {
        let before = (line - self.first) as i128 * i128::from(self.width);
        Tenths(10 * LEFT + (before / self.full as i128) as i64)
    }

    /// The middle of a line's column.
    pub fn middle(&self, line: usize) -> Tenths {
        Tenths((self.start(line).0 + self.start(line + 1).0) / 2)
    }

    /// The width of one column.
    pub fn column(&self) -> Tenths {
        Tenths(self.width / i64::try_from(self.full).unwrap_or(i64::MAX))
    }

    /// Draws the numbers of the lines above the rows, and the grid.
    pub fn axis(&self, out: &mut Markup, bottom: i64) {
        let label = Tenths::pixels(self.top - 8);
        let x = Tenths::pixels(LEFT - self.label_room() / 2 - 10);
        svg::text(out, "quiet right", x, label, "line");
        let mut grid = String::new();
        for line in self.marked() {
            let x = self.middle(line);
            svg::text(out, "quiet middle", x, label, line);
            write!(grid, "M{x} {}V{bottom}", self.top - 4).expect("a string takes all text");
        }
        svg::path(out, "grid", &grid);
    }

    /// The lines whose number is written: the first, and those of a round step
    /// that stand far enough from it.
    fn marked(&self) -> Vec<usize> {
        let step = self.step();
        let room = if step == 1 { 1 } else { 10 * self.label_room() };
        let far = |line: &usize| self.middle(*line).0 - self.middle(self.first).0 >= room;
        let next = self.first / step * step + step;
        let rest = (next..=self.last).step_by(step).filter(far);
        let first = Some(self.first).filter(|line| self.holds(*line));
        first.into_iter().chain(rest).collect()
    }

    /// The room that the longest number of a line needs.
    fn label_room(&self) -> i64 {
        let digits = self.last.to_string().len() as i64;
        LABEL_ROOM.max(digits * DIGIT + LABEL_GAP)
    }

    /// The least of 1, 2, 5, 10, 20, .. lines that leaves room for a number.
    fn step(&self) -> usize {
        let wide = |step: usize| {
            let width = step as i128 * i128::from(self.width) / self.full as i128;
            width >= i128::from(10 * self.label_room())
        };
        let tens = (0..).map(|power| 10_usize.saturating_pow(power));
        tens.flat_map(|ten| [1, 2, 5].map(|digit| ten.saturating_mul(digit)))
            .find(|step| wide(*step) || *step >= self.full)
            .unwrap_or(1)
    }
}
