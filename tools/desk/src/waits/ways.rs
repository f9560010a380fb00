//! The lines and heads of a graph's arrows.

use std::fmt::Write;

use super::graph::{column_left, in_picture, BOX_HEIGHT, BOX_WIDTH};
use super::layout::{Layout, Way};
use crate::markup::Markup;
use crate::svg::{self, Tenths};

/// Most room between two arrows at one side of a box.
const PORT: Tenths = Tenths(80);
/// Height of a box's side that arrows use.
const SIDE: Tenths = Tenths::pixels(BOX_HEIGHT - 8);
/// Length of an arrow's head.
const HEAD: Tenths = Tenths::pixels(7);

/// The arrows of a layout with the places at which they leave and reach boxes.
pub struct Ways<'a> {
    layout: &'a Layout,
    /// For each way how far it leaves its first box above or below the middle.
    leaves: Vec<i64>,
    /// The same for where it reaches its last box.
    reaches: Vec<i64>,
}

impl<'a> Ways<'a> {
    /// Spreads the arrows at each box in the order of where they come from or
    /// go to, so that they do not cross there.
    pub fn of(layout: &'a Layout) -> Ways<'a> {
        let heights: Vec<Vec<i64>> = layout.ways.iter().map(|way| layout.heights(way)).collect();
        let second = |way: usize| heights[way][1];
        let last_but_one = |way: usize| heights[way][heights[way].len() - 2];
        Ways {
            layout,
            leaves: spread(&layout.ways, |way| way.arrow.from, second),
            reaches: spread(&layout.ways, |way| way.arrow.to, last_but_one),
        }
    }

    /// Draws the arrows, those that follow from others below the rest.
    pub fn draw(&self, out: &mut Markup) {
        for (implied, line, head) in [(true, "implied", "implied-head"), (false, "arrow", "head")] {
            let (mut lines, mut heads) = (String::new(), String::new());
            for (index, way) in self.layout.ways.iter().enumerate() {
                if way.arrow.implied == implied {
                    self.way(index, &mut lines, &mut heads);
                }
            }
            if !lines.is_empty() {
                svg::path(out, line, &lines);
                svg::path(out, head, &heads);
            }
        }
    }

    /// Adds a way's line and head to the data of two paths.
    fn way(&self, index: usize, lines: &mut String, heads: &mut String) {
        let way = &self.layout.ways[index];
        let heights = self.layout.heights(way);
        let last = heights.len() - 1;
        let first_column = self.layout.column(way.arrow.from);
        let mut x = box_right(first_column);
        let mut y = in_picture(heights[0] + self.leaves[index]);
        write!(lines, "M{x} {y}").expect("a string takes all text");
        for (place, height) in heights.iter().enumerate().skip(1) {
            let left = column_left(first_column + place);
            let (to_x, to_y) = if place == last {
                let tip = in_picture(height + self.reaches[index]);
                write!(heads, "M{left} {tip}l-7 -3.5v7z").expect("a string takes all text");
                (Tenths(left.0 - HEAD.0), tip)
            } else {
                (left, in_picture(*height))
            };
            let middle = Tenths((x.0 + to_x.0) / 2);
            write!(lines, "C{middle} {y} {middle} {to_y} {to_x} {to_y}")
                .expect("a string takes all text");
            if place < last {
                x = box_right(first_column + place);
                write!(lines, "H{x}").expect("a string takes all text");
            }
            y = to_y;
        }
    }
}

fn box_right(column: usize) -> Tenths {
    Tenths(column_left(column).0 + 10 * BOX_WIDTH)
}

/// How far from the middle of its box each way stands: the ways of a box have
/// equal room between them, in the order of the heights.
fn spread(ways: &[Way], of_box: impl Fn(&Way) -> usize, height: impl Fn(usize) -> i64) -> Vec<i64> {
    let mut order: Vec<usize> = (0..ways.len()).collect();
    order.sort_by_key(|way| (of_box(&ways[*way]), height(*way)));
    let mut offsets = vec![0; ways.len()];
    for same in order.chunk_by(|one, other| of_box(&ways[*one]) == of_box(&ways[*other])) {
        let number = same.len() as i64;
        let room = PORT.0.min(SIDE.0 / number);
        for (place, way) in (0..).zip(same) {
            offsets[*way] = (2 * place - (number - 1)) * room / 2;
        }
    }
    offsets
}
