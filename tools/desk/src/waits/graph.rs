//! Calls as boxes in layers from left to right, with their arrows.

use runner::block::Block;

use super::layout::Layout;
use super::order::Order;
use super::ways::Ways;
use super::{function_name, title, waits_for, Drawing};
use crate::markup::{Attributes, Markup};
use crate::svg::{self, Tenths};
use crate::words;

/// Width of a call's box.
pub const BOX_WIDTH: i64 = 92;
/// Height of a call's box.
pub const BOX_HEIGHT: i64 = 36;
/// From one column to the next.
const COLUMN: i64 = 150;
/// Where the columns begin, below the heading.
const TOP: i64 = 44;
/// Room at the sides.
const SIDE: i64 = 16;
/// From one box to the next among the calls without arrows.
const FREE: (i64, i64) = (BOX_WIDTH + 12, BOX_HEIGHT + 10);
/// Least width of the picture, so that heading and legend have room.
const LEAST_WIDTH: i64 = 680;
/// Least width of a picture with many calls without arrows.
const WIDE: i64 = 1_100;
/// So many calls without arrows are many.
const MANY_FREE: usize = 24;
/// Height of a line of the legend.
const LINE: i64 = 20;
/// Up to so many arrows those that follow from others are drawn too.
const MOST_ARROWS: usize = 60;

/// Draws the calls and arrows of a block.
pub fn draw(block: &Block, rows: &[Vec<usize>], order: &Order) -> Drawing {
    let with_implied = order.arrows.len() <= MOST_ARROWS;
    let graph = Graph {
        block,
        rows,
        order,
        layout: Layout::of(order, with_implied),
        with_implied,
    };
    graph.draw()
}

struct Graph<'a> {
    block: &'a Block,
    rows: &'a [Vec<usize>],
    order: &'a Order,
    layout: Layout,
    with_implied: bool,
}

/// The left edge of a column.
pub fn column_left(column: usize) -> Tenths {
    Tenths::pixels(SIDE + COLUMN * column as i64)
}

/// A height of the layout in the picture.
pub fn in_picture(height: i64) -> Tenths {
    Tenths(10 * TOP + height)
}

impl Graph<'_> {
    fn draw(&self) -> Drawing {
        let mut out = Markup::new();
        let left = Tenths::pixels(SIDE);
        let heading = title(self.order);
        svg::text(&mut out, "heading", left, Tenths::pixels(26), heading);
        Ways::of(&self.layout).draw(&mut out);
        let tied = self.order.tied();
        for (call, _) in tied.iter().enumerate().filter(|(_, tied)| **tied) {
            let middle = in_picture(self.layout.height(call));
            let top = Tenths(middle.0 - 5 * BOX_HEIGHT);
            self.call(&mut out, call, column_left(self.layout.column(call)), top);
        }
        let free: Vec<usize> = (0..tied.len()).filter(|call| !tied[*call]).collect();
        let width = self.width(free.len());
        let bottom = self.free(&mut out, &free, width);
        let height = self.legend(&mut out, bottom);
        Drawing {
            markup: out,
            width,
            height,
        }
    }

    fn width(&self, free: usize) -> i64 {
        let columns = self.order.depth().max(1) as i64;
        let least = if free > MANY_FREE { WIDE } else { LEAST_WIDTH };
        least.max(2 * SIDE + (columns - 1) * COLUMN + BOX_WIDTH)
    }

    fn call(&self, out: &mut Markup, call: usize, x: Tenths, y: Tenths) {
        let known = self.block.function(&self.block.calls[call]).is_some();
        let class = if known { "call" } else { "call unknown" };
        let attributes: Attributes = &[
            ("class", &class),
            ("x", &x),
            ("y", &y),
            ("width", &BOX_WIDTH),
            ("height", &BOX_HEIGHT),
            ("rx", &5),
        ];
        let middle = Tenths(x.0 + 5 * BOX_WIDTH);
        out.element("g", &[], |out| {
            let waits = waits_for(call, &self.rows[call]);
            let told = format!("Call {call}: {}. {waits}", words::call(self.block, call));
            out.leaf("title", &[], told);
            out.empty("rect", attributes);
            svg::text(out, "number", middle, Tenths(y.0 + 160), call);
            let function = function_name(self.block, call);
            svg::text(out, "small middle", middle, Tenths(y.0 + 290), function);
        });
    }

    /// Draws the calls without arrows in rows and answers where they end.
    fn free(&self, out: &mut Markup, free: &[usize], width: i64) -> i64 {
        let top = TOP + self.layout.bottom() / 10;
        if free.is_empty() {
            return top;
        }
        let words = "Without arrows: these wait for none, and none waits for them.";
        let (x, y) = (Tenths::pixels(SIDE), Tenths::pixels(top + 16));
        svg::text(out, "quiet", x, y, words);
        let in_row = ((width - 2 * SIDE) / FREE.0) as usize;
        for (row, calls) in (0..).zip(free.chunks(in_row)) {
            for (place, call) in (0..).zip(calls) {
                let x = Tenths::pixels(SIDE + FREE.0 * place);
                self.call(out, *call, x, Tenths::pixels(top + 26 + FREE.1 * row));
            }
        }
        top + 26 + FREE.1 * free.len().div_ceil(in_row) as i64
    }

    /// Draws the legend below a height and answers where it ends.
    fn legend(&self, out: &mut Markup, top: i64) -> i64 {
        let items = self.legend_items();
        for (line, (sample, words)) in (0..).zip(&items) {
            let y = top + LINE * line + 18;
            if let Some((class, head)) = sample {
                svg::path(out, class, &format!("M{SIDE} {}h26", y - 4));
                let tip = format!("M{} {}l-7 -3.5v7z", SIDE + 33, y - 4);
                svg::path(out, head, &tip);
            }
            let x = if sample.is_some() { SIDE + 44 } else { SIDE };
            svg::text(out, "quiet", Tenths::pixels(x), Tenths::pixels(y), words);
        }
        top + LINE * items.len() as i64 + 14
    }

    /// The lines of the legend, each with the classes of its sample arrow.
    fn legend_items(&self) -> Vec<(Option<(&'static str, &'static str)>, String)> {
        if self.rows.is_empty() {
            return vec![(None, "The block has no calls.".to_string())];
        }
        let mut items = Vec::new();
        if !self.order.arrows.is_empty() {
            let words = "the call at the head waits for the call at the tail";
            items.push((Some(("arrow", "head")), words.to_string()));
        }
        let implied = self.order.implied();
        if implied > 0 && self.with_implied {
            let words = "waits too, which follows from the other arrows";
            items.push((Some(("implied", "implied-head")), words.to_string()));
        } else if implied > 0 {
            let words = format!("Pairs that follow from these arrows are not drawn: {implied}.");
            items.push((None, words));
        }
        let words = "In a box: the call's number; its contract, and f with its function.";
        items.push((None, words.to_string()));
        let known = |call| self.block.function(call).is_some();
        if !self.block.calls.iter().all(known) {
            items.push((None, "A ? and a dashed box: no such function.".to_string()));
        }
        items
    }
}
