//! The refused lines, a lane for each number of refusal.

use std::collections::{BTreeMap, BTreeSet};
use std::fmt::Write;

use super::scale::{Band, LEFT};
use crate::markup::{Attributes, Markup};
use crate::svg::{self, Tenths};
use crate::trace::Trace;

/// Height of a lane.
const LANE: i64 = 18;
/// Width and height of a mark that shows its number.
const MARK: (i64, i64) = (17, 13);

/// The lanes below the rows of a band.
pub struct Lanes {
    top: i64,
    /// The refused lines by number.
    lines: BTreeMap<u16, Vec<usize>>,
}

impl Lanes {
    /// The refused lines of a band, in lanes from a height on.
    pub fn of(trace: &Trace, band: &Band, top: i64) -> Lanes {
        let mut lines: BTreeMap<u16, Vec<usize>> = BTreeMap::new();
        for (line, _, number) in trace.refused() {
            if band.holds(line) {
                lines.entry(number).or_default().push(line);
            }
        }
        Lanes { top, lines }
    }

    /// Where the lanes end.
    pub fn bottom(&self) -> i64 {
        self.top + LANE * self.lines.len() as i64
    }

    /// Draws the lanes with their names.
    pub fn draw(&self, out: &mut Markup, band: &Band) {
        for (lane, (number, lines)) in (0..).zip(&self.lines) {
            let top = self.top + LANE * lane;
            let (x, y) = (Tenths::pixels(LEFT - 10), Tenths::pixels(top + 13));
            let name = format!("{number} {}", short(*number));
            svg::text(out, "quiet right", x, y, name);
            if apart(band, lines) {
                numbered(out, band, top, *number, lines);
            } else {
                svg::path(out, "ticks", &ticks(band, top, lines));
            }
        }
    }
}

/// Whether marks with numbers fit beside each other.
fn apart(band: &Band, lines: &[usize]) -> bool {
    let mut pairs = lines.windows(2);
    pairs.all(|pair| band.middle(pair[1]).0 - band.middle(pair[0]).0 > 10 * MARK.0)
}

/// A mark with its number for each line.
fn numbered(out: &mut Markup, band: &Band, top: i64, number: u16, lines: &[usize]) {
    for line in lines {
        let middle = band.middle(*line);
        let attributes: Attributes = &[
            ("class", &"refused"),
            ("x", &Tenths(middle.0 - 5 * MARK.0)),
            ("y", &(top + 2)),
            ("width", &MARK.0),
            ("height", &MARK.1),
            ("rx", &3),
        ];
        out.element("g", &[], |out| {
            let told = format!("Line {line} is refused with {number}, {}", short(number));
            out.leaf("title", &[], told);
            out.empty("rect", attributes);
            svg::text(out, "number", middle, Tenths::pixels(top + 12), number);
        });
    }
}

/// One stroke for each pixel that has a refused line.
fn ticks(band: &Band, top: i64, lines: &[usize]) -> String {
    let pixels: BTreeSet<i64> = lines.iter().map(|line| band.middle(*line).0 / 10).collect();
    let mut strokes = String::new();
    for pixel in pixels {
        write!(strokes, "M{pixel}.5 {}v12", top + 3).expect("a string takes all text");
    }
    strokes
}

/// What a refused move is named in its lane.
fn short(number: u16) -> &'static str {
    match number {
        0 => "in no form",
        21 => "no such worker",
        22 => "no such call",
        23 => "worker busy",
        24 => "call not waiting",
        25 => "earlier unfinished",
        26 => "worker idle",
        _ => "refused",
    }
}
