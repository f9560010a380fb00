//! A picture of who waits for whom: an arrow from each earlier conflicting call
//! to the one that waits for it. A block of few chains is drawn as calls and
//! arrows, any other as a matrix of all pairs.

mod graph;
mod layout;
mod matrix;
mod order;
mod ways;

use runner::block::Block;
use runner::limits::MAX_WORKERS;
use runner::machine::{open, Opened};

use crate::markup::Markup;
use crate::svg::{self, About};
use crate::words;
use order::Order;

/// Most calls of a chain that is drawn from left to right.
const MOST_COLUMNS: usize = 12;
/// Most calls with arrows in a column.
const MOST_IN_COLUMN: usize = 24;
/// Most arrows that follow from no others.
const MOST_DIRECT: usize = 120;
/// Calls that the description lists.
const MOST_DESCRIBED: usize = 40;

/// Draws who waits for whom in a block. A refused block has no order; the answer
/// then says why it is refused.
pub fn svg(bytes: &[u8]) -> Result<String, String> {
    match open(bytes, MAX_WORKERS) {
        Ok(opened) => Ok(markup(&opened).into_string()),
        Err(_) => Err(words::refused_block(bytes).unwrap_or_default()),
    }
}

/// Draws who waits for whom in an opened block.
pub fn markup(opened: &Opened) -> Markup {
    let order = Order::of(&opened.rows);
    let drawing = if fits_a_graph(&order) {
        graph::draw(&opened.block, &opened.rows, &order)
    } else {
        matrix::draw(&opened.block, &order)
    };
    let (title, description) = (title(&order), description(&opened.rows));
    let about = About {
        name: "waits",
        title: &title,
        description: &description,
        style: include_str!("style.css"),
    };
    svg::picture(about, drawing.width, drawing.height, &drawing.markup)
}

/// What is drawn, and its size in pixels.
struct Drawing {
    markup: Markup,
    width: i64,
    height: i64,
}

/// Whether calls and arrows can be told apart.
fn fits_a_graph(order: &Order) -> bool {
    let tied = order.tied();
    let mut columns = vec![0; order.depth()];
    for (&layer, tied) in order.layers.iter().zip(tied) {
        columns[layer] += usize::from(tied);
    }
    columns.len() <= MOST_COLUMNS
        && columns.iter().all(|calls| *calls <= MOST_IN_COLUMN)
        && order.direct().count() <= MOST_DIRECT
}

fn title(order: &Order) -> String {
    let (calls, pairs) = (order.layers.len(), order.arrows.len());
    format!(
        "Who waits for whom: calls {calls}, pairs {pairs}, longest chain {}",
        order.depth()
    )
}

/// The picture in words: for each call whom it waits for.
fn description(rows: &[Vec<usize>]) -> String {
    let waiting = || rows.iter().enumerate().filter(|(_, row)| !row.is_empty());
    let first = waiting().take(MOST_DESCRIBED);
    let mut sentences: Vec<String> = first.map(|(call, row)| waits_for(call, row)).collect();
    let more = waiting().count().saturating_sub(MOST_DESCRIBED);
    if sentences.is_empty() {
        sentences.push("No call waits for another.".to_string());
    } else if more > 0 {
        sentences.push(format!("Calls that wait besides these: {more}."));
    }
    sentences.join(" ")
}

/// A call's row in words.
fn waits_for(call: usize, row: &[usize]) -> String {
    let earlier: Vec<String> = row.iter().map(usize::to_string).collect();
    match earlier.as_slice() {
        [] => format!("Call {call} waits for none."),
        _ => format!("Call {call} waits for {}.", earlier.join(", ")),
    }
}

/// The function of a call as it stands in the picture, with a mark if there is
/// no such function.
fn function_name(block: &Block, call: usize) -> String {
    let one = &block.calls[call];
    let unknown = if block.function(one).is_none() {
        "?"
    } else {
        ""
    };
    format!("{} f{}{unknown}", one.contract.address(), one.function)
}
