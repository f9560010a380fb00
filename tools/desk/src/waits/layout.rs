//! Where the calls of a small picture stand: a column for each layer, with
//! bends where an arrow passes a layer, ordered so that few arrows cross.

use super::order::{Arrow, Order};

/// Height that a call takes in its column, in tenths of a pixel.
const CALL_PITCH: i64 = 460;
/// Height that a bend takes.
const BEND_PITCH: i64 = 160;
/// How often the columns are ordered, and then placed, there and back in turn.
const ROUNDS: usize = 8;

/// A call, or a bend of an arrow, with its neighbours in the columns beside it.
#[derive(Clone, Debug)]
struct Node {
    column: usize,
    pitch: i64,
    left: Vec<usize>,
    right: Vec<usize>,
}

/// A drawn arrow with its nodes from left to right.
#[derive(Clone, Debug)]
pub struct Way {
    /// The arrow.
    pub arrow: Arrow,
    nodes: Vec<usize>,
}

/// The placed calls and arrows.
#[derive(Clone, Debug, Default)]
pub struct Layout {
    /// The drawn arrows.
    pub ways: Vec<Way>,
    /// A node for each call, then those of the bends.
    nodes: Vec<Node>,
    /// The middle of each node's height, in tenths of a pixel.
    heights: Vec<i64>,
    /// The nodes of each column from top to bottom.
    columns: Vec<Vec<usize>>,
}

impl Layout {
    /// Places the calls that have an arrow; the implied arrows only if wanted.
    pub fn of(order: &Order, with_implied: bool) -> Layout {
        let mut layout = Layout::default();
        layout.columns.resize(order.depth(), Vec::new());
        for (&column, tied) in order.layers.iter().zip(order.tied()) {
            let call = layout.add_node(column, CALL_PITCH);
            if tied {
                layout.columns[column].push(call);
            }
        }
        for arrow in &order.arrows {
            if with_implied || !arrow.implied {
                layout.add_way(*arrow);
            }
        }
        layout.sort();
        layout.stack();
        layout.straighten();
        layout.lift();
        layout
    }

    /// The middle of a call's height.
    pub fn height(&self, call: usize) -> i64 {
        self.heights[call]
    }

    /// The middles of the heights at which a way passes its columns.
    pub fn heights(&self, way: &Way) -> Vec<i64> {
        way.nodes.iter().map(|node| self.heights[*node]).collect()
    }

    /// The column of a call.
    pub fn column(&self, call: usize) -> usize {
        self.nodes[call].column
    }

    /// Where the lowest column ends.
    pub fn bottom(&self) -> i64 {
        let bottom = |node: &usize| self.heights[*node] + self.nodes[*node].pitch / 2;
        self.columns.iter().flatten().map(bottom).max().unwrap_or(0)
    }

    fn add_node(&mut self, column: usize, pitch: i64) -> usize {
        self.nodes.push(Node {
            column,
            pitch,
            left: Vec::new(),
            right: Vec::new(),
        });
        self.heights.push(0);
        self.nodes.len() - 1
    }

    /// Adds an arrow with a bend in each column that it passes.
    fn add_way(&mut self, arrow: Arrow) {
        let mut nodes = vec![arrow.from];
        for column in self.column(arrow.from) + 1..self.column(arrow.to) {
            let bend = self.add_node(column, BEND_PITCH);
            self.columns[column].push(bend);
            nodes.push(bend);
        }
        nodes.push(arrow.to);
        for pair in nodes.windows(2) {
            self.nodes[pair[0]].right.push(pair[1]);
            self.nodes[pair[1]].left.push(pair[0]);
        }
        self.ways.push(Way { arrow, nodes });
    }

    /// Orders each column by the ranks of its neighbours.
    fn sort(&mut self) {
        for round in 0..ROUNDS {
            for column in self.sweep(round) {
                let ranks = self.ranks();
                let mut nodes = self.columns[column].clone();
                nodes.sort_by_key(|node| self.pulled(*node, round, &ranks));
                self.columns[column] = nodes;
            }
        }
    }

    /// Sets each column's nodes below each other.
    fn stack(&mut self) {
        for column in &self.columns {
            let mut top = 0;
            for &node in column {
                let pitch = self.nodes[node].pitch;
                self.heights[node] = top + pitch / 2;
                top += pitch;
            }
        }
    }

    /// Moves nodes to the height of their neighbours, as their order allows.
    fn straighten(&mut self) {
        for round in 0..ROUNDS {
            for column in self.sweep(round) {
                let nodes = &self.columns[column];
                let wanted: Vec<i64> = nodes
                    .iter()
                    .map(|node| self.pulled(*node, round, &self.heights))
                    .collect();
                let pitches: Vec<i64> = nodes.iter().map(|node| self.nodes[*node].pitch).collect();
                for (node, height) in nodes.iter().zip(settle(&wanted, &pitches)) {
                    self.heights[*node] = height;
                }
            }
        }
    }

    /// Moves all, so that the highest node begins at 0.
    fn lift(&mut self) {
        let top = |node: &usize| self.heights[*node] - self.nodes[*node].pitch / 2;
        let highest = self.columns.iter().flatten().map(top).min().unwrap_or(0);
        for height in &mut self.heights {
            *height -= highest;
        }
    }

    /// The columns in the order of a round: to the right in even ones.
    fn sweep(&self, round: usize) -> Vec<usize> {
        let columns = 0..self.columns.len();
        if round.is_multiple_of(2) {
            columns.collect()
        } else {
            columns.rev().collect()
        }
    }

    /// Each node's rank in its column, with room for means.
    fn ranks(&self) -> Vec<i64> {
        let mut ranks = vec![0; self.nodes.len()];
        for column in &self.columns {
            for (rank, &node) in (0..).zip(column) {
                ranks[node] = 1_000 * rank;
            }
        }
        ranks
    }

    /// The mean of the neighbours' values on the side where a round comes from,
    /// or the node's own value if it has none there.
    fn pulled(&self, node: usize, round: usize, values: &[i64]) -> i64 {
        let Node { left, right, .. } = &self.nodes[node];
        let neighbours = if round.is_multiple_of(2) { left } else { right };
        let sum: i64 = neighbours.iter().map(|node| values[*node]).sum();
        match neighbours.len() {
            0 => values[node],
            number => sum.div_euclid(number as i64),
        }
    }
}

/// The heights nearest to the wanted ones at which nodes of these pitches stand
/// in their order and do not overlap: neighbours that would are moved together
/// to their mean.
fn settle(wanted: &[i64], pitches: &[i64]) -> Vec<i64> {
    let mut offsets = vec![0; wanted.len()];
    for index in 1..wanted.len() {
        offsets[index] = offsets[index - 1] + (pitches[index - 1] + pitches[index]) / 2;
    }
    let mut groups: Vec<(i64, i64)> = Vec::new();
    for (height, offset) in wanted.iter().zip(&offsets) {
        let mut group = (height - offset, 1);
        while let Some(above) = groups.pop_if(|above| mean(*above) >= mean(group)) {
            group = (group.0 + above.0, group.1 + above.1);
        }
        groups.push(group);
    }
    let means = groups
        .iter()
        .flat_map(|group| std::iter::repeat_n(mean(*group), group.1 as usize));
    means
        .zip(offsets)
        .map(|(mean, offset)| mean + offset)
        .collect()
}

/// The mean of a group, given by its sum and number.
fn mean((sum, number): (i64, i64)) -> i64 {
    sum.div_euclid(number)
}

#[cfg(test)]
mod tests {
    use super::*;

    #[test]
    fn apart_stay_where_they_are_wanted() {
        assert_eq!(settle(&[0, 100, 300], &[10, 10, 10]), [0, 100, 300]);
    }

    #[test]
    fn overlapping_ones_move_to_both_sides() {
        assert_eq!(settle(&[100, 100], &[10, 10]), [95, 105]);
        assert_eq!(settle(&[0, 100, 90], &[10, 20, 20]), [0, 85, 105]);
    }

    #[test]
    fn nodes_of_a_column_do_not_overlap() {
        let rows: Vec<Vec<usize>> = (0..30)
            .map(|call| {
                (0..call)
                    .filter(|earlier| (call * earlier) % 5 == 1)
                    .collect()
            })
            .collect();
        let layout = Layout::of(&Order::of(&rows), true);
        for column in &layout.columns {
            for pair in column.windows(2) {
                let apart = layout.heights[pair[1]] - layout.heights[pair[0]];
                let least = (layout.nodes[pair[0]].pitch + layout.nodes[pair[1]].pitch) / 2;
                assert!(apart >= least, "{apart} {least}");
            }
        }
    }
}
