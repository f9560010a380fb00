//! What the waiting rows say of a block: arrows, which of them follow from
//! others, and layers.

/// That a call waits for an earlier one.
#[derive(Clone, Copy, Debug, PartialEq, Eq)]
pub struct Arrow {
    /// The earlier call.
    pub from: usize,
    /// The call that waits.
    pub to: usize,
    /// Whether the arrow follows from a longer way of arrows.
    pub implied: bool,
}

/// The order of a block's calls.
#[derive(Clone, Debug, PartialEq, Eq)]
pub struct Order {
    /// All pairs of an earlier and a later call that conflict, by the later.
    pub arrows: Vec<Arrow>,
    /// For each call the number of calls in the longest chain before it.
    pub layers: Vec<usize>,
}

impl Order {
    /// The order that waiting rows give.
    pub fn of(rows: &[Vec<usize>]) -> Order {
        let mut before: Vec<Vec<bool>> = Vec::with_capacity(rows.len());
        let mut layers: Vec<usize> = Vec::with_capacity(rows.len());
        let mut arrows = Vec::new();
        for (to, row) in rows.iter().enumerate() {
            let mut reached = beyond(&before, row, to);
            arrows.extend(row.iter().map(|&from| Arrow {
                from,
                to,
                implied: reached[from],
            }));
            for &from in row {
                reached[from] = true;
            }
            before.push(reached);
            layers.push(row.iter().map(|&from| layers[from] + 1).max().unwrap_or(0));
        }
        Order { arrows, layers }
    }

    /// The arrows that follow from no others.
    pub fn direct(&self) -> impl Iterator<Item = &Arrow> {
        self.arrows.iter().filter(|arrow| !arrow.implied)
    }

    /// How many arrows follow from others.
    pub fn implied(&self) -> usize {
        self.arrows.len() - self.direct().count()
    }

    /// How many calls the longest chain has.
    pub fn depth(&self) -> usize {
        self.layers.iter().max().map_or(0, |last| last + 1)
    }

    /// For each call whether an arrow begins or ends at it.
    pub fn tied(&self) -> Vec<bool> {
        let mut tied = vec![false; self.layers.len()];
        for arrow in &self.arrows {
            tied[arrow.from] = true;
            tied[arrow.to] = true;
        }
        tied
    }
}

/// The calls that stand before one of a call's row.
fn beyond(before: &[Vec<bool>], row: &[usize], call: usize) -> Vec<bool> {
    let mut reached = vec![false; call];
    for &earlier in row {
        for (mark, &also) in reached.iter_mut().zip(&before[earlier]) {
            *mark |= also;
        }
    }
    reached
}

#[cfg(test)]
mod tests {
    use super::*;

    fn order(rows: &[&[usize]]) -> Order {
        let rows: Vec<Vec<usize>> = rows.iter().map(|row| row.to_vec()).collect();
        Order::of(&rows)
    }

    fn direct(order: &Order) -> Vec<(usize, usize)> {
        order.direct().map(|arrow| (arrow.from, arrow.to)).collect()
    }

    #[test]
    fn no_calls_have_no_layer() {
        let order = order(&[]);
        assert_eq!((order.depth(), order.arrows.len()), (0, 0));
    }

    #[test]
    fn a_chain_implies_its_longer_ways() {
        let order = order(&[&[], &[0], &[0, 1], &[0, 1, 2]]);
        assert_eq!(direct(&order), [(0, 1), (1, 2), (2, 3)]);
        assert_eq!((order.implied(), order.depth()), (3, 4));
    }

    #[test]
    fn a_way_over_an_implied_arrow_counts() {
        let order = order(&[&[], &[0], &[1], &[0, 2]]);
        assert_eq!(direct(&order), [(0, 1), (1, 2), (2, 3)]);
        assert_eq!(order.layers, [0, 1, 2, 3]);
    }

    #[test]
    fn calls_apart_are_not_tied() {
        let order = order(&[&[], &[], &[0], &[]]);
        assert_eq!(order.tied(), [true, false, true, false]);
        assert_eq!(order.layers, [0, 0, 1, 0]);
    }
}
