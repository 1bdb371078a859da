//! Where the crates' boxes stand: in rows by layer, in an order with few crossings, near what they are joined to.

use std::collections::BTreeMap;

/// How far boxes stand apart, and how much room a line has that passes a row.
const GAP: f64 = 20.0;
const PASSAGE: f64 = 60.0;
/// How many first orders are tried, and how often each is improved and evened out.
const TRIES: usize = 200;
const SWEEPS: usize = 12;
const TURNS: usize = 120;

/// A crate, or a place where a line passes a row.
pub struct Node {
    pub name: Option<String>,
    pub layer: usize,
    pub width: f64,
    /// Its middle.
    pub x: f64,
    above: Vec<usize>,
    /// The nodes of the row below that it is joined to.
    pub below: Vec<usize>,
}

impl Node {
    pub fn new(name: Option<String>, layer: usize, width: f64) -> Node {
        Node {
            name,
            layer,
            width,
            x: 0.0,
            above: Vec::new(),
            below: Vec::new(),
        }
    }
}

fn tie(nodes: &mut [Node], upper: usize, lower: usize) {
    nodes[upper].below.push(lower);
    nodes[lower].above.push(upper);
}

/// Joins two crates through a node in each row between them.
pub fn join(nodes: &mut Vec<Node>, upper: usize, lower: usize) {
    let mut from = upper;
    for layer in (nodes[lower].layer + 1..nodes[upper].layer).rev() {
        nodes.push(Node::new(None, layer, PASSAGE));
        let new = nodes.len() - 1;
        tie(nodes, from, new);
        from = new;
    }
    tie(nodes, from, lower);
}

/// The nodes of each layer, from the ground up.
fn rows(nodes: &[Node]) -> Vec<Vec<usize>> {
    let count = nodes.iter().map(|node| node.layer + 1).max().unwrap_or(0);
    let row = |layer| {
        (0..nodes.len())
            .filter(|at| nodes[*at].layer == layer)
            .collect()
    };
    (0..count).map(row).collect()
}

/// The middle of some nodes, or a node's own place if it has none to go by.
fn middle(nodes: &[Node], joined: &[usize], own: f64) -> f64 {
    match joined.len() {
        0 => own,
        count => joined.iter().map(|at| nodes[*at].x).sum::<f64>() / count as f64,
    }
}

/// How often lines cross on their way down to a row.
fn crossings_above(nodes: &[Node], row: &[usize]) -> usize {
    let lines: Vec<(f64, f64)> = row
        .iter()
        .flat_map(|at| {
            nodes[*at]
                .above
                .iter()
                .map(|up| (nodes[*at].x, nodes[*up].x))
        })
        .collect();
    let crossed = |a: &(f64, f64), b: &(f64, f64)| (a.0 - b.0) * (a.1 - b.1) < 0.0;
    let later = |at: usize| {
        lines[at + 1..]
            .iter()
            .filter(|b| crossed(&lines[at], b))
            .count()
    };
    (0..lines.len()).map(later).sum()
}

fn crossings(nodes: &[Node], rows: &[Vec<usize>]) -> usize {
    rows.iter().map(|row| crossings_above(nodes, row)).sum()
}

/// Gives the nodes of a row the places 0, 1, ..
fn number(nodes: &mut [Node], row: &[usize]) {
    for (place, at) in row.iter().enumerate() {
        nodes[*at].x = place as f64;
    }
}

/// Puts a row in the order of what it is joined to, above or below.
fn sort_row(nodes: &mut [Node], row: &mut [usize], down: bool) {
    let joined = |node: &Node| {
        if down {
            node.above.clone()
        } else {
            node.below.clone()
        }
    };
    let key = |at: &usize| (*at, middle(nodes, &joined(&nodes[*at]), nodes[*at].x));
    let keys: BTreeMap<usize, f64> = row.iter().map(key).collect();
    row.sort_by(|a, b| keys[a].total_cmp(&keys[b]));
    number(nodes, row);
}

/// Swaps neighbours in a row where that takes crossings away.
fn exchange(nodes: &mut [Node], rows: &mut [Vec<usize>], layer: usize) {
    for at in 1..rows[layer].len() {
        let before = crossings(nodes, rows);
        rows[layer].swap(at - 1, at);
        number(nodes, &rows[layer]);
        if crossings(nodes, rows) >= before {
            rows[layer].swap(at - 1, at);
            number(nodes, &rows[layer]);
        }
    }
}

/// One sweep over all rows, downwards or upwards.
fn sweep(nodes: &mut [Node], rows: &mut [Vec<usize>], down: bool) {
    let count = rows.len();
    for step in 0..count {
        let layer = if down { count - 1 - step } else { step };
        sort_row(nodes, &mut rows[layer], down);
        exchange(nodes, rows, layer);
    }
}

/// Some nodes of a row that move as one: the place that each wants, and how far it stands from the row's first.
type Block = Vec<(f64, f64)>;

fn shift(block: &Block) -> f64 {
    let shifts = block.iter().map(|(want, offset)| want - offset);
    shifts.sum::<f64>() / block.len() as f64
}

/// Takes blocks in that would change their order with the new one.
fn push(blocks: &mut Vec<Block>, mut block: Block) {
    while let Some(mut last) = blocks.pop_if(|last| shift(last) > shift(&block)) {
        last.append(&mut block);
        block = last;
    }
    blocks.push(block);
}

/// The places nearest to the wanted ones, by squares, that keep the order and the distances.
fn placed(wanted: &[f64], apart: &[f64]) -> Vec<f64> {
    let mut offset = 0.0;
    let mut blocks = Vec::new();
    for (want, gap) in wanted.iter().zip(apart) {
        offset += gap;
        push(&mut blocks, vec![(*want, offset)]);
    }
    let places = |block: &Block| {
        let shift = shift(block);
        block
            .iter()
            .map(|(_, offset)| offset + shift)
            .collect::<Vec<_>>()
    };
    blocks.iter().flat_map(places).collect()
}

/// Moves a row's nodes towards what they are joined to.
fn settle(nodes: &mut [Node], row: &[usize]) {
    let joined = |node: &Node| [&node.above[..], &node.below[..]].concat();
    let want = |at: &usize| middle(nodes, &joined(&nodes[*at]), nodes[*at].x);
    let wanted: Vec<f64> = row.iter().map(want).collect();
    let between = |pair: &[usize]| (nodes[pair[0]].width + nodes[pair[1]].width) / 2.0 + GAP;
    let mut apart = vec![0.0];
    apart.extend(row.windows(2).map(between));
    for (at, x) in row.iter().zip(placed(&wanted, &apart)) {
        nodes[*at].x = x;
    }
}

fn place(nodes: &mut [Node], rows: &[Vec<usize>]) {
    for turn in 0..TURNS {
        let up = |step| {
            if turn % 2 == 0 {
                step
            } else {
                rows.len() - 1 - step
            }
        };
        (0..rows.len()).for_each(|step| settle(nodes, &rows[up(step)]));
    }
    let sides = nodes.iter().map(|node| node.x - node.width / 2.0);
    let left = sides.fold(f64::INFINITY, f64::min);
    nodes.iter_mut().for_each(|node| node.x -= left);
}

/// How far the lines lead sideways, all together.
fn sideways(nodes: &[Node]) -> f64 {
    let of_node = |node: &Node| {
        node.below
            .iter()
            .map(|to| (node.x - nodes[*to].x).abs())
            .sum::<f64>()
    };
    nodes.iter().map(of_node).sum()
}

/// Numbers that look drawn by lot and are the same in every run.
struct Draws(u64);

impl Draws {
    fn below(&mut self, count: usize) -> usize {
        let next = self.0.wrapping_mul(6364136223846793005);
        self.0 = next.wrapping_add(1442695040888963407);
        (self.0 >> 33) as usize % count
    }

    fn shuffle(&mut self, row: &mut [usize]) {
        for at in (1..row.len()).rev() {
            row.swap(at, self.below(at + 1));
        }
    }
}

/// Places the nodes from one first order, and answers the crossings.
fn attempt(nodes: &mut [Node], draws: &mut Draws) -> usize {
    let mut rows = rows(nodes);
    rows.iter_mut().for_each(|row| draws.shuffle(row));
    rows.iter().for_each(|row| number(nodes, row));
    (0..SWEEPS).for_each(|turn| sweep(nodes, &mut rows, turn % 2 == 0));
    let crossed = crossings(nodes, &rows);
    place(nodes, &rows);
    crossed
}

/// Places the nodes: of many first orders the one that ends with the fewest crossings and the straightest lines.
pub fn arrange(nodes: &mut [Node]) {
    let mut draws = Draws(1);
    let mut best = (usize::MAX, f64::INFINITY, Vec::new());
    for _ in 0..TRIES {
        let crossed = attempt(nodes, &mut draws);
        let side = sideways(nodes);
        if (crossed, side) < (best.0, best.1) {
            best = (crossed, side, nodes.iter().map(|node| node.x).collect());
        }
    }
    nodes
        .iter_mut()
        .zip(best.2)
        .for_each(|(node, x)| node.x = x);
}

#[cfg(test)]
mod tests {
    use super::*;

    #[test]
    fn places_keep_order_and_distance() {
        assert_eq!(placed(&[5.0, 5.0], &[0.0, 2.0]), [4.0, 6.0]);
        assert_eq!(placed(&[0.0, 9.0], &[0.0, 2.0]), [0.0, 9.0]);
        assert_eq!(placed(&[6.0, 3.0, 0.0], &[0.0, 1.0, 1.0]), [2.0, 3.0, 4.0]);
    }

    #[test]
    fn lines_that_need_not_cross_do_not() {
        let node = |name: &str, layer| Node::new(Some(name.to_string()), layer, 30.0);
        let mut nodes = vec![
            node("a", 0),
            node("b", 0),
            node("c", 1),
            node("d", 1),
            node("e", 2),
        ];
        for (upper, lower) in [(2, 1), (3, 0), (4, 0), (4, 2)] {
            join(&mut nodes, upper, lower);
        }
        assert_eq!(nodes.len(), 6, "a line passes a row");
        arrange(&mut nodes);
        assert_eq!(crossings(&nodes, &rows(&nodes)), 0);
    }
}
