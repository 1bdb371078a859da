//! docs/architecture.svg: the crates in layers, each with lines down to the crates that it needs and gets through no other.

use crate::layers;
use crate::layout::{self, Node};
use crate::repository::{Crate, Repository};
use std::fmt::Write;

const BOX_HEIGHT: f64 = 40.0;
const LAYER: f64 = 76.0;
const MARGIN: f64 = 16.0;

const STYLE: &str = "\
<style>
rect { fill: #f4f6f8; stroke: #33475b; stroke-width: 1.2 }
rect.page { fill: #fff; stroke: none }
path { fill: none; stroke: #7a8896; stroke-width: 1.3 }
text { font-family: \"DejaVu Sans Mono\", Menlo, Consolas, monospace; text-anchor: middle; fill: #1b2733 }
text.name { font-size: 14px }
text.count { font-size: 11px; fill: #5a6773 }
</style>
";

/// How wide a word is drawn, about, at a size.
fn width(text: &str, size: f64) -> f64 {
    text.chars().count() as f64 * size * 0.6
}

fn counted(number: usize) -> String {
    match number {
        0 => "no code".to_string(),
        1 => "1 function".to_string(),
        _ => format!("{number} functions"),
    }
}

/// The crates first, then the places where lines pass a row.
fn graph(all: &Repository) -> Result<Vec<Node>, String> {
    let needs = layers::needs(&all.crates)?;
    let node = |one: &Crate| {
        let wide = width(&one.name, 14.0).max(width("99 functions", 11.0));
        let layer = layers::layer(&needs, &one.name);
        Node::new(Some(one.name.clone()), layer, wide + 20.0)
    };
    let mut nodes: Vec<Node> = all.crates.iter().map(node).collect();
    for (at, one) in all.crates.iter().enumerate() {
        let direct = layers::direct(&needs, &one.name);
        let needed = |other: &Crate| direct.contains(&other.name.as_str());
        let lower = (0..all.crates.len()).filter(|other| needed(&all.crates[*other]));
        lower.for_each(|lower| layout::join(&mut nodes, at, lower));
    }
    layout::arrange(&mut nodes);
    Ok(nodes)
}

/// The top of a box, the highest layer being `top`.
fn upper_edge(node: &Node, top: usize) -> f64 {
    (top - node.layer) as f64 * LAYER + MARGIN
}

/// The points of a line from a crate down to one that it needs, through the rows between.
fn points(nodes: &[Node], top: usize, from: usize, to: usize) -> Vec<(f64, f64)> {
    let start = upper_edge(&nodes[from], top) + BOX_HEIGHT;
    let mut points = vec![(nodes[from].x, start)];
    let mut at = to;
    while nodes[at].name.is_none() {
        let passed = upper_edge(&nodes[at], top) + BOX_HEIGHT / 2.0;
        points.push((nodes[at].x, passed));
        at = nodes[at].below[0];
    }
    points.push((nodes[at].x, upper_edge(&nodes[at], top)));
    points
}

/// A smooth curve through the points, upright at both ends.
fn curve(points: &[(f64, f64)]) -> String {
    let last = points.len() - 1;
    let slope = |at: usize| match at {
        at if at == 0 || at == last => 0.0,
        at => (points[at + 1].0 - points[at - 1].0) / (points[at + 1].1 - points[at - 1].1),
    };
    let mut path = format!("M{:.1} {:.1}", points[0].0, points[0].1);
    for at in 1..points.len() {
        let ((a, top), (b, end)) = (points[at - 1], points[at]);
        let reach = (end - top) / 2.5;
        let (c, d) = (a + slope(at - 1) * reach, b - slope(at) * reach);
        let (high, low) = (top + reach, end - reach);
        let _ = write!(path, " C{c:.1} {high:.1} {d:.1} {low:.1} {b:.1} {end:.1}");
    }
    format!("<path d=\"{path}\"/>\n")
}

fn drawn(node: &Node, name: &str, count: usize, top: usize) -> String {
    let (x, y) = (node.x, upper_edge(node, top));
    let (left, wide) = (x - node.width / 2.0, node.width);
    let (first, second) = (y + 18.0, y + 33.0);
    let count = counted(count);
    format!(
        "<rect x=\"{left:.1}\" y=\"{y:.1}\" width=\"{wide:.1}\" height=\"{BOX_HEIGHT:.1}\" rx=\"4\"/>\n\
         <text class=\"name\" x=\"{x:.1}\" y=\"{first:.1}\">{name}</text>\n\
         <text class=\"count\" x=\"{x:.1}\" y=\"{second:.1}\">{count}</text>\n"
    )
}

pub fn svg(all: &Repository) -> Result<String, String> {
    let mut nodes = graph(all)?;
    nodes.iter_mut().for_each(|node| node.x += MARGIN);
    let top = nodes.iter().map(|node| node.layer).max().unwrap_or(0);
    let right = nodes.iter().map(|node| node.x + node.width / 2.0);
    let wide = right.fold(0.0, f64::max) + MARGIN;
    let high = top as f64 * LAYER + BOX_HEIGHT + 2.0 * MARGIN;
    let boxes = all.crates.iter().zip(&nodes).map(|(one, node)| {
        let count = all.functions(&format!("crates/{}/src/", one.name));
        drawn(node, &one.name, count, top)
    });
    let joined = |from: usize| nodes[from].below.iter().map(move |to| (from, *to));
    let lines = (0..all.crates.len()).flat_map(joined);
    let lines = lines.map(|(from, to)| curve(&points(&nodes, top, from, to)));
    Ok(format!(
        "<svg xmlns=\"http://www.w3.org/2000/svg\" viewBox=\"0 0 {wide:.0} {high:.0}\" width=\"{wide:.0}\" height=\"{high:.0}\">\n\
         <title>The crates, each above what it needs</title>\n{STYLE}\
         <rect class=\"page\" width=\"100%\" height=\"100%\"/>\n{}{}</svg>\n",
        lines.collect::<String>(),
        boxes.collect::<String>(),
    ))
}
