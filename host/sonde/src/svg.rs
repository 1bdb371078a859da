//! The arm from above and from the side, with its goals. Both views have one
//! scale, so lengths can be compared.

use crate::work::{ChainWork, Goal, Work};
use std::fmt::Write as _;

const WIDTH: f64 = 1040.0;
const PANEL: f64 = 460.0;
const LEFTS: [f64; 2] = [50.0, 560.0];
const TOP: f64 = 84.0;
/// Between a panel's edge and what is drawn in it.
const MARGIN: f64 = 34.0;
const COLOURS: [&str; 4] = ["#0b5fa5", "#c4500c", "#2e7d32", "#7b3fa0"];

/// From sheet coordinates to the two of a view: right and up.
struct View {
    title: String,
    right: [f64; 3],
    up: [f64; 3],
    left: f64,
    scale: f64,
    /// The point in the panel's middle.
    middle: [f64; 2],
    step: f64,
    names: [&'static str; 2],
}

fn dot(a: [f64; 3], b: [f64; 3]) -> f64 {
    a[0] * b[0] + a[1] * b[1] + a[2] * b[2]
}

fn add(a: [f64; 3], b: [f64; 3], by: f64) -> [f64; 3] {
    [a[0] + by * b[0], a[1] + by * b[1], a[2] + by * b[2]]
}

impl View {
    fn flat(&self, p: [f64; 3]) -> [f64; 2] {
        [dot(p, self.right), dot(p, self.up)]
    }

    /// On the page.
    fn place(&self, p: [f64; 3]) -> [f64; 2] {
        let [x, y] = self.flat(p);
        [
            self.left + PANEL / 2.0 + (x - self.middle[0]) * self.scale,
            TOP + PANEL / 2.0 - (y - self.middle[1]) * self.scale,
        ]
    }
}

/// Least and most, coordinate by coordinate.
fn bounds(points: &[[f64; 3]]) -> [[f64; 2]; 3] {
    [0, 1, 2].map(|axis| {
        let values = points.iter().map(|p| p[axis]);
        values.fold([f64::INFINITY, f64::NEG_INFINITY], |[low, high], v| {
            [low.min(v), high.max(v)]
        })
    })
}

/// 1, 2 or 5 times a power of ten, four to ten steps to the span.
fn step_for(span: f64) -> f64 {
    let rough = span / 8.0;
    let ten = 10f64.powf(rough.log10().floor());
    let steps = [1.0, 2.0, 5.0, 10.0].map(|k| k * ten);
    steps
        .into_iter()
        .find(|step| *step >= rough)
        .unwrap_or(10.0 * ten)
}

fn escape(text: &str) -> String {
    let mut out = String::new();
    for c in text.chars() {
        match c {
            '&' => out.push_str("&amp;"),
            '<' => out.push_str("&lt;"),
            '>' => out.push_str("&gt;"),
            '"' => out.push_str("&quot;"),
            c if c.is_control() => out.push(' '),
            c => out.push(c),
        }
    }
    out
}

fn line(out: &mut String, a: [f64; 2], b: [f64; 2], style: &str) {
    let _ = writeln!(
        out,
        "<line x1=\"{:.2}\" y1=\"{:.2}\" x2=\"{:.2}\" y2=\"{:.2}\" {style}/>",
        a[0], a[1], b[0], b[1]
    );
}

fn words(out: &mut String, at: [f64; 2], style: &str, text: &str) {
    let _ = writeln!(
        out,
        "<text x=\"{:.2}\" y=\"{:.2}\" {style}>{}</text>",
        at[0],
        at[1],
        escape(text)
    );
}

/// A mark for the end of a link, by its code: a ring that turns, a square that
/// slides, a small dot that is fixed.
fn mark(out: &mut String, [x, y]: [f64; 2], code: u16, colour: &str) {
    let _ = match code / 10 {
        0 => writeln!(out, "<circle cx=\"{x:.2}\" cy=\"{y:.2}\" r=\"2.5\" fill=\"{colour}\"/>"),
        3 | 4 => writeln!(
            out,
            "<rect x=\"{:.2}\" y=\"{:.2}\" width=\"9\" height=\"9\" fill=\"white\" stroke=\"{colour}\" stroke-width=\"2\"/>",
            x - 4.5,
            y - 4.5
        ),
        _ => writeln!(
            out,
            "<circle cx=\"{x:.2}\" cy=\"{y:.2}\" r=\"5\" fill=\"white\" stroke=\"{colour}\" stroke-width=\"2\"/>"
        ),
    };
}

/// A diamond, open, so that the end of an arm that is there stays visible.
fn diamond(out: &mut String, [x, y]: [f64; 2], colour: &str) {
    let r = 10.0;
    let _ = writeln!(
        out,
        "<polygon points=\"{:.2},{y:.2} {x:.2},{:.2} {:.2},{y:.2} {x:.2},{:.2}\" fill=\"none\" stroke=\"{colour}\" stroke-width=\"2\"/>",
        x - r,
        y - r,
        x + r,
        y + r
    );
}

/// An arrow with a filled head.
fn arrow(out: &mut String, a: [f64; 2], b: [f64; 2], colour: &str) {
    let [dx, dy] = [b[0] - a[0], b[1] - a[1]];
    let length = dx.hypot(dy);
    if length < 3.0 {
        // Along the line of sight: a ring with a dot.
        let _ = writeln!(
            out,
            "<circle cx=\"{:.2}\" cy=\"{:.2}\" r=\"9\" fill=\"none\" stroke=\"{colour}\" stroke-width=\"1.5\" stroke-dasharray=\"2 2\"/>",
            a[0], a[1]
        );
        return;
    }
    let [ux, uy] = [dx / length, dy / length];
    let head = length.min(10.0);
    let base = [b[0] - head * ux, b[1] - head * uy];
    line(
        out,
        a,
        base,
        &format!("stroke=\"{colour}\" stroke-width=\"2\""),
    );
    let half = 0.4 * head;
    let _ = writeln!(
        out,
        "<polygon points=\"{:.2},{:.2} {:.2},{:.2} {:.2},{:.2}\" fill=\"{colour}\"/>",
        b[0],
        b[1],
        base[0] - half * uy,
        base[1] + half * ux,
        base[0] + half * uy,
        base[1] - half * ux
    );
}

fn grid(out: &mut String, view: &View) {
    let _ = writeln!(
        out,
        "<rect x=\"{}\" y=\"{TOP}\" width=\"{PANEL}\" height=\"{PANEL}\" fill=\"white\" stroke=\"#888\"/>",
        view.left
    );
    let small = "font-size=\"11\" fill=\"#555\"";
    let half = PANEL / 2.0 / view.scale;
    let decimals = (-view.step.log10().floor()).max(0.0) as usize;
    for axis in 0..2 {
        let first = ((view.middle[axis] - half) / view.step).ceil() as i64;
        let last = ((view.middle[axis] + half) / view.step).floor() as i64;
        for k in first..=last {
            let v = k as f64 * view.step;
            let away = (v - view.middle[axis]) * view.scale;
            let style = if k == 0 {
                "stroke=\"#999\" stroke-width=\"1\""
            } else {
                "stroke=\"#e3e3e3\" stroke-width=\"1\""
            };
            let text = format!("{v:.decimals$}");
            if axis == 0 {
                let x = view.left + PANEL / 2.0 + away;
                line(out, [x, TOP], [x, TOP + PANEL], style);
                let style = format!("{small} text-anchor=\"middle\"");
                words(out, [x, TOP + PANEL + 15.0], &style, &text);
            } else {
                let y = TOP + PANEL / 2.0 - away;
                line(out, [view.left, y], [view.left + PANEL, y], style);
                let style = format!("{small} text-anchor=\"end\"");
                words(out, [view.left - 5.0, y + 4.0], &style, &text);
            }
        }
    }
    words(
        out,
        [view.left, TOP - 10.0],
        "font-size=\"14\" font-weight=\"bold\" fill=\"#222\"",
        &view.title,
    );
    let style = "font-size=\"12\" fill=\"#222\" text-anchor=\"end\"";
    let corner = view.left + PANEL;
    words(out, [corner, TOP + PANEL + 30.0], style, view.names[0]);
    words(out, [corner, TOP - 10.0], style, view.names[1]);
}

/// The goal's position with its position tolerances, where they are wide
/// enough to be more than a point.
fn goal(out: &mut String, view: &View, goal: &Goal, colour: &str) {
    let place = view.place(goal.position);
    let wide = goal
        .tolerances
        .map(|wide| if wide > 0.01 { wide } else { 0.0 });
    let reach = |along: [f64; 3]| {
        [0, 1, 2]
            .map(|k| (wide[k] * along[k]).abs())
            .iter()
            .sum::<f64>()
    };
    let [w, h] = [reach(view.right) * view.scale, reach(view.up) * view.scale];
    if w.max(h) > 1.0 {
        let (w, h) = (w.max(1.0), h.max(1.0));
        let _ = writeln!(
            out,
            "<rect x=\"{:.2}\" y=\"{:.2}\" width=\"{:.2}\" height=\"{:.2}\" fill=\"{colour}\" fill-opacity=\"0.10\" stroke=\"{colour}\" stroke-dasharray=\"4 3\"/>",
            place[0] - w,
            place[1] - h,
            2.0 * w,
            2.0 * h
        );
    }
    diamond(out, place, colour);
}

/// Beside the end of a link, off its line, to the right or above.
fn beside(before: [f64; 2], at: [f64; 2]) -> [f64; 2] {
    let [dx, dy] = [at[0] - before[0], at[1] - before[1]];
    let length = dx.hypot(dy);
    let [nx, ny] = if length < 1.0 {
        [0.7, -0.7]
    } else {
        [-dy / length, dx / length]
    };
    let sign = if nx > 0.3 || nx.abs() <= 0.3 && ny < 0.0 {
        1.0
    } else {
        -1.0
    };
    [at[0] + 16.0 * sign * nx, at[1] + 16.0 * sign * ny + 4.0]
}

/// The links with their marks; joints are numbered across chains from `first`.
fn chain(
    out: &mut String,
    view: &View,
    chain: &ChainWork,
    colour: &str,
    first: usize,
    taken: &mut Vec<[f64; 2]>,
) {
    let places = chain.frames.positions.iter().map(|p| view.place(*p));
    let points: Vec<[f64; 2]> = places.collect();
    for pair in points.windows(2) {
        let style = format!(
            "stroke=\"{colour}\" stroke-width=\"5\" stroke-linecap=\"round\" stroke-opacity=\"0.75\""
        );
        line(out, pair[0], pair[1], &style);
    }
    let [x, y] = points[0];
    let _ = writeln!(
        out,
        "<rect x=\"{:.2}\" y=\"{:.2}\" width=\"14\" height=\"14\" fill=\"#444\"/>",
        x - 7.0,
        y - 7.0
    );
    let mut joint = first;
    for (code, pair) in chain.codes.iter().zip(points.windows(2)) {
        let at = pair[1];
        mark(out, at, *code, colour);
        if *code == 0 {
            continue;
        }
        // A number only where there is room for it.
        let far = |other: &[f64; 2]| (other[0] - at[0]).hypot(other[1] - at[1]) > 15.0;
        if taken.iter().all(far) {
            let style = "font-size=\"11\" fill=\"#333\" text-anchor=\"middle\" \
                         stroke=\"white\" stroke-width=\"3\" paint-order=\"stroke\"";
            words(out, beside(pair[0], at), style, &joint.to_string());
            taken.push(at);
        }
        joint += 1;
    }
}

/// A cross, which shows beside the mark of the link that ends there.
fn flange(out: &mut String, [x, y]: [f64; 2]) {
    let style = "stroke=\"#222\" stroke-width=\"2\"";
    for rise in [-7.0, 7.0] {
        line(out, [x - 7.0, y - rise], [x + 7.0, y + rise], style);
    }
}

/// A hollow line, where links are full ones, and a dot at its tip.
fn tool_line(out: &mut String, flange: [f64; 2], tip: [f64; 2], colour: &str) {
    for (colour, width) in [(colour, 6), ("white", 3)] {
        let style =
            format!("stroke=\"{colour}\" stroke-width=\"{width}\" stroke-linecap=\"round\"");
        line(out, flange, tip, &style);
    }
    mark(out, tip, 0, colour);
}

/// From the flange to the tip, which is the end.
fn tool(out: &mut String, view: &View, chain: &ChainWork, colour: &str) {
    let at = view.place(chain.flange());
    tool_line(out, at, view.place(chain.end.position), colour);
    flange(out, at);
}

/// The sonde's axis at a ninth of the panel, and its azimuth as a ray, which
/// can be seen however steep the axis is.
fn axis(out: &mut String, view: &View, chain: &ChainWork, from_above: bool) {
    let end = chain.end.position;
    let start = view.place(end);
    if let (true, Some(degrees)) = (from_above, chain.direction.azimuth) {
        let (east, north) = degrees.to_radians().sin_cos();
        let [far, near] = [64.0, 9.0].map(|by| [start[0] + by * east, start[1] - by * north]);
        let style = "stroke=\"#222\" stroke-width=\"1.2\" stroke-dasharray=\"5 3\"";
        line(out, near, far, style);
    }
    let tip = add(end, chain.direction.axis, PANEL / 9.0 / view.scale);
    arrow(out, start, view.place(tip), "#222");
}

/// What is drawn of a tool, if there is one.
fn tool_legend(out: &mut String, x: f64, y: f64) {
    let style = "font-size=\"12\" fill=\"#222\"";
    flange(out, [x + 6.0, y - 4.0]);
    words(
        out,
        [x + 22.0, y],
        style,
        "flange, where the last link ends",
    );
    let line = x + 236.0;
    tool_line(out, [line, y - 4.0], [line + 26.0, y - 4.0], "#555");
    let text = "tool, from the flange to its tip, which is the end";
    words(out, [line + 36.0, y], style, text);
}

/// What the marks mean, and the chains by name with their directions.
fn legend(out: &mut String, work: &Work) -> f64 {
    let style = "font-size=\"12\" fill=\"#222\"";
    let y = TOP + PANEL + 60.0;
    let grey = "#555";
    let mut x = LEFTS[0] + 8.0;
    let mut entry =
        |out: &mut String, draw: &dyn Fn(&mut String, [f64; 2]), text: &str, width: f64| {
            draw(out, [x, y - 4.0]);
            words(out, [x + 14.0, y], style, text);
            x += width;
        };
    entry(
        out,
        &|out, [x, y]| {
            let _ = writeln!(
                out,
                "<rect x=\"{:.2}\" y=\"{:.2}\" width=\"12\" height=\"12\" fill=\"#444\"/>",
                x - 6.0,
                y - 6.0
            );
        },
        "base",
        70.0,
    );
    entry(
        out,
        &|out, at| mark(out, at, 10, grey),
        "turning joint",
        115.0,
    );
    entry(
        out,
        &|out, at| mark(out, at, 30, grey),
        "sliding joint",
        115.0,
    );
    entry(
        out,
        &|out, at| mark(out, at, 0, grey),
        "end of a fixed link",
        150.0,
    );
    entry(
        out,
        &|out, at| diamond(out, at, grey),
        "goal; a box has its position tolerances",
        235.0,
    );
    let second = y + 22.0;
    let at = LEFTS[0] + 2.0;
    let off = second - 4.0;
    arrow(out, [at, off], [at + 16.0, off], "#222");
    let text = "z axis of the end frame; a dotted ring where it is along the line of sight";
    words(out, [at + 22.0, second], style, text);
    let ray = LEFTS[1] - 10.0;
    let dashed = "stroke=\"#222\" stroke-width=\"1.2\" stroke-dasharray=\"5 3\"";
    line(out, [ray, off], [ray + 26.0, off], dashed);
    words(out, [ray + 32.0, second], style, "its azimuth, from above");
    let mut y = second;
    if work.tools() > 0 {
        y += 22.0;
        tool_legend(out, at, y);
    }
    for (chain, colour) in work.chains.iter().zip(COLOURS) {
        y += 22.0;
        line(
            out,
            [at, y - 4.0],
            [at + 14.0, y - 4.0],
            &format!("stroke=\"{colour}\" stroke-width=\"5\""),
        );
        let azimuth = match chain.direction.azimuth {
            Some(degrees) => format!("azimuth {degrees:.2}°"),
            None => "no azimuth, the axis is vertical".to_string(),
        };
        let at_point = |[x, north, z]: [f64; 3]| format!("at {x:.4}, {north:.4}, {z:.4}");
        let end = at_point(chain.end.position);
        let end = match chain.tool {
            Some(_) => format!("tip {end}, flange {}", at_point(chain.flange())),
            None => format!("end {end}"),
        };
        let text = format!(
            "{}: {azimuth}, inclination {:.2}° from straight down; {end}",
            chain.name, chain.direction.inclination
        );
        words(out, [at + 22.0, y], style, &text);
    }
    y
}

/// The side with the longer reach: from the south, or from the east.
fn side(bounds: &[[f64; 2]; 3]) -> ([f64; 3], &'static str, &'static str) {
    let span = |axis: usize| bounds[axis][1] - bounds[axis][0];
    if span(0) >= span(1) {
        (
            [1.0, 0.0, 0.0],
            "From the side, seen from the south",
            "east (x) to the right",
        )
    } else {
        (
            [0.0, 1.0, 0.0],
            "From the side, seen from the east",
            "north (y) to the right",
        )
    }
}

pub fn draw(hole: &str, work: &Work) -> String {
    let mut points = vec![[0.0; 3]];
    for chain in &work.chains {
        points.extend(&chain.frames.positions);
        points.push(chain.end.position);
        if let Some(goal) = &chain.goal {
            // With its tolerances, as far as they are not out of all proportion.
            for sign in [-1.0, 1.0] {
                let wide = goal.tolerances.map(|wide| sign * wide.clamp(0.0, 2.0));
                points.push([0, 1, 2].map(|k| goal.position[k] + wide[k]));
            }
        }
    }
    let bounds = bounds(&points);
    let spans = bounds.map(|[low, high]| high - low);
    // Room for the axis arrows is a share of the panel, hence of the span.
    let span = 1.2 * spans.into_iter().fold(1e-3, f64::max);
    let scale = (PANEL - 2.0 * MARGIN) / span;
    let step = step_for(PANEL / scale);
    let centre = bounds.map(|[low, high]| (low + high) / 2.0);
    let (along, side_title, side_name) = side(&bounds);
    let view =
        |title: &str, right: [f64; 3], up: [f64; 3], left: f64, names: [&'static str; 2]| View {
            title: title.to_string(),
            right,
            up,
            left,
            scale,
            middle: [dot(centre, right), dot(centre, up)],
            step,
            names,
        };
    let (east, north, upwards) = ([1.0, 0.0, 0.0], [0.0, 1.0, 0.0], [0.0, 0.0, 1.0]);
    let views = [
        view(
            "From above",
            east,
            north,
            LEFTS[0],
            ["east (x) to the right", "north (y) up"],
        ),
        view(
            side_title,
            along,
            upwards,
            LEFTS[1],
            [side_name, "height (z) up"],
        ),
    ];
    let mut body = String::new();
    let title = if hole.is_empty() { "Hole sheet" } else { hole };
    words(
        &mut body,
        [LEFTS[0], 38.0],
        "font-size=\"20\" font-weight=\"bold\" fill=\"#111\"",
        title,
    );
    for (at, view) in views.iter().enumerate() {
        grid(&mut body, view);
        let _ = writeln!(
            body,
            "<clipPath id=\"panel{at}\"><rect x=\"{}\" y=\"{TOP}\" width=\"{PANEL}\" height=\"{PANEL}\"/></clipPath>\n<g clip-path=\"url(#panel{at})\">",
            view.left
        );
        let (mut taken, mut first) = (Vec::new(), 0);
        for (own, colour) in work.chains.iter().zip(COLOURS) {
            chain(&mut body, view, own, colour, first, &mut taken);
            first += own.joints;
            if own.tool.is_some() {
                tool(&mut body, view, own, colour);
            }
        }
        for (own, colour) in work.chains.iter().zip(COLOURS) {
            if let Some(own_goal) = &own.goal {
                goal(&mut body, view, own_goal, colour);
            }
            axis(&mut body, view, own, at == 0);
        }
        body.push_str("</g>\n");
    }
    let height = legend(&mut body, work) + 26.0;
    format!(
        "<svg xmlns=\"http://www.w3.org/2000/svg\" width=\"{WIDTH}\" height=\"{height}\" viewBox=\"0 0 {WIDTH} {height}\" \
         font-family=\"DejaVu Sans, Arial, sans-serif\">\n<rect width=\"{WIDTH}\" height=\"{height}\" fill=\"#fafafa\"/>\n{body}</svg>\n"
    )
}

#[cfg(test)]
mod tests {
    use super::*;
    use crate::{text, work};

    #[test]
    fn steps_are_round() {
        for (span, step) in [(8.0, 1.0), (10.0, 2.0), (40.0, 5.0), (0.08, 0.01)] {
            assert!((step_for(span) - step).abs() < 1e-12, "{span}");
        }
    }

    #[test]
    fn names_are_escaped_and_every_number_is_finite() {
        let sheet = "sonde 1\nhole <a> & \"b\"\nchain arm\nlink revolute z 0 0 0 1 0 0 0\n\
                     link prismatic x 0 0 0 1 0 0 0\nlimits free\nlimits free\njoints 0 0\n\
                     goal 0 0 0 1 0 0 0 0 0.5 0 0 0 100\n";
        let file = text::parse(sheet.as_bytes()).unwrap();
        let drawing = draw(&file.hole, &work::work(&file).unwrap());
        assert!(drawing.contains("&lt;a&gt; &amp; &quot;b&quot;"));
        assert!(!drawing.contains("NaN") && !drawing.contains("inf\""));
        assert!(!drawing.contains("flange"), "there is no tool");
    }

    #[test]
    fn slides_of_either_kind_are_squares() {
        let drawn = |code| {
            let mut out = String::new();
            mark(&mut out, [0.0, 0.0], code, "#222");
            out
        };
        assert!(drawn(30).starts_with("<rect"));
        for code in (31..=36).chain(40..=46) {
            assert_eq!(drawn(code), drawn(30), "{code}");
        }
    }

    /// The picture reaches to the tip, and the flange has a mark in both views and in
    /// the legend.
    #[test]
    fn a_tool_is_told_apart() {
        let sheet = "sonde 1\nchain arm\nlink revolute z 0 0 1 1 0 0 0\n\
                     link revolute x 0 0 1 1 0 0 0\nTOOL\nlimits free\nlimits free\njoints 0 0\n";
        let drawn = |tool: &str| {
            let file = text::parse(sheet.replace("TOOL", tool).as_bytes()).unwrap();
            draw(&file.hole, &work::work(&file).unwrap())
        };
        let (without, with) = (drawn(""), drawn("tool 0.5 0 9 1 0 0 0"));
        for (word, count) in [
            ("tip at 0.5000, 0.0000, 11.0000", 1),
            ("flange at 0.0000, 0.0000, 2.0000", 1),
            ("white\" stroke-width=\"3\" stroke-linecap", 3),
        ] {
            assert_eq!(with.matches(word).count(), count, "{word}");
            assert_eq!(without.matches(word).count(), 0, "{word}");
        }
        // Eight to the span and some: the height axis goes up to ten.
        assert!(with.contains(">10</text>") && !without.contains(">10</text>"));
    }
}
