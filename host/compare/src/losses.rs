//! The losses.

use crate::draw::kind::{Kind, Kinds};
use crate::draw::{grid, Draw, CORNERS, SIGNS};
use crate::geometry::{join, split, unit, vector};
use crate::rotations::{pair, pair_edges, ROTATIONS};
use crate::run::Run;
use crate::target::Target;
use reference::groove::objective::{groove_loss, swamp_groove_loss, swamp_loss};
use reference::losses as published;
use relaxed_ik::leaves;

const DISTANCES: Kinds = &[
    (Kind::Range, 5),
    (Kind::Signs, 1),
    (Kind::Small, 1),
    (Kind::Any, 5),
];
const BOUNDED: Kinds = &[
    (Kind::Range, 5),
    (Kind::Border, 3),
    (Kind::Signs, 1),
    (Kind::Small, 1),
    (Kind::Any, 4),
];

pub fn targets() -> Vec<Target> {
    let leaf = Target::leaf;
    vec![
        leaf("groove_loss", "groove", DISTANCES, groove),
        leaf(
            "swamp_groove_loss",
            "swamp with a groove",
            BOUNDED,
            swamp_groove,
        ),
        leaf(
            "swamp_loss",
            "swamp, by the 20th or 30th power",
            BOUNDED,
            swamp,
        ),
        leaf(
            "loss_position",
            "a distance under its tolerance",
            BOUNDED,
            |run| under_tolerance(run, leaves::loss_position, published::position),
        ),
        leaf(
            "loss_rotation",
            "an angle under its tolerance",
            BOUNDED,
            |run| under_tolerance(run, leaves::loss_rotation, published::rotation),
        ),
        leaf("loss_limits", "a joint between its limits", BOUNDED, limits),
        leaf(
            "loss_pos_goals",
            "an end's position at a strict goal",
            BOUNDED,
            position_goal,
        ),
        leaf(
            "loss_quat_goals",
            "an end's rotation at a strict goal",
            ROTATIONS,
            rotation_goal,
        ),
    ]
}

/// Where the losses change, with the neighbours.
#[allow(clippy::approx_constant)]
const TOLERANCES: [f64; 2] = [0.01, 3.14159260];
/// The limits of a free joint, and others beside them.
const FREE: [f64; 4] = [999.0, -999.0, 998.0, -998.0];

fn with_neighbours(values: &[f64]) -> Vec<f64> {
    let around = |&v: &f64| [v, v.next_up(), v.next_down()];
    values.iter().flat_map(around).collect()
}

/// An argument as the objectives give it, or for `Any` now and then any float.
fn or_any(draw: &mut Draw, kind: Kind, own: f64) -> f64 {
    if kind != Kind::Any {
        return own;
    }
    match draw.word() % 8 {
        0 => draw.any(),
        1 => draw.pick(&CORNERS),
        _ => own,
    }
}

/// A distance, an angle or a scaled joint.
fn distance(draw: &mut Draw, kind: Kind) -> f64 {
    match (kind, draw.word() % 5) {
        (Kind::Small, _) => draw.small(60),
        (Kind::Signs, _) => draw.pick(&[0.0, -0.0, 1.0]),
        (Kind::Any, 0) => draw.edge(),
        (_, 0) => draw.between(-300.0, 300.0),
        (_, 1) => draw.between(-10.0, 10.0),
        _ => draw.between(-1.0, 1.0),
    }
}

fn groove(run: &mut Run) {
    run.function(
        grid(&CORNERS),
        |draw, kind| {
            let centre = draw.pick(&[0.0, 1.0]);
            let (width, factor) = (draw.pick(&[0.1, 0.5]), draw.pick(&[10.0, 0.1]));
            let x = distance(draw, kind);
            [x, centre, width, factor].map(|own| or_any(draw, kind, own))
        },
        |[x, t, c, f]| [leaves::groove_loss(x, t, c, f)],
        |[x, t, c, f]| [groove_loss(x, t, 2, c, f, 2)],
    );
}

/// Bounds, and x inside, at an end or beyond.
fn bounded(draw: &mut Draw, kind: Kind) -> [f64; 3] {
    let [l, u] = bounds(draw, kind);
    let x = match (kind, draw.word() % 4) {
        (Kind::Border, 0 | 1) => draw.pick(&[l, u]),
        (Kind::Border, 2) => (l + u) / 2.0,
        (Kind::Any, 0) => draw.any(),
        (Kind::Signs | Kind::Small, _) | (_, 1) => distance(draw, kind),
        _ => l + (u - l) * draw.between(-0.1, 1.1),
    };
    [x, l, u]
}

/// At the border they are equal, 0.001 apart, or a tolerance at which the loss
/// changes.
fn bounds(draw: &mut Draw, kind: Kind) -> [f64; 2] {
    match (kind, draw.word() % 8) {
        (Kind::Border, 0 | 1) => [draw.any(); 2],
        (Kind::Border, 2 | 3) => {
            let lower = draw.between(-100.0, 100.0);
            [lower, lower + 0.001]
        }
        (Kind::Any, 0 | 1) => [draw.any(), draw.any()],
        (_, 0) => [0.02, 1.5],
        (_, 1) => [draw.between(-100.0, 100.0), draw.between(-100.0, 100.0)],
        _ => {
            let bound = bound(draw, kind);
            [-bound, bound]
        }
    }
}

fn bound(draw: &mut Draw, kind: Kind) -> f64 {
    match (kind, draw.word() % 6) {
        (Kind::Border, 0..3) => {
            let edge = draw.pick(&TOLERANCES);
            draw.pick(&[edge, edge.next_up(), edge.next_down()])
        }
        (Kind::Border, _) => TOLERANCES[1] + draw.between(-1e-4, 1e-4),
        (Kind::Any, 0 | 1) => draw.any(),
        (_, 0) => draw.between(-100.0, 100.0),
        (_, 1) => draw.between(0.0, 0.02),
        _ => draw.between(0.01, 3.2),
    }
}

fn swamp_groove(run: &mut Run) {
    run.function(
        grid(&SIGNS),
        |draw, kind| {
            let [x, l, u] = bounded(draw, kind);
            let width = match draw.word() % 2 {
                0 => u * 2.0,
                _ => draw.between(0.001, 10.0),
            };
            [x, 0.0, l, u, width, 1.0, 0.01, 100.0].map(|own| or_any(draw, kind, own))
        },
        |[x, g, l, u, c, f1, f2, f3]| [leaves::swamp_groove_loss(x, g, l, u, c, f1, f2, f3)],
        |[x, g, l, u, c, f1, f2, f3]| [swamp_groove_loss(x, g, l, u, c, f1, f2, f3, 20)],
    );
}

/// The power is carried as a float, to be shown with the other arguments.
fn swamp(run: &mut Run) {
    let few = [0.0, -0.0, 1.0, -1.0, 1.5, f64::INFINITY, f64::NAN, 5e-324];
    let powers = [20.0, 30.0, 0.0, 65535.0];
    let edges =
        grid::<5>(&few).flat_map(|[x, l, u, f1, f2]| powers.map(|power| [x, l, u, f1, f2, power]));
    run.function(
        edges,
        |draw, kind| {
            let [x, l, u] = bounded(draw, kind);
            let [f1, f2] = draw.pick(&[[100.0, 0.1], [60.0, 0.0001], [10.0, 10.0]]);
            let [x, l, u, f1, f2] = [x, l, u, f1, f2].map(|own| or_any(draw, kind, own));
            let power = match (kind, draw.word() % 8) {
                (Kind::Any, 0) => f64::from(draw.word() as u16),
                _ => draw.pick(&[20.0, 30.0]),
            };
            [x, l, u, f1, f2, power]
        },
        |[x, l, u, f1, f2, power]| [leaves::swamp_loss(x, l, u, f1, f2, power as u16)],
        |[x, l, u, f1, f2, power]| {
            let power = if power == 30.0 { 30 } else { 20 };
            [swamp_loss(x, l, u, f1, f2, power)]
        },
    );
}

fn under_tolerance(run: &mut Run, proved: fn(f64, f64) -> f64, reference: fn(f64, f64) -> f64) {
    let mut values = run.draw.edges();
    values.extend(with_neighbours(&TOLERANCES));
    run.function(
        grid(&values),
        |draw, kind| {
            let bound = bound(draw, kind);
            let x = match draw.word() % 4 {
                0 => distance(draw, kind),
                1 => bound * draw.between(-1.1, 1.1),
                _ if matches!(kind, Kind::Signs | Kind::Small) => distance(draw, kind),
                _ => draw.between(-3.2, 3.2),
            };
            [or_any(draw, kind, x), bound]
        },
        |[x, bound]| [proved(x, bound)],
        |[x, bound]| [reference(x, bound)],
    );
}

/// The border has the limits of a free joint, and others beside them.
fn limits(run: &mut Run) {
    let mut values = with_neighbours(&FREE);
    values.extend(CORNERS);
    values.extend([0.001, 8.0, -8.0, 64.0, -64.0, 100.0, -100.0]);
    run.function(
        grid(&values),
        |draw, kind| match (kind, draw.word() % 2) {
            (Kind::Border, 0) => {
                let x = distance(draw, Kind::Range);
                [x, draw.pick(&FREE), draw.pick(&FREE)]
            }
            (Kind::Any, 0) => draw.anys(),
            _ => bounded(draw, kind),
        },
        |[x, l, u]| [leaves::loss_limits(x, l, u)],
        |[x, l, u]| [published::limits(x, &published::limited(l, u))],
    );
}

/// At the border the end is at the goal, or moved by little.
fn position_goal(run: &mut Run) {
    let few = [0.0, -0.0, 1.0, f64::INFINITY, f64::NAN];
    run.function(
        grid::<6>(&few),
        |draw, kind| {
            let goal = draw.vector(kind);
            let size = draw.pick(&[0.0, 1e-9, 1e-3, 0.1, 1.0]);
            let end = match kind {
                Kind::Border => goal.map(|v| v + draw.between(-size, size)),
                _ => draw.vector(kind),
            };
            join(&goal, &end)
        },
        |all| {
            let (goal, end) = split::<6, 3, 3>(all);
            [leaves::loss_pos_goals(goal, end)]
        },
        |all| {
            let (goal, end) = split::<6, 3, 3>(all);
            [published::position_goal(vector(goal), vector(end))]
        },
    );
}

fn rotation_goal(run: &mut Run) {
    run.function(
        pair_edges(),
        pair,
        |all| {
            let (goal, end) = split::<8, 4, 4>(all);
            [leaves::loss_quat_goals(goal, end)]
        },
        |all| {
            let (goal, end) = split::<8, 4, 4>(all);
            [published::rotation_goal(unit(goal), unit(end))]
        },
    );
}
