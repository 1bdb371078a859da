//! The leaves on rotations that the strict goals work with.

use crate::draw::kind::{Kind, Kinds};
use crate::draw::{grid, turned, Draw, CORNERS, HALVES, SIGNS};
use crate::geometry::{four, join, split, three, unit};
use crate::run::Run;
use crate::strict::HAIRS;
use crate::target::Target;
use nalgebra::UnitQuaternion;
use reference::utils_rust::transformations::{
    angle_between_quaternion, quaternion_disp, quaternion_log,
};
use relaxed_ik::leaves;

/// At the border rotations lie to each other, or to none, where something changes.
pub const ROTATIONS: Kinds = &[
    (Kind::Range, 5),
    (Kind::Border, 6),
    (Kind::Signs, 2),
    (Kind::Small, 1),
    (Kind::Any, 2),
];

/// No turn at all.
const NONE: [f64; 4] = [1.0, 0.0, 0.0, 0.0];

pub fn targets() -> Vec<Target> {
    let leaf = Target::leaf;
    vec![
        leaf(
            "from_quaternion",
            "a quaternion divided by its length",
            ROTATIONS,
            from_quaternion,
        ),
        leaf("quaternion_log", "logarithm of a rotation", ROTATIONS, log),
        leaf(
            "quaternion_disp",
            "logarithm of the turn between two rotations",
            ROTATIONS,
            disp,
        ),
        leaf(
            "angle_between_quaternion",
            "angle between two rotations",
            ROTATIONS,
            angle,
        ),
    ]
}

/// At the border its length is anything but 1.
fn from_quaternion(run: &mut Run) {
    run.function(
        grid::<4>(&CORNERS),
        |draw, kind| {
            let q = draw.quaternion(kind);
            let size = match kind {
                Kind::Border => draw.small(1000) * draw.pick(&[1.0, 1e3, 1e155, 1e300]),
                _ => 1.0,
            };
            q.map(|part| part * size)
        },
        leaves::from_quaternion,
        |q| four(UnitQuaternion::from_quaternion(*unit(q))),
    );
}

/// Every w of the edges, beside every vector of few parts.
fn log(run: &mut Run) {
    let mut cosines = CORNERS.to_vec();
    for half in HALVES {
        let around = |w: f64| [w, w.next_up(), w.next_down()];
        cosines.extend(around(half.cos()));
    }
    let vectors: Vec<[f64; 3]> = grid(&CORNERS).collect();
    let edges = cosines
        .iter()
        .flat_map(|&w| vectors.iter().map(move |&[i, j, k]| [w, i, j, k]));
    run.function(
        edges,
        |draw, kind| match kind {
            Kind::Border => draw.turned(NONE),
            _ => draw.quaternion(kind),
        },
        leaves::quaternion_log,
        |q| three(quaternion_log(unit(q))),
    );
}

/// Zeros and ones of both signs in every place, and then rotations beside each of few.
pub fn pair_edges() -> impl Iterator<Item = [f64; 8]> {
    let few: Vec<[f64; 4]> = vec![
        NONE,
        [-1.0, -0.0, 0.0, -0.0],
        [0.5; 4],
        [-0.5, 0.5, -0.5, 0.5],
        [0.8, 0.0, -0.6, 0.0],
        [0.1, -0.7, 0.1, 0.7],
        [f64::NAN; 4],
        [f64::MAX; 4],
        [0.0; 4],
    ];
    let around = |half: &f64| HAIRS.map(|hair| half + hair);
    let turns: Vec<f64> = HALVES.iter().flat_map(around).collect();
    let beside = few.into_iter().flat_map(move |q| {
        let mut others = vec![q, q.map(|part| -part), [f64::MAX; 4], [f64::INFINITY; 4]];
        others.extend(turns.iter().map(|&half| turned(q, half, [0.6, -0.8, 0.0])));
        others.into_iter().map(move |other| join(&q, &other))
    });
    grid::<8>(&SIGNS).chain(beside)
}

/// Two rotations; at the border the second lies beside the first.
pub fn pair(draw: &mut Draw, kind: Kind) -> [f64; 8] {
    let first = draw.mixed(kind);
    let q = draw.quaternion(first);
    let other = match kind {
        Kind::Border => draw.turned(q),
        _ => draw.quaternion(kind),
    };
    join(&q, &other)
}

fn disp(run: &mut Run) {
    run.function(
        pair_edges(),
        pair,
        |all| {
            let (q, other) = split::<8, 4, 4>(all);
            leaves::quaternion_disp(q, other)
        },
        |all| {
            let (q, other) = split::<8, 4, 4>(all);
            three(quaternion_disp(unit(q), unit(other)))
        },
    );
}

fn angle(run: &mut Run) {
    run.function(
        pair_edges(),
        pair,
        |all| {
            let (q, other) = split::<8, 4, 4>(all);
            [leaves::angle_between_quaternion(q, other)]
        },
        |all| {
            let (q, other) = split::<8, 4, 4>(all);
            [angle_between_quaternion(unit(q), unit(other))]
        },
    );
}
