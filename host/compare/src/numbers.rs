//! The leaves that take one or two numbers.

use crate::draw::kind::{Kind, Kinds};
use crate::draw::{grid, half_turns, Draw};
use crate::run::Run;
use crate::target::{Target, CONSTANT};
use relaxed_ik::leaves;
use standins::{acos, atan2, b, cos, cut, exp, powi, sin};

/// Up to half of the draws are any floats.
const ROOT: Kinds = &[
    (Kind::Range, 1),
    (Kind::Border, 2),
    (Kind::Small, 1),
    (Kind::Any, 4),
];
pub const ANGLE: Kinds = &[
    (Kind::Range, 6),
    (Kind::Border, 4),
    (Kind::Small, 1),
    (Kind::Any, 5),
];
const EXPONENT: Kinds = &[
    (Kind::Range, 5),
    (Kind::Border, 2),
    (Kind::Small, 1),
    (Kind::Any, 8),
];
const SCALED: Kinds = &[(Kind::Range, 3), (Kind::Border, 1), (Kind::Any, 4)];
const SIDES: Kinds = &[
    (Kind::Range, 2),
    (Kind::Border, 2),
    (Kind::Small, 2),
    (Kind::Any, 2),
];
const COSINES: Kinds = &[
    (Kind::Range, 3),
    (Kind::Border, 3),
    (Kind::Small, 1),
    (Kind::Any, 3),
];

pub fn targets() -> Vec<Target> {
    let leaf = Target::leaf;
    let constant = |name, about, run| Target::new(name, about, CONSTANT, &[], run);
    vec![
        leaf(
            "sqrt",
            "square root, against the machine's own",
            ROOT,
            |run| one(run, radicand, leaves::sqrt, f64::sqrt),
        ),
        leaf("sin", "sine", ANGLE, |run| {
            one(run, half_angle, leaves::sin, sin)
        }),
        leaf("cos", "cosine", ANGLE, |run| {
            one(run, half_angle, leaves::cos, cos)
        }),
        leaf("exp", "exponential", EXPONENT, |run| {
            one(run, exponent, leaves::exp, exp)
        }),
        leaf("atan2", "angle of n and w", SIDES, angle),
        leaf("acos", "angle of a cosine", COSINES, |run| {
            one(run, cosine, leaves::acos, acos)
        }),
        leaf("power20", "20th power by squaring", SCALED, |run| {
            one(run, scaled, leaves::power20, |a| powi(a, 20))
        }),
        leaf("power30", "30th power by squaring", SCALED, |run| {
            one(run, scaled, leaves::power30, |a| powi(a, 30))
        }),
        constant("b20", "the constant b for 20", |run| {
            run.floats(&[], &[leaves::b20()], &[b(20)])
        }),
        constant("b30", "the constant b for 30", |run| {
            run.floats(&[], &[leaves::b30()], &[b(30)])
        }),
        leaf("cut", "cut to 0..1", SCALED, |run| {
            one(run, scaled, leaves::cut, cut)
        }),
        leaf("abs", "absolute value", SCALED, |run| {
            one(run, scaled, leaves::abs, f64::abs)
        }),
    ]
}

/// A leaf of one number: all edges, half turns and powers of two with their
/// neighbours, or draws.
#[inline]
fn one(
    run: &mut Run,
    draw: impl Fn(&mut Draw, Kind) -> f64,
    proved: impl Fn(f64) -> f64,
    reference: impl Fn(f64) -> f64,
) {
    let edges = if run.edges() {
        singles(&run.draw)
    } else {
        Vec::new()
    };
    run.function(
        edges.into_iter(),
        |from, kind| [draw(from, kind)],
        |[x]| [proved(x)],
        |[x]| [reference(x)],
    );
}

pub fn singles(draw: &Draw) -> Vec<[f64; 1]> {
    let mut values = draw.edges();
    values.extend(half_turns());
    for field in 0..2047u64 {
        values.push(f64::from_bits(field << 52));
    }
    for bit in 0..52 {
        values.push(f64::from_bits(1 << bit));
    }
    let around = |v: f64| {
        [
            v,
            v.next_up(),
            v.next_down(),
            -v,
            -v.next_up(),
            -v.next_down(),
        ]
    };
    values.into_iter().flat_map(around).map(|v| [v]).collect()
}

/// Joints reach 64 and a little beyond once raised; sine and cosine are asked half of
/// that. The border is where they begin to take turns off, where they change how many,
/// and where nothing is left, in range and far beyond.
pub fn half_angle(draw: &mut Draw, kind: Kind) -> f64 {
    let sign = draw.pick(&[1.0, -1.0]);
    match (kind, draw.word() % 8) {
        (Kind::Any, _) => draw.any(),
        (Kind::Small, _) => draw.small(60),
        (Kind::Border, 0 | 1) => sign * draw.beside(4.5, 2),
        (Kind::Border, 2) => sign * draw.between(4.49, 4.51),
        (Kind::Border, 3..=6) => draw.half_turns(21),
        (Kind::Border, _) => {
            let most = 2 << draw.below(54);
            draw.half_turns(most)
        }
        (_, 0..=2) => draw.between(-4.0000001, 4.0000001),
        (_, 3) => draw.between(-8.000001, 8.000001),
        (_, 4..=6) => draw.between(-33.0, 33.0),
        _ => draw.between(-65.0, 65.0),
    }
}

/// The border is where the answer becomes 0, and 0.
fn exponent(draw: &mut Draw, kind: Kind) -> f64 {
    match (kind, draw.word() % 8) {
        (Kind::Any, _) => draw.any(),
        (Kind::Border, 0..4) => draw.between(-700.001, -699.999),
        (Kind::Border, _) => draw.between(-0.001, 0.0001),
        (Kind::Small, _) => -draw.small(1000).abs(),
        (_, 0) => draw.between(-10.0, 0.0),
        (_, 1) => draw.between(-1.0, 0.0),
        _ => draw.between(-750.0, 0.0),
    }
}

/// Scaled joint values: bounds are at -1 and 1.
fn scaled(draw: &mut Draw, kind: Kind) -> f64 {
    match (kind, draw.word() % 3) {
        (Kind::Any, _) => draw.any(),
        (Kind::Border, _) => draw.between(0.9, 1.1),
        (_, 0) => draw.between(-1.0001, 1.0001),
        (_, 1) => draw.between(-100.0, 100.0),
        _ => draw.between(-2.0, 2.0),
    }
}

/// The border is where the angle's formula or its sign changes: 0, 1 and -1, and a
/// hair from each.
fn cosine(draw: &mut Draw, kind: Kind) -> f64 {
    match (kind, draw.word() % 2) {
        (Kind::Any, _) => draw.any(),
        (Kind::Border, 0) => {
            let end = draw.pick(&[0.0, -0.0, 1.0, -1.0]);
            beside(draw, end)
        }
        (Kind::Border, _) => draw.pick(&[0.0, 1.0, -1.0]) + draw.small(60),
        (Kind::Small, _) => draw.small(1000),
        _ => draw.between(-1.0, 1.0),
    }
}

/// The border is where a root is hardest: squares, floats beside the square of a
/// point halfway between two floats, and the neighbours of both.
fn radicand(draw: &mut Draw, kind: Kind) -> f64 {
    match (kind, draw.word() % 2) {
        (Kind::Any, _) => draw.any(),
        (Kind::Border, 0) => {
            let square = square(draw);
            beside(draw, square)
        }
        (Kind::Border, _) => {
            let halfway = halfway(draw);
            beside(draw, halfway)
        }
        (Kind::Small, _) => draw.subnormal().abs(),
        _ => draw.bits().abs(),
    }
}

fn square(draw: &mut Draw) -> f64 {
    let side = (draw.word() >> 38) as f64;
    let scale = f64::from_bits((1023 - 2 * (draw.word() % 500)) << 52);
    side * side * scale
}

/// The square of q + 1/2 for a q of 53 digits, cut to 53 digits: roots of the
/// floats about here lie next to the halfway point.
fn halfway(draw: &mut Draw) -> f64 {
    let q = draw.word() >> 12 | 1 << 52;
    let twice = u128::from(2 * q + 1);
    let square = twice * twice;
    let drop = 128 - 53 - square.leading_zeros();
    let exponent = (1075 + u64::from(drop % 2)) - 2 * (draw.word() % 500);
    let fraction = (square >> drop) as u64 & ((1 << 52) - 1);
    f64::from_bits(fraction | exponent << 52)
}

fn beside(draw: &mut Draw, v: f64) -> f64 {
    match draw.word() % 4 {
        0 => v.next_up(),
        1 => v.next_down(),
        _ => v,
    }
}

fn angle(run: &mut Run) {
    let edges = run.draw.edges();
    run.function(
        grid(&edges),
        sides,
        |[n, w]| [leaves::atan2(n, w)],
        |[n, w]| [atan2(n, w)],
    );
}

/// In range: the two sides of a unit quaternion, as scaled_axis asks. The border
/// is n = w.
fn sides(draw: &mut Draw, kind: Kind) -> [f64; 2] {
    match (kind, draw.word() % 2) {
        (Kind::Any, 0) => draw.anys(),
        (Kind::Any, _) => [draw.bits().abs(), draw.bits().abs()],
        (Kind::Border, 0) => [draw.any().abs(); 2],
        (Kind::Border, _) => {
            let v = draw.between(0.0, 1.0);
            [beside(draw, v), v]
        }
        (Kind::Small, 0) => [draw.small(1000).abs(), 1.0],
        (Kind::Small, _) => [draw.small(1000).abs(), draw.small(1000).abs()],
        _ => {
            let w = draw.between(0.0, 1.0);
            [(1.0 - w * w).sqrt(), w]
        }
    }
}
