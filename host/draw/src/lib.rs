//! Where inputs come from: a small seeded generator, the edges every leaf is
//! asked, and ways to draw floats, quaternions and vectors.

#![forbid(unsafe_code)]

pub mod kind;

use kind::Kind;
use std::f64::consts::PI;

/// SplitMix64: quick, and every seed will do.
pub struct Draw {
    state: u64,
    edges: Vec<f64>,
}

/// The 64-bit FNV-1a sum.
pub fn fnv(bytes: &[u8]) -> u64 {
    bytes.iter().fold(0xcbf2_9ce4_8422_2325, |hash, &byte| {
        (hash ^ u64::from(byte)).wrapping_mul(0x0000_0100_0000_01b3)
    })
}

/// Values at which something changes in the papers: range ends, tolerances,
/// bounds, steps and constants. Their negatives and their neighbours by one
/// ulp are added below.
#[allow(clippy::approx_constant)]
const MARKS: [f64; 47] = [
    0.0,
    f64::MIN_POSITIVE,
    0.5,
    1.0,
    1.5,
    2.0,
    3.0,
    4.0,
    4.5,
    8.0,
    9.0,
    10.0,
    16.0,
    25.0,
    32.0,
    60.0,
    64.0,
    100.0,
    160.0,
    700.0,
    999.0,
    1024.0,
    0.0000001,
    0.000001,
    0.0001,
    0.001,
    0.01,
    0.02,
    0.05,
    0.1,
    0.9466181999720432,
    0.9640877546898133,
    0.999999999,
    1.000000001,
    std::f64::consts::FRAC_1_SQRT_2,
    std::f64::consts::SQRT_2,
    std::f64::consts::FRAC_PI_4,
    std::f64::consts::FRAC_PI_2,
    3.14159260,
    std::f64::consts::PI,
    std::f64::consts::TAU,
    708.0,
    745.0,
    9007199254740992.0,
    1e154,
    1e-162,
    f64::MAX,
];

/// NaNs quiet and signalling, of both signs, with and without a payload.
pub const NANS: [u64; 6] = [
    0x7ff8_0000_0000_0000,
    0xfff8_0000_0000_0000,
    0x7ff0_0000_0000_0001,
    0xfff0_0000_0000_0001,
    0x7fff_ffff_ffff_ffff,
    0x7ff8_dead_beef_0001,
];

/// Few values, for every combination of them in several places at once.
pub const CORNERS: [f64; 14] = [
    0.0,
    -0.0,
    1.0,
    -1.0,
    0.5,
    -0.5,
    std::f64::consts::FRAC_1_SQRT_2,
    -std::f64::consts::FRAC_1_SQRT_2,
    5e-324,
    -5e-324,
    f64::MAX,
    f64::INFINITY,
    f64::NEG_INFINITY,
    f64::NAN,
];

/// Zeros and ones of both signs.
pub const SIGNS: [f64; 4] = [0.0, -0.0, 1.0, -1.0];

/// Halves of the angles that a rotation is turned by to lie where something changes:
/// none, half a turn, a whole one, and those whose sine is that of a small angle in
/// `quaternion_log`, by 0.005.
pub const HALVES: [f64; 5] = [
    0.0,
    std::f64::consts::FRAC_PI_2,
    std::f64::consts::PI,
    0.005000020833567712,
    std::f64::consts::PI - 0.005000020833567712,
];

impl Draw {
    pub fn new(seed: u64) -> Self {
        let mut edges = Vec::new();
        for mark in MARKS {
            for v in [mark, mark.next_up(), mark.next_down()] {
                edges.extend([v, -v]);
            }
        }
        let largest_subnormal = f64::MIN_POSITIVE.next_down();
        edges.extend([
            largest_subnormal.next_down(),
            -largest_subnormal.next_down(),
        ]);
        edges.extend([f64::INFINITY, f64::NEG_INFINITY]);
        edges.extend(NANS.map(f64::from_bits));
        edges.sort_by_key(|v| v.to_bits());
        edges.dedup_by_key(|v| v.to_bits());
        Self { state: seed, edges }
    }

    /// The marks with their neighbours, infinities and NaNs.
    pub fn edges(&self) -> Vec<f64> {
        self.edges.clone()
    }

    #[inline]
    pub fn word(&mut self) -> u64 {
        self.state = self.state.wrapping_add(0x9e37_79b9_7f4a_7c15);
        let z = (self.state ^ (self.state >> 30)).wrapping_mul(0xbf58_476d_1ce4_e5b9);
        let z = (z ^ (z >> 27)).wrapping_mul(0x94d0_49bb_1331_11eb);
        z ^ (z >> 31)
    }

    /// A whole number from 0 to below `n`.
    #[inline]
    pub fn below(&mut self, n: usize) -> usize {
        ((u128::from(self.word()) * n as u128) >> 64) as usize
    }

    #[inline]
    pub fn pick<T: Copy>(&mut self, list: &[T]) -> T {
        list[self.below(list.len())]
    }

    /// Any bit pattern.
    #[inline]
    pub fn bits(&mut self) -> f64 {
        f64::from_bits(self.word())
    }

    #[inline]
    pub fn between(&mut self, low: f64, high: f64) -> f64 {
        low + (high - low) * ((self.word() >> 11) as f64 / 9007199254740992.0)
    }

    /// Any size from 2^-`most` to 1, either sign.
    #[inline]
    pub fn small(&mut self, most: u64) -> f64 {
        let word = self.word();
        let exponent = 1022 - (word >> 52) % most;
        f64::from_bits((self.word() & 0x800f_ffff_ffff_ffff) | exponent << 52)
    }

    #[inline]
    pub fn subnormal(&mut self) -> f64 {
        let word = self.word();
        let fraction = (word & 0x000f_ffff_ffff_ffff) >> ((word >> 58) % 52);
        f64::from_bits(fraction | (word & (1 << 57)) << 6)
    }

    /// At most so many ulps away.
    #[inline]
    pub fn beside(&mut self, v: f64, ulps: u64) -> f64 {
        let away = self.word() % (2 * ulps + 1);
        f64::from_bits(v.to_bits().wrapping_add(away).wrapping_sub(ulps))
    }

    /// An edge, or a float a few ulps beside one.
    #[inline]
    pub fn edge(&mut self) -> f64 {
        let at = self.below(self.edges.len());
        let edge = self.edges[at];
        match self.word() % 4 {
            0 => self.beside(edge, 4),
            _ => edge,
        }
    }

    /// An angle of at most so many half turns, either way, or a float beside one.
    pub fn half_turns(&mut self, most: usize) -> f64 {
        let count = (1 + self.below(most)) as f64 * self.pick(&[1.0, -1.0]);
        match self.word() % 2 {
            0 => count * PI,
            _ => self.beside(count * PI, 2),
        }
    }

    /// A float of no particular leaf: patterns, edges, and the ranges of
    /// joints, displacements and limits with a little beyond.
    #[inline]
    pub fn any(&mut self) -> f64 {
        match self.word() % 8 {
            0 | 1 => self.bits(),
            2 => self.edge(),
            3 => {
                let reach = self.pick(&[8.000001, 64.000001]);
                self.between(-reach, reach)
            }
            4 => self.between(-10.000001, 10.000001),
            5 => self.between(-100.00001, 100.00001),
            6 => self.small(60),
            _ => self.subnormal(),
        }
    }

    /// Each float of another kind than the last.
    pub fn anys<const N: usize>(&mut self) -> [f64; N] {
        std::array::from_fn(|_| self.any())
    }

    /// The kind, or as often numbers in range: so arguments of both meet.
    pub fn mixed(&mut self, kind: Kind) -> Kind {
        self.pick(&[kind, Kind::Range])
    }

    /// In range: sizes as in an arm's frames.
    pub fn vector(&mut self, kind: Kind) -> [f64; 3] {
        match (kind, self.word() % 4) {
            (Kind::Signs, _) => std::array::from_fn(|_| self.pick(&SIGNS)),
            (Kind::Small, _) => std::array::from_fn(|_| self.small(60)),
            (Kind::Any, _) => self.anys(),
            (_, 0) => std::array::from_fn(|_| self.between(-160.0, 160.0)),
            _ => std::array::from_fn(|_| self.between(-10.0, 10.0)),
        }
    }

    /// Of length 1 as near as floats allow, but for any floats at all. In range:
    /// about any axis, now and then about x, y or z. Small: hardly a turn.
    pub fn quaternion(&mut self, kind: Kind) -> [f64; 4] {
        let [w, i, j, k]: [f64; 4] = std::array::from_fn(|_| self.between(-1.0, 1.0));
        match (kind, self.word() % 8) {
            (Kind::Signs, _) => self.quaternion_of_signs([w, i, j, k]),
            (Kind::Small, _) => {
                let scale = self.small(600);
                normal([w, i * scale, j * scale, k * scale])
            }
            (Kind::Any, 0..4) => std::array::from_fn(|_| self.pick(&CORNERS)),
            (Kind::Any, _) => self.anys(),
            (_, 0) => {
                let mut q = [w, 0.0, 0.0, 0.0];
                q[1 + self.below(3)] = i;
                normal(q)
            }
            _ => normal([w, i, j, k]),
        }
    }

    /// A rotation beside another: the same, the same by the other sign, or turned by
    /// one of the angles above or a hair more or less.
    pub fn turned(&mut self, q: [f64; 4]) -> [f64; 4] {
        match self.word() % 4 {
            0 => q,
            1 => q.map(|part| -part),
            way => {
                let hair = if way == 2 { 0.0 } else { self.small(60) };
                let half = self.pick(&HALVES) + hair;
                let axis = self.vector(Kind::Range);
                turned(q, half, axis)
            }
        }
    }

    /// With w a zero of either sign, without turn, or with zeros among parts of
    /// equal size.
    fn quaternion_of_signs(&mut self, [_, i, j, k]: [f64; 4]) -> [f64; 4] {
        match self.word() % 4 {
            0 => normal([0.0, i, j, k]),
            1 => normal([-0.0, i, j, k]),
            2 => [self.pick(&[1.0, -1.0]), 0.0, -0.0, 0.0],
            _ => normal(std::array::from_fn(|_| self.pick(&CORNERS[..8]))),
        }
    }
}

/// Of length 1, if it has one.
fn normal(q: [f64; 4]) -> [f64; 4] {
    let size = (q[0] * q[0] + q[1] * q[1] + q[2] * q[2] + q[3] * q[3]).sqrt();
    if size > 0.0 {
        q.map(|c| c / size)
    } else {
        q
    }
}

/// A rotation turned about an axis by twice the angle.
pub fn turned([w, i, j, k]: [f64; 4], half: f64, axis: [f64; 3]) -> [f64; 4] {
    let size = axis.iter().map(|v| v * v).sum::<f64>().sqrt();
    let [x, y, z] = axis.map(|v| half.sin() * v / size);
    let c = half.cos();
    [
        w * c - i * x - j * y - k * z,
        w * x + i * c + j * z - k * y,
        w * y - i * z + j * c + k * x,
        w * z + i * y - j * x + k * c,
    ]
}

/// Angles of so many half turns: at an even count sine and cosine have nothing left, at
/// an odd one they change how many turns they take off. First all that a joint reaches
/// and some more, then some as far out as floats tell such counts apart.
pub fn half_turns() -> Vec<f64> {
    let near = (1..=24).map(f64::from);
    let far = (5..54).flat_map(|power| [2f64.powi(power), 2f64.powi(power) + 1.0]);
    near.chain(far).map(|count| count * PI).collect()
}

/// Every way to put the values into N places.
pub fn grid<const N: usize>(values: &[f64]) -> impl Iterator<Item = [f64; N]> + '_ {
    let count = values.len();
    (0..count.pow(N as u32)).map(move |mut number| {
        std::array::from_fn(|_| {
            let value = values[number % count];
            number /= count;
            value
        })
    })
}

#[cfg(test)]
mod tests {
    use super::*;

    #[test]
    fn equal_seeds_give_equal_draws() {
        let (mut a, mut b) = (Draw::new(7), Draw::new(7));
        for _ in 0..100 {
            assert_eq!(a.any().to_bits(), b.any().to_bits());
        }
    }

    #[test]
    fn draws_stay_where_they_should() {
        let mut draw = Draw::new(1);
        let mut least = f64::MAX;
        for _ in 0..100_000 {
            let v = draw.between(-8.0, 8.0);
            assert!((-8.0..=8.0).contains(&v));
            let v = draw.small(60).abs();
            assert!((0.5f64.powi(60)..1.0).contains(&v), "{v}");
            let v = draw.subnormal();
            assert!(v.abs() < f64::MIN_POSITIVE);
            if v != 0.0 {
                least = least.min(v.abs());
            }
            assert!(draw.below(6) < 6);
        }
        assert!(least < 1e-322, "short subnormals are drawn too");
    }

    #[test]
    fn edges_hold_both_zeros_nans_and_neighbours() {
        let edges = Draw::new(0).edges();
        let has = |bits: u64| edges.iter().any(|v| v.to_bits() == bits);
        assert!(has(0) && has(1 << 63) && has(1) && has(1 << 63 | 1));
        assert!(NANS.iter().all(|&bits| has(bits)));
        assert!(has((-700.0f64).next_down().to_bits()));
        assert!(has(f64::MIN_POSITIVE.next_down().to_bits()));
    }

    /// Both signs, half a turn, and small angles on either side of the bound.
    #[test]
    fn turns_lie_where_something_changes() {
        let mut draw = Draw::new(1);
        let (mut same, mut opposite, mut half, mut small) = (0, 0, 0, [0, 0]);
        for _ in 0..10_000 {
            let q = draw.quaternion(Kind::Range);
            let turned = draw.turned(q);
            let dot: f64 = q.iter().zip(turned).map(|(a, b)| a * b).sum();
            let size: f64 = turned.iter().map(|v| v * v).sum();
            assert!((size - 1.0).abs() < 1e-14);
            same += i32::from(turned == q);
            opposite += i32::from(turned == q.map(|part| -part));
            half += i32::from(dot.abs() < 1e-15);
            let sine = (1.0 - dot * dot).max(0.0).sqrt();
            if (sine - 0.005).abs() < 1e-5 {
                small[usize::from(sine < 0.005)] += 1;
            }
        }
        assert!(same > 1000 && opposite > 1000, "{same}, {opposite}");
        assert!(
            half > 300 && small[0] > 100 && small[1] > 100,
            "{half}, {small:?}"
        );
    }

    /// Every count, each with the floats beside; 5 and 9 half turns are the ties that are
    /// not taken away from zero.
    #[test]
    fn half_turns_are_met_with_their_neighbours() {
        let mut draw = Draw::new(1);
        let drawn: Vec<f64> = (0..10_000).map(|_| draw.half_turns(10)).collect();
        for count in 1..=10 {
            let angle = f64::from(count) * PI;
            for v in [angle, angle.next_up(), angle.next_down()] {
                assert!(drawn.contains(&v) && drawn.contains(&-v), "{v}");
            }
        }
        let listed = half_turns();
        for tie in [15.707963267948966, 28.274333882308138] {
            assert!(drawn.contains(&tie) && listed.contains(&tie));
            assert_eq!(tie / (2.0 * PI) % 2.0, 0.5);
        }
    }

    #[test]
    fn a_grid_has_every_combination() {
        let all: Vec<[f64; 3]> = grid(&[1.0, 2.0]).collect();
        assert_eq!(all.len(), 8);
        assert!(all.contains(&[2.0, 1.0, 2.0]));
    }
}
