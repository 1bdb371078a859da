//! The functions outside the published files, as document 01's section
//! 'Stand-ins' defines them, in its order, with the one that document 02 adds and
//! the reduction that it puts before sine and cosine. Each operation rounds once,
//! left to right. Written from the papers, apart from the proved code, so that the
//! two can be held against each other.

#![forbid(unsafe_code)]
// Formulas are spelled as the paper spells them.
#![allow(clippy::approx_constant, clippy::manual_clamp)]

/// IEEE 754-2019 square root, to nearest, ties to even: the machine's own.
pub fn sqrt(x: f64) -> f64 {
    x.sqrt()
}

/// A whole turn, as document 02's change 7 writes it.
const TURN: f64 = 6.283185307179586;

/// What the series of sine and cosine take in the place of a: beyond 4.5 in size it
/// comes without its whole turns, counted to the nearest and ties to even. An
/// infinity becomes a NaN.
fn reduced(a: f64) -> f64 {
    if a.abs() > 4.5 {
        let k = (a / TURN).round_ties_even();
        a - k * TURN
    } else {
        a
    }
}

pub fn sin(a: f64) -> f64 {
    let a = reduced(a);
    let q = a * a;
    let mut s = 1.0;
    for n in (1..=16).rev() {
        s = 1.0 - s * q / f64::from((2 * n) * (2 * n + 1));
    }
    a * s
}

pub fn cos(a: f64) -> f64 {
    let a = reduced(a);
    let q = a * a;
    let mut s = 1.0;
    for n in (1..=16).rev() {
        s = 1.0 - s * q / f64::from((2 * n - 1) * (2 * n));
    }
    s
}

pub fn exp(y: f64) -> f64 {
    if y < -700.0 {
        return 0.0;
    }
    if y > 0.0 || y.is_nan() {
        return f64::NAN;
    }
    let z = y / 1024.0;
    let mut e = 1.0;
    for n in (1..=18).rev() {
        e = 1.0 + e * z / f64::from(n);
    }
    for _ in 0..10 {
        e = e * e;
    }
    e
}

/// The angle of (w, n). The paper asks for both >= 0 and n > 0; elsewhere this
/// is whatever the same formulas give.
pub fn atan2(n: f64, w: f64) -> f64 {
    let mut r = if n > w { w / n } else { n / w };
    for _ in 0..2 {
        r = r / (1.0 + sqrt(1.0 + r * r));
    }
    let mut s = 1.0 / 25.0;
    for m in (1..=23).rev().step_by(2) {
        s = 1.0 / f64::from(m) - s * (r * r);
    }
    let angle = 4.0 * (r * s);
    if n > w {
        1.5707963267948966 - angle
    } else {
        angle
    }
}

/// The angle whose cosine is w. Document 02's change 4 asks for |w| < 1; elsewhere
/// this is whatever the same steps give.
pub fn acos(w: f64) -> f64 {
    let root = sqrt(1.0 - w * w);
    let angle = if root == 0.0 {
        0.0
    } else {
        atan2(root, w.abs())
    };
    if w < 0.0 {
        3.141592653589793 - angle
    } else {
        angle
    }
}

/// Powers by squaring. The paper defines the 2nd, 20th and 30th and the
/// objectives of `relaxed_ik` ask for no other.
pub fn powi(a: f64, n: i32) -> f64 {
    let a2 = a * a;
    let a4 = a2 * a2;
    let a8 = a4 * a4;
    let a16 = a8 * a8;
    match n {
        2 => a2,
        20 => a4 * a16,
        30 => a2 * a4 * a8 * a16,
        _ => panic!("document 01 has no stand-in for the power {n}"),
    }
}

/// The f64 nearest the p-th root of 1/2.995732273553991; a test below works
/// out in whole numbers that these two are.
pub fn b(p: i32) -> f64 {
    match p {
        20 => 0.9466181999720432,
        30 => 0.9640877546898133,
        _ => panic!("document 01 has no b for the power {p}"),
    }
}

/// The cut to 0..1. A value inside is itself, so -0.0 and NaN come back.
pub fn cut(x: f64) -> f64 {
    if x < 0.0 {
        0.0
    } else if x > 1.0 {
        1.0
    } else {
        x
    }
}

/// The stand-ins as methods. An inherent method of f64 hides a trait's method
/// of the same name, hence the prefix.
pub trait StandIn {
    fn stand_in_sqrt(self) -> f64;
    fn stand_in_sin(self) -> f64;
    fn stand_in_acos(self) -> f64;
    fn stand_in_exp(self) -> f64;
    fn stand_in_powi(self, n: i32) -> f64;
}

impl StandIn for f64 {
    fn stand_in_sqrt(self) -> f64 {
        sqrt(self)
    }

    fn stand_in_sin(self) -> f64 {
        sin(self)
    }

    fn stand_in_acos(self) -> f64 {
        acos(self)
    }

    fn stand_in_exp(self) -> f64 {
        exp(self)
    }

    fn stand_in_powi(self, n: i32) -> f64 {
        powi(self, n)
    }
}

#[cfg(test)]
mod tests {
    use super::*;
    use std::cmp::Ordering;

    #[test]
    fn root_of_the_least_subnormal() {
        let least = f64::from_bits(1);
        assert_eq!(sqrt(least), f64::from_bits((1023 - 537) << 52));
    }

    /// Half of the largest joint, raised, and a little beyond.
    #[test]
    fn sine_and_cosine_near_the_true_ones() {
        assert_eq!(sin(0.0).to_bits(), 0.0f64.to_bits());
        assert_eq!(sin(-0.0).to_bits(), (-0.0f64).to_bits());
        assert_eq!(cos(0.0), 1.0);
        for k in -32_100..=32_100 {
            let a = f64::from(k) / 1000.0;
            assert!((sin(a) - a.sin()).abs() < 1e-13, "sine of {a}");
            assert!((cos(a) - a.cos()).abs() < 1e-13, "cosine of {a}");
        }
    }

    /// Document 01's series alone, of sine and cosine, by their bits.
    fn unreduced(a: f64) -> [u64; 2] {
        let series = |divisor: fn(i32) -> i32| {
            let step = |s: f64, n: i32| 1.0 - s * (a * a) / f64::from(divisor(n));
            (1..=16).rev().fold(1.0, step)
        };
        let sine = a * series(|n| 2 * n * (2 * n + 1));
        [sine, series(|n| (2 * n - 1) * 2 * n)].map(f64::to_bits)
    }

    fn both(a: f64) -> [u64; 2] {
        [sin(a), cos(a)].map(f64::to_bits)
    }

    #[test]
    fn up_to_4_5_every_bit_is_the_old_one() {
        let least = f64::from_bits(1);
        let mut angles = vec![4.5, 4.5f64.next_down(), 4.0, 0.0, least, f64::MIN_POSITIVE];
        angles.extend((0..100_000).map(|k| f64::from(k) * 4.5e-5));
        for a in angles.into_iter().flat_map(|a| [a, -a]) {
            assert_eq!(both(a), unreduced(a), "{a:e}");
        }
    }

    /// The floats next to 4.5, and next to where one turn becomes two.
    #[test]
    fn beyond_4_5_whole_turns_are_taken_off() {
        let tie = 1.5 * TURN;
        for (a, k) in [
            (4.5f64.next_up(), 1.0),
            (5.0, 1.0),
            (tie.next_down(), 1.0),
            (tie.next_up(), 2.0),
            (32.0, 5.0),
            (32.00000005, 5.0),
        ] {
            assert_eq!(both(a), unreduced(a - k * TURN), "{a:e}");
            assert_eq!(both(-a), unreduced(k * TURN - a), "{:e}", -a);
            assert_ne!(both(a), unreduced(a), "{a:e}");
        }
    }

    /// Taken away from zero the second and the last would be reduced to -pi.
    #[test]
    fn ties_are_taken_to_even() {
        for (a, k) in [
            (9.42477796076938, 2.0),
            (15.707963267948966, 2.0),
            (21.991148575128552, 4.0),
            (28.274333882308138, 4.0),
        ] {
            assert_eq!((a / TURN).fract(), 0.5, "{a:e}");
            assert_eq!(reduced(a), a - k * TURN, "{a:e}");
            assert_eq!(reduced(-a), k * TURN - a, "{:e}", -a);
            assert_eq!(reduced(a) > 0.0, a > k * TURN, "{a:e}");
        }
        assert_eq!(sin(15.707963267948966).to_bits(), 0.0f64.to_bits());
        assert_eq!(sin(-15.707963267948966).to_bits(), (-0.0f64).to_bits());
    }

    #[test]
    fn whole_turns_leave_zero() {
        for k in (-10..=10).filter(|k| *k != 0) {
            let a = f64::from(k) * TURN;
            assert_eq!(both(a), [0.0f64, 1.0].map(f64::to_bits), "{a:e}");
        }
    }

    #[test]
    fn no_angle_has_no_sine() {
        for a in [f64::NAN, f64::INFINITY, f64::NEG_INFINITY] {
            assert!(sin(a).is_nan() && cos(a).is_nan(), "{a}");
        }
    }

    #[test]
    fn exponential_and_its_edges() {
        assert_eq!(exp(0.0), 1.0);
        assert_eq!(exp(-0.0), 1.0);
        assert!(exp(-700.0) > 0.0);
        assert_eq!(exp((-700.0f64).next_down()).to_bits(), 0.0f64.to_bits());
        assert!(exp(f64::from_bits(1)).is_nan());
        assert!(exp(f64::NAN).is_nan());
        for k in 0..=7000 {
            let y = -f64::from(k) / 10.0;
            assert!((exp(y) / y.exp() - 1.0).abs() < 1e-12, "exponential of {y}");
        }
    }

    #[test]
    fn angle_near_the_true_one() {
        for k in 1..=1000 {
            let a = f64::from(k) * (1.5707963267948966 / 1000.0);
            let (n, w) = a.sin_cos();
            assert!((atan2(n, w.abs()) - a).abs() < 1e-14, "angle {a}");
        }
        assert_eq!(atan2(1.0, 0.0), 1.5707963267948966);
    }

    #[test]
    fn arc_cosine_and_its_edges() {
        assert_eq!(acos(1.0).to_bits(), 0.0f64.to_bits());
        assert_eq!(acos(-1.0), 3.141592653589793);
        assert_eq!(acos(0.0), 1.5707963267948966);
        assert_eq!(acos(-0.0), 1.5707963267948966);
        // The root is 0 where w * w rounds to 1, and only there.
        let near = 1.0f64.next_down();
        assert!(acos(near) > 0.0 && acos(-near) < 3.141592653589793);
        assert!(acos(1.0f64.next_up()).is_nan() && acos(f64::NAN).is_nan());
        for k in -999..=999 {
            let w = f64::from(k) / 1000.0;
            assert!((acos(w) - w.acos()).abs() < 1e-14, "arc cosine of {w}");
        }
    }

    #[test]
    fn powers() {
        assert_eq!(powi(-1.5, 2), 2.25);
        assert_eq!(powi(2.0, 20), 1048576.0);
        assert_eq!(powi(-2.0, 30), 1073741824.0);
    }

    #[test]
    #[should_panic(expected = "no stand-in for the power 4")]
    fn other_powers_are_refused() {
        powi(1.0, 4);
    }

    #[test]
    fn cut_keeps_what_is_inside() {
        assert_eq!(cut(-1e-300).to_bits(), 0.0f64.to_bits());
        assert_eq!(cut(-0.0).to_bits(), (-0.0f64).to_bits());
        assert_eq!(cut(0.25), 0.25);
        assert_eq!(cut(1.0000000000000002), 1.0);
        assert!(cut(f64::NAN).is_nan());
    }

    /// Whole numbers of any length, least 32 bits first.
    fn times(a: &[u32], b: &[u32]) -> Vec<u32> {
        let mut out = vec![0u32; a.len() + b.len()];
        for (i, &x) in a.iter().enumerate() {
            let mut carry = 0u64;
            for (j, &y) in b.iter().enumerate() {
                let t = u64::from(x) * u64::from(y) + u64::from(out[i + j]) + carry;
                out[i + j] = t as u32;
                carry = t >> 32;
            }
            out[i + b.len()] = carry as u32;
        }
        out
    }

    fn whole(n: u64) -> Vec<u32> {
        vec![n as u32, (n >> 32) as u32]
    }

    fn power(n: u64, p: i32) -> Vec<u32> {
        (0..p).fold(whole(1), |out, _| times(&out, &whole(n)))
    }

    fn order(a: &[u32], b: &[u32]) -> Ordering {
        let digit = |x: &[u32], i: usize| x.get(i).copied().unwrap_or(0);
        for i in (0..a.len().max(b.len())).rev() {
            match digit(a, i).cmp(&digit(b, i)) {
                Ordering::Equal => {}
                other => return other,
            }
        }
        Ordering::Equal
    }

    /// b is the nearest f64 if the root lies between the two points halfway to
    /// its neighbours: (m / 2^54)^p · 2.995732273553991 against 1, by whole
    /// numbers.
    #[test]
    fn b_is_the_nearest_float() {
        for p in [20, 30] {
            let bits = b(p).to_bits();
            assert_eq!(bits >> 52, 1022, "b lies within 0.5..1");
            let significand = (bits & ((1 << 52) - 1)) | (1 << 52);
            let one = times(&power(1 << 54, p), &whole(1_000_000_000_000_000));
            let side = |m: u64| order(&times(&power(m, p), &whole(2_995_732_273_553_991)), &one);
            assert_eq!(side(2 * significand - 1), Ordering::Less);
            assert_eq!(side(2 * significand + 1), Ordering::Greater);
        }
    }
}
