//! Telescoping links, document 02's change 6: the model held against the published
//! arm where that knows the links, against fixed links in URDF's order, and against
//! cases worked by hand.

use nalgebra::{DMatrix, UnitQuaternion, Vector3};
use reference::groove::objective_master::ObjectiveMaster;
use reference::refusals::reach;
use reference::sheet;
use reference::spacetime::arm::Arm;
use reference::spacetime::published_arm::Arm as PublishedArm;
use reference::spacetime::robot::Robot;

type Link = [f64; 7];

/// The codes that the published arm knows: tens, then axis.
const KINDS: [u16; 3] = [10, 20, 30];

/// A link without length.
const NONE: Link = [0.0, 0.0, 0.0, 1.0, 0.0, 0.0, 0.0];
/// One up.
const UP: Link = [0.0, 0.0, 1.0, 1.0, 0.0, 0.0, 0.0];
/// One along x.
const ALONG: Link = [1.0, 0.0, 0.0, 1.0, 0.0, 0.0, 0.0];
/// Half a turn about z, without length and along x.
const HALF: Link = [0.0, 0.0, 0.0, 0.0, 0.0, 0.0, 1.0];
const ALONG_HALF: Link = [1.0, 0.0, 0.0, 0.0, 0.0, 0.0, 1.0];
const BENT: Link = [0.1, 0.0, 0.3, 0.8, 0.0, 0.6, 0.0];

/// SplitMix64.
struct Draw(u64);

impl Draw {
    fn below(&mut self, count: usize) -> usize {
        self.0 = self.0.wrapping_add(0x9e37_79b9_7f4a_7c15);
        let word = (self.0 ^ (self.0 >> 30)).wrapping_mul(0xbf58_476d_1ce4_e5b9);
        let word = (word ^ (word >> 27)).wrapping_mul(0x94d0_49bb_1331_11eb);
        ((word ^ (word >> 31)) % count as u64) as usize
    }

    fn pick<T: Copy>(&mut self, from: &[T]) -> T {
        from[self.below(from.len())]
    }

    fn between(&mut self, low: f64, high: f64) -> f64 {
        low + (high - low) * (self.below(1 << 53) as f64 / (1u64 << 53) as f64)
    }

    /// Zeros of both signs, the ends of the range, and anything within.
    fn value(&mut self, end: f64) -> f64 {
        let edge = self.pick(&[0.0, -0.0, 1.0, -1.0, end, -end]);
        match self.below(4) {
            0 => edge,
            _ => self.between(-end, end),
        }
    }

    /// None of both signs, half a turn, or any.
    fn turn(&mut self) -> [f64; 4] {
        let mut q = [0.0; 4].map(|_: f64| self.pick(&[0.0, -0.0]));
        let place = self.pick(&[0, 0, 1, 2, 3]);
        q[place] = self.pick(&[1.0, -1.0]);
        if self.below(2) == 0 {
            return q;
        }
        let q = [0.0; 4].map(|_: f64| self.between(-1.0, 1.0));
        let size = q.iter().map(|c| c * c).sum::<f64>().sqrt();
        q.map(|c| c / size)
    }

    fn link(&mut self) -> Link {
        let end = self.pick(&[10.0, 1.0, 0.3]);
        let [x, y, z] = [0.0; 3].map(|_: f64| self.value(end));
        let [w, i, j, k] = self.turn();
        [x, y, z, w, i, j, k]
    }

    /// Links of these kinds and fixed ones, at least two.
    fn codes(&mut self, kinds: &[u16]) -> Vec<u16> {
        let count = 2 + self.below(10);
        let code = |_| match self.below(6) {
            0 => 0,
            _ => self.pick(kinds) + self.below(7) as u16,
        };
        (0..count).map(code).collect()
    }

    /// A value for each joint, as far as its kind goes.
    fn joints(&mut self, codes: &[u16]) -> Vec<f64> {
        let joints = codes.iter().filter(|&&code| code != 0);
        joints.map(|&code| self.value(reach(code))).collect()
    }
}

fn joints_of(codes: &[u16]) -> usize {
    codes.iter().filter(|&&code| code != 0).count()
}

/// One chain with wide limits.
fn robot(codes: &[u16], links: &[Link]) -> Robot {
    let limits = [-3.0, 3.0].repeat(joints_of(codes));
    sheet::robot(&[1, codes.len() as u16], codes, &links.concat(), &limits)
}

fn arm(codes: &[u16], links: &[Link]) -> Arm {
    robot(codes, links).arms.remove(0)
}

fn pose_bits((p, q): (&Vector3<f64>, &UnitQuaternion<f64>)) -> [u64; 7] {
    [p.x, p.y, p.z, q.w, q.i, q.j, q.k].map(f64::to_bits)
}

/// Everything that an arm answers, bit for bit: how many positions and rotations,
/// their poses, the rotation that is left over, the end, manipulability.
fn answers(arm: &Arm, x: &[f64]) -> (Vec<[u64; 7]>, f64) {
    let (positions, rotations) = arm.get_frames_immutable(x);
    assert_eq!(rotations.len(), positions.len() + 1);
    assert_eq!(positions.len(), arm.joint_types.len() + 1);
    let mut poses: Vec<[u64; 7]> = positions.iter().zip(&rotations).map(pose_bits).collect();
    let (last, end) = (positions.len() - 1, arm.get_ee_pos_and_quat_immutable(x));
    poses.push(pose_bits((&positions[last], &rotations[last + 1])));
    poses.push(pose_bits((&end.0, &end.1)));
    (poses, arm.get_manipulability_immutable(x))
}

/// On every kind that the published arm knows the model answers as it does; and left
/// alone, such an arm's answers are the published one's own.
#[test]
fn the_model_walks_as_the_published_arm_does() {
    let mut draw = Draw(6);
    let (mut cut, mut between) = (0, 0);
    for _ in 0..6_000 {
        let kinds = draw.pick(&[&KINDS[..], &KINDS[..2], &[10, 10, 10, 30]]);
        let codes = draw.codes(kinds);
        let links: Vec<Link> = codes.iter().map(|_| draw.link()).collect();
        let published = arm(&codes, &links);
        let (model, own): (Arm, &PublishedArm) = (published.modelled(), &published);
        for _ in 0..3 {
            let x = draw.joints(&codes);
            let frames = published.get_frames_immutable(&x);
            assert_eq!(own.get_frames_immutable(&x), frames, "{codes:?}");
            let (poses, measure) = answers(&published, &x);
            let (own_poses, own_measure) = answers(&model, &x);
            assert_eq!(own_poses, poses, "{codes:?} {links:?} {x:?}");
            assert_eq!(own_measure.to_bits(), measure.to_bits(), "{codes:?} {x:?}");
            let jacobian = published.get_jacobian_immutable(&x);
            assert_eq!(model.get_jacobian_immutable(&x), jacobian, "{codes:?}");
            cut += usize::from(measure == 1.0);
            between += usize::from(measure > 0.0 && measure < 1.0);
        }
    }
    assert!(cut > 500 && between > 500, "{cut}, {between}");
}

/// The chain at these joints with each telescoping link taken apart into URDF's
/// steps: a fixed link of its own, then one that reaches as far along the axis.
fn apart(codes: &[u16], links: &[Link], x: &[f64]) -> (Arm, Vec<f64>) {
    let (mut own_codes, mut own_links, mut own_x) = (Vec::new(), Vec::new(), Vec::new());
    let mut values = x.iter();
    for (&code, &link) in codes.iter().zip(links) {
        let value = (code != 0).then(|| *values.next().unwrap());
        match (code, value) {
            (40.., Some(value)) => {
                let mut slide = NONE;
                match usize::from(code - 40) {
                    0 => (),
                    at @ 1..=3 => slide[at - 1] = value,
                    at => slide[at - 4] = -value,
                }
                own_codes.extend([0, 0]);
                own_links.extend([link, slide]);
            }
            (_, value) => {
                own_codes.push(code);
                own_links.push(link);
                own_x.extend(value);
            }
        }
    }
    (arm(&own_codes, &own_links), own_x)
}

/// The published fixed links end where the model does, but for what a rotated
/// product rounds otherwise than a rotated sum.
#[test]
fn a_telescoping_link_is_two_fixed_links() {
    let mut draw = Draw(7);
    let mut slid = 0;
    for _ in 0..3_000 {
        let kinds = draw.pick(&[&[10, 20, 30, 40][..], &[10, 40], &[40]]);
        let codes = draw.codes(kinds);
        let links: Vec<Link> = codes.iter().map(|_| draw.link()).collect();
        let x = draw.joints(&codes);
        let (fixed, own_x) = apart(&codes, &links, &x);
        let (p, q) = fixed.get_ee_pos_and_quat_immutable(&own_x);
        let (own_p, own_q) = arm(&codes, &links).get_ee_pos_and_quat_immutable(&x);
        let away = (own_p - p).norm();
        // A sine far from 0 makes turns longer or shorter than 1.
        assert!(away < 1e-11 * (1.0 + p.norm()), "{codes:?} {away:e}");
        assert_eq!(pose_bits((&p, &own_q)), pose_bits((&p, &q)), "{codes:?}");
        slid += codes.iter().filter(|&&code| code > 40).count();
    }
    assert!(slid > 3_000, "{slid}");
}

fn cross([x, y, z]: [f64; 3], [a, b, c]: [f64; 3]) -> [f64; 3] {
    [y * c - z * b, z * a - x * c, x * b - y * a]
}

/// Document 01's rotation of a vector, written out.
fn rotated([w, i, j, k]: [f64; 4], v: [f64; 3]) -> [f64; 3] {
    let t = cross([i, j, k], v).map(|c| 2.0 * c);
    let further = cross([i, j, k], t);
    std::array::from_fn(|at| t[at] * w + further[at] + v[at])
}

/// Document 01's product of quaternions, written out.
fn product([aw, ai, aj, ak]: [f64; 4], [bw, bi, bj, bk]: [f64; 4]) -> [f64; 4] {
    [
        aw * bw - ai * bi - aj * bj - ak * bk,
        aw * bi + ai * bw + aj * bk - ak * bj,
        aw * bj - ai * bk + aj * bw + ak * bi,
        aw * bk + ai * bj - aj * bi + ak * bw,
    ]
}

/// On a base of one fixed link the step rounds as the papers spell it: the axis is
/// rotated before it is made as long as the joint's value. The other way round often
/// ends in other bits.
#[test]
fn the_axis_is_rotated_and_then_lengthened() {
    let mut draw = Draw(8);
    let mut otherwise = 0;
    for _ in 0..3_000 {
        let (base, link, value) = (draw.link(), draw.link(), draw.value(8.0));
        let at = draw.below(6);
        let parts = |link: Link| ([link[0], link[1], link[2]], [3, 4, 5, 6].map(|n| link[n]));
        let ((start, turn), (displacement, offset)) = (parts(base), parts(link));
        let behind = |q: [f64; 4], offset: [f64; 4]| match offset[1..] == [0.0; 3] {
            true => q,
            false => product(q, offset),
        };
        let before = behind([1.0, 0.0, 0.0, 0.0], turn);
        let after = behind(before, offset);
        let mut axis = [0.0; 3];
        axis[at % 3] = if at < 3 { 1.0 } else { -1.0 };
        let reach = rotated(before, displacement);
        let slide = rotated(after, axis).map(|c| c * value);
        let expected: [f64; 3] = std::array::from_fn(|n| reach[n] + start[n] + slide[n]);
        let slide = rotated(after, axis.map(|c| c * value));
        let other: [f64; 3] = std::array::from_fn(|n| reach[n] + start[n] + slide[n]);
        let found = last(&[0, 41 + at as u16, 10], &[base, link, NONE], &[value, 0.0]);
        assert_eq!(found, expected, "{base:?} {link:?} {value}");
        otherwise += usize::from(found != other);
    }
    assert!(otherwise > 500, "{otherwise}");
}

/// The last position of a chain.
fn last(codes: &[u16], links: &[Link], x: &[f64]) -> [f64; 3] {
    let (p, _) = arm(codes, links).get_ee_pos_and_quat_immutable(x);
    [p.x, p.y, p.z]
}

/// A base that is turned by half a turn: document 01's case of a prismatic joint,
/// and what URDF makes of it.
#[test]
fn it_slides_along_its_own_axis() {
    let x = |code| last(&[10, code], &[HALF, ALONG], &[0.0, 0.5])[0];
    assert_eq!(x(41), -1.5);
    assert_eq!(x(44), -0.5);
    assert_eq!(x(31), -0.5);
    assert_eq!(x(34), -1.5);
    let y = |code| last(&[10, code], &[HALF, ALONG], &[0.0, 0.5])[1];
    assert_eq!((y(42), y(45)), (-0.5, 0.5));
    let z = |code| last(&[10, code], &[HALF, ALONG], &[0.0, 0.5])[2];
    assert_eq!((z(43), z(46)), (0.5, -0.5));
}

/// A base joint turned by a quarter about y lays a mast that stood along z down
/// along x.
#[test]
fn a_base_joint_turns_it() {
    let near = |found: [f64; 3], expected: [f64; 3]| {
        let both = found.iter().zip(&expected);
        assert!(both.clone().all(|(a, b)| (a - b).abs() < 1e-14), "{both:?}");
    };
    let quarter = [std::f64::consts::FRAC_PI_2, 2.0];
    near(last(&[12, 43], &[NONE, UP], &quarter), [3.0, 0.0, 0.0]);
    near(last(&[12, 46], &[NONE, UP], &quarter), [-1.0, 0.0, 0.0]);
    near(last(&[12, 33], &[NONE, UP], &quarter), [1.0, 0.0, 2.0]);
    // What is mounted behind it goes along and is not turned by it.
    let mounted = last(&[12, 43, 0], &[NONE, UP, ALONG], &quarter);
    near(mounted, [3.0, 0.0, -1.0]);
}

/// Its own offset turns the axis, and not the displacement; the rotation behind it
/// is the offset's, whatever the joint's value.
#[test]
fn its_own_offset_comes_before_it_slides() {
    assert_eq!(last(&[10, 41], &[NONE, ALONG_HALF], &[0.0, 0.5])[0], 0.5);
    assert_eq!(last(&[10, 44], &[NONE, ALONG_HALF], &[0.0, 0.5])[0], 1.5);
    assert_eq!(last(&[10, 31], &[NONE, ALONG_HALF], &[0.0, 0.5])[0], 1.5);
    for value in [0.0, 0.5, -8.0] {
        let arm = arm(&[10, 41], &[NONE, ALONG_HALF]);
        let (positions, rotations) = arm.get_frames_immutable(&[0.0, value]);
        assert_eq!((positions.len(), rotations.len()), (3, 4));
        for q in &rotations[2..] {
            assert_eq!([q.w, q.i, q.j, q.k], [0.0, 0.0, 0.0, 1.0]);
        }
    }
    // w of -1 turns nothing, and is skipped.
    let skipped = [1.0, 0.0, 0.0, -1.0, 0.0, -0.0, 0.0];
    let arm = arm(&[41, 10], &[skipped, UP]);
    let (_, rotations) = arm.get_frames_immutable(&[0.5, 0.0]);
    assert!(rotations.iter().all(|q| q.w == 1.0));
}

/// Without axis it adds the displacement, as URDF would, and moves no further; the
/// published prismatic joint stays where it was.
#[test]
fn without_axis_it_is_a_fixed_link() {
    for value in [0.0, -0.0, 0.5, 8.0] {
        let heights = |code: u16| {
            let arm = arm(&[code, 13], &[UP, UP]);
            let (positions, _) = arm.get_frames_immutable(&[value, 0.25]);
            positions.iter().map(|p| p.z).collect::<Vec<f64>>()
        };
        assert_eq!(heights(40), [0.0, 1.0, 2.0]);
        assert_eq!(heights(30), [0.0, 0.0, 1.0]);
        let (free, _) = answers(&arm(&[13, 40, 12], &[BENT; 3]), &[0.5, value, 0.25]);
        let (fixed, _) = answers(&arm(&[13, 0, 12], &[BENT; 3]), &[0.5, 0.25]);
        assert_eq!(free, fixed);
    }
}

/// Where nothing is turned it slides as the published joint does.
#[test]
fn on_a_base_at_rest_both_slide_alike() {
    for axis in 1..=6 {
        for value in [0.0, -0.0, 0.3, -8.0] {
            let x = [value, 0.0, value];
            let own = answers(&arm(&[40 + axis, 13, 40 + axis], &[UP; 3]), &x);
            let published = answers(&arm(&[30 + axis, 13, 30 + axis], &[UP; 3]), &x);
            assert_eq!(own, published, "axis {axis}, {value}");
        }
    }
}

fn column(jacobian: &DMatrix<f64>, at: usize) -> [f64; 6] {
    std::array::from_fn(|row| jacobian[(row, at)])
}

/// It neither fills a column nor counts, and the link whose column has its number
/// reads its axis.
#[test]
fn in_the_jacobian_it_lends_its_axis_and_has_no_column() {
    let x = [0.3, 0.5, -0.4, 0.7, 0.2, -0.6, 0.1];
    let chain = arm(&[11, 43, 12, 13, 11, 12, 13], &[BENT; 7]);
    let (positions, rotations) = chain.get_frames_immutable(&x);
    let jacobian = chain.get_jacobian_immutable(&x);
    // Links 0, 2, 3, 4 and 5 turn and are not the last.
    let axes = [
        Vector3::new(1.0, 0.0, 0.0),
        Vector3::new(0.0, 0.0, 1.0),
        Vector3::new(0.0, 1.0, 0.0),
        Vector3::new(0.0, 0.0, 1.0),
        Vector3::new(1.0, 0.0, 0.0),
    ];
    for (at, (link, axis)) in [0, 2, 3, 4, 5].into_iter().zip(axes).enumerate() {
        let axis = rotations[link + 1] * axis;
        let linear = axis.cross(&(positions[7] - positions[link + 1]));
        let expected = [linear.x, linear.y, linear.z, axis.x, axis.y, axis.z];
        assert_eq!(column(&jacobian, at), expected, "column {at}");
    }
    assert_eq!(column(&jacobian, 5), [0.0, 0.0, 0.0, 0.0, 0.0, 1.0]);
    assert_eq!(column(&jacobian, 6), [0.0; 6]);
    assert!(chain.get_manipulability_immutable(&x) > 0.0);
}

/// At the base, where both slide alike, it measures as the published joint does; its
/// axis counts, and without one the axis before stays, at first zero.
#[test]
fn manipulability_is_that_of_a_prismatic_joint() {
    let x = [0.3, 0.5, -0.4, 0.7, 0.2, -0.6, 0.1, 0.4];
    let of = |code: u16| {
        let mut links = [BENT; 8];
        links[0] = UP;
        let arm = arm(&[code, 12, 13, 11, 12, 13, 11, 12], &links);
        arm.get_manipulability_immutable(&x)
    };
    let mut met: Vec<f64> = Vec::new();
    for axis in 1..=6 {
        assert_eq!(of(40 + axis).to_bits(), of(30 + axis).to_bits(), "{axis}");
        met.push(of(40 + axis));
    }
    assert!(met.iter().all(|&measure| measure > 0.0));
    assert!(met[0] != met[1] && met[1] != met[2], "{met:?}");
    assert_ne!(of(40), of(41));
    let five = arm(&[43, 12, 13, 11, 12], &[BENT; 5]);
    assert_eq!(five.get_manipulability_immutable(&x[..5]), 0.0);
    let six = arm(&[43, 12, 13, 11, 12, 13, 0], &[BENT; 7]);
    assert!(six.get_manipulability_immutable(&x[..6]) > 0.0);
}

/// The published objectives and both gradients run over a mast on a turned base.
#[test]
fn gradients_run() {
    let codes = [13, 12, 42, 0, 23, 15, 46, 11];
    let x = [0.3, -0.5, 0.7, 0.2, -0.4, 0.6, 0.1];
    let goal = [
        0.3, -0.2, 1.5, 1.0, 0.0, 0.0, 0.0, 0.0, 0.1, 0.0, 0.0, 0.5, 3.2,
    ];
    let mut vars = sheet::vars(robot(&codes, &[BENT; 8]), &goal, &x.map(|v| v * 0.9));
    vars.update(x.map(|v| v * 0.95).to_vec());
    let master = ObjectiveMaster::relaxed_ik(&vars.robot.chain_lengths);
    assert_eq!(master.objectives.len(), 32);
    let (value, slopes) = master.gradient(&x, &vars);
    let (value_too, slopes_too) = master.gradient_finite_diff(&x, &vars);
    assert_eq!(master.call(&x, &vars).to_bits(), value.to_bits());
    assert_eq!(value_too.to_bits(), value.to_bits());
    for (a, b) in slopes.iter().zip(&slopes_too) {
        assert!(a.is_finite() && *a != 0.0);
        assert!((a - b).abs() <= 1e-3 * a.abs().max(1.0), "{a} and {b}");
    }
}
