//! Ours, no part of the published files: the arm of document 02's change 6, whose
//! links may telescope, under the name by which the published `robot.rs` asks for an
//! arm. A telescoping link is URDF's prismatic joint: it slides along its own axis,
//! turned with the link, where the published prismatic one keeps to the base's.
//!
//! The published `Arm` knows no such link. A chain without one is handed to it as it
//! is, and every answer is the published one. A chain with one is walked by a model
//! of our own, which is written from the papers and knows the published kinds too:
//! `tests/telescoping.rs` holds it against the published `Arm` on chains that both
//! can walk. Nothing is refused here; `refusals` is to be asked first.

pub use crate::spacetime::published_arm::{get_quat_x, get_quat_y, get_quat_z};

use crate::spacetime::published_arm;
use nalgebra::{DMatrix, UnitQuaternion, Vector3, Vector6};
use num::clamp;
use standins::sqrt;
use std::ops::Deref;

/// The name of the kind that `Arm::init` knows besides the published four.
pub const TELESCOPING: &str = "telescoping";

type Pose = (Vector3<f64>, UnitQuaternion<f64>);
type Frames = (Vec<Vector3<f64>>, Vec<UnitQuaternion<f64>>);

#[derive(Clone, Debug)]
pub struct Arm {
    /// Has the lists of every chain, and walks those whose links it knows.
    published: published_arm::Arm,
    /// Of a chain with a telescoping link.
    model: Option<Model>,
}

/// Lends the published lists; all walks are those below.
impl Deref for Arm {
    type Target = published_arm::Arm;

    fn deref(&self) -> &published_arm::Arm {
        &self.published
    }
}

impl Arm {
    /// Takes what the published `init` takes, which keeps a kind that it does not know
    /// in its lists and makes nothing else of it.
    pub fn init(
        axis_types: Vec<String>,
        disp_offsets: Vec<Vector3<f64>>,
        rot_offsets: Vec<UnitQuaternion<f64>>,
        joint_types: Vec<String>,
    ) -> Self {
        let telescopes = joint_types.iter().any(|kind| kind == TELESCOPING);
        let published =
            published_arm::Arm::init(axis_types, disp_offsets, rot_offsets, joint_types);
        Self {
            model: telescopes.then(|| Model::of(&published)),
            published,
        }
    }

    /// The same arm, walked by the model whether a link telescopes or not.
    pub fn modelled(&self) -> Self {
        Self {
            model: Some(Model::of(&self.published)),
            ..self.clone()
        }
    }

    pub fn get_frames_immutable(&self, x: &[f64]) -> Frames {
        match &self.model {
            Some(model) => model.frames(x),
            None => self.published.get_frames_immutable(x),
        }
    }

    pub fn get_jacobian_immutable(&self, x: &[f64]) -> DMatrix<f64> {
        match &self.model {
            Some(model) => model.jacobian(x),
            None => self.published.get_jacobian_immutable(x),
        }
    }

    pub fn get_manipulability_immutable(&self, x: &[f64]) -> f64 {
        match &self.model {
            Some(model) => model.manipulability(x),
            None => self.published.get_manipulability_immutable(x),
        }
    }

    pub fn get_ee_pos_and_quat_immutable(&self, x: &[f64]) -> Pose {
        match &self.model {
            Some(model) => model.end(x),
            None => self.published.get_ee_pos_and_quat_immutable(x),
        }
    }
}

/// A coordinate, forwards or backwards.
#[derive(Clone, Copy, Debug)]
struct Axis {
    coordinate: usize,
    negative: bool,
}

impl Axis {
    /// None for a name that is no axis's.
    fn named(name: &str) -> Option<Self> {
        let (negative, letter) = match name.strip_prefix('-') {
            Some(letter) => (true, letter),
            None => (false, name),
        };
        let coordinate = ["x", "y", "z"].iter().position(|known| *known == letter)?;
        Some(Self {
            coordinate,
            negative,
        })
    }

    fn signed(self, value: f64) -> f64 {
        match self.negative {
            true => -value,
            false => value,
        }
    }

    /// So far along the axis; the other two coordinates are +0.
    fn along(self, length: f64) -> Vector3<f64> {
        let mut parts = [0.0; 3];
        parts[self.coordinate] = self.signed(length);
        let [x, y, z] = parts;
        Vector3::new(x, y, z)
    }

    /// The unit vector that is rotated.
    fn unit(self) -> Vector3<f64> {
        self.along(1.0)
    }

    fn turn(self, angle: f64) -> UnitQuaternion<f64> {
        let turns = [get_quat_x, get_quat_y, get_quat_z];
        turns[self.coordinate](self.signed(angle))
    }
}

/// Revolute and continuous joints walk alike.
#[derive(Clone, Copy, Debug, PartialEq)]
enum Kind {
    Fixed,
    Turning,
    Prismatic,
    Telescoping,
}

impl Kind {
    fn named(name: &str) -> Self {
        match name {
            "fixed" => Self::Fixed,
            "revolute" | "continuous" => Self::Turning,
            "prismatic" => Self::Prismatic,
            TELESCOPING => Self::Telescoping,
            _ => panic!("no kind of link is named {name}"),
        }
    }
}

#[derive(Clone, Copy, Debug)]
struct Link {
    kind: Kind,
    /// Of a joint; a fixed link has none.
    axis: Option<Axis>,
    displacement: Vector3<f64>,
    offset: UnitQuaternion<f64>,
}

impl Link {
    /// The rotation behind the offset, which is skipped where it turns nothing.
    fn turned(&self, rotation: UnitQuaternion<f64>) -> UnitQuaternion<f64> {
        let Self { offset, .. } = *self;
        match offset.i == 0.0 && offset.j == 0.0 && offset.k == 0.0 {
            true => rotation,
            false => rotation * offset,
        }
    }

    /// From the pose before the link and its joint's value the pose after it.
    fn step(&self, (point, rotation): Pose, value: f64) -> Pose {
        let displaced = rotation * self.displacement + point;
        let turned = self.turned(rotation);
        match (self.kind, self.axis) {
            (Kind::Turning, Some(axis)) => (displaced, turned * axis.turn(value)),
            (Kind::Prismatic, Some(axis)) => (displaced + axis.along(value), turned),
            // The Rust does not add the displacement either.
            (Kind::Prismatic, None) => (point, turned),
            // URDF's order: the offset comes first, so it turns the axis too.
            (Kind::Telescoping, Some(axis)) => (displaced + (turned * axis.unit()) * value, turned),
            (Kind::Fixed, _) | (Kind::Turning | Kind::Telescoping, None) => (displaced, turned),
        }
    }
}

/// A chain of links of every kind.
#[derive(Clone, Debug)]
struct Model {
    links: Vec<Link>,
}

impl Model {
    /// From the lists alone. Links that are not fixed take the axes in turn.
    fn of(arm: &published_arm::Arm) -> Self {
        let mut axes = arm.axis_types.iter();
        let floats = arm.displacements.iter().zip(&arm.rot_offset_quats);
        let mut links = Vec::new();
        for (kind, (displacement, offset)) in arm.joint_types.iter().zip(floats) {
            let kind = Kind::named(kind);
            let axis = match kind {
                Kind::Fixed => None,
                _ => Axis::named(axes.next().expect("an axis for each joint")),
            };
            links.push(Link {
                kind,
                axis,
                displacement: *displacement,
                offset: *offset,
            });
        }
        Self { links }
    }

    fn joints(&self) -> impl Iterator<Item = &Link> {
        self.links.iter().filter(|link| link.kind != Kind::Fixed)
    }

    /// The base, then the pose after each link; the last rotation is there twice.
    fn frames(&self, x: &[f64]) -> Frames {
        let mut pose = (Vector3::new(0.0, 0.0, 0.0), UnitQuaternion::identity());
        let (mut positions, mut rotations) = (vec![pose.0], vec![pose.1]);
        let mut values = x.iter();
        for link in &self.links {
            let value = match link.kind {
                Kind::Fixed => 0.0,
                _ => *values.next().expect("a value for each joint"),
            };
            pose = link.step(pose, value);
            positions.push(pose.0);
            rotations.push(pose.1);
        }
        rotations.push(pose.1);
        (positions, rotations)
    }

    fn end(&self, x: &[f64]) -> Pose {
        let (positions, rotations) = self.frames(x);
        (positions[self.links.len()], rotations[self.links.len()])
    }

    /// The Rust's: only turning links fill a column and count, and not the last link.
    /// Each reads the axis of the joint with its column's number, whatever that
    /// joint's kind; an axis of none leaves the one before, at first zero.
    fn jacobian(&self, x: &[f64]) -> DMatrix<f64> {
        let (positions, rotations) = self.frames(x);
        let end = positions[self.links.len()];
        let mut jacobian = DMatrix::identity(6, x.len());
        let mut axis = Vector3::new(0.0, 0.0, 0.0);
        let after = 1..self.links.len();
        let turning = after.filter(|at| self.links[at - 1].kind == Kind::Turning);
        for (column, (at, joint)) in turning.zip(self.joints()).enumerate() {
            if let Some(own) = joint.axis {
                axis = rotations[at] * own.unit();
            }
            let linear = axis.cross(&(end - positions[at]));
            let parts = Vector6::new(linear.x, linear.y, linear.z, axis.x, axis.y, axis.z);
            jacobian.set_column(column, &parts);
        }
        jacobian
    }

    fn manipulability(&self, x: &[f64]) -> f64 {
        if self.joints().count() < 6 {
            return 0.0;
        }
        let jacobian = self.jacobian(x);
        let determinant = (jacobian.clone() * jacobian.transpose()).determinant();
        sqrt(clamp(determinant, 0.0, 1.0))
    }
}
