//! As much of parry's face as objective.rs uses: the distance of two segments,
//! as document 01's section 'Stand-ins' says.

#![forbid(unsafe_code)]

pub mod shape {
    use nalgebra::Point3;

    #[derive(Clone, Copy, Debug)]
    pub struct Segment {
        pub a: Point3<f64>,
        pub b: Point3<f64>,
    }

    impl Segment {
        pub fn new(a: Point3<f64>, b: Point3<f64>) -> Self {
            Self { a, b }
        }
    }
}

pub mod query {
    use crate::shape::Segment;
    use nalgebra::Isometry3;
    use standins::cut;

    /// The library's answer for shapes it cannot measure. Segments it can.
    #[derive(Debug)]
    pub struct Unsupported;

    /// Places are left aside: an `Isometry3` here is always the identity.
    pub fn distance(
        _place_1: &Isometry3<f64>,
        segment_1: &Segment,
        _place_2: &Isometry3<f64>,
        segment_2: &Segment,
    ) -> Result<f64, Unsupported> {
        let (start_1, end_1) = (segment_1.a.coords, segment_1.b.coords);
        let (start_2, end_2) = (segment_2.a.coords, segment_2.b.coords);
        let d1 = end_1 - start_1;
        let d2 = end_2 - start_2;
        let r = start_1 - start_2;
        let a = d1.dot(&d1);
        let e = d2.dot(&d2);
        let f = d2.dot(&r);
        let c = d1.dot(&r);
        let b = d1.dot(&d2);
        let (s, t);
        if a == 0.0 && e == 0.0 {
            (s, t) = (0.0, 0.0);
        } else if a == 0.0 {
            (s, t) = (0.0, cut(f / e));
        } else if e == 0.0 {
            (s, t) = (cut(-c / a), 0.0);
        } else {
            let d = a * e - b * b;
            let s0 = if d == 0.0 {
                0.0
            } else {
                cut((b * f - c * e) / d)
            };
            let t0 = (b * s0 + f) / e;
            if t0 < 0.0 {
                (s, t) = (cut(-c / a), 0.0);
            } else if t0 > 1.0 {
                (s, t) = (cut((b - c) / a), 1.0);
            } else {
                (s, t) = (s0, t0);
            }
        }
        Ok(((start_1 + d1 * s) - (start_2 + d2 * t)).norm())
    }
}
