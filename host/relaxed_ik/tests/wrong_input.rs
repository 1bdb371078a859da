//! What the library answers where a length, a part or a row names nothing: a
//! NaN.
use relaxed_ik::bytes::{from_quaternion, quaternion_log};
use relaxed_ik::leaves::{determinant, gram};
use relaxed_ik::leaves::{quat_product_part, quaternion_disp_part, scaled_axis_part};

fn bytes(n: usize) -> Vec<u8> {
    1.0f64
        .to_le_bytes()
        .iter()
        .copied()
        .cycle()
        .take(n)
        .collect()
}

#[test]
fn a_matrix_has_36_floats() {
    assert!(!determinant(&bytes(288)).is_nan());
    for n in (0..400).filter(|n| *n != 288) {
        assert!(determinant(&bytes(n)).is_nan(), "{n} bytes");
    }
}

#[test]
fn a_jacobian_has_whole_columns_and_at_most_sixteen() {
    for n in 0..1200 {
        let answered = !gram(&bytes(n), 5, 5).is_nan();
        assert_eq!(answered, n % 48 == 0 && n <= 768, "{n} bytes");
    }
    for (row, column) in [(6, 0), (0, 6), (u32::MAX, 0), (0, u32::MAX)] {
        assert!(gram(&bytes(48), row, column).is_nan());
    }
}

#[test]
fn a_part_past_the_last_is_a_nan() {
    let q = [1.0, 2.0, 3.0, 4.0];
    for part in [4, 5, u32::MAX] {
        assert!(quat_product_part(q, q, part).is_nan());
        assert!(from_quaternion(1.0, 2.0, 3.0, 4.0, part).is_nan());
    }
    for part in [3, 4, u32::MAX] {
        assert!(scaled_axis_part(q, part).is_nan());
        assert!(quaternion_log(0.5, 0.5, 0.5, 0.5, part).is_nan());
        assert!(quaternion_disp_part(q, q, part).is_nan());
    }
}
