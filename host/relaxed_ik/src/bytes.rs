//! The library's own calls, on numbers and on lists of little-endian bytes. All
//! of this crate's unsafe code is in this file.
//!
//! A call on lists answers 0 or the number of the refusal; a refused call writes
//! nothing. A list to be written that is longer than needed keeps its tail. The
//! crate's root has the same calls on slices of numbers.

#[cfg(not(target_endian = "little"))]
compile_error!("lists are lent as they lie in memory, which has to be little-endian");

// Where the feature is off, the last calls are declared and not used.
#[allow(dead_code, clippy::too_many_arguments)]
mod c {
    extern "C" {
        pub fn relaxed_ik_load(
            sizes: *const u8,
            sizes_length: usize,
            codes: *const u8,
            codes_length: usize,
            floats: *const u8,
            floats_length: usize,
            limits: *const u8,
            limits_length: usize,
        ) -> u32;
        pub fn relaxed_ik_sizing(
            sizes: *const u8,
            sizes_length: usize,
            codes: *const u8,
            codes_length: usize,
            floats: *const u8,
            floats_length: usize,
            plan: *mut u8,
            plan_length: usize,
            strict: u32,
        ) -> u32;
        pub fn relaxed_ik_set_goals(
            sizes: *const u8,
            sizes_length: usize,
            codes: *const u8,
            codes_length: usize,
            floats: *const u8,
            floats_length: usize,
            limits: *const u8,
            limits_length: usize,
            goals: *const u8,
            goals_length: usize,
        ) -> u32;
        pub fn relaxed_ik_set_tool(
            sizes: *const u8,
            sizes_length: usize,
            codes: *const u8,
            codes_length: usize,
            floats: *const u8,
            floats_length: usize,
            limits: *const u8,
            limits_length: usize,
            tool: *const u8,
            tool_length: usize,
            chain: u32,
        ) -> u32;
        pub fn relaxed_ik_frames(
            sizes: *const u8,
            sizes_length: usize,
            codes: *const u8,
            codes_length: usize,
            floats: *const u8,
            floats_length: usize,
            limits: *const u8,
            limits_length: usize,
            joints: *const u8,
            joints_length: usize,
            positions: *mut u8,
            positions_length: usize,
            rotations: *mut u8,
            rotations_length: usize,
        ) -> u32;
        pub fn relaxed_ik_pose(
            sizes: *const u8,
            sizes_length: usize,
            codes: *const u8,
            codes_length: usize,
            floats: *const u8,
            floats_length: usize,
            limits: *const u8,
            limits_length: usize,
            tool0: *const u8,
            tool0_length: usize,
            tool1: *const u8,
            tool1_length: usize,
            tool2: *const u8,
            tool2_length: usize,
            tool3: *const u8,
            tool3_length: usize,
            joints: *const u8,
            joints_length: usize,
            ends: *mut u8,
            ends_length: usize,
        ) -> u32;
        pub fn relaxed_ik_manipulability(
            sizes: *const u8,
            sizes_length: usize,
            codes: *const u8,
            codes_length: usize,
            floats: *const u8,
            floats_length: usize,
            limits: *const u8,
            limits_length: usize,
            joints: *const u8,
            joints_length: usize,
            value: *mut u8,
            value_length: usize,
        ) -> u32;
        pub fn relaxed_ik_reset(
            sizes: *const u8,
            sizes_length: usize,
            codes: *const u8,
            codes_length: usize,
            floats: *const u8,
            floats_length: usize,
            limits: *const u8,
            limits_length: usize,
            tool0: *const u8,
            tool0_length: usize,
            tool1: *const u8,
            tool1_length: usize,
            tool2: *const u8,
            tool2_length: usize,
            tool3: *const u8,
            tool3_length: usize,
            joints: *const u8,
            joints_length: usize,
            history: *mut u8,
            history_length: usize,
            ends: *mut u8,
            ends_length: usize,
        ) -> u32;
        pub fn relaxed_ik_update(
            sizes: *const u8,
            sizes_length: usize,
            codes: *const u8,
            codes_length: usize,
            floats: *const u8,
            floats_length: usize,
            limits: *const u8,
            limits_length: usize,
            history: *const u8,
            history_length: usize,
            joints: *const u8,
            joints_length: usize,
            new_history: *mut u8,
            new_history_length: usize,
        ) -> u32;
        pub fn relaxed_ik_set_weights(weights: *const u8, weights_length: usize) -> u32;
        pub fn relaxed_ik_objective(
            sizes: *const u8,
            sizes_length: usize,
            codes: *const u8,
            codes_length: usize,
            floats: *const u8,
            floats_length: usize,
            limits: *const u8,
            limits_length: usize,
            goals: *const u8,
            goals_length: usize,
            history: *const u8,
            history_length: usize,
            weights: *const u8,
            weights_length: usize,
            tool0: *const u8,
            tool0_length: usize,
            tool1: *const u8,
            tool1_length: usize,
            tool2: *const u8,
            tool2_length: usize,
            tool3: *const u8,
            tool3_length: usize,
            joints: *const u8,
            joints_length: usize,
            value: *mut u8,
            value_length: usize,
            strict: u32,
        ) -> u32;
        pub fn relaxed_ik_gradient(
            sizes: *const u8,
            sizes_length: usize,
            codes: *const u8,
            codes_length: usize,
            floats: *const u8,
            floats_length: usize,
            limits: *const u8,
            limits_length: usize,
            goals: *const u8,
            goals_length: usize,
            history: *const u8,
            history_length: usize,
            weights: *const u8,
            weights_length: usize,
            tool0: *const u8,
            tool0_length: usize,
            tool1: *const u8,
            tool1_length: usize,
            tool2: *const u8,
            tool2_length: usize,
            tool3: *const u8,
            tool3_length: usize,
            joints: *const u8,
            joints_length: usize,
            scratch: *mut u8,
            scratch_length: usize,
            value: *mut u8,
            value_length: usize,
            slopes: *mut u8,
            slopes_length: usize,
            strict: u32,
        ) -> u32;
        pub fn relaxed_ik_gradient_finite_diff(
            sizes: *const u8,
            sizes_length: usize,
            codes: *const u8,
            codes_length: usize,
            floats: *const u8,
            floats_length: usize,
            limits: *const u8,
            limits_length: usize,
            goals: *const u8,
            goals_length: usize,
            history: *const u8,
            history_length: usize,
            weights: *const u8,
            weights_length: usize,
            tool0: *const u8,
            tool0_length: usize,
            tool1: *const u8,
            tool1_length: usize,
            tool2: *const u8,
            tool2_length: usize,
            tool3: *const u8,
            tool3_length: usize,
            joints: *const u8,
            joints_length: usize,
            scratch: *mut u8,
            scratch_length: usize,
            value: *mut u8,
            value_length: usize,
            slopes: *mut u8,
            slopes_length: usize,
            strict: u32,
        ) -> u32;
        pub fn relaxed_ik_gradient_one_block(
            sizes: *const u8,
            sizes_length: usize,
            codes: *const u8,
            codes_length: usize,
            floats: *const u8,
            floats_length: usize,
            limits: *const u8,
            limits_length: usize,
            goals: *const u8,
            goals_length: usize,
            history: *const u8,
            history_length: usize,
            weights: *const u8,
            weights_length: usize,
            tool0: *const u8,
            tool0_length: usize,
            tool1: *const u8,
            tool1_length: usize,
            tool2: *const u8,
            tool2_length: usize,
            tool3: *const u8,
            tool3_length: usize,
            joints: *const u8,
            joints_length: usize,
            value: *mut u8,
            value_length: usize,
            slopes: *mut u8,
            slopes_length: usize,
            record_joints: *mut u8,
            record_joints_length: usize,
            record_links: *mut u8,
            record_links_length: usize,
            record_poses: *mut u8,
            record_poses_length: usize,
            strict: u32,
        ) -> u32;
        pub fn relaxed_ik_sqrt(x: f64) -> f64;
        pub fn relaxed_ik_sin(a: f64) -> f64;
        pub fn relaxed_ik_cos(a: f64) -> f64;
        pub fn relaxed_ik_exp(y: f64) -> f64;
        pub fn relaxed_ik_atan2(n: f64, w: f64) -> f64;
        pub fn relaxed_ik_acos(w: f64) -> f64;
        pub fn relaxed_ik_power20(a: f64) -> f64;
        pub fn relaxed_ik_power30(a: f64) -> f64;
        pub fn relaxed_ik_b20() -> f64;
        pub fn relaxed_ik_b30() -> f64;
        pub fn relaxed_ik_cut(x: f64) -> f64;
        pub fn relaxed_ik_abs(x: f64) -> f64;
        pub fn relaxed_ik_quat_product(
            aw: f64,
            ai: f64,
            aj: f64,
            ak: f64,
            bw: f64,
            bi: f64,
            bj: f64,
            bk: f64,
            part: u32,
        ) -> f64;
        pub fn relaxed_ik_quat_inverse(w: f64, i: f64, j: f64, k: f64, part: u32) -> f64;
        pub fn relaxed_ik_rotate(
            w: f64,
            i: f64,
            j: f64,
            k: f64,
            x: f64,
            y: f64,
            z: f64,
            part: u32,
        ) -> f64;
        pub fn relaxed_ik_cross(
            x: f64,
            y: f64,
            z: f64,
            x2: f64,
            y2: f64,
            z2: f64,
            part: u32,
        ) -> f64;
        pub fn relaxed_ik_norm(x: f64, y: f64, z: f64) -> f64;
        pub fn relaxed_ik_get_quat(axis: u32, v: f64, part: u32) -> f64;
        pub fn relaxed_ik_scaled_axis(w: f64, i: f64, j: f64, k: f64, part: u32) -> f64;
        pub fn relaxed_ik_from_quaternion(w: f64, i: f64, j: f64, k: f64, part: u32) -> f64;
        pub fn relaxed_ik_quaternion_log(w: f64, i: f64, j: f64, k: f64, part: u32) -> f64;
        pub fn relaxed_ik_quaternion_disp(
            w: f64,
            i: f64,
            j: f64,
            k: f64,
            w2: f64,
            i2: f64,
            j2: f64,
            k2: f64,
            part: u32,
        ) -> f64;
        pub fn relaxed_ik_angle_between_quaternion(
            w: f64,
            i: f64,
            j: f64,
            k: f64,
            w2: f64,
            i2: f64,
            j2: f64,
            k2: f64,
        ) -> f64;
        pub fn relaxed_ik_segment_distance(
            ax: f64,
            ay: f64,
            az: f64,
            bx: f64,
            by: f64,
            bz: f64,
            cx: f64,
            cy: f64,
            cz: f64,
            dx: f64,
            dy: f64,
            dz: f64,
        ) -> f64;
        pub fn relaxed_ik_determinant(rows: *const u8, rows_length: usize) -> f64;
        pub fn relaxed_ik_gram(
            columns: *const u8,
            columns_length: usize,
            row: u32,
            column: u32,
        ) -> f64;
        pub fn relaxed_ik_groove_loss(x_val: f64, t: f64, c: f64, f: f64) -> f64;
        pub fn relaxed_ik_swamp_groove_loss(
            x_val: f64,
            g: f64,
            l_bound: f64,
            u_bound: f64,
            c: f64,
            f1: f64,
            f2: f64,
            f3: f64,
        ) -> f64;
        pub fn relaxed_ik_swamp_loss(
            x_val: f64,
            l_bound: f64,
            u_bound: f64,
            f1: f64,
            f2: f64,
            p1: u16,
        ) -> f64;
        pub fn relaxed_ik_loss_position(dist: f64, bound: f64) -> f64;
        pub fn relaxed_ik_loss_rotation(angle: f64, bound: f64) -> f64;
        pub fn relaxed_ik_loss_limits(x: f64, l: f64, u: f64) -> f64;
        pub fn relaxed_ik_loss_pos_goals(gx: f64, gy: f64, gz: f64, x: f64, y: f64, z: f64) -> f64;
        pub fn relaxed_ik_loss_quat_goals(
            gw: f64,
            gi: f64,
            gj: f64,
            gk: f64,
            w: f64,
            i: f64,
            j: f64,
            k: f64,
        ) -> f64;
    }
}

/// The u16s as the library reads them.
pub fn of_u16s(numbers: &[u16]) -> &[u8] {
    // Safety: the bytes are those of the slice, which has no gaps, and a byte
    // needs no alignment.
    unsafe { std::slice::from_raw_parts(numbers.as_ptr().cast(), size_of_val(numbers)) }
}

/// The floats as the library reads them.
pub fn of_floats(floats: &[f64]) -> &[u8] {
    // Safety: as above.
    unsafe { std::slice::from_raw_parts(floats.as_ptr().cast(), size_of_val(floats)) }
}

/// The u16s as the library reads them, in place of what `bytes` held.
pub fn put_u16s(numbers: &[u16], bytes: &mut Vec<u8>) {
    bytes.clear();
    bytes.extend_from_slice(of_u16s(numbers));
}

/// The floats as the library reads them, in place of what `bytes` held.
pub fn put_floats(floats: &[f64], bytes: &mut Vec<u8>) {
    bytes.clear();
    bytes.extend_from_slice(of_floats(floats));
}

/// The u16s as the library writes them.
pub fn of_u16s_mut(numbers: &mut [u16]) -> &mut [u8] {
    // Safety: as above, lent exclusively, and every bit pattern is a u16.
    unsafe { std::slice::from_raw_parts_mut(numbers.as_mut_ptr().cast(), size_of_val(numbers)) }
}

/// The floats as the library writes them.
pub fn of_floats_mut(floats: &mut [f64]) -> &mut [u8] {
    // Safety: as above, and every bit pattern is an f64.
    unsafe { std::slice::from_raw_parts_mut(floats.as_mut_ptr().cast(), size_of_val(floats)) }
}

/// A safe function for each call on numbers.
macro_rules! numbers {
    ($($(#[$note:meta])* $name:ident = $call:ident($($p:ident: $t:ty),*);)*) => {
        $(
            $(#[$note])*
            #[allow(clippy::too_many_arguments)]
            pub fn $name($($p: $t),*) -> f64 {
                // Safety: numbers go in and come back by value; nothing further is
                // asked of them.
                unsafe { c::$call($($p),*) }
            }
        )*
    };
}

numbers! {
    /// The square root, correctly rounded.
    sqrt = relaxed_ik_sqrt(x: f64);
    /// Made for half joint angles, up to 32 in size; beyond 4.5 whole turns are taken off first.
    sin = relaxed_ik_sin(a: f64);
    /// Made for half joint angles, up to 32 in size; beyond 4.5 whole turns are taken off first.
    cos = relaxed_ik_cos(a: f64);
    /// Of y <= 0; 0 below -700, a NaN above 0.
    exp = relaxed_ik_exp(y: f64);
    /// Of n > 0 and w >= 0.
    atan2 = relaxed_ik_atan2(n: f64, w: f64);
    /// Of -1 < w < 1.
    acos = relaxed_ik_acos(w: f64);
    power20 = relaxed_ik_power20(a: f64);
    power30 = relaxed_ik_power30(a: f64);
    /// The constant b of the losses for the 20th power.
    b20 = relaxed_ik_b20();
    /// The constant b of the losses for the 30th power.
    b30 = relaxed_ik_b30();
    /// The cut to 0..1.
    cut = relaxed_ik_cut(x: f64);
    abs = relaxed_ik_abs(x: f64);
    /// A part from 0 to 3 for w, i, j, k; a NaN for another.
    quat_product = relaxed_ik_quat_product(aw: f64, ai: f64, aj: f64, ak: f64, bw: f64, bi: f64, bj: f64, bk: f64, part: u32);
    /// A part from 0 to 3 for w, i, j, k; a NaN for another.
    quat_inverse = relaxed_ik_quat_inverse(w: f64, i: f64, j: f64, k: f64, part: u32);
    /// A part from 0 to 2 for x, y, z; a NaN for another.
    rotate = relaxed_ik_rotate(w: f64, i: f64, j: f64, k: f64, x: f64, y: f64, z: f64, part: u32);
    /// A part from 0 to 2 for x, y, z; a NaN for another.
    cross = relaxed_ik_cross(x: f64, y: f64, z: f64, x2: f64, y2: f64, z2: f64, part: u32);
    norm = relaxed_ik_norm(x: f64, y: f64, z: f64);
    /// Axis 0 to 2 for x, y, z; a part from 0 to 3 for w, i, j, k; a NaN for
    /// another of either.
    get_quat = relaxed_ik_get_quat(axis: u32, v: f64, part: u32);
    /// A part from 0 to 2 for x, y, z; a NaN for another.
    scaled_axis = relaxed_ik_scaled_axis(w: f64, i: f64, j: f64, k: f64, part: u32);
    /// Divided by its length; a part from 0 to 3 for w, i, j, k, a NaN for another.
    from_quaternion = relaxed_ik_from_quaternion(w: f64, i: f64, j: f64, k: f64, part: u32);
    /// A part from 0 to 2 for x, y, z; a NaN for another.
    quaternion_log = relaxed_ik_quaternion_log(w: f64, i: f64, j: f64, k: f64, part: u32);
    /// The logarithm of the turn from the first to the second; parts as there.
    quaternion_disp = relaxed_ik_quaternion_disp(w: f64, i: f64, j: f64, k: f64, w2: f64, i2: f64, j2: f64, k2: f64, part: u32);
    /// The angle of the turn from the first to the second.
    angle_between_quaternion = relaxed_ik_angle_between_quaternion(w: f64, i: f64, j: f64, k: f64, w2: f64, i2: f64, j2: f64, k2: f64);
    /// From a to b, and from c to d.
    segment_distance = relaxed_ik_segment_distance(ax: f64, ay: f64, az: f64, bx: f64, by: f64, bz: f64, cx: f64, cy: f64, cz: f64, dx: f64, dy: f64, dz: f64);
}

#[cfg(feature = "objective")]
numbers! {
    /// With both powers 2.
    groove_loss = relaxed_ik_groove_loss(x_val: f64, t: f64, c: f64, f: f64);
    /// With the 20th power.
    swamp_groove_loss = relaxed_ik_swamp_groove_loss(x_val: f64, g: f64, l_bound: f64, u_bound: f64, c: f64, f1: f64, f2: f64, f3: f64);
    /// With the 30th power for p1 = 30, else with the 20th.
    swamp_loss = relaxed_ik_swamp_loss(x_val: f64, l_bound: f64, u_bound: f64, f1: f64, f2: f64, p1: u16);
    /// One coordinate's distance from the goal, under its tolerance.
    loss_position = relaxed_ik_loss_position(dist: f64, bound: f64);
    /// One coordinate's angle from the goal, under its tolerance.
    loss_rotation = relaxed_ik_loss_rotation(angle: f64, bound: f64);
    /// A joint between its limits.
    loss_limits = relaxed_ik_loss_limits(x: f64, l: f64, u: f64);
    /// A strict goal's position and an end's.
    loss_pos_goals = relaxed_ik_loss_pos_goals(gx: f64, gy: f64, gz: f64, x: f64, y: f64, z: f64);
    /// A strict goal's rotation and an end's, which counts by the nearer of its two
    /// signs.
    loss_quat_goals = relaxed_ik_loss_quat_goals(gw: f64, gi: f64, gj: f64, gk: f64, w: f64, i: f64, j: f64, k: f64);
}

// Safety, for every call below: each list is a slice, so it is there in full
// for its length and never null; those that are written are lent exclusively,
// so none shares a byte with another and nobody else writes to one while the
// call runs. The library keeps no pointer.

/// 36 floats, row after row; a NaN for another length.
pub fn determinant(rows: &[u8]) -> f64 {
    unsafe { c::relaxed_ik_determinant(rows.as_ptr(), rows.len()) }
}

/// An entry of J times J transposed, of J's columns, six floats each, at most
/// sixteen; a NaN for another length, and past row or column 5.
pub fn gram(columns: &[u8], row: u32, column: u32) -> f64 {
    unsafe { c::relaxed_ik_gram(columns.as_ptr(), columns.len(), row, column) }
}

/// What every call on arms but `sizing` is lent first.
#[derive(Clone, Copy, Debug)]
pub struct Sheet<'a> {
    pub sizes: &'a [u8],
    pub codes: &'a [u8],
    pub floats: &'a [u8],
    pub limits: &'a [u8],
}

/// A list for each chain by its number, loaded or not: seven floats, displacement
/// and offset w first, or no byte for no tool.
pub type Tools<'a> = [&'a [u8]; crate::MOST_CHAINS];

/// Names a call of `c`, then the sheet's lists and the call's own, each as
/// pointer and length, and the number behind them, if it has one.
macro_rules! call {
    ($name:ident, $sheet:expr $(, read $first:expr)*, tools $tools:expr $(, read $then:expr)* $(, write $write:expr)* $(, number $number:expr)?) => {
        call!(
            $name, $sheet
            $(, read $first)*,
            read $tools[0], read $tools[1], read $tools[2], read $tools[3]
            $(, read $then)*
            $(, write $write)*
            $(, number $number)?
        )
    };
    ($name:ident, $sheet:expr $(, read $read:expr)* $(, write $write:expr)* $(, number $number:expr)?) => {
        unsafe {
            c::$name(
                $sheet.sizes.as_ptr(), $sheet.sizes.len(),
                $sheet.codes.as_ptr(), $sheet.codes.len(),
                $sheet.floats.as_ptr(), $sheet.floats.len(),
                $sheet.limits.as_ptr(), $sheet.limits.len(),
                $($read.as_ptr(), $read.len(),)*
                $($write.as_mut_ptr(), $write.len(),)*
                $($number,)?
            )
        }
    };
}

pub fn load(sheet: Sheet) -> u32 {
    call!(relaxed_ik_load, sheet)
}

/// Four u16s: the floats of both lists of `frames`, the objectives of the list that
/// is picked (0 the tolerance list, any other number the strict one), and the
/// entries of the one-block call's record. It is lent no limits.
pub fn sizing(sizes: &[u8], codes: &[u8], floats: &[u8], plan: &mut [u8], strict: u32) -> u32 {
    unsafe {
        c::relaxed_ik_sizing(
            sizes.as_ptr(),
            sizes.len(),
            codes.as_ptr(),
            codes.len(),
            floats.as_ptr(),
            floats.len(),
            plan.as_mut_ptr(),
            plan.len(),
            strict,
        )
    }
}

/// 13 floats a chain: position, rotation w first, six tolerances.
pub fn set_goals(sheet: Sheet, goals: &[u8]) -> u32 {
    call!(relaxed_ik_set_goals, sheet, read goals)
}

/// A tool of the chain with this number, from 0. Here a list of no byte is refused
/// too.
pub fn set_tool(sheet: Sheet, tool: &[u8], chain: u32) -> u32 {
    call!(relaxed_ik_set_tool, sheet, read tool, number chain)
}

/// Positions by three and rotations by four, w first, chain after chain: L
/// links have L + 1 positions and L + 2 rotations.
pub fn frames(sheet: Sheet, joints: &[u8], positions: &mut [u8], rotations: &mut [u8]) -> u32 {
    call!(relaxed_ik_frames, sheet, read joints, write positions, write rotations)
}

/// Seven floats a chain: position, rotation w first.
pub fn pose(sheet: Sheet, tools: Tools, joints: &[u8], ends: &mut [u8]) -> u32 {
    call!(relaxed_ik_pose, sheet, tools tools, read joints, write ends)
}

/// One float.
pub fn manipulability(sheet: Sheet, joints: &[u8], value: &mut [u8]) -> u32 {
    call!(relaxed_ik_manipulability, sheet, read joints, write value)
}

/// Four blocks of joints, current first, and the end poses as in `pose`.
pub fn reset(
    sheet: Sheet,
    tools: Tools,
    joints: &[u8],
    history: &mut [u8],
    ends: &mut [u8],
) -> u32 {
    call!(relaxed_ik_reset, sheet, tools tools, read joints, write history, write ends)
}

/// Four blocks of joints, laid out as the old ones.
pub fn update(sheet: Sheet, history: &[u8], joints: &[u8], new_history: &mut [u8]) -> u32 {
    call!(relaxed_ik_update, sheet, read history, read joints, write new_history)
}

/// Eight floats: position, rotation, limits, velocity, acceleration, jerk,
/// manipulability, pairs. Here a list of no byte is refused too.
pub fn set_weights(weights: &[u8]) -> u32 {
    unsafe { c::relaxed_ik_set_weights(weights.as_ptr(), weights.len()) }
}

/// What the objective and its slopes are lent first, and the number that comes
/// last.
#[cfg(feature = "objective")]
#[derive(Clone, Copy, Debug)]
pub struct Given<'a> {
    pub sheet: Sheet<'a>,
    pub goals: &'a [u8],
    pub history: &'a [u8],
    /// No byte for the built-in ones.
    pub weights: &'a [u8],
    pub tools: Tools<'a>,
    /// 0 picks the tolerance list, any other number the strict one.
    pub strict: u32,
}

/// The three lists of the one-block call's record, an entry for each walked
/// link: the joint raised (65535 in the first walk) and the link, a u16 each,
/// and the pose after that link, seven floats.
#[cfg(feature = "objective")]
#[derive(Debug)]
pub struct Record<'a> {
    pub joints: &'a mut [u8],
    pub links: &'a mut [u8],
    pub poses: &'a mut [u8],
}

/// One float.
#[cfg(feature = "objective")]
pub fn objective(given: Given, joints: &[u8], value: &mut [u8]) -> u32 {
    call!(
        relaxed_ik_objective, given.sheet,
        read given.goals, read given.history, read given.weights, tools given.tools, read joints,
        write value, number given.strict
    )
}

/// By steps of 1e-7. The scratch list, a float a joint, ends equal to the
/// joints; then one float, and a float a joint.
#[cfg(feature = "objective")]
pub fn gradient(
    given: Given,
    joints: &[u8],
    scratch: &mut [u8],
    value: &mut [u8],
    slopes: &mut [u8],
) -> u32 {
    call!(
        relaxed_ik_gradient, given.sheet,
        read given.goals, read given.history, read given.weights, tools given.tools, read joints,
        write scratch, write value, write slopes, number given.strict
    )
}

/// By steps of 1e-6 of the whole objective; the lists are those of `gradient`.
#[cfg(feature = "objective")]
pub fn gradient_finite_diff(
    given: Given,
    joints: &[u8],
    scratch: &mut [u8],
    value: &mut [u8],
    slopes: &mut [u8],
) -> u32 {
    call!(
        relaxed_ik_gradient_finite_diff, given.sheet,
        read given.goals, read given.history, read given.weights, tools given.tools, read joints,
        write scratch, write value, write slopes, number given.strict
    )
}

/// What `gradient` answers, without scratch, and the record of the walks.
#[cfg(feature = "objective")]
pub fn gradient_one_block(
    given: Given,
    joints: &[u8],
    value: &mut [u8],
    slopes: &mut [u8],
    record: Record,
) -> u32 {
    call!(
        relaxed_ik_gradient_one_block, given.sheet,
        read given.goals, read given.history, read given.weights, tools given.tools, read joints,
        write value, write slopes,
        write record.joints, write record.links, write record.poses, number given.strict
    )
}
