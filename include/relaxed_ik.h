/* The proved library for x86-64 Linux, from C (C99) and C++. A linker does not notice that a call has gained a list or a number: compile what
 * calls the library again with the header that came with it.
 *
 * Lists. A list crosses as a pointer and a length in bytes. u16s take two bytes each and floats (IEEE 754 binary64) eight, the lowest byte
 * first; on x86-64 that is how uint16_t and double lie in memory, so an array of them can be lent as it is.
 *
 *   sizes      u16s: the number of chains, then the links of each chain
 *   codes      a u16 for each link: 0 fixed; 10, 20, 30, 40 plus axis for revolute, continuous, prismatic, telescoping; axis 0 none, 1 to 3
 *              x, y, z, 4 to 6 their negatives. A link that is not fixed has a joint
 *   floats     7 for each link: displacement x, y, z, offset w, i, j, k
 *   limits     2 for each joint: lower, upper; -999 and 999 for a joint that is free
 *   goals      13 for each chain: position, rotation w first, six tolerances (three of position, three of rotation)
 *   history    four blocks of joints in one list: the current one, then the three before it
 *   weights    8 floats: position, rotation, limits, velocity, acceleration, jerk, manipulability, pairs; or none at all
 *   tool       7 floats: displacement x, y, z, offset w, i, j, k; or none at all. tool0 to tool3 are those of chains 0 to 3
 *   joints     a float for each joint, chain after chain
 *   plan       four u16s, by which lists are reserved: see relaxed_ik_sizing
 *
 * Lists named const are only read. Of the others the front is written; a longer list keeps its tail, and its length must be a whole number
 * of elements all the same.
 *
 * Joints. A joint that turns, revolute or continuous, is within -64..64, so that a slew ring can count on through its turns; one that slides,
 * prismatic or telescoping, is within -8..8. The blocks of a history are ranged as the joints are. Velocity, acceleration and jerk go by the
 * values as they stand: a ring whose count is begun again seems to have moved, until a reset or three updates.
 *
 * Slides. A prismatic joint moves its link along the base's axis, whatever the arm has turned before it; without axis its displacement counts
 * for nothing either. A telescoping joint is URDF's prismatic one: it moves along its own axis, as the arm and the link's own offset have
 * turned it; without axis the displacement counts and the joint moves nothing.
 *
 * Weights. Each kind of objective counts by its weight, within 0..1000. A call that is lent no byte of weights takes the built-in ones: 50,
 * 10, 0.1, 0.7, 0.5, 0.3, 1, 0.01. relaxed_ik_set_weights looks at a list before it is put to use; there an empty list is refused too.
 *
 * Tools. A chain may have a tool on its flange, ranged as a link's floats: its end pose is then the last link's followed by the tool, as if by
 * a fixed link. relaxed_ik_pose, relaxed_ik_reset and the objective with its slopes go by the end pose; frames, manipulability, pairs of
 * links and the record stop at the last link. No byte is no tool, and the end pose is the last link's; a list of any byte for a chain that
 * is not loaded is refused, whatever it holds. relaxed_ik_set_tool looks at one tool before it is put to use; there an empty list is refused
 * too.
 *
 * Strict goals. The objective, its slopes and the plan take a number behind their lists, by which the caller picks the list of objectives: 0
 * is the tolerance list, any other number the strict list. In the tolerance list a chain's goal makes six objectives, one for each of its
 * tolerances; in the strict list it makes two, of the end's distance from the goal's position and of the angle between their rotations, and
 * tolerances count for nothing. Goals have 13 floats all the same and are refused as ever. The weights of position and rotation serve for
 * either list, and everything else is summed as it was; the plan's objectives are those of the list that is picked, 4 fewer a chain if it is
 * the strict one.
 *
 * Answers. A call on lists answers 0 if it was taken, or the number of the refusal, and then every list is as it was. Where several refusals
 * hold, the lowest is the answer. The calls keep no state: everything is lent each time, and the answer depends on nothing else.
 *
 * What the caller sees to: each list is there in full for its length; no list that is written shares a byte with another list of the call;
 * nobody else writes to any of them while the call runs; no pointer is null, not even with length 0. Lists need no alignment. Calls may run
 * side by side as long as none writes to another's list. The processor rounds to nearest, takes subnormals as they are and traps no
 * floating-point exception, as a C program starts. Nothing is allocated.
 */
#ifndef RELAXED_IK_H
#define RELAXED_IK_H

#include <stddef.h>
#include <stdint.h>

#ifdef __cplusplus
extern "C" {
#endif

/* ---- the numbers that a call on lists answers */

#define RELAXED_IK_TAKEN 0           /* not refused */
#define RELAXED_IK_WRONG_SIZES 1     /* sizes empty or not chains + 1 long, chains not 1..4, or links of a chain not 1..16 */
#define RELAXED_IK_WRONG_LENGTHS 2   /* codes not one, or floats not seven, a link */
#define RELAXED_IK_UNLISTED_CODE 3   /* a code that is not in the list above */
#define RELAXED_IK_WRONG_COUNT 4     /* under 2 joints in a chain, over 16 in all, or a later chain with more joints than chain 0 has links */
#define RELAXED_IK_WRONG_LIMITS 5    /* not two a joint, or a pair neither -999, 999 nor within -100..100 with upper - lower >= 0.001 */
#define RELAXED_IK_WRONG_LINK 6      /* displacement not within -10..10, or offset whose squares' sum is not within 1e-9 of 1 */
#define RELAXED_IK_WRONG_JOINTS 7    /* joints (or history) of the wrong length, or a value not within -64..64 (turning) or -8..8 (sliding) */
#define RELAXED_IK_WRONG_GOALS 8     /* not 13 a chain, position or tolerance not within -100..100, or rotation as in 6 */
#define RELAXED_IK_TOO_SHORT 9       /* a list to be written is too short, or no whole number of elements */
#define RELAXED_IK_WRONG_WEIGHTS 10  /* not eight, or a value not within 0..1000 */
#define RELAXED_IK_WRONG_TOOL 11     /* not seven, displacement or offset as in 6, or a chain that is not loaded */

/* ---- the list of objectives that a call is to go by */

#define RELAXED_IK_TOLERANCE_LIST 0  /* six objectives a chain for its goal, each under its tolerance */
#define RELAXED_IK_STRICT_LIST 1     /* two, without tolerance; so is every number but 0 */

/* ---- fixed lengths, in elements */

#define RELAXED_IK_LINK_FLOATS 7     /* floats a link */
#define RELAXED_IK_LIMIT_FLOATS 2    /* limits a joint */
#define RELAXED_IK_GOAL_FLOATS 13    /* goals a chain */
#define RELAXED_IK_POSE_FLOATS 7     /* a pose: position, rotation w first */
#define RELAXED_IK_POSITION_FLOATS 3
#define RELAXED_IK_ROTATION_FLOATS 4
#define RELAXED_IK_HISTORY_BLOCKS 4
#define RELAXED_IK_WEIGHT_FLOATS 8   /* weights, one a kind of objective */
#define RELAXED_IK_TOOL_FLOATS 7     /* a tool: displacement, then offset w first */
#define RELAXED_IK_PLAN_NUMBERS 4    /* u16s of a plan */

/* Where each number of a plan stands. */
#define RELAXED_IK_PLAN_POSITIONS 0  /* floats of the positions of relaxed_ik_frames */
#define RELAXED_IK_PLAN_ROTATIONS 1  /* floats of its rotations */
#define RELAXED_IK_PLAN_OBJECTIVES 2 /* objectives that are summed */
#define RELAXED_IK_PLAN_RECORD 3     /* entries of the record of relaxed_ik_gradient_one_block */

/* Where each weight stands. */
#define RELAXED_IK_WEIGHT_POSITION 0
#define RELAXED_IK_WEIGHT_ROTATION 1
#define RELAXED_IK_WEIGHT_LIMITS 2
#define RELAXED_IK_WEIGHT_VELOCITY 3
#define RELAXED_IK_WEIGHT_ACCELERATION 4
#define RELAXED_IK_WEIGHT_JERK 5
#define RELAXED_IK_WEIGHT_MANIPULABILITY 6
#define RELAXED_IK_WEIGHT_PAIRS 7    /* of links that could meet */

/* The most that is taken. */
#define RELAXED_IK_MOST_CHAINS 4
#define RELAXED_IK_MOST_CHAIN_LINKS 16
#define RELAXED_IK_MOST_LINKS 64     /* of all chains */
#define RELAXED_IK_MOST_JOINTS 16    /* of all chains */
#define RELAXED_IK_MOST_RECORD 296   /* entries: four chains of 16 links, each with its four joints in front */
#define RELAXED_IK_MOST_TURN 64.0    /* of a revolute or continuous joint's value, either way */
#define RELAXED_IK_MOST_SLIDE 8.0    /* of a prismatic or telescoping one's, either way */

#define RELAXED_IK_NONE_RAISED 65535 /* in the record, the joint of the first walk */

/* ---- the arm */

/* Looks at a sheet. Lent: the sheet. Comes back: the number alone. Answers 0 to 6. */
uint32_t relaxed_ik_load(
    const uint8_t *sizes, size_t sizes_length,
    const uint8_t *codes, size_t codes_length,
    const uint8_t *floats, size_t floats_length,
    const uint8_t *limits, size_t limits_length);

/* How many floats the frame lists have, how many objectives there are and how many entries the record has, without a walk. Lent: sizes,
 * codes, floats, no limits, and the list picked. Comes back: the plan, four u16s: the floats of the positions and of the rotations of
 * relaxed_ik_frames, the objectives of the list picked, and the entries of the record of relaxed_ik_gradient_one_block, a u16 an entry in
 * its joints and in its links and 7 floats in its poses. A list of the planned length is never refused as too short; with one element fewer
 * it always is, where no lower number holds. Answers 0 to 4, 6, 9. */
uint32_t relaxed_ik_sizing(
    const uint8_t *sizes, size_t sizes_length,
    const uint8_t *codes, size_t codes_length,
    const uint8_t *floats, size_t floats_length,
    uint8_t *plan, size_t plan_length,
    uint32_t strict);

/* Looks at goals. Lent: the sheet, goals. Comes back: the number alone. Answers 0 to 6, 8. */
uint32_t relaxed_ik_set_goals(
    const uint8_t *sizes, size_t sizes_length,
    const uint8_t *codes, size_t codes_length,
    const uint8_t *floats, size_t floats_length,
    const uint8_t *limits, size_t limits_length,
    const uint8_t *goals, size_t goals_length);

/* Looks at a tool. Lent: the sheet, the tool, and the number of its chain, from 0. Comes back: the number alone. Answers 0 to 6, 11. */
uint32_t relaxed_ik_set_tool(
    const uint8_t *sizes, size_t sizes_length,
    const uint8_t *codes, size_t codes_length,
    const uint8_t *floats, size_t floats_length,
    const uint8_t *limits, size_t limits_length,
    const uint8_t *tool, size_t tool_length,
    uint32_t chain);

/* Where every link stands. Lent: the sheet, joints. Comes back, chain after chain: positions, 3 floats each, one more than the chain has
 * links (its base first), and rotations, 4 floats each, two more (the last one twice). Answers 0 to 7, 9. */
uint32_t relaxed_ik_frames(
    const uint8_t *sizes, size_t sizes_length,
    const uint8_t *codes, size_t codes_length,
    const uint8_t *floats, size_t floats_length,
    const uint8_t *limits, size_t limits_length,
    const uint8_t *joints, size_t joints_length,
    uint8_t *positions, size_t positions_length,
    uint8_t *rotations, size_t rotations_length);

/* The end pose of each chain. Lent: the sheet, tools, joints. Comes back: 7 floats a chain. Answers 0 to 7, 9, 11. */
uint32_t relaxed_ik_pose(
    const uint8_t *sizes, size_t sizes_length,
    const uint8_t *codes, size_t codes_length,
    const uint8_t *floats, size_t floats_length,
    const uint8_t *limits, size_t limits_length,
    const uint8_t *tool0, size_t tool0_length,
    const uint8_t *tool1, size_t tool1_length,
    const uint8_t *tool2, size_t tool2_length,
    const uint8_t *tool3, size_t tool3_length,
    const uint8_t *joints, size_t joints_length,
    uint8_t *ends, size_t ends_length);

/* The manipulability, summed over the chains; one under six joints gives 0. Lent: the sheet, joints. Comes back: one float. Answers 0 to 7,
 * 9. */
uint32_t relaxed_ik_manipulability(
    const uint8_t *sizes, size_t sizes_length,
    const uint8_t *codes, size_t codes_length,
    const uint8_t *floats, size_t floats_length,
    const uint8_t *limits, size_t limits_length,
    const uint8_t *joints, size_t joints_length,
    uint8_t *value, size_t value_length);

/* A new start. Lent: the sheet, tools, joints. Comes back: the history, which is the joints four times, and the end poses, 7 floats a chain.
 * Answers 0 to 7, 9, 11. */
uint32_t relaxed_ik_reset(
    const uint8_t *sizes, size_t sizes_length,
    const uint8_t *codes, size_t codes_length,
    const uint8_t *floats, size_t floats_length,
    const uint8_t *limits, size_t limits_length,
    const uint8_t *tool0, size_t tool0_length,
    const uint8_t *tool1, size_t tool1_length,
    const uint8_t *tool2, size_t tool2_length,
    const uint8_t *tool3, size_t tool3_length,
    const uint8_t *joints, size_t joints_length,
    uint8_t *history, size_t history_length,
    uint8_t *ends, size_t ends_length);

/* A step on. Lent: the sheet, the history so far, the new joints. Comes back: the new history, which is the joints and the first three
 * blocks of the old one. Answers 0 to 7, 9. */
uint32_t relaxed_ik_update(
    const uint8_t *sizes, size_t sizes_length,
    const uint8_t *codes, size_t codes_length,
    const uint8_t *floats, size_t floats_length,
    const uint8_t *limits, size_t limits_length,
    const uint8_t *history, size_t history_length,
    const uint8_t *joints, size_t joints_length,
    uint8_t *new_history, size_t new_history_length);

/* ---- the objective and its slopes */

/* Looks at weights. Lent: weights, and an empty list is refused. Comes back: the number alone. Answers 0, 10. */
uint32_t relaxed_ik_set_weights(
    const uint8_t *weights, size_t weights_length);

/* The objective. Lent: the sheet, goals, history, weights, tools, joints, and the list picked. Comes back: one float. Answers 0 to 11. */
uint32_t relaxed_ik_objective(
    const uint8_t *sizes, size_t sizes_length,
    const uint8_t *codes, size_t codes_length,
    const uint8_t *floats, size_t floats_length,
    const uint8_t *limits, size_t limits_length,
    const uint8_t *goals, size_t goals_length,
    const uint8_t *history, size_t history_length,
    const uint8_t *weights, size_t weights_length,
    const uint8_t *tool0, size_t tool0_length,
    const uint8_t *tool1, size_t tool1_length,
    const uint8_t *tool2, size_t tool2_length,
    const uint8_t *tool3, size_t tool3_length,
    const uint8_t *joints, size_t joints_length,
    uint8_t *value, size_t value_length,
    uint32_t strict);

/* The objective and its slopes by steps of 1e-7, loss by loss. Lent: the sheet, goals, history, weights, tools, joints, and the list picked.
 * Comes back: scratch, a float a joint, which ends equal to the joints; the value, one float; the slopes, one a joint. Answers 0 to 11. */
uint32_t relaxed_ik_gradient(
    const uint8_t *sizes, size_t sizes_length,
    const uint8_t *codes, size_t codes_length,
    const uint8_t *floats, size_t floats_length,
    const uint8_t *limits, size_t limits_length,
    const uint8_t *goals, size_t goals_length,
    const uint8_t *history, size_t history_length,
    const uint8_t *weights, size_t weights_length,
    const uint8_t *tool0, size_t tool0_length,
    const uint8_t *tool1, size_t tool1_length,
    const uint8_t *tool2, size_t tool2_length,
    const uint8_t *tool3, size_t tool3_length,
    const uint8_t *joints, size_t joints_length,
    uint8_t *scratch, size_t scratch_length,
    uint8_t *value, size_t value_length,
    uint8_t *slopes, size_t slopes_length,
    uint32_t strict);

/* The objective and its slopes by steps of 1e-6 of the whole. The lists and the pick are those of relaxed_ik_gradient. Answers 0 to 11. */
uint32_t relaxed_ik_gradient_finite_diff(
    const uint8_t *sizes, size_t sizes_length,
    const uint8_t *codes, size_t codes_length,
    const uint8_t *floats, size_t floats_length,
    const uint8_t *limits, size_t limits_length,
    const uint8_t *goals, size_t goals_length,
    const uint8_t *history, size_t history_length,
    const uint8_t *weights, size_t weights_length,
    const uint8_t *tool0, size_t tool0_length,
    const uint8_t *tool1, size_t tool1_length,
    const uint8_t *tool2, size_t tool2_length,
    const uint8_t *tool3, size_t tool3_length,
    const uint8_t *joints, size_t joints_length,
    uint8_t *scratch, size_t scratch_length,
    uint8_t *value, size_t value_length,
    uint8_t *slopes, size_t slopes_length,
    uint32_t strict);

/* What relaxed_ik_gradient answers, bit for bit, without scratch, and the record of the links it walked. Lent: the sheet, goals, history,
 * weights, tools, joints, and the list picked. Comes back: the value, one float; the slopes, one a joint; the record as three parallel lists,
 * in the order walked: the joint raised (u16; 65535 in the first walk), the link (u16), both numbered across chains, and the pose after that
 * link (7 floats). The record has all links, then for each joint those from its own to its chain's last, whichever list is picked. Answers 0
 * to 11. */
uint32_t relaxed_ik_gradient_one_block(
    const uint8_t *sizes, size_t sizes_length,
    const uint8_t *codes, size_t codes_length,
    const uint8_t *floats, size_t floats_length,
    const uint8_t *limits, size_t limits_length,
    const uint8_t *goals, size_t goals_length,
    const uint8_t *history, size_t history_length,
    const uint8_t *weights, size_t weights_length,
    const uint8_t *tool0, size_t tool0_length,
    const uint8_t *tool1, size_t tool1_length,
    const uint8_t *tool2, size_t tool2_length,
    const uint8_t *tool3, size_t tool3_length,
    const uint8_t *joints, size_t joints_length,
    uint8_t *value, size_t value_length,
    uint8_t *slopes, size_t slopes_length,
    uint8_t *record_joints, size_t record_joints_length,
    uint8_t *record_links, size_t record_links_length,
    uint8_t *record_poses, size_t record_poses_length,
    uint32_t strict);

/* ---- the parts, each as a function of numbers
 *
 * Quaternions are w, i, j, k and vectors x, y, z. A function of several parts is asked for one of them a call, counted from 0; for any other
 * part it answers a NaN. These are the series and formulas of the arm and do not reach beyond it: see docs/DIFFERENCES.md. */

/* The square root, correctly rounded. */
double relaxed_ik_sqrt(double x);

/* Sine and cosine, made for half joint angles, up to 32 in size. Beyond 4.5 in size k * 6.283185307179586 is taken off first, k the whole
 * number nearest to a / 6.283185307179586, ties to even. */
double relaxed_ik_sin(double a);
double relaxed_ik_cos(double a);

/* The exponential of y <= 0; 0 below -700, a NaN above 0. */
double relaxed_ik_exp(double y);

/* The angle of n over w, n > 0 and w >= 0. */
double relaxed_ik_atan2(double n, double w);

/* The angle whose cosine is w, -1 < w < 1. */
double relaxed_ik_acos(double w);

/* The 20th and the 30th power. */
double relaxed_ik_power20(double a);
double relaxed_ik_power30(double a);

/* The constant b of the losses for those powers. */
double relaxed_ik_b20(void);
double relaxed_ik_b30(void);

/* The cut to 0..1, and the size of a number. */
double relaxed_ik_cut(double x);
double relaxed_ik_abs(double x);

/* Product and inverse of quaternions; a vector rotated by one. */
double relaxed_ik_quat_product(double aw, double ai, double aj, double ak, double bw, double bi, double bj, double bk, uint32_t part);
double relaxed_ik_quat_inverse(double w, double i, double j, double k, uint32_t part);
double relaxed_ik_rotate(double w, double i, double j, double k, double x, double y, double z, uint32_t part);

/* Cross product and norm of vectors. */
double relaxed_ik_cross(double x, double y, double z, double x2, double y2, double z2, uint32_t part);
double relaxed_ik_norm(double x, double y, double z);

/* The quaternion that turns by v about axis 0 to 2 for x, y, z; a NaN for any other axis. */
double relaxed_ik_get_quat(uint32_t axis, double v, uint32_t part);

/* A quaternion's axis times its angle. */
double relaxed_ik_scaled_axis(double w, double i, double j, double k, uint32_t part);

/* A quaternion divided by its length. */
double relaxed_ik_from_quaternion(double w, double i, double j, double k, uint32_t part);

/* A quaternion's logarithm, that of the turn from the first quaternion to the second, and the angle of that turn. */
double relaxed_ik_quaternion_log(double w, double i, double j, double k, uint32_t part);
double relaxed_ik_quaternion_disp(double w, double i, double j, double k, double w2, double i2, double j2, double k2, uint32_t part);
double relaxed_ik_angle_between_quaternion(double w, double i, double j, double k, double w2, double i2, double j2, double k2);

/* The distance between the segment from a to b and the one from c to d. */
double relaxed_ik_segment_distance(double ax, double ay, double az, double bx, double by, double bz, double cx, double cy, double cz,
    double dx, double dy, double dz);

/* The determinant of 36 floats, row after row; a NaN for another length. */
double relaxed_ik_determinant(const uint8_t *rows, size_t rows_length);

/* An entry of J times J transposed, J lent as columns of six floats, at most sixteen; a NaN for another length, and past row or column 5. */
double relaxed_ik_gram(const uint8_t *columns, size_t columns_length, uint32_t row, uint32_t column);

/* The losses: groove (both powers 2), swamp-groove (power 20), swamp (power 30 for p1 = 30, else 20). */
double relaxed_ik_groove_loss(double x_val, double t, double c, double f);
double relaxed_ik_swamp_groove_loss(double x_val, double g, double l_bound, double u_bound, double c, double f1, double f2, double f3);
double relaxed_ik_swamp_loss(double x_val, double l_bound, double u_bound, double f1, double f2, uint16_t p1);

/* The loss of one coordinate's distance or angle from the goal under its tolerance, and of a joint between its limits. */
double relaxed_ik_loss_position(double dist, double bound);
double relaxed_ik_loss_rotation(double angle, double bound);
double relaxed_ik_loss_limits(double x, double l, double u);

/* The losses of a strict goal: of its position and an end's, and of its rotation and an end's, which counts by the nearer of its two signs. */
double relaxed_ik_loss_pos_goals(double gx, double gy, double gz, double x, double y, double z);
double relaxed_ik_loss_quat_goals(double gw, double gi, double gj, double gk, double w, double i, double j, double k);

#ifdef __cplusplus
}
#endif

#endif
