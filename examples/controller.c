/* The rig's loop on the proved library: reserve the lists, load the arm, set weights, the sonde on the flange and its goal, reset, then round
 * after round a gradient, a small step down and an update. Once the collar is surveyed the goal is strict, and the rounds go on.
 *
 *   cc -std=c99 -Iinclude examples/controller.c target/staticlib/libexports.a -o controller
 *
 * All lists are static; nothing is allocated. Those whose lengths the library plans are carved out of one pool, at exactly those lengths. Lists
 * are lent as they lie in memory, so this program is for a little-endian processor with IEEE 754 doubles, and says so if it is on another.
 *
 * -DPOOL_BYTES=N gives the pool another size. -DGUARDED puts guard bytes around every list and looks at them, and at the lists that are only
 * read, after every call (tools/controller_test). */
#include "relaxed_ik.h"

#include <stdio.h>
#include <string.h>

enum {
    CHAINS = 1,
    LINKS = 9,
    JOINTS = 7,
    ROUNDS = 200 /* with each list of objectives */
};

#define MOST_MOVE 0.02 /* of a joint in one round */

/* Every list: type, name, length. The first are only read by the calls, the others written; the history is both. The last are as long as the
 * plan says. */
#define READ_LISTS(LIST)                                    \
    LIST(uint16_t, sizes, 1 + CHAINS)                       \
    LIST(uint16_t, codes, LINKS)                            \
    LIST(double, floats, LINKS * RELAXED_IK_LINK_FLOATS)    \
    LIST(double, limits, JOINTS * RELAXED_IK_LIMIT_FLOATS)  \
    LIST(double, goals, CHAINS * RELAXED_IK_GOAL_FLOATS)    \
    LIST(double, weights, RELAXED_IK_WEIGHT_FLOATS)         \
    LIST(double, new_weights, RELAXED_IK_WEIGHT_FLOATS)     \
    LIST(double, tool, RELAXED_IK_TOOL_FLOATS)              \
    LIST(double, new_tool, RELAXED_IK_TOOL_FLOATS)          \
    LIST(double, joints, JOINTS)
#define WRITTEN_LISTS(LIST)                                 \
    LIST(double, history, JOINTS * RELAXED_IK_HISTORY_BLOCKS) \
    LIST(double, new_history, JOINTS * RELAXED_IK_HISTORY_BLOCKS) \
    LIST(double, ends, CHAINS * RELAXED_IK_POSE_FLOATS)     \
    LIST(double, value, 1)                                  \
    LIST(double, slopes, JOINTS)                            \
    LIST(uint16_t, plan, RELAXED_IK_PLAN_NUMBERS)
#define PLANNED_LISTS(LIST)                                 \
    LIST(uint16_t, record_joints, ENTRIES)                  \
    LIST(uint16_t, record_links, ENTRIES)                   \
    LIST(double, record_poses, ENTRIES * RELAXED_IK_POSE_FLOATS)
#define ENTRIES ((size_t)plan.at[RELAXED_IK_PLAN_RECORD])

/* A rig has no heap: the planned lists come out of this many bytes, which the longest record of any arm needs. */
#ifndef POOL_BYTES
#define POOL_BYTES (RELAXED_IK_MOST_RECORD * (2 * sizeof(uint16_t) + RELAXED_IK_POSE_FLOATS * sizeof(double)))
#endif

#ifdef GUARDED
#define GUARD 64
#define DECLARE(type, name, count)   \
    static struct {                  \
        uint8_t before[GUARD];       \
        type at[count];              \
        uint8_t after[GUARD];        \
    } name;
/* What the lists that are only read held before the call. */
#define DECLARE_KEPT(type, name, count) static type kept_##name[count];
READ_LISTS(DECLARE_KEPT)
#else
#define GUARD 0
#define DECLARE(type, name, count) \
    static struct {                \
        type at[count];            \
    } name;
#endif
READ_LISTS(DECLARE)
WRITTEN_LISTS(DECLARE)

/* A list in the pool. Lists need no alignment, so they lie there byte after byte, and what the program reads of one it copies out. */
struct part {
    uint8_t *before, *at, *after;
    size_t length;
};
#define DECLARE_PART(type, name, count) static struct part name;
PLANNED_LISTS(DECLARE_PART)
/* The guards have room of their own, so that they change nothing of what fits. */
#define BOTH_GUARDS(type, name, count) + 2 * GUARD
static uint8_t pool[POOL_BYTES PLANNED_LISTS(BOTH_GUARDS)];
static int reserved;

/* A list as a call takes it. */
#define READ(name) (const uint8_t *)name.at, sizeof name.at
#define WRITE(name) (uint8_t *)name.at, sizeof name.at
#define WRITE_PART(name) name.at, name.length
#define SHEET READ(sizes), READ(codes), READ(floats), READ(limits)
/* The tools of chains 0 to 3, of which this arm has the first. None is a list of no byte, whose pointer is not null all the same. */
#define TOOLS (const uint8_t *)tool.at, tool_bytes, NO_TOOL, NO_TOOL, NO_TOOL
#define NO_TOOL (const uint8_t *)tool.at, 0

static size_t tool_bytes; /* 0 until a tool is set */
static uint32_t picked = RELAXED_IK_TOLERANCE_LIST; /* the list of objectives by which the rounds go */
static unsigned long calls;

#ifdef GUARDED
static void guard(uint8_t *bytes) {
    int i;
    for (i = 0; i < GUARD; i++) bytes[i] = (uint8_t)(0xa5 ^ i);
}

static int broken(const uint8_t *bytes) {
    int i;
    for (i = 0; i < GUARD; i++)
        if (bytes[i] != (uint8_t)(0xa5 ^ i)) return 1;
    return 0;
}

#define SET_GUARDS(type, name, count) guard(name.before), guard(name.after);
#define KEEP(type, name, count) memcpy(kept_##name, name.at, sizeof name.at);
#define LOOK(type, name, count)                                                      \
    if (broken(name.before) || broken(name.after)) {                                 \
        printf("FAULT: after call %lu the guard of " #name " is broken\n", calls);   \
        faults++;                                                                    \
    }
#define COMPARE(type, name, count)                                                   \
    if (memcmp(kept_##name, name.at, sizeof name.at) != 0) {                         \
        printf("FAULT: call %lu wrote to " #name ", which it only reads\n", calls);  \
        faults++;                                                                    \
    }
static unsigned long faults;
#endif

static void before_call(void) {
#ifdef GUARDED
    READ_LISTS(KEEP)
#endif
}

static uint32_t after_call(uint32_t answer) {
    calls++;
#ifdef GUARDED
    READ_LISTS(LOOK)
    READ_LISTS(COMPARE)
    WRITTEN_LISTS(LOOK)
    if (reserved) {
        PLANNED_LISTS(LOOK)
    }
#endif
    return answer;
}

/* A call with its guards looked at. */
#define ASK(call) (before_call(), after_call(call))

static const char *words(uint32_t answer) {
    switch (answer) {
    case RELAXED_IK_TAKEN: return "taken";
    case RELAXED_IK_WRONG_SIZES: return "wrong sizes";
    case RELAXED_IK_WRONG_LENGTHS: return "codes or floats of the wrong length";
    case RELAXED_IK_UNLISTED_CODE: return "a code that is not listed";
    case RELAXED_IK_WRONG_COUNT: return "too few or too many joints";
    case RELAXED_IK_WRONG_LIMITS: return "wrong limits";
    case RELAXED_IK_WRONG_LINK: return "a displacement or an offset out of range";
    case RELAXED_IK_WRONG_JOINTS: return "a joint out of range";
    case RELAXED_IK_WRONG_GOALS: return "wrong goals";
    case RELAXED_IK_TOO_SHORT: return "a list that is too short";
    case RELAXED_IK_WRONG_WEIGHTS: return "wrong weights";
    case RELAXED_IK_WRONG_TOOL: return "a wrong tool, or one for no chain";
    default: return "a number that no call has";
    }
}

/* Says what was asked and how it was answered; 1 if it was taken. */
static int taken(const char *what, uint32_t answer) {
    if (answer == RELAXED_IK_TAKEN) return 1;
    printf("%s: refused, %lu: %s\n", what, (unsigned long)answer, words(answer));
    return 0;
}

/* A mast, a slew ring on it, a boom of seven joints. Codes: 0 fixed, 13 turns about z, 12 about y, 11 about x. */
static const uint16_t mast_codes[LINKS] = {0, 13, 12, 12, 11, 0, 12, 11, 13};
static const double mast_floats[LINKS][RELAXED_IK_LINK_FLOATS] = {
    {0.0, 0.0, 0.6, 1.0, 0.0, 0.0, 0.0},
    {0.0, 0.0, 0.2, 1.0, 0.0, 0.0, 0.0},
    {0.1, 0.0, 0.2, 1.0, 0.0, 0.0, 0.0},
    {0.9, 0.0, 0.0, 1.0, 0.0, 0.0, 0.0},
    {0.7, 0.0, 0.0, 1.0, 0.0, 0.0, 0.0},
    {0.1, 0.0, 0.0, 0.8, 0.0, 0.6, 0.0},
    {0.0, 0.0, 0.15, 1.0, 0.0, 0.0, 0.0},
    {0.0, 0.0, 0.1, 1.0, 0.0, 0.0, 0.0},
    {0.0, 0.0, 0.3, 1.0, 0.0, 0.0, 0.0},
};
/* How far each joint may go, either way. The ring's hoses let it go round almost eight times; the library takes RELAXED_IK_MOST_TURN. */
static const double reach[JOINTS] = {50.0, 2.5, 2.5, 2.5, 2.5, 2.5, 2.5};
/* The ring has gone round six times by now, and counts on. */
static const double start[JOINTS] = {37.9, -0.3, 0.5, 0.1, 0.4, 0.1, 0.0};
static const double taught[JOINTS] = {38.05, -0.2, 0.6, 0.05, 0.5, 0.0, 0.1};
static const double tolerances[6] = {0.0, 0.0, 0.05, 0.1, 0.1, 3.2};
/* In granite the azimuth, which is of the rotation, counts for more than the depth: position, rotation, limits, velocity, acceleration, jerk,
 * manipulability, pairs. */
static const double granite[RELAXED_IK_WEIGHT_FLOATS] = {20.0, 60.0, 0.1, 0.7, 0.5, 0.3, 1.0, 0.01};
/* The sonde on the flange: its tip is a little aside, 0.5 on, and turned. */
static const double sonde[RELAXED_IK_TOOL_FLOATS] = {0.04, 0.0, 0.5, 0.96, 0.0, 0.28, 0.0};

static void fill(void) {
    int i;
#ifdef GUARDED
    READ_LISTS(SET_GUARDS)
    WRITTEN_LISTS(SET_GUARDS)
#endif
    sizes.at[0] = CHAINS;
    sizes.at[1] = LINKS;
    memcpy(codes.at, mast_codes, sizeof mast_codes);
    memcpy(floats.at, mast_floats, sizeof mast_floats);
    for (i = 0; i < JOINTS; i++) {
        limits.at[2 * i] = -reach[i];
        limits.at[2 * i + 1] = reach[i];
    }
    memcpy(joints.at, start, sizeof start);
}

static int little_endian(void) {
    const uint16_t one = 1;
    const double two = 2.0;
    const uint8_t two_bytes[8] = {0, 0, 0, 0, 0, 0, 0, 0x40};
    return *(const uint8_t *)&one == 1 && sizeof two == 8 && memcmp(&two, two_bytes, 8) == 0;
}

#define ADD(type, name, count) needed += sizeof(type) * (count);
#define CARVE(type, name, count)                  \
    name.before = next;                           \
    name.at = name.before + GUARD;                \
    name.length = sizeof(type) * (count);         \
    name.after = name.at + name.length;           \
    next = name.after + GUARD;

/* Asks how long the lists have to be, and how many objectives there are by the list that is picked. */
static int size(void) {
    if (!taken("sizing", ASK(relaxed_ik_sizing(READ(sizes), READ(codes), READ(floats), WRITE(plan), picked)))) return 0;
    printf("planned: %u objectives, goals %s\n", (unsigned)plan.at[RELAXED_IK_PLAN_OBJECTIVES],
        picked == RELAXED_IK_TOLERANCE_LIST ? "within tolerances" : "strict");
    return 1;
}

/* Once, at the start: carves the lists out of the pool as they are planned. */
static int reserve(void) {
    uint8_t *next = pool;
    size_t needed = 0;
    if (!size()) return 0;
    PLANNED_LISTS(ADD)
    if (needed > POOL_BYTES) {
        printf("the pool is too small: the lists need %lu bytes, it has %lu\n", (unsigned long)needed, (unsigned long)POOL_BYTES);
        return 0;
    }
    PLANNED_LISTS(CARVE)
#ifdef GUARDED
    PLANNED_LISTS(SET_GUARDS)
#endif
    reserved = 1;
    printf("reserved: %lu bytes for a record of %lu entries\n", (unsigned long)needed, (unsigned long)ENTRIES);
    return 1;
}

/* Copies an entry, which has this size, out of the pool. */
static void copy_out(void *to, struct part list, size_t entry, size_t size) {
    memcpy(to, list.at + entry * size, size);
}

/* A list is looked at before it takes the place of the one in force, so a refused list changes nothing. */
static int set_weights(const char *what, const double *list) {
    memcpy(new_weights.at, list, sizeof new_weights.at);
    if (!taken(what, ASK(relaxed_ik_set_weights(READ(new_weights))))) return 0;
    memcpy(weights.at, new_weights.at, sizeof weights.at);
    return 1;
}

static void print_weights(const char *when) {
    const double *w = weights.at;
    printf("%s: position %g, rotation %g\n", when, w[RELAXED_IK_WEIGHT_POSITION], w[RELAXED_IK_WEIGHT_ROTATION]);
}

/* Sets the crew's table. A list that somebody mistyped is then told by its number, and the table stays in force. */
static int weigh(void) {
    double mistyped[RELAXED_IK_WEIGHT_FLOATS];
    if (!set_weights("set weights", granite)) return 0;
    print_weights("weights set");
    memcpy(mistyped, granite, sizeof mistyped);
    mistyped[RELAXED_IK_WEIGHT_ROTATION] = 6000.0;
    if (set_weights("a rotation of 6000", mistyped) || memcmp(weights.at, granite, sizeof granite) != 0) return 0;
    print_weights("they stay");
    return 1;
}

/* As with weights: looked at first, and only then in force. */
static int set_tool(const char *what, uint32_t chain, const double *list) {
    memcpy(new_tool.at, list, sizeof new_tool.at);
    if (!taken(what, ASK(relaxed_ik_set_tool(SHEET, READ(new_tool), chain)))) return 0;
    memcpy(tool.at, new_tool.at, sizeof tool.at);
    tool_bytes = sizeof tool.at;
    return 1;
}

static void print_tool(const char *when) {
    const double *t = tool.at;
    printf("%s: tip at %g %g %g from the flange\n", when, t[0], t[1], t[2]);
}

/* Sets the sonde. One that somebody mistyped, and one for a chain that the arm does not have, are told by their number, and it stays. */
static int equip(void) {
    double mistyped[RELAXED_IK_TOOL_FLOATS];
    if (!set_tool("set tool", 0, sonde)) return 0;
    print_tool("tool set");
    memcpy(mistyped, sonde, sizeof mistyped);
    mistyped[2] = 50.0;
    if (set_tool("a sonde of 50 m", 0, mistyped) || set_tool("a sonde on chain 1", 1, sonde)) return 0;
    if (memcmp(tool.at, sonde, sizeof sonde) != 0) return 0;
    print_tool("it stays");
    return 1;
}

static int pose(void) {
    return taken("pose", ASK(relaxed_ik_pose(SHEET, TOOLS, READ(joints), WRITE(ends))));
}

static void print_end(const char *when) {
    const double *e = ends.at;
    printf("%s: end at %.4f %.4f %.4f, rotation %.4f %.4f %.4f %.4f\n", when, e[0], e[1], e[2], e[3], e[4], e[5], e[6]);
}

/* The angle between two rotations. A rotation has two signs, and as in the objective the nearer one counts. */
static double angle(const double *g, const double *e) {
    double a = relaxed_ik_angle_between_quaternion(g[0], g[1], g[2], g[3], e[0], e[1], e[2], e[3]);
    double b = relaxed_ik_angle_between_quaternion(g[0], g[1], g[2], g[3], -e[0], -e[1], -e[2], -e[3]);
    return b < a ? b : a;
}

/* Where the end is by now, and how far from its goal. */
static int print_off(const char *when) {
    const double *e = ends.at, *g = goals.at;
    if (!pose()) return 0;
    print_end(when);
    printf("%s: %.4f m and %.4f rad from the goal\n", when, relaxed_ik_norm(e[0] - g[0], e[1] - g[1], e[2] - g[2]),
        angle(g + 3, e + 3));
    return 1;
}

/* The goal: where the sonde's tip is when the arm stands at the taught block. */
static int aim(void) {
    memcpy(joints.at, taught, sizeof taught);
    if (!pose()) return 0;
    memcpy(goals.at, ends.at, sizeof ends.at);
    memcpy(goals.at + RELAXED_IK_POSE_FLOATS, tolerances, sizeof tolerances);
    if (!taken("set goals", ASK(relaxed_ik_set_goals(SHEET, READ(goals))))) return 0;
    print_end("goal set");
    return 1;
}

/* The block at hand becomes the history's first. The call never writes to the list it reads, so the new one is copied back. */
static int update(void) {
    if (!taken("update", ASK(relaxed_ik_update(SHEET, READ(history), READ(joints), WRITE(new_history))))) return 0;
    memcpy(history.at, new_history.at, sizeof history.at);
    return 1;
}

static double within(double v, double low, double high) {
    return v < low ? low : v > high ? high : v;
}

static int rounds(int first) {
    double rate = 0.001, last = 0.0, e[RELAXED_IK_POSE_FLOATS];
    uint16_t link, joint;
    int round, i;
    for (round = first; round < first + ROUNDS; round++) {
        if (!taken("gradient", ASK(relaxed_ik_gradient_one_block(SHEET, READ(goals), READ(history), READ(weights), TOOLS, READ(joints),
                                   WRITE(value), WRITE(slopes), WRITE_PART(record_joints), WRITE_PART(record_links),
                                   WRITE_PART(record_poses), picked))))
            return 0;
        if (round % 25 == 0 || round == first + ROUNDS - 1) {
            /* The record stops at the last link: the first walk's last pose is the flange's, and no further call is needed for it. */
            copy_out(e, record_poses, LINKS - 1, sizeof e);
            printf("round %3d: objective %10.5f, flange at %.4f %.4f %.4f\n", round, value.at[0], e[0], e[1], e[2]);
        }
        if (round > first && value.at[0] > last) rate *= 0.7;
        last = value.at[0];
        for (i = 0; i < JOINTS; i++) {
            double to = joints.at[i] - within(rate * slopes.at[i], -MOST_MOVE, MOST_MOVE);
            joints.at[i] = within(to, limits.at[2 * i], limits.at[2 * i + 1]);
        }
        if (!update()) return 0;
    }
    copy_out(&link, record_links, ENTRIES - 1, sizeof link);
    copy_out(&joint, record_joints, ENTRIES - 1, sizeof joint);
    printf("record: %lu links walked, the last one link %u with joint %u raised\n", (unsigned long)ENTRIES, (unsigned)link, (unsigned)joint);
    return 1;
}

/* The collar is surveyed: from here on the goal has no tolerance. The lists were carved by the plan of the other list of objectives, and
 * serve if this plan has no more entries. */
static int survey(void) {
    size_t carved = ENTRIES;
    picked = RELAXED_IK_STRICT_LIST;
    if (!size()) return 0;
    if (ENTRIES > carved) {
        printf("the record is too short: %lu entries, %lu are carved\n", (unsigned long)ENTRIES, (unsigned long)carved);
        return 0;
    }
    return 1;
}

/* A block that the arm must not take: the number says why, the history stays, and the arm goes on from the last good block. */
static int misread(void) {
    double good = joints.at[0];
    uint32_t answer;
    joints.at[0] = 90.0;
    memset(new_history.at, 0, sizeof new_history.at);
    answer = ASK(relaxed_ik_update(SHEET, READ(history), READ(joints), WRITE(new_history)));
    taken("an encoder says 90 rad", answer);
    if (answer != RELAXED_IK_WRONG_JOINTS || new_history.at[0] != 0.0) return 0;
    joints.at[0] = good;
    if (!update()) return 0;
    puts("back at the last good block");
    return 1;
}

int main(void) {
    if (!little_endian()) {
        puts("this program lends its lists as they lie in memory, which is not little-endian here");
        return 2;
    }
    fill();
    if (!reserve()) return 1;
    if (!taken("load", ASK(relaxed_ik_load(SHEET)))) return 1;
    printf("loaded: %d chain, %d links, %d joints\n", CHAINS, LINKS, JOINTS);
    if (!weigh()) return 1;
    if (!equip()) return 1;
    if (!aim()) return 1;

    memcpy(joints.at, start, sizeof start);
    if (!taken("reset", ASK(relaxed_ik_reset(SHEET, TOOLS, READ(joints), WRITE(history), WRITE(ends))))) return 1;
    print_end("reset");

    if (!rounds(0) || !print_off("over the collar")) return 1;
    if (!survey() || !rounds(ROUNDS) || !print_off("surveyed")) return 1;

    if (!taken("manipulability", ASK(relaxed_ik_manipulability(SHEET, READ(joints), WRITE(value))))) return 1;
    printf("manipulability %.6f\n", value.at[0]);

    if (!misread()) return 1;
    printf("%lu calls\n", calls);
#ifdef GUARDED
    printf("%lu faults\n", faults);
    if (faults != 0) return 1;
#endif
    return 0;
}
