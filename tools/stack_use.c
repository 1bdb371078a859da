/* How many bytes of stack each byte call takes, on an arm of 16 joints: the stack is painted before the call, and what is no longer painted was used. */
#include "relaxed_ik.h"

#include <stdio.h>
#include <string.h>

#define JOINTS 16
#define PAINTED 200000
#define PAINT 0xA5

static volatile unsigned char *lowest;

static uint16_t sizes[2] = {1, JOINTS}, codes[JOINTS], plan[4], record_joints[400], record_links[400];
static double floats[7 * JOINTS], limits[2 * JOINTS], goals[13], history[4 * JOINTS], joints[JOINTS];
static double weights[8] = {50, 10, 0.1, 0.7, 0.5, 0.3, 1, 0.01};
static double tool[7] = {0.1, -0.05, 0.07, 0.5, 0.5, -0.5, 0.5};
static double value[1], ends[7], blocks[4 * JOINTS], slopes[JOINTS], scratch[JOINTS], positions[3 * (JOINTS + 1)], rotations[4 * (JOINTS + 2)], record_poses[2800];

#define LIST(a) (const uint8_t *)(a), sizeof(a)
#define OUT(a) (uint8_t *)(a), sizeof(a)
#define SHEET LIST(sizes), LIST(codes), LIST(floats), LIST(limits)
#define NO_TOOL (const uint8_t *)tool, 0
#define TOOLS LIST(tool), NO_TOOL, NO_TOOL, NO_TOOL
#define STATE SHEET, LIST(goals), LIST(history), LIST(weights), TOOLS, LIST(joints)

static void paint(void)
{
    volatile unsigned char area[PAINTED];
    for (size_t i = 0; i < PAINTED; i++)
        area[i] = PAINT;
    lowest = area;
}

static void report(const char *name, uint32_t number, const unsigned char *top)
{
    const unsigned char *p = (const unsigned char *)lowest;
    while (*p == PAINT)
        p++;
    printf("%-28s %6ld bytes%s\n", name, (long)(top - p), number == 0 ? "" : "  (refused)");
}

#define MEASURE(name, call)                \
    do {                                   \
        paint();                           \
        uint32_t number = (call);          \
        report(name, number, &top);        \
    } while (0)

/* The objective by this list, and its slopes. */
#define MEASURE_LIST(word, list)                                                                                            \
    do {                                                                                                                    \
        MEASURE(word "objective", relaxed_ik_objective(STATE, OUT(value), list));                                           \
        MEASURE(word "gradient", relaxed_ik_gradient(STATE, OUT(scratch), OUT(value), OUT(slopes), list));                  \
        MEASURE(word "gradient_finite_diff",                                                                                \
                relaxed_ik_gradient_finite_diff(STATE, OUT(scratch), OUT(value), OUT(slopes), list));                       \
        MEASURE(word "gradient_one_block", relaxed_ik_gradient_one_block(STATE, OUT(value), OUT(slopes), OUT(record_joints), \
                                                                         OUT(record_links), OUT(record_poses), list));      \
    } while (0)

int main(void)
{
    static const double link[7] = {0.1, -0.05, 0.07, 0.5, 0.5, -0.5, 0.5};
    unsigned char top = 0;
    for (int i = 0; i < JOINTS; i++) {
        codes[i] = (uint16_t)(11 + i % 6);
        memcpy(floats + 7 * i, link, sizeof link);
        limits[2 * i] = -3;
        limits[2 * i + 1] = 3;
        joints[i] = 0.1 * i - 0.8;
        for (int block = 0; block < 4; block++)
            history[block * JOINTS + i] = joints[i] - 0.01 * block;
    }
    goals[0] = 0.3;
    goals[3] = 1;
    goals[8] = 0.1;
    goals[11] = 3.2;
    /* Once before: the first call of memset and memcpy looks them up, on the caller's stack. */
    relaxed_ik_load(SHEET);
    relaxed_ik_gradient(STATE, OUT(scratch), OUT(value), OUT(slopes), RELAXED_IK_TOLERANCE_LIST);
    MEASURE("load", relaxed_ik_load(SHEET));
    MEASURE("sizing", relaxed_ik_sizing(LIST(sizes), LIST(codes), LIST(floats), OUT(plan), RELAXED_IK_TOLERANCE_LIST));
    MEASURE("set_goals", relaxed_ik_set_goals(SHEET, LIST(goals)));
    MEASURE("frames", relaxed_ik_frames(SHEET, LIST(joints), OUT(positions), OUT(rotations)));
    MEASURE("pose", relaxed_ik_pose(SHEET, TOOLS, LIST(joints), OUT(ends)));
    MEASURE("manipulability", relaxed_ik_manipulability(SHEET, LIST(joints), OUT(value)));
    MEASURE("reset", relaxed_ik_reset(SHEET, TOOLS, LIST(joints), OUT(blocks), OUT(ends)));
    MEASURE("update", relaxed_ik_update(SHEET, LIST(history), LIST(joints), OUT(blocks)));
    MEASURE("set_weights", relaxed_ik_set_weights(LIST(weights)));
    MEASURE("set_tool", relaxed_ik_set_tool(SHEET, LIST(tool), 0));
    MEASURE_LIST("", RELAXED_IK_TOLERANCE_LIST);
    MEASURE_LIST("strict ", RELAXED_IK_STRICT_LIST);
    return 0;
}
