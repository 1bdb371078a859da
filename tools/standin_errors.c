/* standin_errors COUNT SEED: how far the proved sine, cosine, exponential, atan2 and acos are from long double functions, whose own error
 * (below 1e-19 of the value) does not matter here. A range is searched at COUNT random arguments, then around the worst and around notable
 * ones. */
#include "relaxed_ik.h"

#include <math.h>
#include <stdint.h>
#include <stdio.h>
#include <stdlib.h>
#include <string.h>

#define KEPT 32              /* the worst arguments, whose neighbours are searched */
#define NEIGHBOURS 200000    /* floats to either side of each */
#define SHOWN (UINT64_C(1) << 22)

typedef struct {
    double error, a, b;
} Found;

static uint64_t state;

/* splitmix64 */
static uint64_t draw(void) {
    uint64_t z = state += UINT64_C(0x9e3779b97f4a7c15);
    z = (z ^ (z >> 30)) * UINT64_C(0xbf58476d1ce4e5b9);
    z = (z ^ (z >> 27)) * UINT64_C(0x94d049bb133111eb);
    return z ^ (z >> 31);
}

static double unit(void) {
    return (double)(draw() >> 11) * 0x1p-53;
}

static double between(double low, double high) {
    return low + (high - low) * unit();
}

/* A power of two between the two, times something within 1..2. */
static double magnitude(int low, int high) {
    return ldexp(1 + unit(), low + (int)(draw() % (uint64_t)(high - low + 1)));
}

static uint64_t bits(double x) {
    uint64_t u;
    memcpy(&u, &x, sizeof u);
    return u;
}

/* The float that is k places away from x in the order of bits; x is not 0. */
static double moved(double x, int64_t k) {
    uint64_t u = bits(x) + (uint64_t)k;
    memcpy(&x, &u, sizeof x);
    return x;
}

static double absolute(double got, long double right) {
    return (double)fabsl((long double)got - right);
}

static double relative(double got, long double right) {
    return right == 0 ? (got == 0 ? 0 : INFINITY) : (double)fabsl(((long double)got - right) / right);
}

static double sine_error(double a, double b) {
    (void)b;
    return absolute(relaxed_ik_sin(a), sinl((long double)a));
}

static double cosine_error(double a, double b) {
    (void)b;
    return absolute(relaxed_ik_cos(a), cosl((long double)a));
}

static double exp_error(double a, double b) {
    (void)b;
    return relative(relaxed_ik_exp(a), expl((long double)a));
}

static double atan2_error(double a, double b) {
    return relative(relaxed_ik_atan2(a, b), atan2l((long double)a, (long double)b));
}

static double acos_error(double a, double b) {
    (void)b;
    return relative(relaxed_ik_acos(a), acosl((long double)a));
}

static const double PI = 3.141592653589793;
static const double BEYOND = 4.5 + 0x1p-50; /* the least that comes without its whole turns */
static const double MOST = 32.0000005;      /* half of 64 and of what it is raised by */

static void either_sign(double a, Found *f) {
    f->a = draw() % 2 ? a : -a;
    f->b = 0;
}

/* Half joints up to 4 and what they are raised by: half of them anywhere, a quarter in the outer tenth, the rest of every size. */
static void up_to_4(Found *f) {
    const double most = 4.0000005;
    uint64_t kind = draw() % 4;
    either_sign(kind < 2 ? between(0, most) : kind == 2 ? between(0.9 * most, most) : magnitude(-60, 1), f);
}

/* Half joints that are still taken as they are. */
static void up_to_4_5(Found *f) { either_sign(between(4.0000005, 4.5), f); }

/* Half joints that come without whole turns: half of them anywhere, a quarter in the outer tenth, the rest near so many half turns. */
static void reduced(Found *f) {
    uint64_t kind = draw() % 4;
    double turned = (double)(2 + draw() % 9) * PI + between(-0.01, 0.01);
    either_sign(kind < 2 ? between(BEYOND, MOST) : kind == 2 ? between(0.9 * MOST, MOST) : turned, f);
}

/* Half of them anywhere within -700..0, a quarter in the lowest tenth, the rest of every size. */
static void exponent(Found *f) {
    uint64_t kind = draw() % 4;
    f->a = -(kind < 2 ? between(0, 700) : kind == 2 ? between(630, 700) : magnitude(-60, 8));
    f->b = 0;
}

/* A unit quaternion's vector part and its w: any angle, and angles of every size. */
static void quaternion(Found *f) {
    double angle = draw() % 2 ? between(0, 1.5707963267948966) : magnitude(-60, -1);
    f->a = sin(angle);
    f->b = cos(angle);
}

/* Two numbers within 0..1, or of any size between 2^-60 and 2^60. */
static void pair(Found *f) {
    if (draw() % 2) {
        f->a = 1 - unit();
        f->b = unit();
    } else {
        f->a = magnitude(-60, 60);
        f->b = magnitude(-60, 60);
    }
}

/* Cosines: half of them anywhere within -1..1, a quarter near 1 in size, the rest of every size. */
static void cosine(Found *f) {
    uint64_t kind = draw() % 4;
    either_sign(kind < 2 ? unit() : kind == 2 ? 1 - magnitude(-53, -2) : magnitude(-60, -2), f);
}

typedef struct {
    const char *name, *range, *kind;
    double (*error)(double, double);
    void (*next)(Found *);
    double low, high;   /* the first argument's range */
    double least;       /* its least size */
    int two;            /* arguments */
    double notable[8];
} Search;

static const double BELOW_1 = 1 - 0x1p-53;
static const double SCALED = 0.99998749992187402; /* sqrt(1 - 0.005 * 0.005) */

static int inside(const Search *s, double a) {
    return a >= s->low && a <= s->high && fabs(a) >= s->least;
}

/* Keeps f among the worst, which stand in falling order. */
static void keep(Found *worst, Found f) {
    if (!(f.error > worst[KEPT - 1].error))
        return;
    int i = KEPT - 1;
    while (i > 0 && f.error > worst[i - 1].error) {
        worst[i] = worst[i - 1];
        i--;
    }
    worst[i] = f;
}

static uint64_t tried;

static void look(const Search *s, Found *worst, double a, double b) {
    if (!inside(s, a) || (s->two && !(b >= 0 && b < INFINITY)))
        return;
    Found f = {s->error(a, b), a, b};
    keep(worst, f);
    tried++;
}

/* The floats next to an argument; of two arguments the one and the other is moved. */
static void around(const Search *s, Found *worst, double a, double b) {
    for (int64_t k = -NEIGHBOURS; k <= NEIGHBOURS; k++) {
        look(s, worst, moved(a, k), b);
        if (s->two && b > 0)
            look(s, worst, a, moved(b, k));
    }
}

static void search(const Search *s, uint64_t count) {
    Found worst[KEPT], first[KEPT];
    memset(worst, 0, sizeof worst);
    tried = 0;
    for (uint64_t i = 0; i < count; i++) {
        Found f;
        s->next(&f);
        look(s, worst, f.a, f.b);
        if ((i & (SHOWN - 1)) == SHOWN - 1 || i + 1 == count)
            fprintf(stderr, "\r%s, %s: %llu of %llu, worst %.3g   ", s->name, s->range, (unsigned long long)(i + 1), (unsigned long long)count,
                    worst[0].error);
    }
    memcpy(first, worst, sizeof first);
    for (int i = 0; i < KEPT && first[i].error > 0; i++)
        around(s, worst, first[i].a, first[i].b);
    for (int i = 0; i < 8 && s->notable[i] != 0; i++) {
        around(s, worst, s->notable[i], 1);
        around(s, worst, -s->notable[i], 1);
    }
    fprintf(stderr, "\n");
    printf("| %s | %s | %llu | %s | %.2e | %.17g", s->name, s->range, (unsigned long long)tried, s->kind, worst[0].error, worst[0].a);
    if (s->two)
        printf(", %.17g", worst[0].b);
    printf(" | 0x%016llx", (unsigned long long)bits(worst[0].a));
    if (s->two)
        printf(", 0x%016llx", (unsigned long long)bits(worst[0].b));
    printf(" |\n");
    fflush(stdout);
}

int main(int count, char **words) {
    const Search searches[] = {
        {"sine", "up to 4.0000005", "absolute", sine_error, up_to_4, -4.0000005, 4.0000005, 0, 0, {4, 4.0000005, PI, PI / 2, 1, 0}},
        {"sine", "4.0000005 to 4.5", "absolute", sine_error, up_to_4_5, -4.5, 4.5, 4.0000005, 0, {4.5, 0}},
        {"sine", "beyond 4.5, up to 32.0000005", "absolute", sine_error, reduced, -MOST, MOST, BEYOND, 0, {BEYOND, 2 * PI, 3 * PI, 5 * PI, 9 * PI, 10 * PI, 32, MOST}},
        {"cosine", "up to 4.0000005", "absolute", cosine_error, up_to_4, -4.0000005, 4.0000005, 0, 0, {4, 4.0000005, PI, PI / 2, 1, 0}},
        {"cosine", "4.0000005 to 4.5", "absolute", cosine_error, up_to_4_5, -4.5, 4.5, 4.0000005, 0, {4.5, 0}},
        {"cosine", "beyond 4.5, up to 32.0000005", "absolute", cosine_error, reduced, -MOST, MOST, BEYOND, 0, {BEYOND, 2 * PI, 3 * PI, 5 * PI, 9 * PI, 10 * PI, 32, MOST}},
        {"exponential", "-700 to 0", "relative", exp_error, exponent, -700, 0, 0, 0, {-700, -512, -1, -0.5, -0x1p-10, 0}},
        {"atan2", "unit quaternions", "relative", atan2_error, quaternion, 0x1p-1000, 2, 0, 1, {1, 0}},
        {"atan2", "any n > 0, w >= 0", "relative", atan2_error, pair, 0x1p-1000, 0x1p100, 0, 1, {1, 0x1p-30, 0x1p30, 0.41421356237309503, 2.414213562373095, 0}},
        {"acos", "between -1 and 1", "relative", acos_error, cosine, -BELOW_1, BELOW_1, 0, 0, {BELOW_1, 0.5, 0x1p-27, 0x1p-60, 0}},
        {"acos", "where the sine of the angle is at least 0.005", "relative", acos_error, cosine, -SCALED, SCALED, 0, 0, {SCALED, 0.5, 0x1p-27, 0x1p-60, 0}},
    };
    char *end;
    uint64_t many = count == 3 ? strtoull(words[1], &end, 10) : 0;
    if (many == 0 || *end != 0) {
        fprintf(stderr, "usage: standin_errors COUNT SEED\n");
        return 2;
    }
    printf("| function | range | arguments | error | largest | at | its bits |\n|---|---|---|---|---|---|---|\n");
    for (size_t i = 0; i < sizeof searches / sizeof *searches; i++) {
        state = strtoull(words[2], NULL, 10) + i * UINT64_C(0x632be59bd9b4e019);
        search(&searches[i], many);
    }
    return 0;
}
