/* Times the convex hull of 16, 64 and 256 points, few of them on the hull, some or all, and of a mix: the proved call,
   and beside it the plain one of plain_hull.h, on the same points in one run. Every call is taken; each turn takes the
   next of 64 sets, so that the processor does not learn the branches of one. Each figure is the median of 31 runs, in
   nanoseconds for a call. */
#include <math.h>
#include <stdio.h>
#include <stdlib.h>
#include <string.h>
#include "clock.h"
#include "plain_hull.h"
#include "ravinebowl.h"

enum { RUNS = 31, SETS = 64, RADIUS = 15000 };

typedef struct {
    size_t n;
    Corner points[MOST];
} Set;

/* The lists that a call writes. */
typedef struct {
    int64_t result[RAVINEBOWL_CONVEX_HULL_LENGTH];
    int32_t out[2 * MOST], marks[MOST];
} Hull;

/* A way to find the hull of a set: writes the lists, gives the code. */
typedef uint32_t Way(const Set *set, Hull *hull);

static uint32_t call(const Set *set, Hull *hull) {
    return ravinebowl_convex_hull(&set->points[0].x, 2 * set->n, hull->out, 2 * set->n, hull->marks, set->n,
                                  hull->result, RAVINEBOWL_CONVEX_HULL_LENGTH)
        .code;
}

static uint32_t plain(const Set *set, Hull *hull) {
    return plain_convex_hull(&set->points[0].x, 2 * set->n, hull->out, 2 * set->n, hull->marks, set->n, hull->result,
                             RAVINEBOWL_CONVEX_HULL_LENGTH)
        .number;
}

enum { CALL, PLAIN, WAYS };

static Way *const ways[WAYS] = {call, plain};

/* A whole number from -most to most. */
static int32_t any(int32_t most) { return rand() % (2 * most + 1) - most; }

static void shuffle(Corner *points, size_t n) {
    for (size_t i = n - 1; i > 0; i--) {
        size_t j = rand() % (i + 1);
        Corner kept = points[i];
        points[i] = points[j];
        points[j] = kept;
    }
}

static int64_t corners_of(const Set *set) {
    Hull hull;
    return plain(set, &hull) == RAVINEBOWL_ANSWERED ? hull.result[RAVINEBOWL_CONVEX_HULL_COUNT] : 0;
}

/* The corners of a square, and points inside it. */
static void make_few(Set *set) {
    set->points[0] = (Corner){-RADIUS, -RADIUS};
    set->points[1] = (Corner){RADIUS, -RADIUS};
    set->points[2] = (Corner){RADIUS, RADIUS};
    set->points[3] = (Corner){-RADIUS, RADIUS};
    for (size_t i = 4; i < set->n; i++) set->points[i] = (Corner){any(RADIUS - 1), any(RADIUS - 1)};
    shuffle(set->points, set->n);
}

/* Points in a circle. */
static void make_some(Set *set) {
    for (size_t i = 0; i < set->n; i++) {
        Corner *v = &set->points[i];
        do *v = (Corner){any(RADIUS), any(RADIUS)};
        while (v->x * v->x + v->y * v->y > RADIUS * RADIUS);
    }
}

/* Points on a circle, from some place on; again where rounding leaves some off the hull. */
static void make_all(Set *set) {
    do {
        double turn = any(1000) / 1000.0;
        for (size_t i = 0; i < set->n; i++) {
            double t = 2 * M_PI * (i + turn) / set->n;
            set->points[i] = (Corner){(int32_t)lround(RADIUS * cos(t)), (int32_t)lround(RADIUS * sin(t))};
        }
    } while (corners_of(set) != (int64_t)set->n);
    shuffle(set->points, set->n);
}

/* 3 to 256 points of a square of some size, in small ones with many repeats and points in a line; again where they have
   no hull. */
static void make_mix(Set *set) {
    do {
        int32_t most = 1 << rand() % 14;
        set->n = 3 + rand() % (MOST - 2);
        for (size_t i = 0; i < set->n; i++) set->points[i] = (Corner){any(most), any(most)};
    } while (corners_of(set) == 0);
}

/* Some turns, each with the next set. All together give a sum. */
static int64_t repeat(Way *way, const Set *sets, uint32_t turns) {
    static Hull hull;
    int64_t sum = 0;
    size_t k = 0;
    for (uint32_t i = 0; i < turns; i++) {
        sum += way(&sets[k], &hull);
        sum += hull.result[0] + hull.out[2] + hull.marks[0];
        k = next(SETS, k);
    }
    return sum;
}

/* The medians of both ways, their runs taken in turn so that load on the machine meets each alike. */
static void medians(const Set *sets, uint32_t turns, double *out) {
    static volatile int64_t sink;
    static double run[WAYS][RUNS];
    for (int i = 0; i < RUNS; i++)
        for (int w = 0; w < WAYS; w++) {
            double start = now();
            sink = repeat(ways[w], sets, turns);
            run[w][i] = (now() - start) / turns;
        }
    (void)sink;
    for (int w = 0; w < WAYS; w++) {
        qsort(run[w], RUNS, sizeof run[w][0], by_size);
        out[w] = run[w][RUNS / 2];
    }
}

/* Whether both ways are taken and write the same. The lists are filled unlike each other first, so that a number that
   neither writes is told too. */
static int agree(const Set *set) {
    Hull a, b;
    memset(&a, 0x55, sizeof a);
    memset(&b, 0x66, sizeof b);
    return call(set, &a) == RAVINEBOWL_ANSWERED && plain(set, &b) == RAVINEBOWL_ANSWERED &&
           memcmp(a.result, b.result, sizeof a.result) == 0 &&
           memcmp(a.out, b.out, 2 * set->n * sizeof a.out[0]) == 0 &&
           memcmp(a.marks, b.marks, set->n * sizeof a.marks[0]) == 0;
}

/* The counts of points and corners are means over the sets. */
static void time_sets(const char *name, const Set *sets) {
    double t[WAYS], points = 0, corners = 0;
    for (size_t k = 0; k < SETS; k++) {
        if (!agree(&sets[k])) {
            fprintf(stderr, "%s, set %zu, %zu points: a call is refused, or the hulls differ\n", name, k, sets[k].n);
            exit(1);
        }
        points += (double)sets[k].n / SETS;
        corners += (double)corners_of(&sets[k]) / SETS;
    }
    medians(sets, SETS * (uint32_t)(4000 / points + 1), t);
    printf("| %s | %.0f | %.0f | %.0f | %.0f | %.2f |\n", name, points, corners, t[CALL], t[PLAIN], t[CALL] / t[PLAIN]);
}

typedef void Make(Set *set);

/* Sets of n points each; of a mix n does not matter. */
static void time_made(const char *name, Make *make, size_t n) {
    static Set sets[SETS];
    for (size_t k = 0; k < SETS; k++) {
        sets[k].n = n;
        make(&sets[k]);
    }
    time_sets(name, sets);
}

int main(void) {
    static const size_t counts[] = {16, 64, 256};
    srand(1);
    puts("| set | points | on the hull | call | plain | ratio |");
    puts("|---|---|---|---|---|---|");
    for (int i = 0; i < 3; i++) time_made("few on the hull", make_few, counts[i]);
    for (int i = 0; i < 3; i++) time_made("some on the hull", make_some, counts[i]);
    for (int i = 0; i < 3; i++) time_made("all on the hull", make_all, counts[i]);
    time_made("mix", make_mix, 0);
    return 0;
}
