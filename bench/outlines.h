/* What the benchmarks of two outlines share: the pairs, and the timing of some ways to answer on each; and the ways of
   those over lists, which must give the same answer. Corners are those of plain.h, pairs those of random_outlines.h. */
#include <stdio.h>
#include "checks.h"
#include "clock.h"
#include "random_outlines.h"
#include "ravinebowl.h"

enum { RUNS = 31, MOST = RAVINEBOWL_MOST_CORNERS };

/* Pairs that are taken in turn, and the one whose turn it is. */
typedef struct {
    const Pair *pairs;
    size_t count, turn;
} Pairs;

static const Pair *take_turn(Pairs *pairs) {
    const Pair *p = &pairs->pairs[pairs->turn];
    pairs->turn = next(pairs->count, pairs->turn);
    return p;
}

/* The ways over lists: the proved call, the same with both lists clockwise, the checks of both lists alone, and two in
   plain C; of comparing a third. */
enum { CALL, CLOCKWISE, CHECKS, PLAIN, EXHAUSTIVE, STEPS, WAYS };

/* A way: some turns, which all together give the greatest answer, and how many turns make a run. */
typedef struct {
    uint64_t (*answer)(Pairs *, uint32_t turns);
    uint32_t (*turns)(size_t n);
} Way;

/* The turns of a run where the time of a turn grows as the corners. */
static uint32_t linear(size_t n) { return 50000 / n + 1; }

static int count_ways(const Way *ways) { return ways[STEPS].answer ? WAYS : STEPS; }

static uint64_t greater(uint64_t a, uint64_t b) { return a < b ? b : a; }

static uint64_t checks(Pairs *pairs, uint32_t turns) {
    uint64_t greatest = 0;
    for (uint32_t i = 0; i < turns; i++) {
        const Pair *p = take_turn(pairs);
        greatest = greater(greatest, check(&p->a[0].x, 2 * p->n).code + check(&p->b[0].x, 2 * p->n).code);
    }
    return greatest;
}

/* Whether of every pair both outlines are accepted, and every way but the checks gives the same answer, which is not 0. */
static int agree(Pairs pairs, const Way *ways) {
    for (size_t k = 0; k < pairs.count; k++) {
        Pairs pair = {&pairs.pairs[k], 1, 0};
        uint64_t answer = ways[CALL].answer(&pair, 1);
        if (answer == 0) return 0;
        for (int w = 0; w < count_ways(ways); w++)
            if (ways[w].answer(&pair, 1) != (w == CHECKS ? 2 * RAVINEBOWL_WRONG_LENGTH : answer)) return 0;
    }
    return 1;
}

/* The medians of some ways, their runs taken in turn so that load on the machine meets each alike. */
static void medians(Pairs pairs, const Way *ways, int count, double *out) {
    static volatile uint64_t sink;
    double run[count][RUNS];
    Pairs turns_of[count];
    for (int w = 0; w < count; w++) turns_of[w] = pairs;
    for (int i = 0; i < RUNS; i++)
        for (int w = 0; w < count; w++) {
            uint32_t turns = ways[w].turns(pairs.pairs[0].n);
            double start = now();
            sink = ways[w].answer(&turns_of[w], turns);
            run[w][i] = (now() - start) / turns;
        }
    (void)sink;
    for (int w = 0; w < count; w++) {
        qsort(run[w], RUNS, sizeof run[w][0], by_size);
        out[w] = run[w][RUNS / 2];
    }
}

/* n points on an ellipse, from some place on. */
static void ellipse(Corner *out, size_t n, double rx, double ry, double x, double turn) {
    for (size_t i = 0; i < n; i++) {
        double t = 2 * M_PI * (i + turn) / n;
        out[i] = (Corner){(int32_t)lround(x + rx * cos(t)), (int32_t)lround(ry * sin(t))};
    }
}

/* A circle in another; a wide ellipse and a tall one; and two circles side by side. */
static void make_one_in_the_other(Pair *p) {
    ellipse(p->a, p->n, 15000, 15000, 0, 0.3);
    ellipse(p->b, p->n, 14000, 14000, 0, 0);
    add_clockwise(p);
}

static void make_crossing(Pair *p) {
    ellipse(p->a, p->n, 15000, 12000, 0, 0.3);
    ellipse(p->b, p->n, 12000, 15000, 0, 0);
    add_clockwise(p);
}

static void make_apart(Pair *p) {
    ellipse(p->a, p->n, 7600, 7600, -8000, 0.3);
    ellipse(p->b, p->n, 7600, 7600, 8000, 0);
    add_clockwise(p);
}

/* Prints a row of the table: n, and the nanoseconds of each way. */
typedef void Row(const char *name, size_t n, const double *t);

static void time_set(const char *name, Pairs pairs, const Way *ways, Row *row) {
    double t[WAYS];
    size_t n = pairs.pairs[0].n;
    if (!agree(pairs, ways)) {
        fprintf(stderr, "%s, 2x%zu: an outline is refused, or the answers differ\n", name, n);
        exit(1);
    }
    medians(pairs, ways, count_ways(ways), t);
    row(name, n, t);
}

static void time_circles(size_t n, const Way *ways, Row *row) {
    Pair *p = new_pairs(n, 1);
    make_one_in_the_other(p);
    time_set("one in the other", (Pairs){p, 1, 0}, ways, row);
    make_crossing(p);
    time_set("crossing", (Pairs){p, 1, 0}, ways, row);
    make_apart(p);
    time_set("apart", (Pairs){p, 1, 0}, ways, row);
    free_pairs(p);
}
