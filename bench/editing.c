/* Times inserting a corner in outlines of 4, 32, 128 and 255 corners, and removing one from outlines of 5, 33, 129 and
   256: the proved calls, and beside them the plain ones of plain_editing.h and the checks of the outline alone, on the
   same lists in one run. Every call is taken; each turn takes the next place or corner. Each figure is the median of 31
   runs, in nanoseconds for a call. */
#include <math.h>
#include <stdio.h>
#include <stdlib.h>
#include <string.h>
#include "checks.h"
#include "clock.h"
#include "plain_editing.h"
#include "ravinebowl.h"

enum { RUNS = 31 };

/* An outline, and for each place a point that can be inserted there; an outline of 256 corners takes none. */
typedef struct {
    size_t n;
    Corner corners[MOST], points[MOST];
} List;

static Corner on_circle(double r, double turn) {
    return (Corner){(int32_t)lround(r * cos(2 * M_PI * turn)), (int32_t)lround(r * sin(2 * M_PI * turn))};
}

/* n corners on a circle, and points halfway between them on one a little larger, so that at 255 corners too they are
   between the edge there and the lines of the edges beside it. */
static List make_list(size_t n) {
    List l = {.n = n};
    for (size_t i = 0; i < n; i++) l.corners[i] = on_circle(15000, (i + 0.3) / n);
    for (size_t k = 0; k <= n && k < MOST; k++) l.points[k] = on_circle(15001, (k - 0.2) / n);
    return l;
}

/* A way to edit a list at place or corner k, or to check it alone: writes the result to `out`, gives the code. */
typedef uint32_t Edit(const List *l, size_t k, int32_t *out);

static uint32_t inserting(const List *l, size_t k, int32_t *out) {
    Corner p = l->points[k];
    return ravinebowl_insert_corner(&l->corners[0].x, 2 * l->n, k, p.x, p.y, out, 2 * l->n + 2).code;
}

static uint32_t plain_inserting(const List *l, size_t k, int32_t *out) {
    Corner p = l->points[k];
    return plain_insert(&l->corners[0].x, 2 * l->n, k, p.x, p.y, out, 2 * l->n + 2).number;
}

static uint32_t removing(const List *l, size_t k, int32_t *out) {
    return ravinebowl_remove_corner(&l->corners[0].x, 2 * l->n, k, out, 2 * l->n - 2).code;
}

static uint32_t plain_removing(const List *l, size_t k, int32_t *out) {
    return plain_remove(&l->corners[0].x, 2 * l->n, k, out, 2 * l->n - 2).number;
}

static uint32_t checking(const List *l, size_t k, int32_t *out) {
    (void)k;
    (void)out;
    return check(&l->corners[0].x, 2 * l->n).code;
}

enum { CALL, CHECKS, PLAIN, WAYS };

static Edit *const insertion[WAYS] = {inserting, checking, plain_inserting};
static Edit *const removal[WAYS] = {removing, checking, plain_removing};

/* Some turns, each with the next of so many places. All together give a sum. */
static int64_t repeat(Edit *edit, const List *l, size_t places, uint32_t turns) {
    static int32_t out[2 * MOST];
    int64_t sum = 0;
    size_t k = 0;
    for (uint32_t i = 0; i < turns; i++) {
        sum += edit(l, k, out);
        sum += out[0];
        k = next(places, k);
    }
    return sum;
}

/* The medians of all ways, their runs taken in turn so that load on the machine meets each alike. */
static void medians(Edit *const *ways, const List *l, size_t places, uint32_t turns, double *out) {
    static volatile int64_t sink;
    static double run[WAYS][RUNS];
    for (int i = 0; i < RUNS; i++)
        for (int w = 0; w < WAYS; w++) {
            double start = now();
            sink = repeat(ways[w], l, places, turns);
            run[w][i] = (now() - start) / turns;
        }
    (void)sink;
    for (int w = 0; w < WAYS; w++) {
        qsort(run[w], RUNS, sizeof run[w][0], by_size);
        out[w] = run[w][RUNS / 2];
    }
}

/* Whether at every place the call and the plain way are taken and write the same `length` numbers. The lists are filled
   unlike each other first, so that a number that neither writes is told too. */
static int agree(Edit *const *ways, const List *l, size_t places, size_t length) {
    int32_t a[2 * MOST], b[2 * MOST];
    for (size_t k = 0; k < places; k++) {
        memset(a, 0, sizeof a);
        memset(b, 1, sizeof b);
        if (ways[CALL](l, k, a) != RAVINEBOWL_ANSWERED || ways[PLAIN](l, k, b) != RAVINEBOWL_ANSWERED) return 0;
        if (memcmp(a, b, length * sizeof a[0]) != 0) return 0;
    }
    return ways[CHECKS](l, 0, a) == RAVINEBOWL_WRONG_LENGTH;
}

static void time_edits(const char *name, Edit *const *ways, const List *l, size_t places, size_t length) {
    double t[WAYS];
    if (!agree(ways, l, places, length)) {
        fprintf(stderr, "%s, %zu corners: a call is refused, or the results differ\n", name, l->n);
        exit(1);
    }
    medians(ways, l, places, 1000000 / (4 * l->n) + 1, t);
    printf("| %s | %zu | %.0f | %.0f | %.0f | %.2f |\n", name, l->n, t[CALL], t[CHECKS], t[PLAIN], t[CALL] / t[PLAIN]);
}

int main(void) {
    static const size_t counts[] = {4, 32, 128, 255};
    puts("| call | corners | time | checks | plain | ratio |");
    puts("|---|---|---|---|---|---|");
    for (int i = 0; i < 4; i++) {
        List l = make_list(counts[i]);
        time_edits("inserting", insertion, &l, l.n + 1, 2 * l.n + 2);
    }
    for (int i = 0; i < 4; i++) {
        List l = make_list(counts[i] + 1);
        time_edits("removing", removal, &l, l.n, 2 * l.n - 2);
    }
    return 0;
}
