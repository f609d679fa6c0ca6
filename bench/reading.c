/* Times checking and reading a list of 4, 32 and 256 corners: the proved functions, and beside them the plain ones of
   plain_reading.h, on the same lists in one run. A list is accepted, or refused by condition 6 as late as can be. Each
   figure is the median of 31 runs, in nanoseconds for a list. */
#include <math.h>
#include <stdio.h>
#include <stdlib.h>
#include <string.h>
#include "checks.h"
#include "clock.h"
#include "plain_reading.h"
#include "ravinebowl.h"

/* The lesser coordinate of what is in place k of the outline read: 0 where the list is refused or k is 256 or more. */
int32_t timing_read(const int32_t *s, size_t length, size_t k);

enum { RUNS = 31, WAYS = 4 };

enum Verdict { ACCEPTED, REFUSED };

typedef struct {
    size_t n;
    Corner corners[MOST];
} List;

/* n points on a circle, their coordinates multiples of `unit`. */
static void circle(Corner *out, size_t n, int32_t unit) {
    for (size_t i = 0; i < n; i++) {
        double t = 2 * M_PI * (i + 0.3) / n, r = 15000.0 / unit;
        out[i] = (Corner){unit * (int32_t)lround(r * cos(t)), unit * (int32_t)lround(r * sin(t))};
    }
}

static List accepted(size_t n) {
    List l = {.n = n};
    circle(l.corners, n, 1);
    return l;
}

/* The last corner is halfway between the one before it and corner 0: so corner 0 is on the line of edge n - 2, and each
   corner is strictly left of every edge before that, but for the edge's ends. */
static List refused(size_t n) {
    List l = {.n = n};
    Corner *c = l.corners;
    circle(c, n - 1, 2);
    c[n - 1] = (Corner){(c[n - 2].x + c[0].x) / 2, (c[n - 2].y + c[0].y) / 2};
    return l;
}

static int32_t lesser(Corner c) { return c.x < c.y ? c.x : c.y; }

static int64_t sum_of(Refusal r) { return (int64_t)(r.number + r.first + r.second); }

/* Each way, some times over, a reading with another place each turn. All turns together give a sum. */
static int64_t checking(const List *l, uint32_t turns) {
    int64_t sum = 0;
    for (uint32_t i = 0; i < turns; i++) sum += check(&l->corners[0].x, 2 * l->n).code;
    return sum;
}

static int64_t plain_checking(const List *l, uint32_t turns) {
    int64_t sum = 0;
    for (uint32_t i = 0; i < turns; i++) {
        __asm__ volatile("" ::: "memory");
        sum += sum_of(plain_check(&l->corners[0].x, 2 * l->n));
    }
    return sum;
}

static int64_t reading(const List *l, uint32_t turns) {
    int64_t sum = 0;
    size_t k = 0;
    for (uint32_t i = 0; i < turns; i++) {
        sum += timing_read(&l->corners[0].x, 2 * l->n, k);
        k = next(l->n, k);
    }
    return sum;
}

/* Of a refused list the refusal is added, so that all of it is computed. */
static int64_t plain_reading(const List *l, uint32_t turns) {
    static Outline held;
    int64_t sum = 0;
    size_t k = 0;
    for (uint32_t i = 0; i < turns; i++) {
        __asm__ volatile("" ::: "memory");
        Refusal r = plain_read(&l->corners[0].x, 2 * l->n, &held);
        sum += r.number ? sum_of(r) : lesser(held.corners[k]);
        k = next(l->n, k);
    }
    return sum;
}

static int64_t (*const ways[WAYS])(const List *, uint32_t) = {checking, plain_checking, reading, plain_reading};

/* The medians of all ways, their runs taken in turn so that load on the machine meets each alike. */
static void medians(const List *l, uint32_t turns, double *out) {
    static volatile int64_t sink;
    static double run[WAYS][RUNS];
    for (int i = 0; i < RUNS; i++)
        for (int w = 0; w < WAYS; w++) {
            double start = now();
            sink = ways[w](l, turns);
            run[w][i] = (now() - start) / turns;
        }
    (void)sink;
    for (int w = 0; w < WAYS; w++) {
        qsort(run[w], RUNS, sizeof run[w][0], by_size);
        out[w] = run[w][RUNS / 2];
    }
}

/* Whether an accepted list is refused for the room alone, and a refused one by 6 at edge n - 2 and corner 0. */
static int is_checked(const List *l, enum Verdict verdict) {
    struct ravinebowl_status s = check(&l->corners[0].x, 2 * l->n);
    if (verdict == ACCEPTED) return s.code == RAVINEBOWL_WRONG_LENGTH;
    return s.code == RAVINEBOWL_NOT_LEFT && s.first == l->n - 2 && s.second == 0;
}

/* Whether place k has corner k for all corners of an accepted list, or zeros for a refused one. False too where the
   list's own lesser coordinates are all 0, so that they do not tell. */
static int is_read(const List *l, enum Verdict verdict) {
    int tells = 0;
    for (size_t k = 0; k < l->n; k++) {
        int32_t own = lesser(l->corners[k]);
        if (timing_read(&l->corners[0].x, 2 * l->n, k) != (verdict == ACCEPTED ? own : 0)) return 0;
        if (own != 0) tells = 1;
    }
    return tells;
}

/* Whether the plain way holds the corners of an accepted list, or names the place of a refused one. */
static int plain_agrees(const List *l, enum Verdict verdict) {
    Outline held;
    Refusal r = plain_read(&l->corners[0].x, 2 * l->n, &held);
    if (verdict == REFUSED) return r.number == RAVINEBOWL_NOT_LEFT && r.first == l->n - 2 && r.second == 0;
    return r.number == 0 && held.count == l->n && memcmp(held.corners, l->corners, sizeof held.corners) == 0;
}

static void time_list(const char *name, const List *l, enum Verdict verdict) {
    double t[WAYS];
    if (!is_checked(l, verdict) || !is_read(l, verdict) || !plain_agrees(l, verdict)) {
        fprintf(stderr, "%s, %zu corners: it is not read as it should be\n", name, l->n);
        exit(1);
    }
    medians(l, 1000000 / (l->n * (verdict == REFUSED ? l->n : 4)) + 1, t);
    printf("| %s | %zu | %.0f | %.0f | %.2f | %.0f | %.0f | %.2f |\n", name, l->n, t[0], t[1], t[0] / t[1], t[2], t[3],
           t[2] / t[3]);
}

int main(void) {
    static const size_t counts[] = {4, 32, 256};
    puts("| list | corners | checks | plain | ratio | reading | plain | ratio |");
    puts("|---|---|---|---|---|---|---|---|");
    for (int i = 0; i < 3; i++) {
        List l = accepted(counts[i]);
        time_list("accepted", &l, ACCEPTED);
    }
    for (int i = 0; i < 3; i++) {
        List l = refused(counts[i]);
        time_list("refused by 6", &l, REFUSED);
    }
    return 0;
}
