/* The mismatch sum of two outlines in plain C, for the benchmark alone: by a pass over the edges for each corner, and
   by the exhaustive search. Nothing is checked; the outlines must be accepted ones, counterclockwise. Corners, vectors
   and fractions are those of plain.h, the unit is that of ravinebowl.h. */
#include "plain.h"
#include "ravinebowl.h"

enum { UNITS = RAVINEBOWL_MISMATCH_UNITS };

/* A gap in whole units, rounded down. */
static uint64_t whole_units(Fraction gap) { return (unsigned __int128)UNITS * gap.upper / gap.lower; }

/* The gap of v in whole units. `start` and `end` lead from v to the ends of an edge. Where v is strictly right of some
   edges, one of them has the nearest point at its start, between its ends or at its end, and the pass ends there. */
static uint64_t pass(Corner v, const Corner *o, size_t n) {
    Vector start = difference(v, o[n - 1]), end;
    for (size_t i = 0; i < n; i++, start = end) {
        end = difference(v, o[i]);
        int64_t side = cross(start, end);
        if (side >= 0) continue;
        Vector run = {end.x - start.x, end.y - start.y};
        int64_t along = -dot(start, run), length = dot(run, run);
        if (along <= 0) {
            size_t from = previous(n, i);
            if (dot(start, difference(o[from], o[previous(n, from)])) >= 0) return UNITS * dot(start, start);
        } else if (along < length) {
            return whole_units((Fraction){side * side, length});
        } else if (dot(end, difference(o[i], o[next(n, i)])) >= 0) {
            return UNITS * dot(end, end);
        }
    }
    return 0;
}

static int is_within(Corner v, const Corner *o, size_t n) {
    for (size_t i = 0; i < n; i++)
        if (cross(difference(o[i], o[next(n, i)]), difference(o[i], v)) < 0) return 0;
    return 1;
}

static Fraction corner_gap(Corner v, Corner c) {
    Vector to = difference(c, v);
    return (Fraction){dot(to, to), 1};
}

static int edge_is_nearest(Corner v, Corner p, Corner q) {
    Vector run = difference(p, q), to = difference(p, v);
    if (cross(run, to) >= 0) return 0;
    int64_t along = dot(to, run);
    return along > 0 && along < dot(run, run);
}

static Fraction edge_gap(Corner v, Corner p, Corner q) {
    Vector run = difference(p, q), to = difference(p, v);
    int64_t side = cross(run, to);
    return (Fraction){side * side, dot(run, run)};
}

/* The gap to the nearest of all corners and edges. */
static Fraction search(Corner v, const Corner *o, size_t n) {
    if (is_within(v, o, n)) return (Fraction){0, 1};
    Fraction least = corner_gap(v, o[0]);
    for (size_t i = 0; i < n; i++) {
        Fraction gap = corner_gap(v, o[i]);
        if (less(gap, least)) least = gap;
        if (edge_is_nearest(v, o[i], o[next(n, i)])) {
            gap = edge_gap(v, o[i], o[next(n, i)]);
            if (less(gap, least)) least = gap;
        }
    }
    return least;
}

/* The gaps of the corners of an outline of n corners against one of m, added; by passes, and by the search. */
static uint64_t pass_sum(const Corner *o, size_t n, const Corner *other, size_t m) {
    uint64_t sum = 0;
    for (size_t i = 0; i < n; i++) sum += pass(o[i], other, m);
    return sum;
}

static uint64_t search_sum(const Corner *o, size_t n, const Corner *other, size_t m) {
    uint64_t sum = 0;
    for (size_t i = 0; i < n; i++) sum += whole_units(search(o[i], other, m));
    return sum;
}

/* Not inlined, as in plain.h. */
static __attribute__((noinline)) uint64_t plain_mismatch(const Corner *a, size_t n, const Corner *b, size_t m) {
    return pass_sum(a, n, b, m) + pass_sum(b, m, a, n);
}

static __attribute__((noinline)) uint64_t plain_mismatch_search(const Corner *a, size_t n, const Corner *b, size_t m) {
    return search_sum(a, n, b, m) + search_sum(b, m, a, n);
}
