/* Reading an outline in plain C, for the benchmark alone: the conditions in their order, and the corners held in one
   value. Corners and vectors are those of plain.h, numbers and limits those of ravinebowl.h. */
#include <string.h>
#include "plain.h"
#include "ravinebowl.h"

enum { FEWEST = RAVINEBOWL_FEWEST_CORNERS, MOST = RAVINEBOWL_MOST_CORNERS, LARGEST = RAVINEBOWL_LARGEST_COORDINATE };

/* An outline as one value; the unused places are zero. */
typedef struct {
    size_t count;
    Corner corners[MOST];
} Outline;

/* The number of the first condition that applies, 0 if none does, and its place: a corner, or an edge and a corner. */
typedef struct {
    uint32_t number;
    size_t first, second;
} Refusal;

/* Has bit 31 exactly where a is out of range: one of the two is negative, or does not fit 31 bits. */
static uint32_t out_of_range(int32_t a) { return (LARGEST + (uint32_t)a) | (LARGEST - (uint32_t)a); }

/* 4, of all numbers at once: no branch in the loop. */
static int all_in_range(const int32_t *s, size_t length) {
    uint32_t out = 0;
    for (size_t i = 0; i < length; i++) out |= out_of_range(s[i]);
    return out >> 31 == 0;
}

static Refusal check_range(const Corner *c, size_t n) {
    for (size_t i = 0; i < n; i++)
        if ((out_of_range(c[i].x) | out_of_range(c[i].y)) >> 31) return (Refusal){RAVINEBOWL_OUT_OF_RANGE, i, 0};
    return (Refusal){0};
}

/* Whether the corners are strictly convex: from corner 2 on, each is strictly left of edge 0, of the line from corner 0
   to the corner before it, and of the edge that ends there. */
static int is_convex(const Corner *c, size_t n) {
    Vector first = difference(c[0], c[1]), to = first, edge = first;
    for (size_t i = 2; i < n; i++) {
        Vector to_next = difference(c[0], c[i]), edge_next = difference(c[i - 1], c[i]);
        if (cross(first, to_next) <= 0 || cross(to, to_next) <= 0 || cross(edge, edge_next) <= 0) return 0;
        to = to_next;
        edge = edge_next;
    }
    return 1;
}

static Refusal check_repeated(const Corner *c, size_t n) {
    for (size_t i = 0; i < n; i++) {
        size_t j = next(n, i);
        if (c[i].x == c[j].x && c[i].y == c[j].y) return (Refusal){RAVINEBOWL_REPEATED, i, 0};
    }
    return (Refusal){0};
}

/* 6, edge by edge: the corners before its two ends, then those after them. The side number is the cross product of the
   edge and the corner, less that of the edge and its start. */
static Refusal check_edges(const Corner *c, size_t n) {
    for (size_t e = 0; e < n; e++) {
        size_t f = next(n, e);
        Vector run = difference(c[e], c[f]);
        int64_t start = run.x * c[e].y - run.y * c[e].x;
        for (size_t i = f == 0; i < e; i++)
            if (run.x * c[i].y - run.y * c[i].x <= start) return (Refusal){RAVINEBOWL_NOT_LEFT, e, i};
        for (size_t i = e + 2; i < n; i++)
            if (run.x * c[i].y - run.y * c[i].x <= start) return (Refusal){RAVINEBOWL_NOT_LEFT, e, i};
    }
    return (Refusal){0};
}

/* 5 and 6, of corners in range. */
static Refusal check_shape(const Corner *c, size_t n) {
    if (is_convex(c, n)) return (Refusal){0};
    Refusal repeated = check_repeated(c, n);
    return repeated.number ? repeated : check_edges(c, n);
}

static Refusal check_corners(const int32_t *s, size_t length) {
    const Corner *c = (const Corner *)s;
    size_t n = length / 2;
    return all_in_range(s, length) ? check_shape(c, n) : check_range(c, n);
}

static Refusal check_list(const int32_t *s, size_t length) {
    if (length % 2) return (Refusal){RAVINEBOWL_ODD_LENGTH, 0, 0};
    if (length / 2 < FEWEST) return (Refusal){RAVINEBOWL_TOO_FEW_CORNERS, 0, 0};
    if (length / 2 > MOST) return (Refusal){RAVINEBOWL_TOO_MANY_CORNERS, 0, 0};
    return check_corners(s, length);
}

/* The checks alone. gcc may not inline this and reading or tell what they are called with: they are calls as the proved
   ones are. */
static __attribute__((noipa)) Refusal plain_check(const int32_t *s, size_t length) { return check_list(s, length); }

/* Reads a list, into `held` where it is accepted. The sizes are hidden from gcc: the library's memset and memcpy are
   faster than the instructions it would put in their place. */
static __attribute__((noipa)) Refusal plain_read(const int32_t *s, size_t length, Outline *held) {
    Refusal refusal = check_list(s, length);
    if (refusal.number) return refusal;
    size_t all = sizeof held->corners, used = length * sizeof *s;
    __asm__("" : "+r"(all), "+r"(used));
    memset(held->corners, 0, all);
    memcpy(held->corners, s, used);
    held->count = length / 2;
    return refusal;
}
