/* Random pairs of outlines, for the benchmarks alone: strictly convex, counterclockwise, from a random corner on, with
   coordinates within ±16000. The same seed gives the same pairs. Corners and vectors are those of plain.h. */
#ifndef RANDOM_OUTLINES_H
#define RANDOM_OUTLINES_H

#include <stdlib.h>
#include "plain.h"

/* A pair of outlines of n corners each, and the same corners in the opposite order. */
typedef struct {
    size_t n;
    Corner *a, *b, *clockwise_a, *clockwise_b;
} Pair;

/* The boxes of A and B side by side, or offset by a part of their size; B in A. */
enum Placing { APART, OVERLAPPING, NESTED };

enum { RANDOM_MOST = 256 };

/* splitmix64. */
static uint64_t random_next(uint64_t *state) {
    uint64_t z = *state += 0x9e3779b97f4a7c15;
    z = (z ^ z >> 30) * 0xbf58476d1ce4e5b9;
    z = (z ^ z >> 27) * 0x94d049bb133111eb;
    return z ^ z >> 31;
}

/* From 0 to n - 1. */
static int64_t random_below(uint64_t *state, int64_t n) { return random_next(state) % (uint64_t)n; }

static int64_t random_between(uint64_t *state, int64_t least, int64_t most) {
    return least + random_below(state, most - least + 1);
}

static int by_number(const void *a, const void *b) {
    int64_t x = *(const int64_t *)a, y = *(const int64_t *)b;
    return (x > y) - (x < y);
}

/* Whether a direction is in the second half turn. */
static int second_half(Vector v) { return v.y < 0 || (v.y == 0 && v.x < 0); }

static int by_direction(const void *a, const void *b) {
    Vector u = *(const Vector *)a, v = *(const Vector *)b;
    if (second_half(u) != second_half(v)) return second_half(u) - second_half(v);
    int64_t c = u.x * v.y - u.y * v.x;
    return (c < 0) - (c > 0);
}

/* n differences that add up to 0: random numbers from 0 to `size` in order, each in one of two chains from the least to
   the greatest, the differences of one chain taken upwards and of the other downwards. */
static void random_differences(uint64_t *state, int64_t size, size_t n, int64_t *out) {
    int64_t numbers[RANDOM_MOST];
    for (size_t i = 0; i < n; i++) numbers[i] = random_between(state, 0, size);
    qsort(numbers, n, sizeof *numbers, by_number);
    int64_t up = numbers[0], down = numbers[0];
    for (size_t i = 1; i + 1 < n; i++) {
        int64_t *chain = random_below(state, 2) ? &up : &down;
        out[i - 1] = chain == &up ? numbers[i] - up : down - numbers[i];
        *chain = numbers[i];
    }
    out[n - 2] = numbers[n - 1] - up;
    out[n - 1] = down - numbers[n - 1];
}

static void exchange_y(Vector *u, Vector *v) {
    int64_t y = u->y;
    u->y = v->y;
    v->y = y;
}

/* Sorts vectors by direction. Where one is 0 or has the direction of the one before it, its y is exchanged with that of
   another. Returns how many had to be. */
static size_t separate(uint64_t *state, Vector *v, size_t n) {
    size_t exchanged = 0;
    qsort(v, n, sizeof *v, by_direction);
    for (size_t i = 0; i < n; i++) {
        int repeats = i && second_half(v[i - 1]) == second_half(v[i]) && v[i - 1].x * v[i].y == v[i - 1].y * v[i].x;
        if (!repeats && (v[i].x || v[i].y)) continue;
        exchange_y(&v[i], &v[random_below(state, n)]);
        exchanged++;
    }
    return exchanged;
}

/* n vectors of different directions in the order of these, that add up to 0 (Valtr's algorithm). */
static void random_edges(uint64_t *state, int64_t width, int64_t height, size_t n, Vector *out) {
    for (;;) {
        int64_t x[RANDOM_MOST], y[RANDOM_MOST];
        random_differences(state, width, n, x);
        random_differences(state, height, n, y);
        for (size_t i = 0; i < n; i++) out[i] = (Vector){x[i], y[i]};
        for (size_t i = n - 1; i; i--) exchange_y(&out[i], &out[random_below(state, i + 1)]);
        for (int tries = 0; tries < 50; tries++)
            if (separate(state, out, n) == 0) return;
    }
}

/* An outline in the box from (x, y), of the given size. */
static void random_outline(uint64_t *state, int64_t x, int64_t y, int64_t width, int64_t height, size_t n, Corner *out) {
    Vector edges[RANDOM_MOST], at = {0, 0}, least = {0, 0};
    random_edges(state, width, height, n, edges);
    size_t first = random_below(state, n);
    for (size_t i = 0; i < n; i++) {
        Vector edge = edges[(first + i) % n];
        out[i] = (Corner){(int32_t)at.x, (int32_t)at.y};
        if (at.x < least.x) least.x = at.x;
        if (at.y < least.y) least.y = at.y;
        at.x += edge.x;
        at.y += edge.y;
    }
    for (size_t i = 0; i < n; i++) out[i] = (Corner){(int32_t)(out[i].x + x - least.x), (int32_t)(out[i].y + y - least.y)};
}

/* Whether every corner of b is strictly left of every edge of a. */
static int holds(const Corner *a, const Corner *b, size_t n) {
    for (size_t i = 0; i < n; i++) {
        Corner p = a[i], q = a[i + 1 < n ? i + 1 : 0];
        for (size_t j = 0; j < n; j++)
            if ((int64_t)(q.x - p.x) * (b[j].y - p.y) - (int64_t)(q.y - p.y) * (b[j].x - p.x) <= 0) return 0;
    }
    return 1;
}

static void random_apart(uint64_t *state, size_t n, Corner *a, Corner *b) {
    int64_t width = random_between(state, 8000, 15900), height = random_between(state, 8000, 32000);
    random_outline(state, -16000, -16000 + random_below(state, 32001 - height), width, height, n, a);
    width = random_between(state, 8000, 15900);
    height = random_between(state, 8000, 32000);
    random_outline(state, 16000 - width, -16000 + random_below(state, 32001 - height), width, height, n, b);
}

static void random_overlapping(uint64_t *state, size_t n, Corner *a, Corner *b) {
    int64_t width = random_between(state, 12000, 24000), height = random_between(state, 12000, 24000);
    int64_t right = random_between(state, -width / 3, width / 3), up = random_between(state, -height / 3, height / 3);
    int64_t x = -(width + right) / 2, y = -(height + up) / 2;
    random_outline(state, x, y, width, height, n, a);
    random_outline(state, x + right, y + up, width, height, n, b);
}

/* B is made anew in a smaller box round the middle of A's corners till A holds it; for a thin A both are. */
static void random_nested(uint64_t *state, size_t n, Corner *a, Corner *b) {
    for (;;) {
        int64_t x = 0, y = 0;
        random_outline(state, -16000, -16000, 32000, 32000, n, a);
        for (size_t i = 0; i < n; i++) {
            x += a[i].x;
            y += a[i].y;
        }
        for (int64_t size = 28000; size > 2000 + 10 * (int64_t)n; size -= size / 16) {
            random_outline(state, x / (int64_t)n - size / 2, y / (int64_t)n - size / 2, size, size, n, b);
            if (holds(a, b, n)) return;
        }
    }
}

/* Room for pairs of outlines of n corners each. The corners of all A's and B's lie side by side in one store, those of
   the clockwise lists in another. */
static Pair *new_pairs(size_t n, size_t count) {
    Pair *pairs = malloc(count * sizeof *pairs);
    Corner *store = malloc(2 * count * n * sizeof *store), *clockwise = malloc(2 * count * n * sizeof *clockwise);
    if (!pairs || !store || !clockwise) abort();
    for (size_t k = 0; k < count; k++, store += 2 * n, clockwise += 2 * n)
        pairs[k] = (Pair){n, store, store + n, clockwise, clockwise + n};
    return pairs;
}

static void free_pairs(Pair *pairs) {
    free(pairs->a);
    free(pairs->clockwise_a);
    free(pairs);
}

static void add_clockwise(Pair *p) {
    for (size_t i = 0; i < p->n; i++) {
        p->clockwise_a[i] = p->a[p->n - 1 - i];
        p->clockwise_b[i] = p->b[p->n - 1 - i];
    }
}

/* Makes `count` pairs of outlines of n corners each, 3 to 256. */
static Pair *make_random_pairs(enum Placing placing, size_t n, size_t count, uint64_t seed) {
    Pair *pairs = new_pairs(n, count);
    for (size_t k = 0; k < count; k++) {
        if (placing == APART) random_apart(&seed, n, pairs[k].a, pairs[k].b);
        if (placing == OVERLAPPING) random_overlapping(&seed, n, pairs[k].a, pairs[k].b);
        if (placing == NESTED) random_nested(&seed, n, pairs[k].a, pairs[k].b);
        add_clockwise(&pairs[k]);
    }
    return pairs;
}

#endif
