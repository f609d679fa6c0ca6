/* Comparing two outlines in plain C, for the benchmarks alone: the sweep, with the acceptance of both lists, and the
   exhaustive search, which checks nothing. Both report what the library reports of a comparison that is done. Coordinates
   within ±16000 make differences that fit 16 bits, and dots and cross products that fit 32. */
#ifndef PLAIN_H
#define PLAIN_H

#include <math.h>
#include <stddef.h>
#include <stdint.h>
#include <string.h>

enum { MOST_CORNERS = 256, MOST_STEPS = 2 * MOST_CORNERS, LARGEST_COORDINATE = 16000 };

typedef struct {
    int32_t x, y;
} Corner;

typedef struct {
    int64_t x, y;
} Vector;

typedef struct {
    uint64_t upper, lower;
} Fraction;

enum Kind { WITHIN, CORNER, EDGE };

/* A corner with its gap: its side and number, the nearest feature, the gap, and the nearest point at x / lower, y / lower. */
typedef struct {
    int side;
    size_t corner;
    enum Kind kind;
    size_t number;
    Fraction gap;
    int64_t x, y;
} Gap;

/* What a comparison that is done reports: the answer with its clearance, and the answers of A and of B. */
typedef struct {
    size_t steps;
    Gap answer;
    uint64_t clearance;
    Gap a, b;
} Done;

static Vector difference(Corner p, Corner q) { return (Vector){(int64_t)q.x - p.x, (int64_t)q.y - p.y}; }

static int64_t cross(Vector a, Vector b) { return a.x * b.y - a.y * b.x; }

static int64_t dot(Vector a, Vector b) { return a.x * b.x + a.y * b.y; }

static size_t next(size_t n, size_t i) { return i + 1 < n ? i + 1 : 0; }

static size_t previous(size_t n, size_t i) { return i ? i - 1 : n - 1; }

static int less(Fraction a, Fraction b) { return (unsigned __int128)a.upper * b.lower < (unsigned __int128)b.upper * a.lower; }

/* Takes a where the mask is 0, and b where it is -1. Stands where a branch would be a coin's toss. */
static int64_t choose(int64_t mask, int64_t a, int64_t b) { return a ^ ((a ^ b) & mask); }

static int32_t choose32(int32_t mask, int32_t a, int32_t b) { return a ^ ((a ^ b) & mask); }

/* The corners of an outline counterclockwise: of a clockwise list corner 0, and then the rest reversed. */
typedef struct {
    const Corner *corners;
    size_t count;
    int clockwise;
} Ring;

static Vector edge_of(const Ring *r, size_t i) { return difference(r->corners[i], r->corners[next(r->count, i)]); }

/* The numbers of corners and edges by the list as given. */
static size_t corner_number(const Ring *r, size_t i) { return r->clockwise && i ? r->count - i : i; }

static size_t edge_number(const Ring *r, size_t i) { return r->clockwise ? r->count - 1 - i : i; }

/* The worst of a side: its gap, 0 if there is none, its corner, and the edge of the other outline that has the nearest
   point, the ends included. */
typedef struct {
    Fraction gap;
    size_t corner, edge;
} Worst;

static inline void answer_side(int side, const Ring *own, const Ring *other, const Worst *worst, Gap *answer) {
    size_t end = next(other->count, worst->edge);
    Corner v = own->corners[worst->corner], p = other->corners[worst->edge], q = other->corners[end];
    Vector run = difference(p, q), to = difference(p, v), to_end = difference(q, v);
    int64_t length = dot(run, run), along = dot(to, run), side_number = cross(run, to);
    int64_t is_some = -(int64_t)(worst->gap.upper != 0), is_end = -(int64_t)(along >= length);
    int64_t is_edge = -(int64_t)(along > 0) & ~is_end;
    uint64_t upper = choose(is_edge, choose(is_end, dot(to, to), dot(to_end, to_end)), side_number * side_number);
    int64_t lower = choose(is_edge & is_some, 1, length);
    size_t corner = corner_number(other, choose(is_end, worst->edge, end));
    Corner none = own->corners[0];
    along = (along & is_edge) - is_end;
    answer->side = side;
    answer->corner = corner_number(own, worst->corner) & is_some;
    answer->kind = (CORNER - is_edge) & is_some;
    answer->number = choose(is_edge, corner, edge_number(other, worst->edge)) & is_some;
    answer->gap = (Fraction){upper & is_some, lower};
    answer->x = choose(is_some, none.x, lower * p.x + along * run.x);
    answer->y = choose(is_some, none.y, lower * p.y + along * run.y);
}

/* The smallest whole number whose square is not below the gap: the root in floating point, rounded down, is that number
   or one less. */
static uint64_t clearance(Fraction gap) {
    uint64_t r = sqrt((double)gap.upper / (double)gap.lower);
    return r + (r * r * gap.lower < gap.upper);
}

/* The answer is the worse of the two sides', A's where the gaps are equal. */
static inline void answer_both(const Ring *a, const Ring *b, const Worst *worst, Done *done) {
    int is_b = less(worst[0].gap, worst[1].gap);
    done->steps = a->count + b->count;
    done->clearance = clearance(worst[is_b].gap);
    answer_side(0, a, b, &worst[0], &done->a);
    answer_side(1, b, a, &worst[1], &done->b);
    done->answer = *(is_b ? &done->b : &done->a);
}

/* The sweep. Its state is a support corner of A and one of B, and their difference d, from B's to A's. How far A stands
   out over B in a direction u of length 1 is w = u·d, with the support corners of u. A's gap is the square of the greatest
   w there is, and B's that of the greatest -w. From one step to the next d stays and u turns; a step passes an edge e, at
   right angles to u, and changes d. So w is greatest only where u is along d, corner against corner, or where an edge of
   B is passed, corner against edge; -w where u is against d, or at an edge of A. There the change of w as u turns, which
   has the sign of e·d, goes from one sign to the other: within a step, or from after one to before the next. So the signs
   of all steps are found first, without a branch, and a gap is computed only where they change. */

/* An accepted list: its edges, for B negated, twice round. `start` is the lowest corner, of several the leftmost, and the
   count in place of 0. */
typedef struct {
    Ring ring;
    size_t start;
    Corner edges[2 * MOST_CORNERS + 1], reversed[MOST_CORNERS];
} Held;

/* Has bit 31 exactly where a is out of range: one of the two is negative, or does not fit 31 bits. */
static uint32_t beyond_range(int32_t a) { return (LARGEST_COORDINATE + (uint32_t)a) | (LARGEST_COORDINATE - (uint32_t)a); }

/* Whether the edges turn strictly left, and once round: just one that goes up follows one that goes down. Level ones go
   up to the right and down to the left. Finds the start, which is between these two. */
static inline int turn_left_once(Held *h, int32_t sign) {
    uint32_t turns = 0, lowest = 0, start = 0;
    for (uint32_t i = 0; i < h->ring.count; i++) {
        Corner e = h->edges[i], f = h->edges[i + 1];
        int32_t down = sign * (e.y * 65536 + e.x), up = ~(sign * (f.y * 65536 + f.x));
        uint32_t is_lowest = (uint32_t)(down & up) >> 31;
        turns |= e.x * f.y - e.y * f.x - 1;
        lowest += is_lowest;
        start += -is_lowest & (i + 1);
    }
    h->start = start;
    return turns >> 31 == 0 && lowest == 1;
}

static inline __attribute__((always_inline)) int accept(const int32_t *s, size_t length, int32_t sign, Held *h) {
    size_t n = length / 2;
    const Corner *c = (const Corner *)s;
    uint32_t out = 0;
    if (length % 2 || n < 3 || n > MOST_CORNERS) return 0;
    for (size_t i = 0; i < length; i++) out |= beyond_range(s[i]);
    if (out >> 31) return 0;
    int clockwise = (c[1].x - c[0].x) * (c[2].y - c[1].y) < (c[1].y - c[0].y) * (c[2].x - c[1].x);
    if (clockwise) {
        h->reversed[0] = c[0];
        for (size_t i = 1; i < n; i++) h->reversed[i] = c[n - i];
        c = h->reversed;
    }
    h->ring = (Ring){c, n, clockwise};
    for (size_t i = 0; i + 1 < n; i++) h->edges[i] = (Corner){sign * (c[i + 1].x - c[i].x), sign * (c[i + 1].y - c[i].y)};
    h->edges[n - 1] = (Corner){sign * (c[0].x - c[n - 1].x), sign * (c[0].y - c[n - 1].y)};
    h->edges[n] = h->edges[0];
    if (!turn_left_once(h, sign)) return 0;
    memcpy(h->edges + n, h->edges, (n <= 16 ? n : h->start) * sizeof *h->edges);
    h->edges[n + h->start] = h->edges[h->start];
    return 1;
}

/* Of step k: d before it, x and y; and B's next edge, by the low bits of its address. `before` and `after` are -1 where
   e·d is negative before step k, or after the one before it, else 0; `edge` is -1 where it changes in the step at an edge
   that the other outline's corner is strictly right of. Marks: bit 0, corner against edge; bit 1, corner against corner. */
typedef struct {
    int16_t x[MOST_STEPS + 9], y[MOST_STEPS + 9], place[MOST_STEPS + 9];
    int16_t before[MOST_STEPS + 8], after[MOST_STEPS + 9], edge[MOST_STEPS + 8];
    uint8_t marks[MOST_STEPS + 8];
} Steps;

/* Lays out the steps from both ends at once: two chains of computations that do not wait for each other. */
static inline void lay_out_steps(const Held *a, const Held *b, Steps *s) {
    const Corner *i = a->edges + a->start, *j = b->edges + b->start, *p = i + a->ring.count - 1, *q = j + b->ring.count - 1;
    Corner v = a->ring.corners[a->start < a->ring.count ? a->start : 0];
    Corner w = b->ring.corners[b->start < b->ring.count ? b->start : 0];
    int32_t x = v.x - w.x, y = v.y - w.y, back_x = x, back_y = y;
    size_t steps = a->ring.count + b->ring.count;
    s->x[steps] = x;
    s->y[steps] = y;
    s->place[steps] = (int16_t)(intptr_t)(q + 1);
    for (size_t k = 0, l = steps; k < (steps + 1) / 2; k++) {
        int32_t order = i->y * j->x - i->x * j->y, is_b = order >> 31;
        s->x[k] = x;
        s->y[k] = y;
        s->place[k] = (int16_t)(intptr_t)j;
        x += choose32(is_b, i->x, j->x);
        y += choose32(is_b, i->y, j->y);
        i += 1 - ((uint32_t)order >> 31);
        j += (uint32_t)order >> 31;

        int32_t back_order = p->y * q->x - p->x * q->y, is_a = back_order >> 31;
        back_x -= choose32(is_a, q->x, p->x);
        back_y -= choose32(is_a, q->y, p->y);
        p -= (uint32_t)back_order >> 31;
        q -= 1 - ((uint32_t)back_order >> 31);
        l--;
        s->x[l] = back_x;
        s->y[l] = back_y;
        s->place[l] = (int16_t)(intptr_t)(q + 1);
    }
}

/* Marks the steps; gcc takes eight at a time. With d1 for d after a step, d1 - d is the edge passed, for B's negated: so
   e·d before the step is d1·d - d·d and after it d1·d1 - d1·d, both negated for B's. */
static inline void mark_steps(Steps *s, size_t steps) {
    size_t end = (steps + 7) / 8 * 8;
    for (size_t k = steps + 1; k <= steps + 8; k++) s->x[k] = s->y[k] = s->place[k] = 0;
    for (size_t k = 0; k < end; k++) {
        int16_t x = s->x[k], y = s->y[k], x1 = s->x[k + 1], y1 = s->y[k + 1];
        uint32_t square = (uint32_t)(x * x) + (uint32_t)(y * y), square1 = (uint32_t)(x1 * x1) + (uint32_t)(y1 * y1);
        uint32_t both = (uint32_t)(x * x1) + (uint32_t)(y * y1);
        int32_t before = both - square, after = square1 - both;
        int16_t is_b = s->place[k] == s->place[k + 1] ? 0 : -1, is_right = (x * y1 - x1 * y) >> 31;
        s->before[k] = (int16_t)(before >> 31) ^ is_b;
        s->after[k + 1] = (int16_t)(after >> 31) ^ is_b;
        s->edge[k] = (int16_t)((before ^ after) >> 31) & is_right;
    }
    s->after[0] = s->after[steps];
    for (size_t k = 0; k < end; k++) s->marks[k] = (s->edge[k] & 1) | ((s->after[k] ^ s->before[k]) & 2);
    memset(s->marks + steps, 0, 8);
}

/* What is measured at a mark: the gap, its side, and a vector in the direction of the nearest point, or against it. */
typedef struct {
    Fraction gap;
    size_t side;
    Vector direction;
} Measured;

/* The mark is twice the step, and 1 more for corner against corner. */
static inline Measured measure(const Steps *s, size_t mark) {
    size_t k = mark / 2;
    int64_t is_corner = -(int64_t)(mark % 2);
    Vector d = {s->x[k], s->y[k]}, f = {s->x[k + 1] - d.x, s->y[k + 1] - d.y};
    int64_t side_number = cross(d, f);
    return (Measured){{choose(is_corner, side_number * side_number, dot(d, d)), choose(is_corner, dot(f, f), 1)},
                      choose(is_corner, s->place[k] == s->place[k + 1], 1 + s->before[k]),
                      {choose(is_corner, f.y, d.x), choose(is_corner, -f.x, d.y)}};
}

/* The worst with the corner of the side and the edge of the other outline that a mark is of. */
static inline Worst worst_at(const Held *const *held, const Steps *s, size_t mark, size_t side, Fraction gap) {
    size_t k = mark / 2, passed = (uint16_t)(s->place[k] - s->place[0]) / sizeof(Corner), n = held[0]->ring.count;
    size_t m = held[1]->ring.count, i = held[0]->start + k - passed, j = held[1]->start + passed;
    size_t support[2] = {i < n ? i : i < 2 * n ? i - n : 0, j < m ? j : j < 2 * m ? j - m : 0};
    return (Worst){gap, support[side], support[1 - side]};
}

/* Takes w in place of the worst so far, which it is not below: if its gap is greater or its number lower. Where an edge
   beside the corner is at right angles to the direction, the corner at the other end has the same gap, if that is the
   greatest of all. A corner against a corner that is not nearest stands beside two parallel edges, and is left out. */
static void take(const Ring *own, const Ring *other, Worst w, Vector direction, int is_corner, Worst *worst) {
    size_t before = previous(own->count, w.corner), after = next(own->count, w.corner);
    size_t edge_before = previous(other->count, w.edge);
    Vector to = difference(other->corners[w.edge], own->corners[w.corner]);
    int64_t along_before = dot(edge_of(other, edge_before), to);
    if (is_corner && (along_before < 0 || dot(edge_of(other, w.edge), to) > 0)) return;
    if (less(worst->gap, w.gap) || corner_number(own, w.corner) < corner_number(own, worst->corner)) *worst = w;
    if (dot(edge_of(own, before), direction) == 0 && corner_number(own, before) < corner_number(own, worst->corner))
        *worst = (Worst){w.gap, before, is_corner && along_before == 0 ? edge_before : w.edge};
    if (dot(edge_of(own, w.corner), direction) == 0 && corner_number(own, after) < corner_number(own, worst->corner))
        *worst = (Worst){w.gap, after, w.edge};
}

/* The marks one by one. */
static size_t list_marks(const Steps *s, size_t steps, uint32_t *list) {
    size_t words[MOST_STEPS / 8], word_count = 0, count = 0;
    uint64_t word;
    for (size_t k = 0; k < steps; k += 8) {
        memcpy(&word, s->marks + k, sizeof word);
        words[word_count] = k;
        word_count += word != 0;
    }
    for (size_t w = 0; w < word_count; w++) {
        memcpy(&word, s->marks + words[w], sizeof word);
        for (; word; word &= word - 1) {
            int bit = __builtin_ctzll(word);
            list[count++] = 2 * (words[w] + bit / 8) + bit % 2;
        }
    }
    return count;
}

/* Whether an edge beside the corner is at right angles to the direction. */
static inline int is_level(const Ring *own, size_t corner, Vector direction) {
    return (dot(edge_of(own, corner), direction) == 0) | (dot(edge_of(own, previous(own->count, corner)), direction) == 0);
}

/* The worst of both sides, taken with the corners beside. */
static __attribute__((noinline)) void settle(const Held *const *held, const Steps *s, const uint32_t *list, size_t count,
                                             Worst *worst) {
    worst[0] = worst[1] = (Worst){{0, 1}, 0, 0};
    for (size_t l = 0; l < count; l++) {
        Measured m = measure(s, list[l]);
        if (less(m.gap, worst[m.side].gap)) continue;
        Worst w = worst_at(held, s, list[l], m.side, m.gap);
        take(&held[m.side]->ring, &held[1 - m.side]->ring, w, m.direction, list[l] % 2, &worst[m.side]);
    }
}

/* The worst of both sides. Where it has a level edge beside it, all marks are gone through again with the corners beside. */
static inline void measure_marked(const Held *const *held, const Steps *s, Worst *worst) {
    uint32_t list[2 * MOST_STEPS];
    size_t count = list_marks(s, held[0]->ring.count + held[1]->ring.count, list), marks[2] = {0, 0};
    Fraction gaps[2] = {{0, 1}, {0, 1}};
    int levels = 0;
    for (size_t l = 0; l < count; l++) {
        Measured m = measure(s, list[l]);
        Fraction gap = gaps[m.side];
        unsigned __int128 p = (unsigned __int128)m.gap.upper * gap.lower, q = (unsigned __int128)gap.upper * m.gap.lower;
        int64_t is_taken = -(int64_t)(p > q);
        if (p == q && p != 0) {
            const Ring *own = &held[m.side]->ring;
            Worst w = worst_at(held, s, list[l], m.side, m.gap), so_far = worst_at(held, s, marks[m.side], m.side, gap);
            is_taken = -(int64_t)(corner_number(own, w.corner) < corner_number(own, so_far.corner));
            levels |= is_level(own, w.corner, m.direction);
            levels |= is_level(own, so_far.corner, measure(s, marks[m.side]).direction);
        }
        gaps[m.side] = (Fraction){choose(is_taken, gap.upper, m.gap.upper), choose(is_taken, gap.lower, m.gap.lower)};
        marks[m.side] = choose(is_taken, marks[m.side], list[l]);
    }
    for (size_t side = 0; side < 2; side++) {
        Vector direction = measure(s, marks[side]).direction;
        worst[side] = worst_at(held, s, marks[side], side, gaps[side]);
        levels |= is_level(&held[side]->ring, worst[side].corner, direction) & (gaps[side].upper != 0);
    }
    if (levels) settle(held, s, list, count, worst);
}

/* Compares two lists, of either orientation. Gives 0 if one is refused. gcc may not inline this and the search or tell
   what they are called with: they are calls as the proved one is. */
static __attribute__((noipa)) int plain_compare(const int32_t *a, size_t a_length, const int32_t *b, size_t b_length,
                                                Done *done) {
    Held held_a, held_b;
    const Held *held[2] = {&held_a, &held_b};
    Steps steps;
    Worst worst[2];
    if (!accept(a, a_length, 1, &held_a) || !accept(b, b_length, -1, &held_b)) return 0;
    lay_out_steps(&held_a, &held_b, &steps);
    mark_steps(&steps, held_a.ring.count + held_b.ring.count);
    measure_marked(held, &steps, worst);
    answer_both(&held_a.ring, &held_b.ring, worst, done);
    return 1;
}

/* The exhaustive search: a pass over the corners and edges of the other outline for each corner, with the edges and their
   squared lengths made once. */
typedef struct {
    Corner edges[MOST_CORNERS];
    int32_t lengths[MOST_CORNERS];
} Table;

static inline void make_table(const Ring *r, Table *t) {
    for (size_t i = 0; i < r->count; i++) {
        Corner p = r->corners[i], q = r->corners[next(r->count, i)];
        t->edges[i] = (Corner){q.x - p.x, q.y - p.y};
        t->lengths[i] = t->edges[i].x * t->edges[i].x + t->edges[i].y * t->edges[i].y;
    }
}

static int32_t along(Corner e, Corner d) { return e.x * d.x + e.y * d.y; }

/* The worst of a side. Of the edges that a corner is strictly right of, one has the nearest point, at its start, between
   its ends or at its end, and there the pass ends. */
static inline Worst worst_of(const Ring *own, const Ring *other, const Table *t) {
    Worst worst = {{0, 1}, 0, 0};
    for (size_t i = 0; i < own->count; i++)
        for (size_t j = 0; j < other->count; j++) {
            Corner v = own->corners[i], p = other->corners[j], e = t->edges[j], d = {v.x - p.x, v.y - p.y};
            int32_t side_number = e.x * d.y - e.y * d.x;
            if (side_number >= 0) continue;
            int32_t foot = along(e, d);
            size_t nearest = j;
            Fraction gap;
            if (foot <= 0) {
                if (along(t->edges[previous(other->count, j)], d) < 0) continue;
                gap = (Fraction){along(d, d), 1};
            } else if (foot < t->lengths[j]) {
                gap = (Fraction){(int64_t)side_number * side_number, t->lengths[j]};
            } else {
                d = (Corner){d.x - e.x, d.y - e.y};
                nearest = next(other->count, j);
                if (along(t->edges[nearest], d) > 0) continue;
                gap = (Fraction){along(d, d), 1};
            }
            if (less(worst.gap, gap)) worst = (Worst){gap, i, nearest};
            break;
        }
    return worst;
}

static __attribute__((noipa)) void plain_search(const Corner *a, size_t n, const Corner *b, size_t m, Done *done) {
    Ring ring_a = {a, n, 0}, ring_b = {b, m, 0};
    Table table_a, table_b;
    make_table(&ring_a, &table_a);
    make_table(&ring_b, &table_b);
    Worst worst[2] = {worst_of(&ring_a, &ring_b, &table_b), worst_of(&ring_b, &ring_a, &table_a)};
    answer_both(&ring_a, &ring_b, worst, done);
}

#endif
