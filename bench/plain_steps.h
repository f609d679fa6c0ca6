/* The steps of the sweep by the ideas of a faster comparing, in plain C, for the benchmark alone, with the acceptance of both
   lists: windows that move, corners passed over by the worst so far and by a quick test, 128-bit products, the nearest
   points computed at the end. Outlines, vectors and reports are those of plain.h. */
#include "plain.h"

/* From corner 2 on, each is strictly left of edge 0, of the line from corner 0 to the corner before it, and of the edge
   that ends there. */
static int keeps_left(const Corner *c, size_t n) {
    Vector first = difference(c[0], c[1]), to = first, edge = first;
    for (size_t i = 2; i < n; i++) {
        Vector to_next = difference(c[0], c[i]), edge_next = difference(c[i - 1], c[i]);
        if (cross(first, to_next) <= 0 || cross(to, to_next) <= 0 || cross(edge, edge_next) <= 0) return 0;
        to = to_next;
        edge = edge_next;
    }
    return 1;
}

/* Accepts a list of either orientation; the corners of a clockwise one go to `reversed`. */
static int accept_list(const int32_t *s, size_t length, Corner *reversed, Ring *r) {
    size_t n = length / 2;
    const Corner *c = (const Corner *)s;
    uint32_t out = 0;
    if (length % 2 || n < 3 || n > MOST_CORNERS) return 0;
    for (size_t i = 0; i < length; i++) out |= beyond_range(s[i]);
    if (out >> 31) return 0;
    int clockwise = cross(difference(c[0], c[1]), difference(c[0], c[2])) < 0;
    if (clockwise) {
        reversed[0] = c[0];
        for (size_t i = 1; i < n; i++) reversed[i] = c[n - i];
        c = reversed;
    }
    *r = (Ring){c, n, clockwise};
    return keeps_left(c, n);
}

/* What a step sees of an outline: the support corner with its number, and two corners on either side. */
typedef struct {
    size_t number;
    Corner earlier, before, corner, after, later;
} Window;

/* One outline's part of the sweep. */
typedef struct {
    Ring ring;
    Window window;
    size_t remaining;
    Worst worst;
} SideState;

static void begin(SideState *s) {
    const Corner *c = s->ring.corners;
    size_t n = s->ring.count, low = 0;
    for (size_t i = 1; i < n; i++)
        if (c[i].y < c[low].y || (c[i].y == c[low].y && c[i].x < c[low].x)) low = i;
    size_t before = previous(n, low), after = next(n, low);
    s->window = (Window){low, c[previous(n, before)], c[before], c[low], c[after], c[next(n, after)]};
    s->remaining = n;
    s->worst = (Worst){.gap = {0, 1}};
}

/* The foot is not before the end of the run, and the edge beyond leads on. */
static int leads_on(Vector to, Vector run, Vector beyond) {
    Vector past = {to.x - run.x, to.y - run.y};
    return dot(past, run) >= 0 && dot(past, beyond) > 0;
}

static inline int is_passed_over(Corner v, const Window *w, Fraction gap) {
    Vector to = difference(w->corner, v), after = difference(w->corner, w->after), before = difference(w->corner, w->before);
    if ((uint64_t)dot(to, to) * gap.lower < gap.upper) return 1;
    if (dot(to, before) <= 0) return leads_on(to, after, difference(w->after, w->later));
    if (dot(to, after) <= 0) return leads_on(to, before, difference(w->before, w->earlier));
    return 0;
}

/* The gap of v along an edge at the support corner, 0 if it is nearest neither to a point between the ends nor to the far
   end. */
static inline Fraction gap_along(Corner v, Vector to, Vector run, int is_after, Corner end, Corner beyond) {
    int64_t along = dot(to, run), length = dot(run, run), side = cross(run, to);
    if (along <= 0) return (Fraction){0, 1};
    if (along < length) return (is_after ? side < 0 : side > 0) ? (Fraction){side * side, length} : (Fraction){0, 1};
    Vector past = difference(end, v);
    return dot(past, difference(end, beyond)) > 0 ? (Fraction){0, 1} : (Fraction){dot(past, past), 1};
}

static void measure_corner(SideState *own, const SideState *other) {
    const Window *w = &other->window;
    Corner v = own->window.corner;
    Vector to = difference(w->corner, v), after = difference(w->corner, w->after), before = difference(w->corner, w->before);
    Worst new = {{dot(to, to), 1}, own->window.number, w->number};
    if (dot(to, after) > 0 || dot(to, before) > 0) {
        new.gap = gap_along(v, to, after, 1, w->after, w->later);
        if (new.gap.upper == 0) {
            new.gap = gap_along(v, to, before, 0, w->before, w->earlier);
            new.edge = previous(other->ring.count, w->number);
        }
    }
    if (less(new.gap, own->worst.gap)) return;
    if (less(own->worst.gap, new.gap) || corner_number(&own->ring, new.corner) < corner_number(&own->ring, own->worst.corner))
        own->worst = new;
}

/* The support corner moves on; one corner comes into sight. */
static inline void advance(SideState *s) {
    Window *w = &s->window;
    size_t n = s->ring.count, number = next(n, w->number);
    *w = (Window){number, w->before, w->corner, w->after, w->later, s->ring.corners[next(n, next(n, number))]};
    s->remaining--;
}

static __attribute__((noipa)) int plain_steps(const int32_t *a, size_t a_length, const int32_t *b, size_t b_length, Done *done) {
    Corner reversed_a[MOST_CORNERS], reversed_b[MOST_CORNERS];
    SideState x, y;
    if (!accept_list(a, a_length, reversed_a, &x.ring) || !accept_list(b, b_length, reversed_b, &y.ring)) return 0;
    begin(&x);
    begin(&y);
    for (size_t k = x.ring.count + y.ring.count; k; k--) {
        const Window *v = &x.window, *w = &y.window;
        if (!is_passed_over(v->corner, w, x.worst.gap)) measure_corner(&x, &y);
        if (!is_passed_over(w->corner, v, y.worst.gap)) measure_corner(&y, &x);
        int is_b = x.remaining == 0 || (y.remaining && cross(difference(v->corner, v->after), difference(w->corner, w->after)) < 0);
        advance(is_b ? &y : &x);
    }
    Worst worst[2] = {x.worst, y.worst};
    answer_both(&x.ring, &y.ring, worst, done);
    return 1;
}
