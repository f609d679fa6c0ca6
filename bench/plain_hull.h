/* The convex hull of points in plain C, for the benchmark alone. Points strictly inside a rectangle that the hull holds
   are no corners: among them only repeats are looked for, with a hash table. The others are sorted by y, then x, then
   number, so that repeats come right after the point that they repeat. The corners are those of two chains from the
   lowest point to the highest, on either side of the line between these. The rectangle and the sorts have no branches
   that are hard to predict. The checks are those of plain_reading.h, numbers and limits those of ravinebowl.h. */
#include <string.h>
#include "plain_reading.h"
#include "ravinebowl.h"

/* A point as one number, in the order of y, then x, then the number of the point, which has 8 bits. x and y are counted
   from -LARGEST, which changes no side number. */
typedef uint64_t Key;

static Key key_of(Corner c, size_t i) { return (Key)(c.y + LARGEST) << 32 | (Key)(c.x + LARGEST) << 8 | i; }

static Key place_of(Key k) { return k >> 8; }

static size_t number_of(Key k) { return k & 0xff; }

/* 32 bits are enough: each product is at most (2 * LARGEST) * (2 * LARGEST). */
static int32_t side_of(Key p, Key q, Key v) {
    int32_t px = (uint32_t)p >> 8, py = p >> 32;
    int32_t qx = (uint32_t)q >> 8, qy = q >> 32;
    int32_t vx = (uint32_t)v >> 8, vy = v >> 32;
    return (qx - px) * (vy - py) - (qy - py) * (vx - px);
}

static void order(Key *a, Key *b) {
    Key x = *a, y = *b;
    *a = x < y ? x : y;
    *b = x < y ? y : x;
}

static void sort_four(Key *k) {
    order(&k[0], &k[1]);
    order(&k[2], &k[3]);
    order(&k[0], &k[2]);
    order(&k[1], &k[3]);
    order(&k[1], &k[2]);
}

/* Merges two runs of w keys, one after the other, from both ends at once. */
static void merge_equal(const Key *a, size_t w, Key *to) {
    const Key *b = a + w, *a_last = a + w - 1, *b_last = b + w - 1;
    Key *last = to + 2 * w - 1;
    for (size_t i = 0; i < w; i++) {
        Key x = *a, y = *b, z = *a_last, v = *b_last;
        int is_b = y < x, is_a = z > v;
        *to++ = is_b ? y : x;
        a += !is_b;
        b += is_b;
        *last-- = is_a ? z : v;
        a_last -= is_a;
        b_last -= !is_a;
    }
}

/* Merges the runs from a to b and from b to the end. */
static void merge_any(const Key *a, const Key *b, const Key *end, Key *to) {
    const Key *a_end = b;
    while (a < a_end && b < end) {
        int is_b = *b < *a;
        *to++ = is_b ? *b : *a;
        a += !is_b;
        b += is_b;
    }
    while (a < a_end) *to++ = *a++;
    while (b < end) *to++ = *b++;
}

/* The keys are filled up to a multiple of four, for which there is room. The sorted ones are in the first list or in
   the other; gives where. */
static const Key *merge_sort(Key *k, size_t n, Key *other) {
    Key *from = k, *to = other;
    for (; n % 4; n++) k[n] = UINT64_MAX;
    for (size_t i = 0; i < n; i += 4) sort_four(&k[i]);
    for (size_t w = 4; w < n; w *= 2) {
        size_t i = 0;
        for (; i + 2 * w <= n; i += 2 * w) merge_equal(&from[i], w, &to[i]);
        merge_any(&from[i], &from[i + w < n ? i + w : n], &from[n], &to[i]);
        Key *sorted = to;
        to = from;
        from = sorted;
    }
    return from;
}

static void scatter(const Key *k, size_t n, int shift, uint16_t *starts, Key *to) {
    for (size_t i = 0; i < n; i++) to[starts[k[i] >> shift & 0xff]++] = k[i];
}

/* By the lower 8 bits of x, its upper bits, and those of y; the keys come in the order of their numbers. */
static const Key *radix_sort(Key *k, size_t n, Key *other) {
    static const int shifts[4] = {8, 16, 32, 40};
    uint16_t starts[4][256] = {0}, start[4] = {0};
    for (size_t i = 0; i < n; i++)
        for (int p = 0; p < 4; p++) starts[p][k[i] >> shifts[p] & 0xff]++;
    for (int i = 0; i < 256; i++)
        for (int p = 0; p < 4; p++) {
            uint16_t count = starts[p][i];
            starts[p][i] = start[p];
            start[p] += count;
        }
    scatter(k, n, shifts[0], starts[0], other);
    scatter(other, n, shifts[1], starts[1], k);
    scatter(k, n, shifts[2], starts[2], other);
    scatter(other, n, shifts[3], starts[3], k);
    return k;
}

/* Each sort where it is the faster one. */
static const Key *sort(Key *k, size_t n, Key *other) {
    return n < 160 ? merge_sort(k, n, other) : radix_sort(k, n, other);
}

static int32_t least_of(int32_t a, int32_t b) { return a < b ? a : b; }

static int32_t most_of(int32_t a, int32_t b) { return a > b ? a : b; }

/* The bounds of a rectangle. It is none where west is not below east, or south not below north. */
typedef struct {
    int32_t west, east, south, north;
} Rectangle;

/* A rectangle that the hull holds, between the four points that are extreme along the diagonals: each of its corners is
   no further out than one of them, by x and by y. The number of a point is in the lowest 8 bits of what is compared. */
static Rectangle inner_rectangle(const Corner *c, size_t n) {
    int32_t least_sum = INT32_MAX, most_sum = INT32_MIN, least_difference = INT32_MAX, most_difference = INT32_MIN;
    for (int32_t i = 0; i < (int32_t)n; i++) {
        int32_t sum = (c[i].x + c[i].y) * 256 + i, difference = (c[i].x - c[i].y) * 256 + i;
        least_sum = least_of(least_sum, sum);
        most_sum = most_of(most_sum, sum);
        least_difference = least_of(least_difference, difference);
        most_difference = most_of(most_difference, difference);
    }
    Corner sw = c[least_sum & 0xff], ne = c[most_sum & 0xff];
    Corner nw = c[least_difference & 0xff], se = c[most_difference & 0xff];
    return (Rectangle){most_of(sw.x, nw.x), least_of(se.x, ne.x), most_of(sw.y, se.y), least_of(nw.y, ne.y)};
}

/* The points that are not strictly inside the rectangle, as keys, and the numbers of those that are. Where these are
   few they count as outer ones too. */
typedef struct {
    size_t outer_count, inner_count;
    Key outer[MOST];
    uint8_t inner[MOST];
} Parts;

static void divide(const Corner *c, size_t n, Parts *parts) {
    Rectangle r = inner_rectangle(c, n);
    size_t outer = 0, inner = 0;
    int32_t is_inner[MOST], count = 0;
    for (size_t i = 0; i < n; i++) {
        is_inner[i] = (c[i].x > r.west) & (c[i].x < r.east) & (c[i].y > r.south) & (c[i].y < r.north);
        count += is_inner[i];
    }
    if ((size_t)count < n / 8) {
        for (; outer < n; outer++) parts->outer[outer] = key_of(c[outer], outer);
    } else {
        for (size_t i = 0; i < n; i++) {
            parts->outer[outer] = key_of(c[i], i);
            parts->inner[inner] = i;
            outer += !is_inner[i];
            inner += is_inner[i];
        }
    }
    parts->outer_count = outer;
    parts->inner_count = inner;
}

enum { SLOTS = 1024 };

/* Marks the repeats among some points. A slot has the number of a point and 1 more. */
static void mark_repeats(const Corner *c, const uint8_t *numbers, size_t n, int32_t *marks) {
    uint16_t slots[SLOTS] = {0};
    for (size_t i = 0; i < n; i++) {
        Corner v = c[numbers[i]];
        uint32_t slot = ((uint32_t)v.x * 0x9e3779b1u + (uint32_t)v.y * 0x85ebca6bu) >> 22;
        while (slots[slot] != 0 && memcmp(&c[slots[slot] - 1], &v, sizeof v) != 0) slot = (slot + 1) % SLOTS;
        if (slots[slot] != 0)
            marks[numbers[i]] = RAVINEBOWL_MARK_REPEATS;
        else
            slots[slot] = numbers[i] + 1;
    }
}

/* Adds a point to a chain of n, which is to turn left everywhere, or right for a `turn` of -1: those before it that do
   not are taken off. Gives how many there are then. */
static size_t add_to_chain(Key *chain, size_t n, Key v, int turn) {
    while (n > 1 && turn * side_of(chain[n - 2], chain[n - 1], v) <= 0) n--;
    chain[n] = v;
    return n + 1;
}

/* As ravinebowl_convex_hull. gcc may not inline it, or tell what it is called with: it is a call as the proved one
   is. */
static __attribute__((noipa)) Refusal plain_convex_hull(const int32_t *s, size_t length, int32_t *out,
                                                        size_t out_length, int32_t *marks, size_t marks_length,
                                                        int64_t *result, size_t result_length) {
    const Corner *c = (const Corner *)s;
    size_t n = length / 2;
    if (result_length != RAVINEBOWL_CONVEX_HULL_LENGTH) return (Refusal){RAVINEBOWL_WRONG_RESULT_LENGTH, 0, 0};
    if (length % 2) return (Refusal){RAVINEBOWL_ODD_LENGTH, 0, 0};
    if (n > MOST) return (Refusal){RAVINEBOWL_TOO_MANY_CORNERS, 0, 0};
    if (!all_in_range(s, length)) return check_range(c, n);
    if (out_length != length || marks_length != n) return (Refusal){RAVINEBOWL_WRONG_LENGTH, 0, 0};
    if (n == 0) return (Refusal){RAVINEBOWL_TOO_FEW_CORNERS, 0, 0};
    Parts parts;
    Key other[MOST], right[MOST], left[MOST];
    uint8_t repeats[MOST];
    divide(c, n, &parts);
    const Key *k = sort(parts.outer, parts.outer_count, other);
    Key low = k[0], high = k[parts.outer_count - 1], last = low;
    size_t r = 1, l = 1, repeat_count = 0;
    right[0] = left[0] = low;
    for (size_t i = 1; i < parts.outer_count; i++) {
        Key v = k[i];
        if (place_of(v) == place_of(last)) {
            repeats[repeat_count++] = number_of(v);
            continue;
        }
        last = v;
        int32_t side = side_of(low, high, v);
        if (side < 0)
            r = add_to_chain(right, r, v, 1);
        else if (side > 0)
            l = add_to_chain(left, l, v, -1);
    }
    if (r + l == 2) return (Refusal){RAVINEBOWL_TOO_FEW_CORNERS, 0, 0};
    r = add_to_chain(right, r, last, 1);
    l = add_to_chain(left, l, last, -1);

    for (size_t i = 0; i < n; i++) marks[i] = RAVINEBOWL_MARK_NO_CORNER;
    for (size_t i = 0; i < repeat_count; i++) marks[repeats[i]] = RAVINEBOWL_MARK_REPEATS;
    if (parts.inner_count > 1) mark_repeats(c, parts.inner, parts.inner_count, marks);
    size_t count = r + l - 2;
    for (size_t i = 0; i < count; i++) {
        size_t number = number_of(i < r ? right[i] : left[count - i]);
        memcpy(&out[2 * i], &c[number], sizeof *c);
        marks[number] = (int32_t)i;
    }
    memset(&out[2 * count], 0, (n - count) * sizeof *c);
    result[RAVINEBOWL_CONVEX_HULL_COUNT] = (int64_t)count;
    return (Refusal){0};
}
