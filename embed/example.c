/* Calls Ravinebowl from C. example.rs makes the same calls and prints the same lines. */
#include "ravinebowl.h"

#include <inttypes.h>
#include <stdio.h>

#define COUNT(list) (sizeof(list) / sizeof(list)[0])

static const int32_t SQUARE[] = {0, 0, 4, 0, 4, 4, 0, 4};
static const int32_t TRIANGLE[] = {0, 0, 4, 0, 0, 4};
static const int32_t HALVED[] = {0, 0, 4, 4, 0, 4};
static const int32_t CLOCKWISE[] = {0, 0, 0, 4, 4, 0};
static const int32_t MOVED[] = {10, 0, 14, 0, 14, 4, 10, 4};
static const int32_t STAR[] = {0, 3, -2, -3, 3, 1, -3, 1, 2, -3};
static const int32_t WEDGE[] = {0, 0, 9, 0, 0, 3};
static const int32_t POINTS[] = {4, 4, 0, 0, 2, 0, 4, 0, 0, 4, 4, 4, 1, 2};
static const int32_t IN_LINE[] = {4, 2, 0, 0, 2, 1, 4, 2};
static const int32_t OUTSIDE[] = {0, 0, 4, 0, 4, 16001, 0, -16001};

/* The square from record 3 on and the triangle from record 6 on, their last corner in one record. Record 0 is not read. */
static const int32_t RECORDS[] = {
    7, 7, 7,
    4, 4, 4,
    4, 0, 4,
    0, 0, 5,
    0, 4, 0,
    4, 0, 1,
    0, 0, 2,
};

/* Record 1 is followed by itself. */
static const int32_t RING[] = {
    7, 7, 7,
    0, 0, 1,
};

static char side_name(int64_t side) {
    return side == RAVINEBOWL_SIDE_A ? 'A' : 'B';
}

static void print_refusal(struct ravinebowl_status status) {
    printf("refused");
    if (status.side != RAVINEBOWL_NO_SIDE)
        printf(" %c", side_name(status.side));
    printf(" %" PRIu32, status.code);
    if (status.places > 0)
        printf(" %zu", status.first);
    if (status.places > 1)
        printf(" %zu", status.second);
    printf("\n");
}

/* The seven numbers of a nearest point, which stand alone or in the result of a comparison. */
static void print_nearest(const int64_t *nearest) {
    switch (nearest[RAVINEBOWL_NEAREST_FEATURE]) {
    case RAVINEBOWL_WITHIN:
        printf("within");
        break;
    case RAVINEBOWL_CORNER:
        printf("corner %" PRId64, nearest[RAVINEBOWL_NEAREST_FEATURE_NUMBER]);
        break;
    default:
        printf("edge %" PRId64, nearest[RAVINEBOWL_NEAREST_FEATURE_NUMBER]);
    }
    int64_t d = nearest[RAVINEBOWL_NEAREST_D];
    printf(" at %" PRId64 "/%" PRId64 " %" PRId64 "/%" PRId64, nearest[RAVINEBOWL_NEAREST_X], d, nearest[RAVINEBOWL_NEAREST_Y], d);
    printf(", gap %" PRId64 "/%" PRId64, nearest[RAVINEBOWL_NEAREST_GAP_UPPER], nearest[RAVINEBOWL_NEAREST_GAP_LOWER]);
}

/* The nine numbers of a worst corner, of both outlines or of one: side, corner and the numbers of its nearest point. */
static void print_worst(const int64_t *worst) {
    if (worst[0] == RAVINEBOWL_NO_SIDE) {
        printf("no worst so far");
        return;
    }
    printf("%c %" PRId64 " to ", side_name(worst[0]), worst[1]);
    print_nearest(&worst[2]);
}

/* A line for each outline. */
static void print_sides(const int64_t *result) {
    printf("  of A: ");
    print_worst(&result[RAVINEBOWL_COMPARE_SIDE_A]);
    printf("\n  of B: ");
    print_worst(&result[RAVINEBOWL_COMPARE_SIDE_B]);
    printf("\n");
}

static void print_comparison(struct ravinebowl_status status, const int64_t *result) {
    if (status.code != RAVINEBOWL_ANSWERED) {
        print_refusal(status);
    } else if (result[RAVINEBOWL_COMPARE_KIND] == RAVINEBOWL_DONE) {
        printf("done in %" PRId64 " steps: ", result[RAVINEBOWL_COMPARE_STEPS]);
        print_worst(&result[RAVINEBOWL_COMPARE_SIDE]);
        printf(", clearance %" PRId64 "\n", result[RAVINEBOWL_COMPARE_CLEARANCE]);
        print_sides(result);
    } else {
        printf("spent after %" PRId64 " steps, support corners A %" PRId64 " and B %" PRId64 ": ", result[RAVINEBOWL_COMPARE_STEPS],
               result[RAVINEBOWL_COMPARE_SUPPORT_A], result[RAVINEBOWL_COMPARE_SUPPORT_B]);
        print_worst(&result[RAVINEBOWL_COMPARE_SIDE]);
        printf("\n");
        print_sides(result);
    }
}

static void compare(const int32_t *a, size_t a_length, const int32_t *b, size_t b_length, uint32_t allowance) {
    int64_t result[RAVINEBOWL_COMPARE_LENGTH];
    struct ravinebowl_status status = ravinebowl_compare(a, a_length, b, b_length, allowance, result, COUNT(result));
    print_comparison(status, result);
}

static void compare_records(const int32_t *records, size_t length, int32_t a_start, int32_t b_start) {
    int64_t result[RAVINEBOWL_COMPARE_LENGTH];
    struct ravinebowl_status status =
        ravinebowl_compare_records(records, length, a_start, b_start, RAVINEBOWL_ENOUGH_STEPS, result, COUNT(result));
    print_comparison(status, result);
}

static void mismatch(const int32_t *a, size_t a_length, const int32_t *b, size_t b_length) {
    int64_t result[RAVINEBOWL_MISMATCH_LENGTH];
    struct ravinebowl_status status = ravinebowl_mismatch(a, a_length, b, b_length, result, COUNT(result));
    if (status.code != RAVINEBOWL_ANSWERED) {
        print_refusal(status);
        return;
    }
    printf("mismatch %" PRId64 "/%d\n", result[RAVINEBOWL_MISMATCH_SUM], RAVINEBOWL_MISMATCH_UNITS);
}

static void nearest_point(int32_t x, int32_t y, const int32_t *outline, size_t length) {
    int64_t result[RAVINEBOWL_NEAREST_LENGTH];
    struct ravinebowl_status status = ravinebowl_nearest_point(x, y, outline, length, result, COUNT(result));
    if (status.code != RAVINEBOWL_ANSWERED) {
        print_refusal(status);
        return;
    }
    print_nearest(result);
    printf("\n");
}

/* A word and the numbers of an outline, or the refusal. */
static void print_outline(struct ravinebowl_status status, const char *word, const int32_t *out, size_t length) {
    if (status.code != RAVINEBOWL_ANSWERED) {
        print_refusal(status);
        return;
    }
    printf("%s", word);
    for (size_t i = 0; i < length; i++)
        printf(" %" PRId32, out[i]);
    printf("\n");
}

/* `room` is the length of the list to write, at most that of the square. */
static void remove_corner(const int32_t *outline, size_t length, size_t corner, size_t room) {
    int32_t out[COUNT(SQUARE)];
    struct ravinebowl_status status = ravinebowl_remove_corner(outline, length, corner, out, room);
    print_outline(status, "remains", out, room);
}

/* `room` as above. */
static void insert_corner(const int32_t *outline, size_t length, size_t place, int32_t x, int32_t y, size_t room) {
    int32_t out[COUNT(SQUARE)];
    struct ravinebowl_status status = ravinebowl_insert_corner(outline, length, place, x, y, out, room);
    print_outline(status, "results", out, room);
}

static void print_mark(int32_t mark) {
    if (mark == RAVINEBOWL_MARK_REPEATS)
        printf("repeated");
    else if (mark == RAVINEBOWL_MARK_NO_CORNER)
        printf("no corner");
    else
        printf("corner %" PRId32, mark);
}

/* `room` and `marks_room` are the lengths of the lists to write, `room` at most that of POINTS, and `marks_room` half of that. */
static void convex_hull(const int32_t *points, size_t length, size_t room, size_t marks_room) {
    int32_t out[COUNT(POINTS)], marks[COUNT(POINTS) / 2];
    int64_t result[RAVINEBOWL_CONVEX_HULL_LENGTH];
    struct ravinebowl_status status =
        ravinebowl_convex_hull(points, length, out, room, marks, marks_room, result, COUNT(result));
    print_outline(status, "hull", out, room);
    if (status.code != RAVINEBOWL_ANSWERED)
        return;
    printf("  corners %" PRId64 ", marks", result[RAVINEBOWL_CONVEX_HULL_COUNT]);
    for (size_t i = 0; i < marks_room; i++) {
        printf("%s", i == 0 ? ": " : ", ");
        print_mark(marks[i]);
    }
    printf("\n");
}

/* A result list with one place too few: the call writes nothing. */
static void wrong_result_length(void) {
    int64_t result[RAVINEBOWL_COMPARE_LENGTH - 1];
    for (size_t i = 0; i < COUNT(result); i++)
        result[i] = 5;
    struct ravinebowl_status status =
        ravinebowl_compare(SQUARE, COUNT(SQUARE), TRIANGLE, COUNT(TRIANGLE), RAVINEBOWL_ENOUGH_STEPS, result, COUNT(result));
    int kept = 1;
    for (size_t i = 0; i < COUNT(result); i++)
        kept = kept && result[i] == 5;
    printf("code %" PRIu32 ", list %s\n", status.code, kept ? "as it was" : "written");
}

int main(void) {
    compare(SQUARE, COUNT(SQUARE), TRIANGLE, COUNT(TRIANGLE), RAVINEBOWL_ENOUGH_STEPS);
    compare(SQUARE, COUNT(SQUARE), TRIANGLE, COUNT(TRIANGLE), 4);
    compare(SQUARE, COUNT(SQUARE), TRIANGLE, COUNT(TRIANGLE), 3);
    compare(SQUARE, COUNT(SQUARE), MOVED, COUNT(MOVED), RAVINEBOWL_ENOUGH_STEPS);
    compare(SQUARE, COUNT(SQUARE), CLOCKWISE, COUNT(CLOCKWISE), RAVINEBOWL_ENOUGH_STEPS);
    compare(CLOCKWISE, COUNT(CLOCKWISE), SQUARE, COUNT(SQUARE), 4);
    compare(STAR, COUNT(STAR), SQUARE, COUNT(SQUARE), RAVINEBOWL_ENOUGH_STEPS);
    compare(SQUARE, COUNT(SQUARE), NULL, 0, RAVINEBOWL_ENOUGH_STEPS);
    compare_records(RECORDS, COUNT(RECORDS), 3, 6);
    compare_records(RECORDS, COUNT(RECORDS), 3, 0);
    compare_records(RECORDS, COUNT(RECORDS), 3, 7);
    compare_records(RECORDS, COUNT(RECORDS) - 1, 3, 6);
    compare_records(RING, COUNT(RING), 1, 1);
    mismatch(SQUARE, COUNT(SQUARE), TRIANGLE, COUNT(TRIANGLE));
    mismatch(CLOCKWISE, COUNT(CLOCKWISE), SQUARE, COUNT(SQUARE));
    mismatch(SQUARE, COUNT(SQUARE), MOVED, COUNT(MOVED));
    mismatch(SQUARE, COUNT(SQUARE), STAR, COUNT(STAR));
    nearest_point(6, 6, WEDGE, COUNT(WEDGE));
    nearest_point(12, 9, WEDGE, COUNT(WEDGE));
    nearest_point(1, 1, WEDGE, COUNT(WEDGE));
    nearest_point(2, -3, CLOCKWISE, COUNT(CLOCKWISE));
    nearest_point(16001, 0, WEDGE, COUNT(WEDGE));
    remove_corner(SQUARE, COUNT(SQUARE), 1, COUNT(SQUARE) - 2);
    remove_corner(SQUARE, COUNT(SQUARE), 4, COUNT(SQUARE) - 2);
    remove_corner(SQUARE, COUNT(SQUARE), 1, COUNT(SQUARE));
    remove_corner(CLOCKWISE, COUNT(CLOCKWISE), 1, COUNT(CLOCKWISE) - 2);
    insert_corner(HALVED, COUNT(HALVED), 1, 4, 0, COUNT(HALVED) + 2);
    insert_corner(TRIANGLE, COUNT(TRIANGLE), 3, -1, 2, COUNT(TRIANGLE) + 2);
    insert_corner(TRIANGLE, COUNT(TRIANGLE), 4, 4, 4, COUNT(TRIANGLE) + 2);
    insert_corner(TRIANGLE, COUNT(TRIANGLE), 2, 16001, 4, COUNT(TRIANGLE) + 2);
    insert_corner(TRIANGLE, COUNT(TRIANGLE), 2, 4, 4, COUNT(TRIANGLE));
    insert_corner(TRIANGLE, COUNT(TRIANGLE), 0, 0, 4, COUNT(TRIANGLE) + 2);
    insert_corner(TRIANGLE, COUNT(TRIANGLE), 3, 1, 1, COUNT(TRIANGLE) + 2);
    insert_corner(CLOCKWISE, COUNT(CLOCKWISE), 1, -1, 2, COUNT(CLOCKWISE) + 2);
    convex_hull(POINTS, COUNT(POINTS), COUNT(POINTS), COUNT(POINTS) / 2);
    convex_hull(CLOCKWISE, COUNT(CLOCKWISE), COUNT(CLOCKWISE), COUNT(CLOCKWISE) / 2);
    convex_hull(IN_LINE, COUNT(IN_LINE), COUNT(IN_LINE), COUNT(IN_LINE) / 2);
    convex_hull(NULL, 0, 0, 0);
    convex_hull(OUTSIDE, COUNT(OUTSIDE), COUNT(OUTSIDE), COUNT(OUTSIDE) / 2);
    convex_hull(POINTS, COUNT(POINTS), COUNT(POINTS) - 1, COUNT(POINTS) / 2);
    convex_hull(POINTS, COUNT(POINTS), COUNT(POINTS), COUNT(POINTS) / 2 - 1);
    wrong_result_length();
    return 0;
}
