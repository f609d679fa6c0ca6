/* Ravinebowl: the Hausdorff distance and the mismatch sum of two convex outlines, the nearest point of an outline, removing and inserting a
 * corner, and the convex hull of points, in exact whole numbers. The functions are those of crates/ravinebowl_c, which
 * `tools/static_library ravinebowl_c ravinebowl` builds as target/staticlib/libravinebowl.a.
 *
 * Units. Coordinates and the clearance are in whole millimetres; a gap, which is a squared distance, is in square millimetres, and a
 * mismatch sum in whole units of 1/1024 square millimetre.
 *
 * Lists. A list is a pointer to its first number and the count of its numbers. An outline is a list of coordinates: x and y of
 * corner 0, then of corner 1, and so on. Edge i runs from corner i to corner i + 1, the last edge back to corner 0. An outline is accepted
 * if it has 3 to 256 corners, every coordinate is from -16,000 to 16,000, and it has an orientation: counterclockwise, if every corner other
 * than an edge's two ends is strictly left of that edge, for every edge; clockwise, if it is strictly right, for every edge. The points of
 * a convex hull are a list of coordinates too, x and y of point 0, then of point 1, and so on, but in no order: they need not be an outline.
 *
 * Strictly left of an edge from (px, py) to (qx, qy) is a point (x, y) for which (qx - px) * (y - py) - (qy - py) * (x - px) is above 0,
 * and strictly right one for which it is below 0.
 *
 * Records. Comparing takes outlines from a store of linked records too: a list of three numbers for each record, x, y and the index of the
 * next record, so that record i has the numbers 3 * i to 3 * i + 2. Record 0 is never a corner and is not read; index 0 ends a chain. The
 * records from a start index on are the corners of an outline: corner 0 is the record at the start, corner 1 the next of the chain, and so
 * on. What is said here of the list of an outline goes for these corners in their order. Chains may share records or be the same.
 *
 * Orientation. Comparing, the mismatch sum and the nearest point take outlines of either orientation, removing and inserting a corner take
 * counterclockwise ones alone, and a convex hull is counterclockwise. Every number of a corner or an edge, in a result and in the place of a
 * refusal, is its number in the list as given, or along the chain, never a record's index: edge i joins corner i to the following one,
 * whichever way round the list goes. Only 5 and 6 of the result of inserting a corner have their places in that result, and the marks of a
 * convex hull name corners of the hull.
 *
 * What a caller must see to. A pointer must be aligned, and good for as many numbers as the count says; a list that is empty may have any
 * pointer. A list that is written (`result`, `out`, `marks`) must not overlap another list of the same call. Lists that are only read may
 * overlap or be the same. Nothing else is asked: any numbers, counts and lengths get an answer or a code.
 *
 * What the functions do. They keep no state and no pointer, allocate nothing, use some 16 KiB of stack at the most, and always return.
 * Threads may call them at the same time, as long as no list is written that another call reads or writes. A call that does not answer
 * writes to no list: read `result`, `out` and `marks` only where the code of the status is RAVINEBOWL_ANSWERED.
 */
#ifndef RAVINEBOWL_H
#define RAVINEBOWL_H

#include <stddef.h>
#include <stdint.h>

#ifdef __cplusplus
extern "C" {
#endif

/* Limits of an outline, and a number of steps that is enough for any comparison. RAVINEBOWL_MOST_CORNERS and
 * RAVINEBOWL_LARGEST_COORDINATE are the limits of points given to ravinebowl_convex_hull too. */
#define RAVINEBOWL_FEWEST_CORNERS 3
#define RAVINEBOWL_MOST_CORNERS 256
#define RAVINEBOWL_LARGEST_COORDINATE 16000
#define RAVINEBOWL_ENOUGH_STEPS 512

/* How many numbers a record has. */
#define RAVINEBOWL_RECORD_LENGTH 3

/* Stands in a result list where a place does not apply. X and Y can be -1 too: whether there is a point goes by the side (places 4, 14 and
 * 23 of a comparison). */
#define RAVINEBOWL_ABSENT (-1)

/* The code of a status. 1 to 12 are refusals; where several apply, the first in the order that a call names stands. */
enum ravinebowl_code {
    RAVINEBOWL_ANSWERED = 0,             /* the call answered; a comparison that is spent is an answer too */
    RAVINEBOWL_ODD_LENGTH = 1,           /* the list has an odd length */
    RAVINEBOWL_TOO_FEW_CORNERS = 2,      /* fewer than 3 corners; in removing a corner also: just 3; in finding a convex hull: no points,
                                          * or all lie in one line */
    RAVINEBOWL_TOO_MANY_CORNERS = 3,     /* more than 256 corners; in inserting a corner also: 256 already; in finding a convex hull: more
                                          * than 256 points, repeats counted */
    RAVINEBOWL_OUT_OF_RANGE = 4,         /* a corner, or a point given to ravinebowl_convex_hull, has a coordinate out of range; place: the
                                          * number of the first such corner or point */
    RAVINEBOWL_REPEATED = 5,             /* a corner equals the one after it; after the last comes corner 0; place: the lowest such corner */
    RAVINEBOWL_NOT_LEFT = 6,             /* removing and inserting a corner: the list, or the result of inserting, is not
                                          * counterclockwise; comparing, the mismatch sum and the nearest point: it fits neither orientation;
                                          * place, of all of these: the lowest edge that some corner, other than its ends, is not strictly
                                          * left of, and the lowest such corner */
    RAVINEBOWL_POINT_OUT_OF_RANGE = 7,   /* the point is out of range */
    RAVINEBOWL_NO_SUCH_CORNER = 8,       /* no corner has that number; in inserting: the place is past the number of corners */
    RAVINEBOWL_WRONG_LENGTH = 9,         /* the list to write is not exactly as long as what remains, or as the result of inserting; of a
                                          * convex hull: `out` is not as long as the list of points, or `marks` not half as long */
    RAVINEBOWL_PARTIAL_RECORD = 10,      /* the length of the store is not a multiple of 3; always of side A */
    RAVINEBOWL_CHAIN_TOO_LONG = 11,      /* 256 corners of a chain are read and the next index is not 0; place: 256, the corners read */
    RAVINEBOWL_NO_SUCH_RECORD = 12,      /* an index of a chain, its start too, is negative, or neither 0 nor below the number of records;
                                          * place: how many corners are read so far */
    RAVINEBOWL_WRONG_RESULT_LENGTH = 100 /* the result list does not have the length that the call asks for: judged before all else */
};

/* A side: of a refusal, or of a corner in a result. A refusal of a call with one outline, or with points, has none. */
enum ravinebowl_side { RAVINEBOWL_NO_SIDE = 0, RAVINEBOWL_SIDE_A = 1, RAVINEBOWL_SIDE_B = 2 };

/* What every call returns. */
struct ravinebowl_status {
    uint32_t code;   /* enum ravinebowl_code */
    uint32_t side;   /* enum ravinebowl_side: the outline that is refused, where there are two */
    uint32_t places; /* how many place numbers the refusal has: 0, 1 (a corner's or point's, or how many are read) or 2 (an edge's and a
                      * corner's) */
    size_t first;    /* the first place number, or 0 where there is none */
    size_t second;   /* the second place number, or 0 where there is none */
};

/* The kind of a nearest feature. Within: in the piece or on its border, so that the gap is 0. Edge: strictly between its ends. */
enum ravinebowl_feature { RAVINEBOWL_WITHIN = 0, RAVINEBOWL_CORNER = 1, RAVINEBOWL_EDGE = 2 };

/* The kind of a comparison. */
enum ravinebowl_comparison { RAVINEBOWL_DONE = 0, RAVINEBOWL_SPENT = 1 };

/* The places of the result list of ravinebowl_nearest_point, and its length. Fractions are not reduced. */
enum ravinebowl_nearest_place {
    RAVINEBOWL_NEAREST_FEATURE = 0,        /* enum ravinebowl_feature */
    RAVINEBOWL_NEAREST_FEATURE_NUMBER = 1, /* the number of the corner or edge; -1 within */
    RAVINEBOWL_NEAREST_GAP_UPPER = 2,      /* the gap, which is the squared distance in square millimetres: its upper number */
    RAVINEBOWL_NEAREST_GAP_LOWER = 3,      /* and its lower number */
    RAVINEBOWL_NEAREST_X = 4,              /* the nearest point is at X / D and Y / D */
    RAVINEBOWL_NEAREST_Y = 5,
    RAVINEBOWL_NEAREST_D = 6,
    RAVINEBOWL_NEAREST_LENGTH = 7
};

/* The places of the result list of ravinebowl_compare and ravinebowl_compare_records, and its length.
 * Done: places 4 to 12 have the answer, the corner of greatest gap. Spent: they have the worst so far, the greatest gap found in the steps
 * made, which is never above the answer's; where there is none yet place 4 is 0 and places 5 to 12 are -1. A comparison that is spent cannot
 * be continued: call again with more steps. A support corner is the corner of an outline that the sweep has come to; it goes
 * counterclockwise round each piece, so by falling numbers where the list is clockwise.
 * Places 14 to 22 have what places 4 to 12 have, in their order, of A's corners alone, and places 23 to 31 of B's; there is no clearance of
 * a side. Done: the corner of the outline's greatest gap; where all its gaps are 0, its corner 0, within. Spent: the outline's worst so far;
 * where there is none yet place 14, or 23, is 0 and the eight after it are -1. Of corners of one outline with equal gaps it is the one of
 * lowest number. Places 4 to 12 repeat the one of greater gap, A's where the gaps are equal; spent, the one that there is where the other
 * outline has none. */
enum ravinebowl_compare_place {
    RAVINEBOWL_COMPARE_KIND = 0,           /* enum ravinebowl_comparison */
    RAVINEBOWL_COMPARE_STEPS = 1,          /* the steps made: done, the number of edges of both outlines; spent, the allowance */
    RAVINEBOWL_COMPARE_SUPPORT_A = 2,      /* spent: the support corner of A; done: -1 */
    RAVINEBOWL_COMPARE_SUPPORT_B = 3,      /* spent: the support corner of B; done: -1 */
    RAVINEBOWL_COMPARE_SIDE = 4,           /* enum ravinebowl_side: the outline of the corner; 0 where there is none yet */
    RAVINEBOWL_COMPARE_CORNER = 5,         /* the number of the corner */
    RAVINEBOWL_COMPARE_FEATURE = 6,        /* enum ravinebowl_feature: what is nearest to it in the other outline */
    RAVINEBOWL_COMPARE_FEATURE_NUMBER = 7, /* the number of that corner or edge; -1 within */
    RAVINEBOWL_COMPARE_GAP_UPPER = 8,      /* the gap, which is the squared distance in square millimetres: its upper number */
    RAVINEBOWL_COMPARE_GAP_LOWER = 9,      /* and its lower number */
    RAVINEBOWL_COMPARE_X = 10,             /* the nearest point is at X / D and Y / D */
    RAVINEBOWL_COMPARE_Y = 11,
    RAVINEBOWL_COMPARE_D = 12,
    RAVINEBOWL_COMPARE_CLEARANCE = 13,     /* done: the smallest whole number of millimetres whose square is not below the gap, so not below
                                            * the distance, and above it by less than 1 mm; at most 45,255. Spent: -1 */
    RAVINEBOWL_COMPARE_SIDE_A = 14,        /* has RAVINEBOWL_SIDE_A; spent: 0 where A has no worst so far */
    RAVINEBOWL_COMPARE_CORNER_A = 15,
    RAVINEBOWL_COMPARE_FEATURE_A = 16,
    RAVINEBOWL_COMPARE_FEATURE_NUMBER_A = 17,
    RAVINEBOWL_COMPARE_GAP_UPPER_A = 18,
    RAVINEBOWL_COMPARE_GAP_LOWER_A = 19,
    RAVINEBOWL_COMPARE_X_A = 20,
    RAVINEBOWL_COMPARE_Y_A = 21,
    RAVINEBOWL_COMPARE_D_A = 22,
    RAVINEBOWL_COMPARE_SIDE_B = 23,        /* has RAVINEBOWL_SIDE_B; spent: 0 where B has no worst so far */
    RAVINEBOWL_COMPARE_CORNER_B = 24,
    RAVINEBOWL_COMPARE_FEATURE_B = 25,
    RAVINEBOWL_COMPARE_FEATURE_NUMBER_B = 26,
    RAVINEBOWL_COMPARE_GAP_UPPER_B = 27,
    RAVINEBOWL_COMPARE_GAP_LOWER_B = 28,
    RAVINEBOWL_COMPARE_X_B = 29,
    RAVINEBOWL_COMPARE_Y_B = 30,
    RAVINEBOWL_COMPARE_D_B = 31,
    RAVINEBOWL_COMPARE_LENGTH = 32
};

/* How many units of a mismatch sum make a square millimetre. */
#define RAVINEBOWL_MISMATCH_UNITS 1024

/* The place of the result list of ravinebowl_mismatch, and its length. */
enum ravinebowl_mismatch_place {
    RAVINEBOWL_MISMATCH_SUM = 0, /* in units of 1/1024 square millimetre; at most 1,073,741,824,000,000 */
    RAVINEBOWL_MISMATCH_LENGTH = 1
};

/* The place of the result list of ravinebowl_convex_hull, and its length. */
enum ravinebowl_convex_hull_place {
    RAVINEBOWL_CONVEX_HULL_COUNT = 0, /* how many corners the hull has: 3 to 256 */
    RAVINEBOWL_CONVEX_HULL_LENGTH = 1
};

/* The marks that are not the number of a corner. */
#define RAVINEBOWL_MARK_REPEATS (-1)   /* the point repeats an earlier one, whether that is a corner or not */
#define RAVINEBOWL_MARK_NO_CORNER (-2) /* it repeats no earlier point, and is no corner of the hull */

/* Compares outlines A and B, each of either orientation, in at most `allowance` steps and writes 32 numbers to `result`. It is done if the
 * allowance is not below the number of edges of both, and otherwise spent. When done, the gap is the squared Hausdorff distance, and A's gap
 * and B's are the two squared directed Hausdorff distances, from A to B and from B to A, of which it is the greater. With the corners of a
 * list in the opposite order the gaps, as values, and the clearance are the same; where gaps are equal another corner may be named.
 * Order: 100, then 1 to 6 for A, then 1 to 6 for B. */
struct ravinebowl_status ravinebowl_compare(const int32_t *a, size_t a_length, const int32_t *b, size_t b_length, uint32_t allowance,
                                            int64_t *result, size_t result_length);

/* Compares as ravinebowl_compare does, with the same 32 numbers, the outlines of two chains in one store of linked records: A's starts at
 * index `a_start`, B's at `b_start`. `records_length` counts numbers, not records. A start of 0 is an outline without corners, which gets 2.
 * Order: 100, then 10, then of A 11 and 12 as each index is met, 11 where both apply, at the end of the chain 2 to 6, and then the same of
 * B. 1 and 3 do not come: a chain of more than 256 corners, and one that comes back to a record, gets 11. */
struct ravinebowl_status ravinebowl_compare_records(const int32_t *records, size_t records_length, int32_t a_start, int32_t b_start,
                                                    uint32_t allowance, int64_t *result, size_t result_length);

/* Finds the mismatch sum of outlines A and B, each of either orientation, and writes 1 number to `result`: over every corner of each outline
 * its gap, the squared distance to the nearest point of the other, 0 in it, brought down to a whole number of units of 1/1024 square
 * millimetre, and those added. It is never above the exact sum of the gaps, and below it by less than a unit for each corner of both; it is
 * 0 exactly if every gap is below a unit. It is the same with the outlines exchanged, with the corners of a list in the opposite order, and
 * with a list that starts at another corner. Order: 100, then 1 to 6 for A, then 1 to 6 for B. */
struct ravinebowl_status ravinebowl_mismatch(const int32_t *a, size_t a_length, const int32_t *b, size_t b_length, int64_t *result,
                                             size_t result_length);

/* Finds the nearest point of an outline, of either orientation, to the point (x, y) and writes 7 numbers to `result`. With the corners in
 * the opposite order gap and point are the same. Order: 100, then 1 to 6, then 7. */
struct ravinebowl_status ravinebowl_nearest_point(int32_t x, int32_t y, const int32_t *outline, size_t outline_length, int64_t *result,
                                                  size_t result_length);

/* Removes a corner of a counterclockwise outline and writes the other corners to `out`, in their order; `out_length` must be
 * outline_length - 2. What it writes is an accepted outline, counterclockwise too. Order: 1 to 6, then 8, then 2, then 9. */
struct ravinebowl_status ravinebowl_remove_corner(const int32_t *outline, size_t outline_length, size_t corner, int32_t *out,
                                                  size_t out_length);

/* Inserts the point (x, y) as corner `place` of a counterclockwise outline and writes the corners of the result to `out`, in their order;
 * `out_length` must be outline_length + 2. `place` is from 0 to the number of corners: the point comes before what was corner `place`, or
 * after the last corner, and the corners after it get numbers one higher. What it writes is an accepted outline, counterclockwise too. It
 * undoes removing the corner `place`, whose x and y the caller has kept, and removing undoes it. Order: 1 to 6 for the outline, then 8, then
 * 7, then 3, then 9, and last 5 and 6 for the result, with places in the result. The status does not tell whether 5 or 6 is of the outline
 * or of the result: it is of the result exactly if the outline is accepted, so that ravinebowl_remove_corner gives neither for it. */
struct ravinebowl_status ravinebowl_insert_corner(const int32_t *outline, size_t outline_length, size_t place, int32_t x, int32_t y,
                                                  int32_t *out, size_t out_length);

/* Finds the convex hull of up to 256 points in any order, repeats and points along straight edges among them: the outline of the smallest
 * convex piece that holds them all. It starts at the corner of least y, of equals the one of least x, goes counterclockwise, and has no
 * straight corner: it is an accepted outline. Its corners go to `out`, whose length must be points_length, with zeros after the last corner;
 * a mark for each point goes to `marks`, whose length must be points_length / 2; and 1 number, the count of the corners, to `result`: the
 * outline is the first 2 * count numbers of `out`. The mark of a point is RAVINEBOWL_MARK_REPEATS if it repeats an earlier point, else the
 * number of the corner that it is, else RAVINEBOWL_MARK_NO_CORNER; so the number of each corner is the mark of just one point. Where the
 * call answers, the same points in another order give the same `out` and `result`. None of `out`, `marks` and `result` may overlap another
 * list.
 * Order: 100, then 1, 3, 4, then 9 for either list, then 2. */
struct ravinebowl_status ravinebowl_convex_hull(const int32_t *points, size_t points_length, int32_t *out, size_t out_length, int32_t *marks,
                                                size_t marks_length, int64_t *result, size_t result_length);

#ifdef __cplusplus
}
#endif

#endif
