/* Comparing the outlines of two chains of linked records in plain C, for the benchmark alone: each chain is walked into
   a list, with the checks of its indexes, and the library compares the lists. Numbers are those of ravinebowl.h. */
#include <stddef.h>
#include <stdint.h>
#include "ravinebowl.h"

typedef struct ravinebowl_status Status;

/* The corners of a chain as a list. */
typedef struct {
    size_t length;
    int32_t numbers[2 * RAVINEBOWL_MOST_CORNERS];
} List;

/* Walks a chain: its corners in `out`; or 11 or 12, with the number of corners read. */
static Status walk(const int32_t *records, size_t count, int32_t start, uint32_t side, List *out) {
    size_t n = 0;
    for (int32_t i = start; i != 0; n++) {
        if (n == RAVINEBOWL_MOST_CORNERS) return (Status){RAVINEBOWL_CHAIN_TOO_LONG, side, 1, n, 0};
        if (i < 0 || (size_t)i >= count) return (Status){RAVINEBOWL_NO_SUCH_RECORD, side, 1, n, 0};
        const int32_t *record = &records[RAVINEBOWL_RECORD_LENGTH * (size_t)i];
        out->numbers[2 * n] = record[0];
        out->numbers[2 * n + 1] = record[1];
        i = record[2];
    }
    out->length = 2 * n;
    return (Status){.code = RAVINEBOWL_ANSWERED};
}

/* As ravinebowl_compare_records. gcc may not inline it, or tell what it is called with: it is a call as the proved one
   is. */
static __attribute__((noipa)) Status plain_compare_records(const int32_t *records, size_t length, int32_t a_start,
                                                           int32_t b_start, uint32_t allowance, int64_t *result,
                                                           size_t result_length) {
    if (result_length != RAVINEBOWL_COMPARE_LENGTH) return (Status){.code = RAVINEBOWL_WRONG_RESULT_LENGTH};
    if (length % RAVINEBOWL_RECORD_LENGTH) return (Status){RAVINEBOWL_PARTIAL_RECORD, RAVINEBOWL_SIDE_A, 0, 0, 0};
    size_t count = length / RAVINEBOWL_RECORD_LENGTH;
    List a, b;
    Status of_a = walk(records, count, a_start, RAVINEBOWL_SIDE_A, &a);
    if (of_a.code != RAVINEBOWL_ANSWERED) return of_a;
    Status of_b = walk(records, count, b_start, RAVINEBOWL_SIDE_B, &b);
    if (of_b.code == RAVINEBOWL_ANSWERED)
        return ravinebowl_compare(a.numbers, a.length, b.numbers, b.length, allowance, result, result_length);
    /* 2 to 6 of A come first: beside a list without corners A is refused for its own sake, or else B is. */
    of_a = ravinebowl_compare(a.numbers, a.length, NULL, 0, allowance, result, result_length);
    return of_a.side == RAVINEBOWL_SIDE_A ? of_a : of_b;
}
