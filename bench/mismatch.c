/* Times the mismatch sum at 2×4, 2×32, 2×128 and 2×256 corners: the proved call, the same with both lists clockwise,
   the checks of both lists alone, and beside them the passes and the exhaustive search of plain_mismatch.h, on the same
   outlines in one run. What the call takes more than the checks is its passes over the edges, one for each corner. Each
   figure is the median of 31 runs, in nanoseconds for a sum. */
#include "outlines.h"
#include "plain_mismatch.h"

static uint64_t sum_of(const Corner *a, const Corner *b, size_t n) {
    int64_t result[RAVINEBOWL_MISMATCH_LENGTH];
    struct ravinebowl_status status =
        ravinebowl_mismatch(&a[0].x, 2 * n, &b[0].x, 2 * n, result, RAVINEBOWL_MISMATCH_LENGTH);
    return status.code == RAVINEBOWL_ANSWERED ? result[RAVINEBOWL_MISMATCH_SUM] : 0;
}

static uint64_t call(Pairs *pairs, uint32_t turns) {
    uint64_t greatest = 0;
    for (uint32_t i = 0; i < turns; i++) {
        const Pair *p = take_turn(pairs);
        greatest = greater(greatest, sum_of(p->a, p->b, p->n));
    }
    return greatest;
}

static uint64_t call_clockwise(Pairs *pairs, uint32_t turns) {
    uint64_t greatest = 0;
    for (uint32_t i = 0; i < turns; i++) {
        const Pair *p = take_turn(pairs);
        greatest = greater(greatest, sum_of(p->clockwise_a, p->clockwise_b, p->n));
    }
    return greatest;
}

static uint64_t plain(Pairs *pairs, uint32_t turns) {
    uint64_t greatest = 0;
    for (uint32_t i = 0; i < turns; i++) {
        const Pair *p = take_turn(pairs);
        __asm__ volatile("" ::: "memory");
        greatest = greater(greatest, plain_mismatch(p->a, p->n, p->b, p->n));
    }
    return greatest;
}

static uint64_t exhaustive(Pairs *pairs, uint32_t turns) {
    uint64_t greatest = 0;
    for (uint32_t i = 0; i < turns; i++) {
        const Pair *p = take_turn(pairs);
        __asm__ volatile("" ::: "memory");
        greatest = greater(greatest, plain_mismatch_search(p->a, p->n, p->b, p->n));
    }
    return greatest;
}

/* The turns of a run of all but the checks: the time of a turn grows as the square of the corners. */
static uint32_t quadratic(size_t n) { return 100000 / (n * n) + 1; }

static const Way ways[WAYS] = {
    {call, quadratic}, {call_clockwise, quadratic}, {checks, linear}, {plain, quadratic}, {exhaustive, quadratic}};

static void row(const char *name, size_t n, const double *t) {
    double passes = t[CALL] - t[CHECKS];
    printf("| %s | 2×%zu | %.0f | %.0f | %.0f | %.0f | %.1f | %.0f | %.2f | %.0f | %.2f |\n", name, n, t[CALL], t[CLOCKWISE],
           t[CHECKS], passes, passes / (2 * n), t[PLAIN], passes / t[PLAIN], t[EXHAUSTIVE], t[EXHAUSTIVE] / passes);
}

int main(void) {
    static const size_t counts[] = {4, 32, 128, 256};
    puts("| outlines | corners | call | clockwise | checks | passes | for a corner | plain | ratio | exhaustive | ratio |");
    puts("|---|---|---|---|---|---|---|---|---|---|---|");
    for (int i = 0; i < 4; i++) time_circles(counts[i], ways, row);
    return 0;
}
