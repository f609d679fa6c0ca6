/* Times comparing at 2×4, 2×8, 2×32, 2×128 and 2×256 corners: the proved call, the same with both lists clockwise, the
   checks of both lists alone, and beside them in plain C the steps of plain_steps.h and the sweep of plain.h, both with
   acceptance, and the exhaustive search of plain.h, on the same outlines in one run. Of the random rows every turn
   takes another pair, of so many that the processor cannot learn which way their branches go. Each figure is the median
   of 31 runs, in nanoseconds for a comparison. */
#include "outlines.h"
#include "plain_steps.h"

/* What a comparison gives: the clearance and the upper numbers of the gap and of both sides' gaps, B's twice, added. */
static uint64_t digest(uint64_t upper, uint64_t clearance, uint64_t upper_a, uint64_t upper_b) {
    return upper + clearance + upper_a + 2 * upper_b;
}

/* The same of a report in plain C, all of which is computed. */
static uint64_t digest_of(const Done *done) {
    __asm__ volatile("" ::"r"(done) : "memory");
    return digest(done->answer.gap.upper, done->clearance, done->a.gap.upper, done->b.gap.upper);
}

/* Compares two lists by the call into a list of RAVINEBOWL_COMPARE_LENGTH numbers. */
static uint32_t compare(const Corner *a, const Corner *b, size_t n, int64_t *result) {
    return ravinebowl_compare(&a[0].x, 2 * n, &b[0].x, 2 * n, RAVINEBOWL_ENOUGH_STEPS, result, RAVINEBOWL_COMPARE_LENGTH)
        .code;
}

static uint64_t compare_digest(const Corner *a, const Corner *b, size_t n) {
    int64_t result[RAVINEBOWL_COMPARE_LENGTH];
    if (compare(a, b, n, result) != RAVINEBOWL_ANSWERED) return 0;
    return digest(result[RAVINEBOWL_COMPARE_GAP_UPPER], result[RAVINEBOWL_COMPARE_CLEARANCE],
                  result[RAVINEBOWL_COMPARE_GAP_UPPER_A], result[RAVINEBOWL_COMPARE_GAP_UPPER_B]);
}

static uint64_t call(Pairs *pairs, uint32_t turns) {
    uint64_t greatest = 0;
    for (uint32_t i = 0; i < turns; i++) {
        const Pair *p = take_turn(pairs);
        greatest = greater(greatest, compare_digest(p->a, p->b, p->n));
    }
    return greatest;
}

static uint64_t call_clockwise(Pairs *pairs, uint32_t turns) {
    uint64_t greatest = 0;
    for (uint32_t i = 0; i < turns; i++) {
        const Pair *p = take_turn(pairs);
        greatest = greater(greatest, compare_digest(p->clockwise_a, p->clockwise_b, p->n));
    }
    return greatest;
}

/* A comparison of two lists in plain C. Gives 0 if one is refused. */
typedef int Compare(const int32_t *a, size_t a_length, const int32_t *b, size_t b_length, Done *done);

static inline uint64_t in_plain_c(Compare *compare_lists, Pairs *pairs, uint32_t turns) {
    uint64_t greatest = 0;
    for (uint32_t i = 0; i < turns; i++) {
        const Pair *p = take_turn(pairs);
        Done done;
        if (compare_lists(&p->a[0].x, 2 * p->n, &p->b[0].x, 2 * p->n, &done)) greatest = greater(greatest, digest_of(&done));
    }
    return greatest;
}

static uint64_t plain(Pairs *pairs, uint32_t turns) { return in_plain_c(plain_compare, pairs, turns); }

static uint64_t steps(Pairs *pairs, uint32_t turns) { return in_plain_c(plain_steps, pairs, turns); }

static uint64_t exhaustive(Pairs *pairs, uint32_t turns) {
    uint64_t greatest = 0;
    for (uint32_t i = 0; i < turns; i++) {
        const Pair *p = take_turn(pairs);
        Done done;
        plain_search(p->a, p->n, p->b, p->n, &done);
        greatest = greater(greatest, digest_of(&done));
    }
    return greatest;
}

/* The turns of a run of the exhaustive search: the time of a turn grows as the square of the corners. */
static uint32_t quadratic(size_t n) { return 4000 / (n * (n / 4)) + 1; }

static const Way ways[WAYS] = {
    {call, linear}, {call_clockwise, linear}, {checks, linear}, {plain, linear}, {exhaustive, quadratic}, {steps, linear}};

/* A corner with its gap as nine of the numbers of a result. */
static void write_gap(const Gap *g, int64_t *out) {
    static const int64_t features[] = {RAVINEBOWL_WITHIN, RAVINEBOWL_CORNER, RAVINEBOWL_EDGE};
    int64_t numbers[] = {g->side ? RAVINEBOWL_SIDE_B : RAVINEBOWL_SIDE_A, g->corner, features[g->kind],
                         g->kind == WITHIN ? -1 : (int64_t)g->number, g->gap.upper, g->gap.lower, g->x, g->y, g->gap.lower};
    memcpy(out, numbers, sizeof numbers);
}

/* Whether a report is the result of the call. */
static int is_result(const Done *done, const int64_t *result) {
    int64_t expected[RAVINEBOWL_COMPARE_LENGTH] = {RAVINEBOWL_DONE, done->steps, -1, -1};
    write_gap(&done->answer, &expected[RAVINEBOWL_COMPARE_SIDE]);
    expected[RAVINEBOWL_COMPARE_CLEARANCE] = done->clearance;
    write_gap(&done->a, &expected[RAVINEBOWL_COMPARE_SIDE_A]);
    write_gap(&done->b, &expected[RAVINEBOWL_COMPARE_SIDE_B]);
    return memcmp(expected, result, sizeof expected) == 0;
}

/* Whether the call and the plain programs report the same of every pair: all numbers, and those of the sweep of the
   clockwise lists too. */
static int same_reports(Pairs pairs) {
    int64_t result[RAVINEBOWL_COMPARE_LENGTH];
    for (size_t k = 0; k < pairs.count; k++) {
        const Pair *p = &pairs.pairs[k];
        Done done;
        if (compare(p->a, p->b, p->n, result) != RAVINEBOWL_ANSWERED) return 0;
        if (!plain_compare(&p->a[0].x, 2 * p->n, &p->b[0].x, 2 * p->n, &done) || !is_result(&done, result)) return 0;
        if (!plain_steps(&p->a[0].x, 2 * p->n, &p->b[0].x, 2 * p->n, &done) || !is_result(&done, result)) return 0;
        plain_search(p->a, p->n, p->b, p->n, &done);
        if (!is_result(&done, result)) return 0;
        if (compare(p->clockwise_a, p->clockwise_b, p->n, result) != RAVINEBOWL_ANSWERED) return 0;
        if (!plain_compare(&p->clockwise_a[0].x, 2 * p->n, &p->clockwise_b[0].x, 2 * p->n, &done)) return 0;
        if (!is_result(&done, result)) return 0;
        if (!plain_steps(&p->clockwise_a[0].x, 2 * p->n, &p->clockwise_b[0].x, 2 * p->n, &done)) return 0;
        if (!is_result(&done, result)) return 0;
    }
    return 1;
}

static void row(const char *name, size_t n, const double *t) {
    printf("| %s | 2×%zu | %.0f | %.0f | %.0f | %.0f | %.2f | %.0f | %.2f | %.0f | %.2f |\n", name, n, t[CALL], t[CLOCKWISE],
           t[CHECKS], t[STEPS], t[CALL] / t[STEPS], t[PLAIN], t[CALL] / t[PLAIN], t[EXHAUSTIVE], t[CALL] / t[EXHAUSTIVE]);
}

/* 4,096 pairs of few corners, and at least 256. */
static size_t pair_count(size_t n) { return n <= 8 ? 4096 : n <= 32 ? 1024 : 256; }

static void time_random(const char *name, enum Placing placing, size_t n) {
    Pairs pairs = {make_random_pairs(placing, n, pair_count(n), n), pair_count(n), 0};
    if (!same_reports(pairs)) {
        fprintf(stderr, "%s, 2x%zu: the reports differ\n", name, n);
        exit(1);
    }
    time_set(name, pairs, ways, row);
    free_pairs((Pair *)pairs.pairs);
}

int main(void) {
    static const size_t counts[] = {4, 8, 32, 128, 256};
    puts("| outlines | corners | call | clockwise | checks | plain steps | ratio | plain sweep | ratio | exhaustive | ratio |");
    puts("|---|---|---|---|---|---|---|---|---|---|---|");
    for (int i = 0; i < 5; i++) {
        time_circles(counts[i], ways, row);
        time_random("random, apart", APART, counts[i]);
        time_random("random, overlapping", OVERLAPPING, counts[i]);
        time_random("random, nested", NESTED, counts[i]);
    }
    return 0;
}
