/* Times comparing the outlines of two chains of linked records at 2×4, 2×8, 2×32 and 2×256 corners: the proved call,
   and beside it the plain walk of plain_records.h, which ends in ravinebowl_compare, and ravinebowl_compare alone on
   lists of the same corners, in one run. The records are in order, and the same each turn; or they are scattered over a
   store, and others each turn. Each figure is the median of 31 runs, in nanoseconds for a comparison. */
#include <string.h>
#include "outlines.h"
#include "plain_records.h"

/* How many records a store has, and how many copies of a pair at the most, of 2×4 corners. */
enum { RECORDS = 1 << 20, COPIES = RECORDS / 8 };

/* A store with copies of a pair, and the one whose turn it is. */
typedef struct {
    int32_t records[RECORDS * RAVINEBOWL_RECORD_LENGTH];
    size_t copies, turn;
    struct {
        int32_t a, b;
    } starts[COPIES];
} Store;

static Store in_order, scattered;

/* Lays out a chain, its corner i in the record with the index indexes[i]. Gives the start. */
static int32_t add_chain(int32_t *records, const Corner *corners, size_t n, const int32_t *indexes) {
    for (size_t i = 0; i < n; i++) {
        int32_t *record = &records[RAVINEBOWL_RECORD_LENGTH * indexes[i]];
        record[0] = corners[i].x;
        record[1] = corners[i].y;
        record[2] = i + 1 < n ? indexes[i + 1] : 0;
    }
    return indexes[0];
}

static void lay_out(Store *store, const Pair *p, size_t copies, const int32_t *indexes) {
    store->copies = copies;
    store->turn = 0;
    for (size_t k = 0; k < copies; k++, indexes += 2 * p->n) {
        store->starts[k].a = add_chain(store->records, p->a, p->n, indexes);
        store->starts[k].b = add_chain(store->records, p->b, p->n, indexes + p->n);
    }
}

typedef Status CompareRecords(const int32_t *, size_t, int32_t, int32_t, uint32_t, int64_t *, size_t);

/* Compares the pair whose turn it is. Every result has RAVINEBOWL_COMPARE_LENGTH numbers. */
static uint32_t compare(CompareRecords *f, Store *store, int64_t *result) {
    size_t k = store->turn;
    store->turn = next(store->copies, k);
    return f(store->records, RECORDS * RAVINEBOWL_RECORD_LENGTH, store->starts[k].a, store->starts[k].b,
             RAVINEBOWL_ENOUGH_STEPS, result, RAVINEBOWL_COMPARE_LENGTH)
        .code;
}

static uint32_t compare_lists(const Pair *p, int64_t *result) {
    return ravinebowl_compare(&p->a[0].x, 2 * p->n, &p->b[0].x, 2 * p->n, RAVINEBOWL_ENOUGH_STEPS, result,
                              RAVINEBOWL_COMPARE_LENGTH)
        .code;
}

static uint64_t chains(CompareRecords *f, Store *store, uint32_t turns) {
    int64_t result[RAVINEBOWL_COMPARE_LENGTH];
    uint64_t greatest = 0;
    for (uint32_t i = 0; i < turns; i++)
        if (compare(f, store, result) == RAVINEBOWL_ANSWERED)
            greatest = greater(greatest, result[RAVINEBOWL_COMPARE_GAP_UPPER]);
    return greatest;
}

static uint64_t lists(Pairs *pairs, uint32_t turns) {
    int64_t result[RAVINEBOWL_COMPARE_LENGTH];
    uint64_t greatest = 0;
    for (uint32_t i = 0; i < turns; i++)
        if (compare_lists(take_turn(pairs), result) == RAVINEBOWL_ANSWERED)
            greatest = greater(greatest, result[RAVINEBOWL_COMPARE_GAP_UPPER]);
    return greatest;
}

/* The pair is in the stores. */
static uint64_t call_in_order(Pairs *pairs, uint32_t turns) {
    (void)pairs;
    return chains(ravinebowl_compare_records, &in_order, turns);
}

static uint64_t plain_in_order(Pairs *pairs, uint32_t turns) {
    (void)pairs;
    return chains(plain_compare_records, &in_order, turns);
}

static uint64_t call_scattered(Pairs *pairs, uint32_t turns) {
    (void)pairs;
    return chains(ravinebowl_compare_records, &scattered, turns);
}

static uint64_t plain_scattered(Pairs *pairs, uint32_t turns) {
    (void)pairs;
    return chains(plain_compare_records, &scattered, turns);
}

enum { LISTS, IN_ORDER, PLAIN_IN_ORDER, SCATTERED, PLAIN_SCATTERED, RECORD_WAYS };

static const Way record_ways[RECORD_WAYS] = {{lists, linear},
                                             {call_in_order, linear},
                                             {plain_in_order, linear},
                                             {call_scattered, linear},
                                             {plain_scattered, linear}};

/* Whether every copy of the pair gives the numbers that its lists give, by the call and by the plain walk. */
static int store_agrees(const Pair *p, Store *store) {
    int64_t expected[RAVINEBOWL_COMPARE_LENGTH], result[RAVINEBOWL_COMPARE_LENGTH];
    if (compare_lists(p, expected) != RAVINEBOWL_ANSWERED) return 0;
    for (size_t k = 0; k < 2 * store->copies; k++) {
        CompareRecords *f = k < store->copies ? ravinebowl_compare_records : plain_compare_records;
        memset(result, 0, sizeof result);
        if (compare(f, store, result) != RAVINEBOWL_ANSWERED || memcmp(result, expected, sizeof result) != 0) return 0;
    }
    return 1;
}

static void time_chains(const char *name, const Pair *p, const int32_t *rising, const int32_t *shuffled) {
    double t[RECORD_WAYS];
    lay_out(&in_order, p, 1, rising);
    lay_out(&scattered, p, (RECORDS - 1) / (2 * p->n), shuffled);
    if (!store_agrees(p, &in_order) || !store_agrees(p, &scattered)) {
        fprintf(stderr, "%s, 2x%zu: an outline is refused, or the answers differ\n", name, p->n);
        exit(1);
    }
    medians((Pairs){p, 1, 0}, record_ways, RECORD_WAYS, t);
    printf("| %s | 2×%zu | %.0f | %.0f | %.0f | %.2f | %.0f | %.0f | %.2f |\n", name, p->n, t[LISTS], t[IN_ORDER],
           t[PLAIN_IN_ORDER], t[IN_ORDER] / t[PLAIN_IN_ORDER], t[SCATTERED], t[PLAIN_SCATTERED],
           t[SCATTERED] / t[PLAIN_SCATTERED]);
}

/* The indexes from 1 on, in order or, after a shuffle, at random. */
static void fill(int32_t *indexes, int32_t count) {
    for (int32_t i = 0; i < count; i++) indexes[i] = i + 1;
}

static void shuffle(int32_t *indexes, int32_t count) {
    for (int32_t i = count - 1; i > 0; i--) {
        int32_t j = rand() % (i + 1), kept = indexes[i];
        indexes[i] = indexes[j];
        indexes[j] = kept;
    }
}

int main(void) {
    static const size_t counts[] = {4, 8, 32, 256};
    static int32_t rising[2 * MOST], shuffled[RECORDS - 1];
    srand(1);
    fill(rising, 2 * MOST);
    fill(shuffled, RECORDS - 1);
    shuffle(shuffled, RECORDS - 1);
    puts("| outlines | corners | lists | in order | plain | ratio | scattered | plain | ratio |");
    puts("|---|---|---|---|---|---|---|---|---|");
    for (int i = 0; i < 4; i++) {
        Pair *p = new_pairs(counts[i], 1);
        make_crossing(p);
        time_chains("crossing", p, rising, shuffled);
        make_apart(p);
        time_chains("apart", p, rising, shuffled);
        free_pairs(p);
    }
    return 0;
}
