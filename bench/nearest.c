/* Times the call for the nearest point, and its core alone, at 4, 32 and 256 corners.
   For each count: an outline of points on a circle, and 1,000 points; all within the piece (the longest pass), or all outside.
   The call checks the list each time; the core has it checked once. Each figure is the median of 31 runs, in nanoseconds. */
#include <math.h>
#include <stdint.h>
#include <stdio.h>
#include <stdlib.h>
#include "clock.h"
#include "ravinebowl.h"

enum { POINTS = 1000, RUNS = 31 };

/* The nearest point for each of some points. Both ways give the greatest digest of an answer, or 0 where the outline is refused. */
uint64_t timing_core(const int32_t *s, size_t n, const int32_t *points, size_t m);

/* As `digest` of crates/timing: a number that the gap and the nearest point bear on. */
static int64_t digest(const int64_t *result) {
    if (result[RAVINEBOWL_NEAREST_X] < result[RAVINEBOWL_NEAREST_Y]) return result[RAVINEBOWL_NEAREST_GAP_UPPER];
    return result[RAVINEBOWL_NEAREST_GAP_LOWER];
}

static uint64_t call(const int32_t *s, size_t n, const int32_t *points, size_t m) {
    int64_t greatest = 0;
    for (size_t i = 0; i + 1 < m; i += 2) {
        int64_t result[RAVINEBOWL_NEAREST_LENGTH];
        struct ravinebowl_status status =
            ravinebowl_nearest_point(points[i], points[i + 1], s, n, result, RAVINEBOWL_NEAREST_LENGTH);
        if (status.code == RAVINEBOWL_ANSWERED && digest(result) > greatest) greatest = digest(result);
    }
    return (uint64_t)greatest;
}

/* Nanoseconds for each point. */
static double median(uint64_t (*f)(const int32_t *, size_t, const int32_t *, size_t), const int32_t *s, size_t n, const int32_t *points) {
    static volatile uint64_t sink;
    double run[RUNS];
    for (int i = 0; i < RUNS; i++) {
        double start = now();
        sink = f(s, n, points, 2 * POINTS);
        run[i] = (now() - start) / POINTS;
    }
    qsort(run, RUNS, sizeof run[0], by_size);
    return run[RUNS / 2];
}

/* x and y of `count` points on circles of radius `least` to `most`, evenly or at random. */
static void on_circle(int32_t *out, int count, double least, double most, int even) {
    for (int i = 0; i < count; i++) {
        double turn = even ? (double)i / count : (double)rand() / RAND_MAX;
        double r = least + (most - least) * rand() / RAND_MAX;
        out[2 * i] = (int32_t)lround(r * cos(2 * M_PI * turn));
        out[2 * i + 1] = (int32_t)lround(r * sin(2 * M_PI * turn));
    }
}

int main(void) {
    static const int counts[] = {4, 32, 256};
    int32_t s[512], within[2 * POINTS], outside[2 * POINTS];
    srand(1);
    on_circle(within, POINTS, 0, 5000, 0);
    on_circle(outside, POINTS, 9000, 16000, 0);
    puts("corners  core within  core outside  call within  call outside   (ns for each point)");
    for (int i = 0; i < 3; i++) {
        int n = counts[i];
        on_circle(s, n, 8000, 8000, 1);
        uint64_t answer = timing_core(s, 2 * n, outside, 2 * POINTS);
        if (answer == 0 || answer != call(s, 2 * n, outside, 2 * POINTS)) {
            fputs("the outline is refused, or the answers differ\n", stderr);
            return 1;
        }
        printf("%7d  %11.0f  %12.0f  %11.0f  %12.0f\n", n, median(timing_core, s, 2 * n, within), median(timing_core, s, 2 * n, outside),
               median(call, s, 2 * n, within), median(call, s, 2 * n, outside));
    }
    return 0;
}
