/* Inserting and removing a corner in plain C, for the benchmark alone: the outline is checked in one pass, and so is
   the result of inserting, which is built on the stack and then written. What remains of an accepted outline needs no
   check. The checks are those of plain_reading.h, numbers and limits those of ravinebowl.h. */
#include <string.h>
#include "plain_reading.h"
#include "ravinebowl.h"

static Refusal refuse(uint32_t number) { return (Refusal){number, 0, 0}; }

/* Four corners at a time: for few corners that is faster than one memcpy, and for many about as fast. */
static void copy(Corner *out, const Corner *corners, size_t n) {
    size_t i = 0;
    for (; i + 4 <= n; i += 4) memcpy(out + i, corners + i, 4 * sizeof *out);
    for (; i < n; i++) memcpy(out + i, corners + i, sizeof *out);
}

/* As ravinebowl_insert_corner and ravinebowl_remove_corner. gcc may not inline these, or tell what they are called
   with: they are calls as the proved ones are. */
static __attribute__((noipa)) Refusal plain_insert(const int32_t *s, size_t length, size_t place, int32_t x, int32_t y,
                                                   int32_t *out, size_t out_length) {
    const Corner *c = (const Corner *)s;
    size_t n = length / 2;
    Refusal refusal = check_list(s, length);
    if (refusal.number) return refusal;
    if (place > n) return refuse(RAVINEBOWL_NO_SUCH_CORNER);
    if ((out_of_range(x) | out_of_range(y)) >> 31) return refuse(RAVINEBOWL_POINT_OUT_OF_RANGE);
    if (n == MOST) return refuse(RAVINEBOWL_TOO_MANY_CORNERS);
    if (out_length != length + 2) return refuse(RAVINEBOWL_WRONG_LENGTH);
    Corner result[MOST];
    copy(result, c, place);
    result[place] = (Corner){x, y};
    copy(result + place + 1, c + place, n - place);
    refusal = check_shape(result, n + 1);
    if (refusal.number == 0) copy((Corner *)out, result, n + 1);
    return refusal;
}

static __attribute__((noipa)) Refusal plain_remove(const int32_t *s, size_t length, size_t corner, int32_t *out,
                                                   size_t out_length) {
    const Corner *c = (const Corner *)s;
    size_t n = length / 2;
    Refusal refusal = check_list(s, length);
    if (refusal.number) return refusal;
    if (corner >= n) return refuse(RAVINEBOWL_NO_SUCH_CORNER);
    if (n == FEWEST) return refuse(RAVINEBOWL_TOO_FEW_CORNERS);
    if (out_length != length - 2) return refuse(RAVINEBOWL_WRONG_LENGTH);
    copy((Corner *)out, c, corner);
    copy((Corner *)out + corner, c + corner + 1, n - corner - 1);
    return refusal;
}
