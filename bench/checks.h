/* The checks of a list alone, as the library makes them: of an outline of four corners or more one is removed, but with
   no room to write the others, which is refused (RAVINEBOWL_WRONG_LENGTH) after all else is checked. */
#include "ravinebowl.h"

static struct ravinebowl_status check(const int32_t *s, size_t length) {
    int32_t none;
    return ravinebowl_remove_corner(s, length, 0, &none, 0);
}
