"""Reading an outline, the nearest point, removing a corner and the mismatch sum, from the requirements alone, and four C
functions, from the requirements and embed/ravinebowl.h alone.

Written apart from the proved code, for comparison with it. `answers` gives the lines that the program `call_cases`
prints for a case:
    read ORIENTATION COUNT X Y ..                        read refused NUMBER [PLACE..]
    read_strict COUNT X Y ..                             read_strict refused NUMBER [PLACE..]
    nearest FEATURE GAP X Y                              nearest refused NUMBER [PLACE..]
    remove done list NUMBER ..                           remove refused NUMBER [PLACE..] list NUMBER ..
    mismatch NUMBER                                      mismatch refused SIDE NUMBER [PLACE..]
    c_nearest, c_remove, c_compare, c_mismatch: CODE SIDE PLACES FIRST SECOND list NUMBER ..
After `list` stands what is in the list to write after the call; before the call every place of it has FILL. The
orientation is `counterclockwise` or `clockwise`; the corners read are those held.

Removing a corner has the strict reading, the nearest point, comparing and the mismatch sum the default one; both are in
`reference.py`. The mismatch sum is over every corner of A and every corner of B: 1024 times its gap, brought down to a
whole number. It is refused as comparing is, and has no allowance.
"""
import fractions

from reference import LIMIT, Comparing, Outline, check_point_reversal, clearance, corners, default_refusal, nearest
from reference import refusal

FILL = 77
ABSENT = -1
WRONG_RESULT_LENGTH = (100,)
NEAREST_LENGTH = 7
COMPARE_LENGTH = 32
MISMATCH_LENGTH = 1
# How many units of a mismatch sum make a square millimetre.
UNITS = 1024
DONE, SPENT = 0, 1
NO_SIDE, SIDE_A, SIDE_B = 0, 1, 2
FEATURES = ["within", "corner", "edge"]


def line(*words):
    return " ".join(map(str, words))


def point_refusal(point, numbers):
    return default_refusal(numbers) or (None if all(-LIMIT <= z <= LIMIT for z in point) else (7,))


def removal_refusal(numbers, corner, length):
    found = refusal(numbers)
    if found:
        return found
    if corner >= len(numbers) // 2:
        return (8,)
    if len(numbers) == 6:
        return (2,)
    return None if length == len(numbers) - 2 else (9,)


def removed(numbers, corner, length):
    """The refusal or None, and the list to write after the call."""
    found = removal_refusal(numbers, corner, length)
    return found, [FILL] * length if found else numbers[:2 * corner] + numbers[2 * corner + 2:]


def pair_refusal(a, b):
    """The refusal of A, or else that of B, and its side; or None, and no side."""
    for side, numbers in ((SIDE_A, a), (SIDE_B, b)):
        found = default_refusal(numbers)
        if found:
            return found, side
    return None, NO_SIDE


def read_outline(numbers):
    """The default reading."""
    found = default_refusal(numbers)
    if found:
        return line("read refused", *found)
    outline = Outline(corners(numbers))
    orientation = "clockwise" if outline.clockwise else "counterclockwise"
    return line("read", orientation, len(outline.held), *(z for corner in outline.held for z in corner))


def read_outline_strict(numbers):
    found = refusal(numbers)
    return line("read_strict refused", *found) if found else line("read_strict", len(numbers) // 2, *numbers)


def nearest_point(point, numbers):
    found = point_refusal(point, numbers)
    if found:
        return line("nearest refused", *found)
    check_point_reversal(point, corners(numbers))
    near = nearest(point, Outline(corners(numbers)))
    return line("nearest", near.feature, near.gap, f"{near.x}/{near.lower}", f"{near.y}/{near.lower}")


def remove_corner(numbers, corner, length):
    found, out = removed(numbers, corner, length)
    return line("remove", *(("refused",) + found if found else ("done",)), "list", *out)


def gaps(a, b):
    """Of two accepted lists of corners: the gaps of A's corners, and those of B's."""
    comparing = Comparing(a, b)
    return [[comparing.gap(corner) for corner in comparing.corners_of(s)] for s in (0, 1)]


def mismatch_sum(a, b):
    return sum(UNITS * gap.upper // gap.lower for side in gaps(a, b) for gap in side)


def check_mismatch(a, b):
    """Two accepted lists of corners: the sum is the same with the lists exchanged, with the corners of one or both in
    the opposite order, and with a list from another corner. It is not above the exact sum, and below it by less than
    the number of corners; it is 0 exactly if every gap is below a unit. The gaps here are squared distances from the
    corners to their nearest points."""
    found = mismatch_sum(a, b)
    others = [(b, a), (a[::-1], b), (a, b[::-1]), (a[::-1], b[::-1]), (a[1:] + a[:1], b), (a, b[-1:] + b[:-1])]
    assert all(mismatch_sum(*other) == found for other in others), "another sum of the same two outlines"
    comparing = Comparing(a, b)
    exact = []
    for s, piece in enumerate((a, b)):
        for i, (x, y) in enumerate(piece):
            near = comparing.nearest(s, i)
            dx, dy = (z - fractions.Fraction(at, near.lower) for z, at in ((x, near.x), (y, near.y)))
            exact.append(UNITS * (dx * dx + dy * dy))
    assert found == sum(one // 1 for one in exact), "the gaps are not the squared distances"
    assert found <= sum(exact) < found + len(exact), "too far from the exact sum"
    assert (found == 0) == all(one < 1 for one in exact), "0 for other gaps than those below a unit"


def mismatch(a, b):
    found, side = pair_refusal(a, b)
    if found:
        return line("mismatch refused", "AB"[side - SIDE_A], *found)
    return line("mismatch", mismatch_sum(corners(a), corners(b)))


def status(found, side):
    """Code, side, how many places, and the two places, 0 where there is none."""
    code, *places = found or (0,)
    return [code, side, len(places)] + (places + [0, 0])[:2]


def nearest_places(near):
    """The feature and its number, the gap, and the nearest point."""
    kind, *number = near.feature.split()
    return [FEATURES.index(kind), *(number or [ABSENT]), near.gap.upper, near.gap.lower, near.x, near.y, near.lower]


def corner_places(comparing, corner):
    """The side, the corner, and the places of its nearest point; for none, no side and nothing else."""
    if corner is None:
        return [NO_SIDE] + [ABSENT] * 8
    s, i = corner
    return [[SIDE_A, SIDE_B][s], i] + nearest_places(comparing.nearest(s, i))


def compare_places(a, b, allowance):
    """Kind, steps, support corners, the overall corner and the clearance; then A's corner, and B's."""
    comparing = Comparing(corners(a), corners(b))
    done, steps, support, overall, sides = comparing.found(allowance)
    shown, of_a, of_b = (corner_places(comparing, corner) for corner in [overall] + sides)
    if done:
        first = [DONE, steps, ABSENT, ABSENT] + shown + [clearance(comparing.gap(overall))]
    else:
        first = [SPENT, steps] + support + shown + [ABSENT]
    return first + of_a + of_b


def c_nearest_point(point, numbers, length):
    found = WRONG_RESULT_LENGTH if length != NEAREST_LENGTH else point_refusal(point, numbers)
    result = [FILL] * length if found else nearest_places(nearest(point, Outline(corners(numbers))))
    return line("c_nearest", *status(found, NO_SIDE), "list", *result)


def c_remove_corner(numbers, corner, length):
    found, out = removed(numbers, corner, length)
    return line("c_remove", *status(found, NO_SIDE), "list", *out)


def c_pair_refusal(a, b, length, asked):
    """The refusal of a C function of two outlines, or None, and the side; the length of the result list comes first."""
    return pair_refusal(a, b) if length == asked else (WRONG_RESULT_LENGTH, NO_SIDE)


def c_compare(a, b, allowance, length):
    found, side = c_pair_refusal(a, b, length, COMPARE_LENGTH)
    result = [FILL] * length if found else compare_places(a, b, allowance)
    return line("c_compare", *status(found, side), "list", *result)


def c_mismatch(a, b, length):
    found, side = c_pair_refusal(a, b, length, MISMATCH_LENGTH)
    result = [FILL] * length if found else [mismatch_sum(corners(a), corners(b))]
    return line("c_mismatch", *status(found, side), "list", *result)


def answers(a, b, given):
    """All calls for one case: two lists of numbers; a point, a corner number, an allowance, and lengths of lists."""
    x, y, nearest_length, corner, out_length, allowance, compare_length, mismatch_length = given
    return [
        read_outline(a),
        read_outline_strict(a),
        nearest_point((x, y), a),
        remove_corner(a, corner, out_length),
        c_remove_corner(a, corner, out_length),
        c_nearest_point((x, y), a, nearest_length),
        c_compare(a, b, allowance, compare_length),
        mismatch(a, b),
        c_mismatch(a, b, mismatch_length),
    ]
