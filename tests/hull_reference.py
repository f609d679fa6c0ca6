"""The convex hull of points, from the requirements alone, and its C function, from the requirements and what
embed/ravinebowl.h says of a status and of a result list.

Written apart from the proved code, for comparison with it. `answers` gives the lines that the program `hull_cases`
prints for a case:
    hull COUNT list NUMBER .. marks NUMBER ..            hull refused NUMBER [PLACE] list NUMBER .. marks NUMBER ..
    c_hull CODE SIDE PLACES FIRST SECOND list NUMBER .. marks NUMBER .. result NUMBER ..
    hull_again: as `hull`, or none
After `list`, `marks` and `result` stands what is in these lists after the call; before it every place has FILL.

The hull is the outline of the smallest convex piece that holds all points, without straight corners, counterclockwise
from the corner of least y, of equals the one of least x. It is written to a list as long as that of the points, with
zeros after the last corner. The mark of a point is -1 if it repeats an earlier one, else its corner number, else -2.
The order of the refusals is 1, 3, 4 with the lowest point out of range, 9 for either list, and 2 where there are no
points or all lie in one line. None has a side, and a call that is refused writes to no list.

`hull_again` is the hull of the corners just written, with lists that fit, and `none` where the first call is refused.
"""
from functools import lru_cache
from itertools import permutations

from call_reference import FILL, NO_SIDE, WRONG_RESULT_LENGTH, line, status
from pairs import from_corner, hull, numbers
from reference import LIMIT, corners, lies_on, side_number

MOST_POINTS = 256
HULL_LENGTH = 1
REPEATED, NO_CORNER = -1, -2


def in_one_line(points):
    """Whether all points lie in one line: that of two different ones, if there are two. No points do too."""
    different = list(set(points))
    return len(different) < 2 or all(side_number(*different[:2], v) == 0 for v in different)


def leaves(p, q, v):
    """Whether a hull that holds v can have an edge from p to q: v is left of that edge, or on it, its ends included."""
    return side_number(p, q, v) > 0 or lies_on((*v, 1), p, q)


def first_corner(points):
    return min(points, key=lambda v: (v[1], v[0]))


@lru_cache(None)
def hull_corners(points):
    """The corners of the hull of a set of points, not all in one line. Every two points are tried as the ends of an
    edge, and the edges then joined; a monotone chain must give the same."""
    following = {}
    for p, q in permutations(points, 2):
        if all(leaves(p, q, v) for v in points):
            assert p not in following, "two edges from one corner"
            following[p] = q
    found = [first_corner(points)]
    while following[found[-1]] != found[0]:
        found.append(following[found[-1]])
    assert len(found) == len(following), "the edges do not go round once"
    others = hull(points)
    assert from_corner(others, others.index(found[0])) == found, "a monotone chain gives another hull"
    return found


def mark(points, i, outline):
    v = points[i]
    return REPEATED if v in points[:i] else outline.index(v) if v in outline else NO_CORNER


def hull_refusal(given, length, marks_length):
    if len(given) % 2 == 1:
        return (1,)
    points = corners(given)
    if len(points) > MOST_POINTS:
        return (3,)
    for i, point in enumerate(points):
        if not all(-LIMIT <= z <= LIMIT for z in point):
            return (4, i)
    if length != len(given) or marks_length != len(points):
        return (9,)
    return (2,) if in_one_line(points) else None


def hulled(given, length, marks_length):
    """The refusal or None, the corner count or None, and the list to write and the marks after the call."""
    found = hull_refusal(given, length, marks_length)
    if found:
        return found, None, [FILL] * length, [FILL] * marks_length
    points = corners(given)
    outline = hull_corners(frozenset(points))
    written = numbers(outline)
    marks = [mark(points, i, outline) for i in range(len(points))]
    return None, len(outline), written + [0] * (length - len(written)), marks


def shown(name, found, count, out, marks):
    return line(name, *(("refused",) + found if found else (count,)), "list", *out, "marks", *marks)


def convex_hull(given, length, marks_length):
    return shown("hull", *hulled(given, length, marks_length))


def c_hulled(given, length, marks_length, result_length):
    """The refusal or None, and the three lists after the call of the C function; the length of the result list comes
    first."""
    found, count, out, marks = hulled(given, length, marks_length)
    if result_length != HULL_LENGTH:
        found, out, marks = WRONG_RESULT_LENGTH, [FILL] * length, [FILL] * marks_length
    return found, out, marks, [FILL] * result_length if found else [count]


def c_convex_hull(given, length, marks_length, result_length):
    found, out, marks, result = c_hulled(given, length, marks_length, result_length)
    return line("c_hull", *status(found, NO_SIDE), "list", *out, "marks", *marks, "result", *result)


def hull_again(given, length, marks_length):
    found, count, out, _ = hulled(given, length, marks_length)
    return "hull_again none" if found else shown("hull_again", *hulled(out[:2 * count], 2 * count, count))


def answers(given, length, marks_length, result_length):
    """All calls for one case: the numbers of a list of points, and the lengths of the list to write, of the marks and
    of the result list."""
    return [
        convex_hull(given, length, marks_length),
        c_convex_hull(given, length, marks_length, result_length),
        hull_again(given, length, marks_length),
    ]
