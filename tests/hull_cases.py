"""Writes the input of the program `hull_cases`, and the answers that `hull_reference.py` gives: crates/hull_cases/stdin
and crates/hull_cases/stdout.

Run without arguments from anywhere. The same seed gives the same files, on any machine. The input has the number of
cases, and for each how many numbers the list of points has and the numbers, and three numbers: the length of the list
to write, that of the marks, and that of the result list. The script prints how many cases there are, how many of each
kind, and how many would show each of several mistakes.
"""
from collections import Counter
from functools import cached_property, cmp_to_key, lru_cache
from itertools import chain, combinations, product
from math import gcd
from pathlib import Path
from struct import pack, unpack

from call_cases import FLAT, LARGEST_COORDINATE, LEAST_COORDINATE, LONGEST_LIST
from call_reference import COMPARE_LENGTH, FILL, NEAREST_LENGTH, NO_SIDE, SIDE_A, line, status
from hull_reference import HULL_LENGTH, MOST_POINTS, NO_CORNER, REPEATED, answers, c_convex_hull, c_hulled, convex_hull
from hull_reference import first_corner, hull_again, hulled, in_one_line
from insertion_cases import TO_AND_FRO, WHERE, filled, where
from pairs import CLOCKWISE, LARGEST, LOWER, SQUARE, STAR, STRAIGHT, TRIANGLE, TURNED, Random, clockwise, fits
from pairs import from_corner, from_edges, from_points, hull, moved, numbers, over, small, times
from record_cases import HEXAGON, arc, shuffled
from reference import LIMIT, corners, dot, edge, is_within, lies_on, minus, refusal, side_number

SEED = 20261121
LARGEST_INPUT = 150_000
# Wrong lengths of the result list.
OTHER_RESULTS = [0, 2, NEAREST_LENGTH, COMPARE_LENGTH]
# Seven points, of which four are corners, one repeats a corner, one is on an edge and one inside.
WORKED = [(4, 4), (0, 0), (2, 0), (4, 0), (0, 4), (4, 4), (1, 2)]
WORKED_HULL = "4 list 0 0 4 0 4 4 0 4 0 0 0 0 0 0 marks 2 0 -2 1 3 -1 -2"
# A square that stands aslant, with points on its edges.
ASLANT = [0, 0, 6, 2, 4, 8, -2, 6]
# Points in one line, one of them twice.
IN_LINE = [(4, 2), (0, 0), (2, 1), (4, 2), (-6, -3)]
# 257 points: on an arc, all equal, three different ones, and five.
ARC = arc(257)
EQUAL = [(3, 4)] * 257
THREE = [(0, 0), (5, 1), (1, 6)] * 85 + [(0, 0)] * 2
FIVE = [(k % 5, k * k % 5) for k in range(257)]


def fitting(points):
    """Points, and lengths of the list to write and of the marks that fit."""
    return numbers(points), 2 * len(points), len(points)


# The values that the requirements state, and what follows from them.
STATED = [
    (convex_hull(*fitting(WORKED)), f"hull {WORKED_HULL}"),
    (c_convex_hull(*fitting(WORKED), 1), f"c_hull 0 0 0 0 0 {WORKED_HULL[2:]} result 4"),
    (hull_again(*fitting(WORKED)), "hull_again 4 list 0 0 4 0 4 4 0 4 marks 0 1 2 3"),
    (convex_hull(TRIANGLE, 6, 3), "hull 3 list 0 0 4 0 0 4 marks 0 1 2"),
    (convex_hull(CLOCKWISE, 6, 3), "hull 3 list 0 0 4 0 0 4 marks 0 2 1"),
    (convex_hull(TURNED, 8, 4), "hull 4 list 0 0 4 0 4 4 0 4 marks 1 2 3 0"),
    (convex_hull(STAR, 10, 5), "hull 5 list -2 -3 2 -3 3 1 0 3 -3 1 marks 3 0 2 4 1"),
    (convex_hull(LOWER, 6, 3), "hull 3 list -16000 -16000 -15999 -16000 -16000 -15999 marks 0 1 2"),
    # Points on an edge: on edge 0, on the last edge, and on another. Of the least y the least x is first.
    (convex_hull(STRAIGHT, 8, 4), "hull 3 list 0 0 4 0 0 3 0 0 marks 0 -2 1 2"),
    (convex_hull([0, 1, 0, 0, 0, 2, 3, 1], 8, 4), "hull 3 list 0 0 3 1 0 2 0 0 marks -2 0 2 1"),
    (convex_hull([4, 0, 0, 4, 3, 1, 2, 2, 0, 0], 10, 5), "hull 3 list 0 0 4 0 0 4 0 0 0 0 marks 1 2 -2 -2 0"),
    (convex_hull([3, -1, 1, -1, 0, -1, 1, 5], 8, 4), "hull 3 list 0 -1 3 -1 1 5 0 0 marks 1 -2 0 2"),
    # Repeats of a corner, of a point on an edge and of a point inside.
    (convex_hull([0, 0, 0, 0, 9, 0, 0, 9, 0, 0], 10, 5), "hull 3 list 0 0 9 0 0 9 0 0 0 0 marks 0 -1 1 2 -1"),
    (convex_hull([1, 1, 1, 1, 3, 0, 3, 0, *FLAT], 14, 7),
     "hull 3 list 0 0 9 0 0 3 0 0 0 0 0 0 0 0 marks -2 -1 -2 -1 0 1 2"),
    # The most points. The arc's lowest point is its point 127.
    (convex_hull(*fitting(ARC[:256])),
     line("hull 256 list", *numbers(from_corner(ARC[:256], 127)), "marks", *range(129, 256), *range(129))),
    (convex_hull(TO_AND_FRO[:-2] + [0, 1], 512, 256), line("hull 3 list 0 0 1 0 0 1", *[0] * 506, "marks 0 1",
                                                           *[-1] * 253, 2)),
    # The refusals, and their order.
    (convex_hull([0], 1, 0), "hull refused 1 list 77 marks"),
    (convex_hull([16001, 0, 0], 2, 2), "hull refused 1 list 77 77 marks 77 77"),
    (convex_hull(numbers(ARC) + [0], 515, 257), "hull refused 1 list" + filled(515) + " marks" + filled(257)),
    (convex_hull(*fitting(ARC)), "hull refused 3 list" + filled(514) + " marks" + filled(257)),
    (convex_hull([16001, 0] * 257, 0, 0), "hull refused 3 list marks"),
    (convex_hull([0, 0, 4, -16001, 16001, 0], 6, 3), "hull refused 4 1 list" + filled(6) + " marks" + filled(3)),
    (convex_hull([0, 0, 0, 0, 16001, 0], 5, 4), "hull refused 4 2 list" + filled(5) + " marks" + filled(4)),
    (convex_hull([LEAST_COORDINATE, 0], 2, 1), "hull refused 4 0 list 77 77 marks 77"),
    (convex_hull(TRIANGLE, 7, 3), "hull refused 9 list" + filled(7) + " marks" + filled(3)),
    (convex_hull(TRIANGLE, 6, 4), "hull refused 9 list" + filled(6) + " marks" + filled(4)),
    (convex_hull(TRIANGLE, 6, 6), "hull refused 9 list" + filled(6) + " marks" + filled(6)),
    (convex_hull([], 0, 1), "hull refused 9 list marks 77"),
    (convex_hull([], 2, 0), "hull refused 9 list 77 77 marks"),
    (convex_hull([], 0, 0), "hull refused 2 list marks"),
    (convex_hull([3, 4], 2, 1), "hull refused 2 list 77 77 marks 77"),
    (convex_hull([3, 4, 5, 6], 4, 2), "hull refused 2 list" + filled(4) + " marks 77 77"),
    (convex_hull([3, 4] * 256, 512, 256), "hull refused 2 list" + filled(512) + " marks" + filled(256)),
    (convex_hull(*fitting(IN_LINE)), "hull refused 2 list" + filled(10) + " marks" + filled(5)),
    (c_convex_hull(*fitting(IN_LINE), 1), "c_hull 2 0 0 0 0 list" + filled(10) + " marks" + filled(5) + " result 77"),
    (c_convex_hull([], 0, 0, 1), "c_hull 2 0 0 0 0 list marks result 77"),
    (c_convex_hull([0, 0, 4, -16001], 4, 2, 1), "c_hull 4 0 1 1 0 list" + filled(4) + " marks 77 77 result 77"),
    (c_convex_hull([0, 0, 4, -16001], 4, 2, 0), "c_hull 100 0 0 0 0 list" + filled(4) + " marks 77 77 result"),
    (c_convex_hull([5], 0, 0, 2), "c_hull 100 0 0 0 0 list marks result 77 77"),
    (c_convex_hull(TRIANGLE, 6, 3, 2), "c_hull 100 0 0 0 0 list" + filled(6) + " marks" + filled(3) + " result 77 77"),
    (hull_again(*fitting(IN_LINE)), "hull_again none"),
    (hull_again(LARGEST, 8, 4), line("hull_again 4 list", *LARGEST, "marks 0 1 2 3")),
]


def on_edge(p, q):
    """The whole points strictly between two corners."""
    run = minus(q, p)
    return [(p[0] + run[0] // gcd(*run) * i, p[1] + run[1] // gcd(*run) * i) for i in range(1, gcd(*run))]


def border(piece):
    return [v for i in range(len(piece)) for v in on_edge(*edge(piece, i))]


def inside(piece):
    """The whole points inside an outline, without those on its border."""
    xs, ys = (range(min(of), max(of) + 1) for of in zip(*piece))
    return [v for v in product(xs, ys) if all(side_number(*edge(piece, i), v) > 0 for i in range(len(piece)))]


def some_of(random, items, n):
    """So many of the items, each any number of times."""
    return [random.one_of(items) for _ in range(n)]


def anywhere(random, reach, n):
    return [(random.between(-reach, reach), random.between(-reach, reach)) for _ in range(n)]


def in_orders(random, points):
    """The same points as they come, from the last to the first, by x, and by falling y; with the start first, last, in
    the middle, and both first and last."""
    start = first_corner(points)
    others = shuffled(random, [v for v in points if v != start])
    middle = len(others) // 2
    yield from (points, points[::-1], sorted(points), sorted(points, key=lambda v: (-v[1], v[0])))
    yield from ([start] + others, others + [start], others[:middle] + [start] + others[middle:])
    yield [start] + others + [start]


def of_orders(random):
    """The same points in eight orders."""
    for points in (WORKED, anywhere(random, 3, 12), from_edges(random, 18, 9), anywhere(random, LIMIT, 9)):
        for ordered in in_orders(random, points):
            yield fitting(ordered)


def of_grids(random):
    """Points with small coordinates, with many repeats and many in line."""
    for number in range(40):
        reach = [1, 1, 2, 2, 3, 4, 6][number % 7]
        x, y = random.between(-9, 9), random.between(-9, 9)
        yield fitting(moved(anywhere(random, reach, random.between(3, 6 + 3 * reach)), x, y))


def of_borders(random):
    """Outlines with the points along their edges: of all edges, before the corners and after them, and twice, with
    points inside; and of each edge alone."""
    for outline in (SQUARE, FLAT, ASLANT, HEXAGON):
        piece = corners(outline)
        yield fitting(shuffled(random, piece + border(piece)))
        yield fitting(border(piece) + piece)
        yield fitting(shuffled(random, 2 * (piece + border(piece) + some_of(random, inside(piece), 3))))
        for i in range(len(piece)):
            along = on_edge(*edge(piece, i))
            if along:
                yield fitting([along + piece, piece + along, shuffled(random, piece + along)][i % 3])


def of_ties(random):
    """Several points of the least y, or of the least x, the greatest y and the greatest x."""
    points = [(5, -2), (0, -2), (-3, -2), (4, -2), (2, 3)]
    for _ in range(4):
        points = [(-y, x) for x, y in points]
        yield from (fitting(points), fitting(sorted(points)), fitting(sorted(points)[::-1]))
        yield fitting(shuffled(random, points + points[:3] + [(0, 0)]))
    # Of the least y, and of the least x, just two.
    yield from (fitting([(7, 1), (2, 1), (4, 4)]), fitting([(2, 1), (7, 1), (0, 4)]), fitting([(1, 7), (4, 4), (1, 2)]))


def of_corners(random):
    """All points are corners, in order from any of them, clockwise, and in no order; then each of them twice."""
    for n, reach in ((3, 5), (4, 9), (16, 12), (64, 14)):
        piece = from_edges(random, n, reach)
        yield fitting(from_corner(piece, random.below(n)))
        yield fitting(clockwise(from_corner(piece, random.below(n))))
        yield fitting(shuffled(random, piece))
        yield fitting(shuffled(random, piece + piece))
    for n, reach in ((255, 11), (256, 40)):
        piece = from_edges(random, n, reach)
        yield fitting(shuffled(random, piece))
        yield fitting(clockwise(from_corner(piece, 100)))
    yield fitting(shuffled(random, ARC[:256]))
    yield fitting(shuffled(random, ARC[:255] + ARC[:1]))
    yield fitting(ARC[:255])
    yield fitting(ARC[1:])


def of_many_points(random):
    """255 points and 256, few of which are corners: the corners first, last and anywhere, all points on the edges of a
    square, nine different points, and large coordinates."""
    piece = [(-40, -30), (50, -20), (0, 45)]
    within = inside(piece)
    yield fitting(piece + some_of(random, within, 253))
    yield fitting(some_of(random, within, 253) + piece)
    yield fitting(shuffled(random, piece + some_of(random, within, 252)))
    square = times(corners(SQUARE), 16)
    yield fitting(shuffled(random, square + border(square)))
    yield fitting(some_of(random, list(product(range(-1, 2), repeat=2)), 256))
    yield fitting(shuffled(random, corners(LARGEST) + anywhere(random, LIMIT, 60)))


def of_outlines(random):
    """Outlines from every corner, clockwise ones, and a star."""
    for outline in (SQUARE, HEXAGON, FLAT):
        piece = corners(outline)
        for k in range(len(piece)):
            yield fitting(from_corner(piece, k))
        yield fitting(clockwise(from_corner(piece, 1)))
    yield fitting(corners(STAR))
    yield fitting(corners(LARGEST)[::-1])
    for _ in range(3):
        piece = small(random)
        yield fitting(from_corner(piece, random.below(len(piece))))


DIRECTIONS = [(1, 0), (0, 1), (1, 1), (1, -1), (2, 3), (-5, 2)]


def of_lines(random):
    """Points in one line, from one end to the other, back, and in no order with repeats; and with a point beside the
    line, first, last or in the middle."""
    for number, (dx, dy) in enumerate(DIRECTIONS):
        points = [(3 + k * dx, k * dy - 2) for k in sorted(shuffled(random, range(-5, 6))[:3 + number])]
        yield fitting(points)
        yield fitting(points[::-1])
        yield fitting(shuffled(random, points + some_of(random, points, 3)))
        x, y = random.one_of(points)
        beside = [(x + 1, y), (x - 1, y)][number // 2 % 2] if dy else (x, [y - 1, y + 1][number // 2 % 2])
        k = [0, len(points), len(points) // 2][number % 3]
        yield fitting(points[:k] + [beside] + points[k:])
        yield fitting(points + points[:2] + [beside, beside])
    # From one end of the range to the other, and with an end beside the line by one.
    yield fitting([(-16000, -16000), (16000, 16000), (0, 0)])
    yield fitting([(16000, -16000), (-16000, 16000), (8000, -8000), (-1, 1)])
    yield fitting([(-16000, -16000), (16000, 15999), (0, 0)])
    yield fitting([(16000, -16000), (-15999, 16000), (0, 0), (8000, -8000)])
    yield fitting([(125 * k - 16000, 15999 - 124 * k) for k in range(256)])
    yield fitting([(125 * k - 16000, 15999 - 124 * k) for k in range(255)] + [(0, 0)])


def of_few_points():
    """No points, one, and two; equal points; and three different points with repeats, or with one in line."""
    p, q, r = (1, 2), (6, 4), (3, 9)
    yield from map(fitting, ([], [p], [(16000, -16000)], [p, p], [p, q], [q, p], [p, p, p], [p, q, p], [q, p, q, p],
                             [p] * 7, [p, p, q, q, p, q], [p, (1, 9)], [(1, 5), p, (1, 9), p], [(4, 2), p, (4, 2)]))
    # Three in a row are always in line; points 0 and 1 are equal, or all but one; the first three are in line, or the
    # last three, or the first and the last are equal.
    yield from map(fitting, ([p, p, q, q, r, r], [r, r, q, q, p, p, p], [p, p, q, q, p, p, r, r], [p, p, q, r],
                             [p, p, p, p, q, r], [q, q, r, p], [r, q, q, q, q, p], [(0, 0), (2, 2), (4, 4), (1, 0)],
                             [(4, 4), (2, 2), (0, 0), (9, 9), (0, 1)], [(1, 0), (4, 4), (2, 2), (0, 0)],
                             [p, q, r, p], [p, r, q, p, p], [r, q, p, r], [(0, 0), (5, 5), (0, 0), (3, 3), (2, 4)]))


def of_counts(random):
    """257 points and more; 256 and one number more."""
    yield from map(fitting, (ARC, EQUAL, THREE, shuffled(random, FIVE), FIVE + [(9, 9)], FIVE + [(0, 0)] * 3))
    yield numbers(ARC[:256]) + [1], 513, 256
    yield numbers(FIVE[:256]) + [1], 512, 256
    yield numbers(FIVE[:128]), 256, 128
    yield numbers(FIVE[:129]), 258, 129


def of_odd_lengths():
    """Odd lengths, of one number on."""
    for given in ([0], [7, 8, 9], TRIANGLE[:5], SQUARE + [0], STAR[1:]):
        yield given, len(given), len(given) // 2
        yield given, len(given) + 1, len(given) // 2 + 1


# Ends of the range, numbers past them, and numbers that are in range in 16 bits.
ENDS = [LIMIT, -LIMIT]
BEYOND = [LIMIT + 1, -LIMIT - 1, LARGEST_COORDINATE, LEAST_COORDINATE, 2**16 + 3, -2**16 - 2]


def of_ranges(random):
    """One point at an end of the range or past it; several past it; and past it among many points."""
    points = [(0, 0), (9, 1), (9, 1), (4, 7), (2, 2), (3, 5)]
    for number, (z, part) in enumerate(product(ENDS + BEYOND, (0, 1))):
        k = [0, 5, 3, 2][number % 4]
        x, y = points[k]
        yield fitting(points[:k] + [[(z, y), (x, z)][part]] + points[k + 1:])
    for x, y in product((LIMIT, -LIMIT), (LIMIT, -LIMIT)):
        yield fitting(points + [(x, y)])
    for number in range(12):
        far = {k: random.one_of(BEYOND) for k in shuffled(random, range(6))[:2 + number % 2]}
        yield fitting([random.one_of([(far[k], y), (x, far[k]), (far[k], far[k])]) if k in far else (x, y)
                       for k, (x, y) in enumerate(points)])
    # After repeats, in line, a point twice, and all points.
    yield fitting([(0, 0)] * 4 + [(16001, 0)])
    yield fitting([(1, 1), (1, 1), (5, 1), (1, 1), (0, -16001), (0, -16001), (7, 2)])
    yield fitting([(16001, 16001), (16001, 16001), (3, 3)])
    yield fitting([(LARGEST_COORDINATE, LEAST_COORDINATE)] * 3)
    yield fitting([(-16001, -16001), (16001, -16001), (0, 16001)])
    yield fitting([(0, 0), (4, LEAST_COORDINATE), (LEAST_COORDINATE, 4), (4, 4)])
    yield fitting([(5, 0), (LEAST_COORDINATE, LEAST_COORDINATE), (0, 3)])
    yield fitting([(1, -16001), (2, 2), (16001, 5)])
    yield fitting([(3, 3), (0, 16001), (9, 9), (-16001, 0), (0, 3)])
    for k in (0, 128, 255):
        yield fitting(FIVE[:k] + [[(3, 16001), (-16001, 3)][k % 2]] + FIVE[k + 1:256])


# How much longer than those that fit a list to write and marks are.
OTHER_LENGTHS = [(1, 0), (-1, 0), (2, 0), (-2, 0), (0, 1), (0, -1), (0, 2), (0, -2), (1, 1), (-1, -1), (2, 1), (-2, -1),
                 (2, -1), (-2, 1)]


def of_lengths(random):
    """Lists to write and marks of other lengths."""
    given, length, marks_length = fitting(WORKED)
    for more, marks_more in OTHER_LENGTHS:
        yield given, length + more, marks_length + marks_more
    # None; as long as the corners ask for; the two exchanged; of two or one for each of both; and long ones.
    for other in ((0, 7), (14, 0), (0, 0), (8, 7), (14, 4), (8, 4), (7, 14), (14, 14), (7, 7), (LONGEST_LIST, 7),
                  (14, LONGEST_LIST), (LONGEST_LIST, 260), (28, 14), (16, 7), (14, 8), (15, 8)):
        yield given, *other
    for points in (corners(STAR), IN_LINE, []):
        given, length, marks_length = fitting(points)
        for more, marks_more in ((1, 0), (2, 0), (0, 1), (2, 1)):
            yield given, length + more, marks_length + marks_more
    for _ in range(3):
        given, length, marks_length = fitting(anywhere(random, 2, 10))
        count = len(outline_of(frozenset(corners(given))))
        yield from ((given, 2 * count, marks_length), (given, length, count), (given, length - 1, marks_length))
    yield numbers(FIVE[:256]), 511, 256
    yield numbers(FIVE[:256]), 512, 255
    yield numbers(FIVE[:256]), 512, 257
    yield numbers(FIVE[:256]), 514, 256


FAR = [(4, 4), (0, 0), (2, -16001), (4, 0)]
# Lists that get 1, alone, with 2, with 4, and with both; 3, with 4, with 4 and 2, alone, and with 2; 4, alone and with
# 2; and 2.
FAULTS = [
    numbers(WORKED) + [5],
    numbers(IN_LINE) + [1],
    numbers(FAR) + [0],
    [16001, 0, 0],
    numbers(FIVE + [(16001, 0)]),
    numbers(EQUAL[:256] + [(3, -16001)]),
    numbers(THREE),
    numbers(EQUAL),
    numbers(FAR),
    numbers(IN_LINE + [(-16008, -8004)]),
    numbers(IN_LINE),
    [5, 5],
    # 1 with 3, with 3 and 4, and with all of 3, 4 and 2.
    numbers(FIVE) + [0],
    numbers(FIVE + [(LEAST_COORDINATE, 0)]) + [0],
    [-16001, 4] + [0] * 513,
]


def of_combinations():
    """Lists that are refused, also with another length of the list to write, of the marks, and of both."""
    for number, given in enumerate(FAULTS):
        length, marks_length = len(given), len(given) // 2
        if length < 500 or number % 2:
            yield given, length, marks_length
            yield given, length + [1, -1, 2, -2][number % 4], marks_length
        if length < 500 or number % 2 == 0:
            yield given, length, marks_length + [-1, 1][number % 2]
            yield given, max(0, length - 2), marks_length + 1


def near_edge(random):
    """A large triangle, and the points closest to the line of its edge 0, one on either side of it."""
    while True:
        piece = from_points(random, LIMIT, 3)
        p, q = edge(piece, 0)
        run = minus(q, p)
        if gcd(*run) == 1 and dot(run, run) > LIMIT**2:
            right, left = over(p, run, dot(run, run), 1), over(q, minus(p, q), dot(run, run), 1)
            if right and left and is_within(left, piece):
                return piece, right, left


def of_near_lines(random):
    """Large triangles with points beside an edge, on it, and both."""
    for number in range(12):
        piece, right, left = near_edge(random)
        yield fitting(shuffled(random, piece + [[right], [right, left], [right], [left]][number % 4]))
    for number in range(6):
        p = (random.between(-15999, -15000), random.between(-15999, 15999))
        run = minus((random.between(15000, 15999), random.between(-15999, 15999)), p)
        run = run[0] // 7, run[1] // 7
        at = [(p[0] + k * run[0], p[1] + k * run[1]) for k in range(8)]
        x, y = at[3 + number % 2]
        beside = [(x, y + 1), (x, y - 1), (x + 1, y), (x - 1, y)][number % 4]
        points = [at[0], at[7], at[5], beside, (p[0] + 9, [16000, -16000][number % 2])]
        assert fits(points)
        yield fitting(shuffled(random, points))


def of_random_points(random):
    """Points anywhere, and some of them again."""
    for number in range(17):
        points = anywhere(random, [5, 12, 50, 600, LIMIT][number % 5], random.between(4, 30))
        yield fitting(shuffled(random, points + some_of(random, points, random.below(5))))


def of_results():
    """Result lists of another length, with every refusal and with an answer."""
    lists = [WORKED, corners(STAR), FAR, IN_LINE, []]
    for number, points in enumerate(lists):
        for k in (0, 1):
            yield *fitting(points), OTHER_RESULTS[(2 * number + k) % 4]
    for result_length in (0, 2):
        yield numbers(WORKED) + [5], 15, 7, result_length
        yield numbers(WORKED), 14, 8, result_length
        yield numbers(WORKED), 12, 7, result_length
    yield *fitting(EQUAL), 2
    yield *fitting(THREE), 0


def result_length(number, given):
    """The length of the result list, by the number of the case: mostly the right one, and always for many points."""
    return OTHER_RESULTS[number // 9 % 4] if number % 9 == 4 and len(given) < 400 else HULL_LENGTH


def cases():
    random = Random(SEED)
    parts = ([fitting(WORKED)], of_orders(random), of_grids(random), of_borders(random), of_ties(random),
             of_corners(random), of_many_points(random), of_outlines(random), of_lines(random), of_few_points(),
             of_counts(random), of_odd_lengths(), of_ranges(random), of_lengths(random), of_combinations(),
             of_near_lines(random), of_random_points(random))
    for number, (given, *lengths) in enumerate(chain.from_iterable(parts)):
        yield given, *lengths, result_length(number, given)
    yield from of_results()


@lru_cache(None)
def outline_of(points):
    """The corners of the hull of a set of points; of points in one line its ends, the one point, or none."""
    found = hull(points) or list(points)
    return from_corner(found, found.index(first_corner(found))) if found else []


def farther(p, q, v):
    """Whether v is farther from p than q is."""
    return dot(minus(v, p), minus(v, p)) > dot(minus(q, p), minus(q, p))


def better(p, q, v):
    """Whether v rather than q follows the corner p: it is right of the line to q, or on it, and farther."""
    side = side_number(p, q, v)
    return side < 0 or side == 0 and farther(p, q, v)


def wrapped(points, better, start=None):
    """Gift wrapping from a start: after each corner comes the point that no other is better than. It ends before the
    start, or with as many corners as there are points."""
    found = [start or first_corner(points)]
    while len(found) < len(points):
        p = found[-1]
        others = [v for v in points if v != p]
        q = others[0]
        for v in others:
            if better(p, q, v):
                q = v
        if q == found[0]:
            break
        found.append(q)
    return found


class Hulling:
    """The hull as `hull_reference` finds it, in parts of which a mistake replaces some."""
    order = (1, 3, 4, 9, 2)

    def __init__(self, given, length, marks_length):
        self.given, self.length, self.marks_length = given, length, marks_length
        self.points = self.read()
        self.first = {v: i for i, v in reversed(list(enumerate(self.points)))}

    def read(self):
        return corners(self.given)

    def is_odd(self):
        return len(self.given) % 2 == 1

    def is_full(self):
        return len(self.points) > MOST_POINTS

    def far(self):
        """The numbers of the points out of range."""
        return [i for i, v in enumerate(self.points) if self.is_far(v)]

    def is_far(self, v):
        return self.is_beyond(v[0]) or self.is_beyond(v[1])

    def is_beyond(self, z):
        return not -LIMIT <= z <= LIMIT

    def place(self, far):
        """The place of 4."""
        return far[:1]

    def is_misfit(self):
        return self.list_misfits() or self.marks_misfit()

    def list_misfits(self):
        return self.length != len(self.given)

    def marks_misfit(self):
        return self.marks_length != len(self.points)

    def is_flat(self):
        return in_one_line(self.points)

    def refused(self):
        """The check that refuses, and the refusal; or None twice."""
        applies = {1: self.is_odd, 3: self.is_full, 4: self.far, 9: self.is_misfit, 2: self.is_flat}
        for check in self.order:
            found = applies[check]()
            if found:
                return check, self.told((check, *self.place(found)) if check == 4 else (check,))
        return None, None

    def told(self, found):
        """What is told of a refusal."""
        return found

    def taken(self):
        """The points that the hull is of."""
        return self.points

    @cached_property
    def outline(self):
        return self.hull_of(self.taken())

    @cached_property
    def numbered(self):
        """The corner numbers by point."""
        return {v: k for k, v in reversed(list(enumerate(self.outline)))}

    def hull_of(self, points):
        """The corners in their order."""
        return outline_of(frozenset(points))

    def count(self):
        return len(self.outline)

    def listed(self):
        """What the list to write gets, as far as it goes."""
        found = self.as_numbers(self.outline)
        return (found + self.rest(max(self.length - len(found), 0)))[:self.length]

    def as_numbers(self, outline):
        return numbers(outline)

    def rest(self, n):
        """So many numbers after the last corner."""
        return [0] * n

    def marked(self):
        """What the marks get, as far as they go."""
        found = [self.mark(i, v) for i, v in enumerate(self.points)]
        return (found + [FILL] * self.marks_length)[:self.marks_length]

    def mark(self, i, v):
        return REPEATED if self.first[v] < i else self.numbered.get(v, NO_CORNER)

    def written(self, check):
        """The list to write and the marks after the call."""
        return self.unwritten() if check else (self.listed(), self.marked())

    def unwritten(self):
        return [FILL] * self.length, [FILL] * self.marks_length

    def answer(self):
        check, found = self.refused()
        return (found, None if found else self.count(), *self.written(check))


def mistake(**parts):
    """The hull with these parts in place of the right ones."""
    return type("Mistake", (Hulling,), parts)


def in_order(*order):
    return mistake(order=order)


def earlier_by(before, check):
    """The order with a check moved before another."""
    others = [one for one in Hulling.order if one != check]
    k = others.index(before)
    return mistake(order=(*others[:k], check, *others[k:]))


def out_of(chosen):
    """A range by other ends: what is beyond them."""
    return mistake(is_beyond=lambda self, z: chosen(z))


def places(chosen):
    """4 with another place, of the numbers of the points out of range."""
    return mistake(place=lambda self, far: [chosen(self, far)])


def flat(chosen):
    """2 by another test of the points."""
    return mistake(is_flat=lambda self: chosen(self.points))


def fits_by(chosen):
    """9 unless the two lists fit, by the number of points and their two lengths."""
    return mistake(is_misfit=lambda self: not chosen(len(self.points), self.length, self.marks_length))


def of_points(chosen):
    """The hull of some of the points alone."""
    return mistake(taken=lambda self: chosen(self.points))


def other_hull(chosen):
    """Other corners, or another order of them."""
    return mistake(hull_of=lambda self, points: chosen(points))


def changed_hull(chosen):
    """Other corners, or another order, made from the right ones."""
    return mistake(hull_of=lambda self, points: chosen(outline_of(frozenset(points)), points))


def wrapping(better):
    """Gift wrapping by another choice of the following corner."""
    return other_hull(lambda points: wrapped(points, better))


def in_line(chosen):
    """Gift wrapping by another choice of points in one line with a corner."""
    def other(p, q, v):
        side = side_number(p, q, v)
        return side < 0 or side == 0 and chosen(p, q, v)

    return wrapping(other)


def by_number(better):
    """Gift wrapping in which equal points are different candidates, and different corners."""
    return other_hull(lambda points: [v[:2] for v in wrapped([(*v, i) for i, v in enumerate(points)], better)])


def marking(chosen):
    """Other marks, of a point's number and the point."""
    return mistake(mark=lambda self, i, v: chosen(self, i, v))


def numbering(chosen):
    """Other corner numbers, of the right one and the corner count."""
    def mark(self, i, v):
        k = Hulling.mark(self, i, v)
        return k if k < 0 else chosen(k, len(self.outline))

    return mistake(mark=mark)


def resting(chosen):
    """Other numbers after the last corner, of their count and the outline."""
    return mistake(rest=lambda self, n: chosen(n, self.outline))


def counting(chosen):
    """Another count."""
    return mistake(count=lambda self: chosen(self))


def refusing(chosen):
    """Other lists after a call that is refused, by the check, or None for the right ones."""
    return mistake(written=lambda self, check: check and chosen(self, check) or Hulling.written(self, check))


def answering(chosen):
    """Other lists after a call that is answered."""
    return mistake(written=lambda self, check: Hulling.written(self, check) if check else chosen(self))


def starting(key):
    """The outline from another corner: the one with the least key."""
    return changed_hull(lambda outline, points: from_corner(outline, outline.index(min(outline, key=key))))


@lru_cache(None)
def along_edges(points):
    """For each edge of the hull of a set of points the points strictly between its ends, from the first end on."""
    outline, found = outline_of(points), []
    for p, q in (edge(outline, i) for i in range(len(outline))):
        between = [v for v in points - {p, q} if lies_on((*v, 1), p, q)]
        found.append(sorted(between, key=lambda v: dot(minus(v, p), minus(v, p))))
    return found


def straight(chosen):
    """The points along some edges kept, chosen by the edge and the corner count."""
    def kept(outline, points):
        found = []
        for i, (p, between) in enumerate(zip(outline, along_edges(frozenset(points)))):
            found += [p] + (between if chosen(i, len(outline)) else [])
        return found

    return changed_hull(kept)


def single(n):
    """As a single float."""
    return unpack("f", pack("f", n))[0]


def better_in_singles(p, q, v):
    (dx, dy), (ex, ey) = minus(q, p), minus(v, p)
    side = single(single(dx * ey) - single(dy * ex))
    return side < 0 or side == 0 and farther(p, q, v)


def signed(n, bits):
    """As a signed number of so many bits."""
    return (n + 2**(bits - 1)) % 2**bits - 2**(bits - 1)


def better_in_16_bits(p, q, v):
    side = signed(side_number(p, q, v), 16)
    return side < 0 or side == 0 and farther(p, q, v)


def better_than_a_repeat(p, q, v):
    """As `better`, where q differs from p."""
    return q[:2] != p[:2] and better(p, q, v)


def round_the_start(points):
    """All points by direction about the start, and by distance where it is the same."""
    start = first_corner(points)

    def later(v, w):
        return -side_number(start, v, w) or (1 if farther(start, w, v) else -1)

    return [start] + sorted(set(points) - {start}, key=cmp_to_key(later))


def box(points):
    xs, ys = zip(*points)
    return [(min(xs), min(ys)), (max(xs), min(ys)), (max(xs), max(ys)), (min(xs), max(ys))]


def extreme(points):
    (least_x, least_y), _, (most_x, most_y), _ = box(points)
    return [v for v in points if v[0] in (least_x, most_x) or v[1] in (least_y, most_y)]


def edge_of(self, v):
    """The number of the edge that a point is on, strictly between the ends, or None."""
    return next((k for k, between in enumerate(along_edges(frozenset(self.points))) if v in between), None)


def by_corner(self):
    """The number of the point for each corner."""
    found = [self.first[v] for v in self.outline]
    return (found + [NO_CORNER] * self.marks_length)[:self.marks_length]


def as_outline(self):
    """Refused as an outline is in the strict reading."""
    check, found = Hulling.refused(self)
    found = found or refusal(self.given)
    return check or (found and found[0]), found


def zeros_with(number):
    return lambda self, check: ([0] * self.length, [0] * self.marks_length) if check == number else None


def in_threes(points):
    """Whether every three points in a row lie in one line."""
    return all(side_number(*three) == 0 for three in zip(points, points[1:], points[2:]))


# One more would change nothing: side numbers in 32 bits, for none of points in range is past 2,048,000,000.
MISTAKES = {
    # The order.
    **{f"{later} before {earlier}": earlier_by(earlier, later) for earlier, later in combinations(Hulling.order, 2)},
    **{f"{check} not tested": in_order(*(one for one in Hulling.order if one != check)) for check in Hulling.order},
    "everything refused": mistake(refused=lambda self: (2, (2,))),
    "everything refused that is not an outline": mistake(refused=as_outline),
    "always the same answer": mistake(answer=lambda self: Hulling(*fitting(WORKED)).answer()),
    # 1 and 3.
    "1 for no numbers": mistake(is_odd=lambda self: len(self.given) % 2 == 1 or not self.given),
    "255 points as most": mistake(is_full=lambda self: len(self.points) > 255),
    "257 points as most": mistake(is_full=lambda self: len(self.points) > 257),
    "256 numbers as most": mistake(is_full=lambda self: len(self.given) > 256),
    "256 different points as most": mistake(is_full=lambda self: len(set(self.points)) > 256),
    "256 corners as most": mistake(is_full=lambda self: len(self.points) > 256 and len(self.outline) > 256),
    "3 for 128 points and more": mistake(is_full=lambda self: len(self.points) >= 128),
    # 4.
    "16000 out of range": out_of(lambda z: not -LIMIT <= z < LIMIT),
    "-16000 out of range": out_of(lambda z: not -LIMIT < z <= LIMIT),
    "16001 in range": out_of(lambda z: not -LIMIT <= z <= LIMIT + 1),
    "-16001 in range": out_of(lambda z: not -LIMIT - 1 <= z <= LIMIT),
    "no upper end of the range": out_of(lambda z: z < -LIMIT),
    "no lower end of the range": out_of(lambda z: z > LIMIT),
    "-2^31 in range": out_of(lambda z: z != LEAST_COORDINATE and abs(z) > LIMIT),
    "coordinates in 16 bits": mistake(read=lambda self: corners([signed(z, 16) for z in self.given])),
    "x alone tested for 4": mistake(is_far=lambda self, v: self.is_beyond(v[0])),
    "y alone tested for 4": mistake(is_far=lambda self, v: self.is_beyond(v[1])),
    "4 where x and y are out of range": mistake(is_far=lambda self, v: all(map(self.is_beyond, v))),
    "point 0 not tested for 4": mistake(far=lambda self: [i for i in Hulling.far(self) if i > 0]),
    "the last point not tested for 4": mistake(
        far=lambda self: [i for i in Hulling.far(self) if i + 1 < len(self.points)]),
    "4 with an index of numbers": places(
        lambda self, far: next(k for k, z in enumerate(self.given) if not -LIMIT <= z <= LIMIT)),
    "4 with twice the point's number": places(lambda self, far: 2 * far[0]),
    "4 with the last such point": places(lambda self, far: far[-1]),
    "4 with how many such points there are": places(lambda self, far: len(far)),
    "4 with the point's number from 1": places(lambda self, far: far[0] + 1),
    "4 with the number among different points": places(lambda self, far: len(set(self.points[:far[0]]))),
    "4 with point 0": places(lambda self, far: 0),
    "4 without a place": mistake(place=lambda self, far: []),
    "4 with x before y": places(lambda self, far: min(far, key=lambda i: (not self.is_beyond(self.points[i][0]), i))),
    "7 in place of 4": mistake(told=lambda self, found: (7,) if found[0] == 4 else found),
    "a place for every refusal": mistake(told=lambda self, found: (*found, 0)[:2]),
    # 9.
    "9 for the list alone": mistake(marks_misfit=lambda self: False),
    "9 for the marks alone": mistake(list_misfits=lambda self: False),
    "9 where both have another length": mistake(is_misfit=lambda self: self.list_misfits() and self.marks_misfit()),
    "9 with the number of the list": mistake(
        told=lambda self, found: (9, int(not self.list_misfits())) if found == (9,) else found),
    "longer lists taken": fits_by(lambda n, length, marks_length: length >= 2 * n and marks_length == n),
    "shorter lists taken": fits_by(lambda n, length, marks_length: length <= 2 * n and marks_length == n),
    "longer marks taken": fits_by(lambda n, length, marks_length: length == 2 * n and marks_length >= n),
    "shorter marks taken": fits_by(lambda n, length, marks_length: length == 2 * n and marks_length <= n),
    "longer lists and marks taken": fits_by(lambda n, length, marks_length: length >= 2 * n and marks_length >= n),
    "one number more taken": fits_by(lambda n, length, marks_length: length // 2 == n and marks_length == n),
    "one number less taken": fits_by(lambda n, length, marks_length: (length + 1) // 2 == n and marks_length == n),
    "one number for each point": fits_by(lambda n, length, marks_length: length == n and marks_length == n),
    "two marks for each point": fits_by(lambda n, length, marks_length: length == 2 * n and marks_length == 2 * n),
    "list and marks exchanged": fits_by(lambda n, length, marks_length: length == n and marks_length == 2 * n),
    "twice as many numbers as marks": fits_by(lambda n, length, marks_length: length == 2 * marks_length),
    "a list for the corners alone": mistake(list_misfits=lambda self: self.length != 2 * len(self.outline)),
    "a list for the corners taken too": mistake(
        list_misfits=lambda self: self.length not in (len(self.given), 2 * len(self.outline))),
    "any list taken that the corners fit in": mistake(list_misfits=lambda self: self.length < 2 * len(self.outline)),
    "marks for the corners alone": mistake(marks_misfit=lambda self: self.marks_length != len(self.outline)),
    "marks for the different points alone": mistake(marks_misfit=lambda self: self.marks_length != len(self.first)),
    # 2.
    "2 for no points alone": flat(lambda points: not points),
    "2 for fewer than three points alone": flat(lambda points: len(points) < 3),
    "2 for fewer than three different points alone": flat(lambda points: len(set(points)) < 3),
    "2 for equal points alone": flat(lambda points: len(set(points)) < 2),
    "2 not for fewer than two different points": flat(lambda points: len(set(points)) > 1 and in_one_line(points)),
    "2 not for no points": flat(lambda points: len(points) > 0 and in_one_line(points)),
    "2 by the first three points": flat(lambda points: in_one_line(points[:3])),
    "2 by the last three points": flat(lambda points: in_one_line(points[-3:])),
    "2 by any three points in a row": flat(in_threes),
    "2 by the line of points 0 and 1": flat(
        lambda points: len(points) < 2 or all(side_number(*points[:2], v) == 0 for v in points)),
    "2 by the line of the first and the last point": flat(
        lambda points: len(points) < 2 or all(side_number(points[0], points[-1], v) == 0 for v in points)),
    "2 for lines along x and y alone": flat(lambda points: min([len(set(of)) for of in zip(*points)] or [0]) < 2),
    "2 not for vertical lines": flat(
        lambda points: in_one_line(points) and (len(set(points)) < 2 or len({x for x, _ in points}) > 1)),
    "2 not for falling lines": flat(
        lambda points: in_one_line(points) and not any(
            (q[0] - p[0]) * (q[1] - p[1]) < 0 for p, q in zip(points, points[1:]))),
    "2 for three corners": flat(lambda points: len(outline_of(frozenset(points))) < 4),
    "2 for repeats": flat(lambda points: len(set(points)) < len(points) or in_one_line(points)),
    "2 for fewer than three different x or y": flat(
        lambda points: in_one_line(points) or min(len(set(of)) for of in zip(*points)) < 3),
    "6 in place of 2": mistake(told=lambda self, found: (6, 0, 0) if found[0] == 2 else found),
    # The points.
    "without the first point": of_points(lambda points: points[1:]),
    "without the last point": of_points(lambda points: points[:-1]),
    "without points that come again": of_points(lambda points: [v for v in points if points.count(v) == 1]),
    "without every second point": of_points(lambda points: points[::2]),
    "the first 128 points alone": of_points(lambda points: points[:128]),
    "the first 255 points alone": of_points(lambda points: points[:255]),
    "x and y exchanged": mistake(read=lambda self: [v[::-1] for v in corners(self.given)]),
    "the points without their signs": of_points(lambda points: [(abs(x), abs(y)) for x, y in points]),
    "the points with the greatest and least x and y alone": of_points(extreme),
    # The start.
    "from the corner of least x": starting(lambda v: v),
    "from the corner of least x, of equals the greatest y": starting(lambda v: (v[0], -v[1])),
    "from the corner of greatest y": starting(lambda v: (-v[1], -v[0])),
    "from the greatest x of the least y": starting(lambda v: (v[1], -v[0])),
    "from the first corner in the list of points": changed_hull(
        lambda outline, points: from_corner(outline, outline.index(min(outline, key=points.index)))),
    "from the first point of least y, x not compared": other_hull(
        lambda points: wrapped(points, better, min(points, key=lambda v: v[1]))),
    "from the last point of least y, x not compared": other_hull(
        lambda points: wrapped(points, better, min(points[::-1], key=lambda v: v[1]))),
    "from point 0": other_hull(lambda points: wrapped(points, better, points[0])),
    "from the corner after": changed_hull(lambda outline, points: from_corner(outline, 1)),
    # The corners.
    "clockwise": changed_hull(lambda outline, points: clockwise(outline)),
    "the points along all edges kept": straight(lambda i, n: True),
    "the points along edge 0 kept": straight(lambda i, n: i == 0),
    "the points along the last edge kept": straight(lambda i, n: i == n - 1),
    "the points along the edges in the middle kept": straight(lambda i, n: 0 < i < n - 1),
    "the corner before points along an edge dropped": changed_hull(
        lambda outline, points: [p for p, between in zip(outline, along_edges(frozenset(points))) if not between]),
    "the nearest of points in line": in_line(lambda p, q, v: farther(p, v, q)),
    "the first of points in line": in_line(lambda p, q, v: False),
    "the last of points in line": in_line(lambda p, q, v: True),
    "the farthest of points in line by x alone": in_line(lambda p, q, v: abs(v[0] - p[0]) > abs(q[0] - p[0])),
    "the farthest of points in line by y alone": in_line(lambda p, q, v: abs(v[1] - p[1]) > abs(q[1] - p[1])),
    "the farthest of points in line by greater x": in_line(lambda p, q, v: v[0] > q[0]),
    "the farthest of points in line by x and y with signs": in_line(lambda p, q, v: v > q),
    "side numbers in single floats": wrapping(better_in_singles),
    "side numbers in 16 bits": wrapping(better_in_16_bits),
    "the end of the outline found by the point's number": by_number(
        lambda p, q, v: better(p, q, v) or not better(p, v, q)),
    "a repeat as the corner that follows": by_number(better_than_a_repeat),
    "the last corner dropped": changed_hull(lambda outline, points: outline[:-1]),
    "the first corner dropped": changed_hull(lambda outline, points: outline[1:]),
    "the first corner again at the end": changed_hull(lambda outline, points: outline + outline[:1]),
    "255 corners at the most": changed_hull(lambda outline, points: outline[:255]),
    "four corners at the most": changed_hull(lambda outline, points: outline[:4]),
    "the lower half alone": changed_hull(
        lambda outline, points: outline[:outline.index(max(outline, key=lambda v: (v[1], v[0]))) + 1]),
    "all points by direction": other_hull(round_the_start),
    "all points in their order": other_hull(lambda points: points),
    "all different points in their order": other_hull(lambda points: list(dict.fromkeys(points))),
    "the corners in the order of the points": changed_hull(
        lambda outline, points: sorted(outline, key=points.index)),
    "the corners by y and x": changed_hull(lambda outline, points: sorted(outline, key=lambda v: (v[1], v[0]))),
    "the box about the points": other_hull(box),
    # The list.
    "x and y exchanged in the list": mistake(as_numbers=lambda self, outline: numbers(v[::-1] for v in outline)),
    "the numbers of the points in the list": mistake(
        as_numbers=lambda self, outline: [self.first.get(v, 0) for v in outline]),
    "nothing after the last corner": resting(lambda n, outline: [FILL] * n),
    "nothing in the last place": resting(lambda n, outline: [0] * (n - 1) + [FILL] * (n > 0)),
    "nothing in the two places after the last corner": resting(lambda n, outline: [FILL] * min(n, 2) + [0] * (n - 2)),
    "one corner of zeros alone": resting(lambda n, outline: [0] * min(n, 2) + [FILL] * (n - 2)),
    "the first corner after the last one": resting(lambda n, outline: (numbers(outline[:1]) + [0] * n)[:n]),
    "the last corner to the end": resting(lambda n, outline: numbers(outline[-1:]) * (n // 2)),
    "-1 after the last corner": resting(lambda n, outline: [-1] * n),
    "-2 after the last corner": resting(lambda n, outline: [-2] * n),
    "the corners round and round": resting(lambda n, outline: (numbers(outline) * n)[:n]),
    "the points after the last corner": mistake(
        rest=lambda self, n: self.given[len(self.given) - n:] if n else []),
    "zeros before the corners": mistake(
        listed=lambda self: [0] * (self.length - 2 * len(self.outline)) + numbers(self.outline)[:self.length]),
    # The count.
    "the count of points": counting(lambda self: len(self.points)),
    "the count of different points": counting(lambda self: len(self.first)),
    "the count of points on the border": counting(
        lambda self: sum(map(len, along_edges(frozenset(self.points)))) + len(self.outline)),
    "the count of numbers": counting(lambda self: 2 * len(self.outline)),
    "the count one more": counting(lambda self: len(self.outline) + 1),
    "the count one less": counting(lambda self: len(self.outline) - 1),
    "the count in 8 bits": counting(lambda self: len(self.outline) % 2**8),
    "the count with repeats": counting(lambda self: sum(v in self.numbered for v in self.points)),
    # The marks.
    "repeats marked -2": marking(
        lambda self, i, v: NO_CORNER if self.first[v] < i else self.numbered.get(v, NO_CORNER)),
    "repeats marked as the first one": marking(lambda self, i, v: self.numbered.get(v, NO_CORNER)),
    "repeats of corners marked with the corner number": marking(
        lambda self, i, v: self.numbered[v] if v in self.numbered else Hulling.mark(self, i, v)),
    "repeats marked -2 but for corners": marking(
        lambda self, i, v: Hulling.mark(self, i, v) if v in self.numbered else NO_CORNER),
    "repeats marked with the number of the first one": marking(
        lambda self, i, v: self.first[v] if self.first[v] < i else Hulling.mark(self, i, v)),
    "repeats of points just before alone": marking(
        lambda self, i, v: REPEATED if i and self.points[i - 1] == v else self.numbered.get(v, NO_CORNER)),
    "repeats of point 0 alone": marking(
        lambda self, i, v: REPEATED if i and self.points[0] == v else self.numbered.get(v, NO_CORNER)),
    "the last of equal points marked": marking(
        lambda self, i, v: REPEATED if v in self.points[i + 1:] else self.numbered.get(v, NO_CORNER)),
    "all of equal points marked -1": marking(
        lambda self, i, v: REPEATED if self.points.count(v) > 1 else self.numbered.get(v, NO_CORNER)),
    "repeats by x alone": marking(
        lambda self, i, v: REPEATED if v[0] in [x for x, _ in self.points[:i]] else self.numbered.get(v, NO_CORNER)),
    "repeats by y alone": marking(
        lambda self, i, v: REPEATED if v[1] in [y for _, y in self.points[:i]] else self.numbered.get(v, NO_CORNER)),
    "-1 and -2 exchanged": marking(
        lambda self, i, v: {-1: -2, -2: -1}.get(Hulling.mark(self, i, v), Hulling.mark(self, i, v))),
    "-1 for all that is no corner": marking(lambda self, i, v: max(Hulling.mark(self, i, v), -1)),
    "0 for all that is no corner": marking(lambda self, i, v: max(Hulling.mark(self, i, v), 0)),
    "points along an edge marked -1": marking(
        lambda self, i, v: -1 if edge_of(self, v) is not None else Hulling.mark(self, i, v)),
    "points along an edge marked with its number": marking(
        lambda self, i, v: Hulling.mark(self, i, v) if self.first[v] < i or edge_of(self, v) is None
        else edge_of(self, v)),
    "corner numbers from 1": numbering(lambda k, n: k + 1),
    "corner numbers one less": numbering(lambda k, n: k - 1),
    "corner numbers clockwise": numbering(lambda k, n: -k % n),
    "corner numbers from the last": numbering(lambda k, n: n - 1 - k),
    "corner numbers as indexes of numbers": numbering(lambda k, n: 2 * k),
    "corner numbers in 8 bits": numbering(lambda k, n: signed(k, 8)),
    "corner 0 marked -2": numbering(lambda k, n: k or NO_CORNER),
    "the last corner marked -2": numbering(lambda k, n: NO_CORNER if k == n - 1 else k),
    "corner 255 marked -1": numbering(lambda k, n: -1 if k == 255 else k),
    "corners numbered as they come": marking(
        lambda self, i, v: k if (k := Hulling.mark(self, i, v)) < 0 else sum(
            w in self.numbered for w in set(self.points[:i]))),
    "corners marked with the point's number": marking(
        lambda self, i, v: i if Hulling.mark(self, i, v) >= 0 else Hulling.mark(self, i, v)),
    "the points' numbers by corner": mistake(marked=by_corner),
    "nothing for repeats": marking(lambda self, i, v: FILL if self.first[v] < i else Hulling.mark(self, i, v)),
    "nothing for points that are no corner": marking(
        lambda self, i, v: FILL if Hulling.mark(self, i, v) == NO_CORNER else Hulling.mark(self, i, v)),
    "nothing for the last mark": mistake(marked=lambda self: Hulling.marked(self)[:-1] + [FILL]),
    "marks of the different points alone": mistake(
        marked=lambda self: [Hulling.mark(self, i, v) for v, i in sorted(self.first.items(), key=lambda one: one[1])]
        + [FILL] * (len(self.points) - len(self.first))),
    # What is written.
    "nothing written": answering(lambda self: self.unwritten()),
    "the list not written": answering(lambda self: (self.unwritten()[0], self.marked())),
    "the marks not written": answering(lambda self: (self.listed(), self.unwritten()[1])),
    "zeros in the list in a refusal": refusing(lambda self, check: ([0] * self.length, self.unwritten()[1])),
    "zeros in the marks in a refusal": refusing(lambda self, check: (self.unwritten()[0], [0] * self.marks_length)),
    **{f"zeros in both lists with {n}": refusing(zeros_with(n)) for n in Hulling.order},
    "the list written with 2": refusing(
        lambda self, check: (self.listed(), self.unwritten()[1]) if check == 2 else None),
    "the marks written with 2": refusing(
        lambda self, check: (self.unwritten()[0], self.marked()) if check == 2 else None),
    "the list written with 9 where it fits": refusing(
        lambda self, check: (self.listed(), self.unwritten()[1]) if check == 9 and not self.list_misfits() else None),
    "the marks written with 9 where they fit": refusing(
        lambda self, check: (self.unwritten()[0], self.marked()) if check == 9 and not self.marks_misfit() else None),
    "as much written with 9 as there is room for": refusing(
        lambda self, check: (self.listed(), self.marked()) if check == 9 else None),
    "the points written with 9 where the list is long enough": refusing(
        lambda self, check: (self.given + [FILL] * (self.length - len(self.given)), self.unwritten()[1])
        if check == 9 and self.length >= len(self.given) else None),
}


def c_answer(found, *lists):
    """The status of the C function, and the three lists after the call."""
    return status(found, NO_SIDE), *lists


def c_mistake(changed):
    """The C function with another status and other lists: of the case, and what `c_hulled` gives."""
    return lambda *one: changed(one, *c_hulled(*one))


def of_status(changed):
    """Another status of a refusal."""
    return c_mistake(lambda one, found, *lists: (changed(found), *lists) if found else c_answer(found, *lists))


def of_lists(changed):
    """Other lists, of the case, the refusal and the right lists."""
    return c_mistake(lambda one, found, *lists: c_answer(found, *changed(one, found, *lists)))


def of_length(is_taken):
    """Other result lists taken, and the count written to them, as far as they go."""
    def changed(one, found, *lists):
        if not is_taken(one[3]):
            return c_answer(found, *lists)
        found, count, out, marks = hulled(*one[:3])
        return c_answer(found, out, marks, ([FILL if found else count] + [FILL] * one[3])[:one[3]])

    return c_mistake(changed)


C_MISTAKES = {
    "C: 100 after the others": c_mistake(
        lambda one, found, *lists: c_answer(hulled(*one[:3])[0] or found, *lists)),
    "C: 100 not tested": of_length(lambda length: True),
    "C: longer result lists taken": of_length(lambda length: length > 0),
    "C: empty result lists taken": of_length(lambda length: length < 2),
    "C: list and marks written with 100": of_lists(
        lambda one, found, out, marks, result: (*hulled(*one[:3])[2:], result)),
    "C: the result list written with 100": of_lists(
        lambda one, found, out, marks, result: (out, marks, ([hulled(*one[:3])[1] or FILL] + result[1:])[:one[3]])),
    "C: zeros in the result list in a refusal": of_lists(
        lambda one, found, out, marks, result: (out, marks, [0] * one[3] if found else result)),
    "C: the result list not written": of_lists(lambda one, found, out, marks, result: (out, marks, [FILL] * one[3])),
    "C: the count of numbers": of_lists(
        lambda one, found, out, marks, result: (out, marks, result if found else [2 * result[0]])),
    "C: the count of points": of_lists(
        lambda one, found, out, marks, result: (out, marks, result if found else [len(marks)])),
    "C: the list not written": of_lists(lambda one, found, out, marks, result: ([FILL] * one[1], marks, result)),
    "C: the marks not written": of_lists(lambda one, found, out, marks, result: (out, [FILL] * one[2], result)),
    "C: nothing after the last corner": of_lists(lambda one, found, out, marks, result: (
        out if found else out[:2 * result[0]] + [FILL] * (one[1] - 2 * result[0]), marks, result)),
    "C: the lengths of list and marks exchanged": c_mistake(
        lambda one, *_: c_answer(*c_hulled(one[0], one[2], one[1], one[3]))),
    "C: the count as the first place": c_mistake(lambda one, found, *lists: (
        status(found or (0, *lists[2]), NO_SIDE), *lists)),
    "C: side A": of_status(lambda found: status(found, SIDE_A)),
    "C: the code alone": of_status(lambda found: status(found[:1], NO_SIDE)),
    "C: the place without its count": of_status(lambda found: [found[0], NO_SIDE, 0, *status(found, NO_SIDE)[3:]]),
    "C: the place second": of_status(lambda found: [*status(found, NO_SIDE)[:3], *status(found, NO_SIDE)[:2:-1]]),
    "C: two places always": of_status(lambda found: status((*found, 0, 0)[:3], NO_SIDE)),
    "C: one place always": of_status(lambda found: status((*found, 0)[:2], NO_SIDE)),
    "C: 100 for 9": of_status(lambda found: status((100,) if found == (9,) else found, NO_SIDE)),
    "C: 9 for 100": of_status(lambda found: status((9,) if found == (100,) else found, NO_SIDE)),
    "C: always answered": of_status(lambda found: status(None, NO_SIDE)),
}


def count_mistakes(given):
    """How many cases would show each mistake."""
    counted = Counter({name: 0 for name in [*MISTAKES, *C_MISTAKES]})
    for one in given:
        right, c_right = hulled(*one[:3]), c_answer(*c_hulled(*one))
        assert Hulling(*one[:3]).answer() == right
        for name, mistaken in MISTAKES.items():
            counted[name] += mistaken(*one[:3]).answer() != right
        for name, mistaken in C_MISTAKES.items():
            counted[name] += mistaken(*one) != c_right
    assert min(counted.values()) >= 3, [name for name, count in counted.items() if count < 3]
    return counted


def conditions(given, length, marks_length):
    """Every condition of a refusal that holds in a case, in their order."""
    points = corners(given)
    holds = [(1, len(given) % 2 == 1), (3, len(points) > MOST_POINTS), (4, not fits(points)),
             (9, length != len(given) or marks_length != len(points)), (2, in_one_line(points))]
    return [number for number, one in holds if one]


def count_pairs(given):
    """How many cases are refused by a condition while another one holds. Every two can hold together."""
    counted = Counter()
    for *one, length in given:
        told, *others = conditions(*one) or [0]
        found, *_ = hulled(*one)
        assert told == (found[0] if found else 0)
        if length == HULL_LENGTH:
            counted.update(f"{told} told, {other} too" for other in others)
        else:
            counted.update(f"100 told, {other} too" for other in conditions(*one))
    expected = {f"{told} told, {other} too" for told, other in combinations((100, *Hulling.order), 2)}
    assert set(counted) == expected, set(counted) ^ expected
    return counted


# Counts that are told apart.
COUNTS = (3, 4, 16, 64, 255, 256)


def counted_as(n):
    return n if n in COUNTS else "other"


def compared(n, right):
    return "shorter" if n < right else "longer" if n > right else "right"


def kinds_of_points(points):
    """The kinds of the points of a hull: where its start comes first, which points there are, and along which edges."""
    outline, along = outline_of(frozenset(points)), along_edges(frozenset(points))
    yield f"done, the start {where(points.index(outline[0]), len(points) - 1)}"
    if set(points) == set(outline):
        yield "done, every point a corner"
    on_edges = list(chain.from_iterable(along))
    for v, times in Counter(points).items():
        kind = "a corner" if v in outline else "a point on an edge" if v in on_edges else "a point inside"
        yield f"done, {kind}{' again' if times > 1 else ''}"
    for i, between in enumerate(along):
        if between:
            which = "edge 0" if i == 0 else "the last edge" if i == len(along) - 1 else "another edge"
            yield f"done, points along {which}"
    for of, least in (("x", sorted(set(points))[:2]), ("y", sorted({v[::-1] for v in points})[:2])):
        if least[0][0] == least[1][0]:
            yield f"done, several points of the least {of}"


def kind_of_line(points):
    """Of points in one line."""
    if len(set(points)) < 2:
        return ["no points", "one point", "equal points"][min(len(points), 2)]
    (x, y), (to_x, to_y) = min(points), max(points)
    kind = "vertical" if x == to_x else "horizontal" if y == to_y else "rising" if y < to_y else "falling"
    return kind + ("" if len(set(points)) == len(points) else ", with repeats")


def kinds(given, length, marks_length):
    """The kinds of the answer, and more closely."""
    found, count, *_ = hulled(given, length, marks_length)
    points = corners(given)
    if found is None:
        yield "done"
        yield f"done, corners: {counted_as(count)}"
        yield f"done, points: {counted_as(len(points))}"
        yield from set(kinds_of_points(points))
        return
    number, *place = found
    yield f"refused {number}"
    if number == 1:
        yield f"refused 1, points: {'none' if not points else 'at most 256' if len(points) <= 256 else 'more'}"
    if number == 3:
        yield f"refused 3, points: {'257' if len(points) == 257 else 'more'}"
    if number == 4:
        x, y = (not -LIMIT <= z <= LIMIT for z in points[place[0]])
        yield f"refused 4, by {'x and y' if x and y else 'x' if x else 'y'}"
        yield f"refused 4, place {where(place[0], len(points) - 1)}"
        if not fits(points[place[0] + 1:]):
            yield "refused 4, another point too"
    if number == 9:
        yield f"refused 9, list {compared(length, len(given))}, marks {compared(marks_length, len(points))}"
    if number == 2:
        yield f"refused 2, {kind_of_line(points)}"


def expected_kinds():
    yield "done"
    yield from (f"done, {of}: {n}" for of, n in product(("corners", "points"), (*COUNTS, "other")))
    yield from (f"done, the start {at}" for at in WHERE)
    yield "done, every point a corner"
    yield from (f"done, {kind}{again}" for kind, again in product(
        ("a corner", "a point on an edge", "a point inside"), ("", " again")))
    yield from (f"done, points along {kind}" for kind in ("edge 0", "the last edge", "another edge"))
    yield from (f"done, several points of the least {of}" for of in "xy")
    yield from (f"refused {number}" for number in Hulling.order)
    yield from (f"refused 1, points: {kind}" for kind in ("none", "at most 256", "more"))
    yield from (f"refused 3, points: {kind}" for kind in ("257", "more"))
    yield from (f"refused 4, by {kind}" for kind in ("x", "y", "x and y"))
    yield from (f"refused 4, place {at}" for at in WHERE)
    yield "refused 4, another point too"
    for one, other in product(("right", "shorter", "longer"), repeat=2):
        if one != other or one != "right":
            yield f"refused 9, list {one}, marks {other}"
    yield from (f"refused 2, {kind}" for kind in ("no points", "one point", "equal points"))
    yield from (f"refused 2, {kind}{more}" for kind, more in product(
        ("horizontal", "vertical", "rising", "falling"), ("", ", with repeats")))


def count_kinds(given):
    counted = Counter(kind for *one, _ in given for kind in kinds(*one))
    expected = set(expected_kinds())
    assert set(counted) == expected, set(counted) ^ expected
    return counted


def check_coverage(given, texts):
    """The cases have what they are to have, whatever the seed."""
    assert {c_text.split()[1] for _, c_text, _ in texts} == {"0", "1", "2", "3", "4", "9", "100"}
    assert {length for *_, length in given} == {HULL_LENGTH, *OTHER_RESULTS}
    assert {len(one[0]) for one in given} >= {0, 1, 2, 3, 4, 5, 6, 510, 512, 513, 514, 515, 516, LONGEST_LIST}
    assert max(max(len(listed), *lengths) for listed, *lengths in given) <= LONGEST_LIST
    points = [v for listed, *_ in given for v in corners(listed)]
    assert all({*ENDS, *BEYOND} <= set(of) for of in zip(*points))
    accepted = [v for *one, _ in given if hulled(*one)[0] is None for v in corners(one[0])]
    assert all(set(ENDS) <= set(of) for of in zip(*accepted))


def check_laws(given, texts):
    """What must hold of every case.

    An outline that the strict reading accepts, whose corners are points, and which no point is outside of, is the hull,
    listed from any corner. It depends neither on the order of the points nor on repeats; gift wrapping in their order
    gives it too. Its own hull is itself. The marks that are corner numbers are all of them, each once. Points that get
    2 have every three in one line. A call that is refused leaves every list as it was."""
    orders = {}
    for (listed, length, marks_length, result_length), (text, c_text, again) in zip(given, texts):
        found, count, out, marks = hulled(listed, length, marks_length)
        points = corners(listed)
        if found is not None:
            left = line("list", *[FILL] * length, "marks", *[FILL] * marks_length)
            assert text.endswith(left) and c_text.endswith(line(left, "result", *[FILL] * result_length))
            assert again == "hull_again none"
            if found == (2,) and len(points) < 20:
                assert all(side_number(*three) == 0 for three in combinations(points, 3))
            continue
        piece = corners(out[:2 * count])
        assert refusal(out[:2 * count]) is None and set(piece) <= set(points)
        assert all(is_within(v, piece) for v in points)
        assert (piece[0][1], piece[0][0]) == min((y, x) for x, y in points)
        assert out[2 * count:] == [0] * (length - 2 * count) and length == len(listed)
        assert wrapped(points, better) == piece
        assert again == line("hull_again", count, "list", *out[:2 * count], "marks", *range(count))
        assert sorted(k for k in marks if k >= 0) == list(range(count))
        for i, k in enumerate(marks):
            assert k == REPEATED if points[i] in points[:i] else k == NO_CORNER or points[i] == piece[k]
            assert k != NO_CORNER or points[i] not in piece
        orders.setdefault(frozenset(points), []).append((tuple(points), piece))
    assert all(len({tuple(piece) for _, piece in those}) == 1 for those in orders.values())
    assert sum(len({order for order, _ in those}) >= 6 for those in orders.values()) >= 4


def main():
    for text, said in STATED:
        assert text == said, (text, said)
    given = list(cases())
    texts = [answers(*one) for one in given]
    check_coverage(given, texts)
    counted = count_kinds(given) + count_pairs(given)
    check_laws(given, texts)
    mistakes = count_mistakes(given)
    crate = Path(__file__).resolve().parent.parent / "crates" / "hull_cases"
    crate.mkdir(exist_ok=True)
    lines = [len(given)]
    for listed, *lengths in given:
        lines += [line(len(listed), *listed), line(*lengths)]
    stdin = "".join(f"{one}\n" for one in lines).encode()
    assert len(stdin) <= LARGEST_INPUT, len(stdin)
    (crate / "stdin").write_bytes(stdin)
    (crate / "stdout").write_bytes("".join(f"{text}\n" for one in texts for text in one).encode())
    print(f"{len(given)} cases")
    for kind, count in sorted(counted.items()):
        print(f"{count:6} {kind}")
    for name, count in mistakes.items():
        print(f"{count:6} of {len(given)} cases show: {name}")


if __name__ == "__main__":
    main()
