"""Writes the input of the program `call_cases`, and the answers that `call_reference.py` gives: crates/call_cases/stdin
and crates/call_cases/stdout.

Run without arguments from anywhere. The same seed gives the same files, on any machine. The input has the number of
cases, and for each how many numbers A's list has and the numbers, the same of B's, and nine numbers: x and y of a
point, the length of the result list for its nearest point, a corner number in two parts (over 2^32, and the rest), the
length of the list to write in removing it, an allowance, and the lengths of the result lists of comparing and of the
mismatch sum. The cases of `of_orientations` have clockwise lists; those of `of_mismatch`, which come last, are for the
mismatch sum. The script prints how many cases there are, how many comparisons of each kind, and how many mismatch sums
would differ for each of several mistakes.
"""
import fractions
from collections import Counter
from itertools import chain, product
from math import isqrt
from pathlib import Path

from call_reference import COMPARE_LENGTH, FEATURES, FILL, MISMATCH_LENGTH, NEAREST_LENGTH, UNITS, answers, c_compare
from call_reference import c_mismatch, check_mismatch, gaps, line, mismatch, mismatch_sum, nearest_point
from call_reference import pair_refusal, read_outline, read_outline_strict, remove_corner
from fit import spoiled
from pairs import ABOUT, ABOUT_FROM_LATER, ABOUT_MOVED, AROUND, CLOCKWISE, CLOCKWISE_MOVED, CLOCKWISE_SIDES
from pairs import CLOCKWISE_SQUARE, FAULTY, LARGEST, LARGEST_ALLOWANCE, LOWER, MOVED, SIDES, SQUARE, STAR, STRAIGHT
from pairs import TRIANGLE, TURNED, UPPER, Random, beside, clockwise, from_corner, from_edges, in_orientations
from pairs import is_clockwise, large, middling, moved, near_tie, near_tie_of_sides, numbers, opposite, over_edge
from pairs import rounded, roundings, small, which, which_number
from reference import LIMIT, Comparing, corners, default_refusal, dot, edge, is_within, minus, refusal, side_number

SEED = 20261116
LARGEST_COORDINATE, LEAST_COORDINATE = 2**31 - 1, -2**31
LARGEST_CORNER = 2**64 - 1
LONGEST_LIST = 520
# A wrong length of a result list, the longest for the nearest point: the places of a comparison before those of A. And
# the longest result list of comparing.
BEFORE_SIDES = 14
LONGEST_RESULT = 40
FLAT = [0, 0, 9, 0, 0, 3]
CLOCKWISE_FLAT = [0, 0, 0, 3, 9, 0]
PARABOLA = numbers([(i, i * i - 8000) for i in range(-127, 129)])

# The values of the specification's examples, and of clockwise lists.
STATED = [
    (nearest_point((6, 6), FLAT), "nearest edge 1 2025/90 405/90 135/90"),
    (nearest_point((12, 9), FLAT), "nearest corner 1 90/1 9/1 0/1"),
    (nearest_point((6, 6), CLOCKWISE_FLAT), "nearest edge 1 2025/90 405/90 135/90"),
    (nearest_point((12, 9), CLOCKWISE_FLAT), "nearest corner 2 90/1 9/1 0/1"),
    (nearest_point((-2, 1), CLOCKWISE_FLAT), "nearest edge 0 36/9 0/9 9/9"),
    (nearest_point((4, -5), CLOCKWISE_FLAT), "nearest edge 2 2025/81 324/81 0/81"),
    (nearest_point((-1, 5), CLOCKWISE_FLAT), "nearest corner 1 5/1 0/1 3/1"),
    (nearest_point((-1, -1), CLOCKWISE_FLAT), "nearest corner 0 2/1 0/1 0/1"),
    (nearest_point((1, 1), CLOCKWISE_FLAT), "nearest within 0/1 1/1 1/1"),
    (nearest_point((16001, 1), CLOCKWISE_FLAT), "nearest refused 7"),
    (read_outline(STAR), "read refused 6 0 3"),
    (read_outline_strict(STAR), "read_strict refused 6 0 3"),
    (read_outline(STRAIGHT), "read refused 6 0 2"),
    (read_outline(CLOCKWISE), "read clockwise 3 0 0 4 0 0 4"),
    (read_outline_strict(CLOCKWISE), "read_strict refused 6 0 2"),
    (read_outline(TRIANGLE), "read counterclockwise 3 0 0 4 0 0 4"),
    (read_outline_strict(TRIANGLE), "read_strict 3 0 0 4 0 0 4"),
    (read_outline(CLOCKWISE_SQUARE), "read clockwise 4 0 0 4 0 4 4 0 4"),
    (read_outline([4, 4, 4, 0, 0, 0, 0, 4]), "read clockwise 4 4 4 0 4 0 0 4 0"),
    (read_outline(2 * CLOCKWISE), "read refused 6 0 2"),
    (read_outline([0, 0, 0, 16001, 4, 0]), "read refused 4 1"),
    (read_outline_strict([0, 0, 0, 4, 4, 0, 4, 0]), "read_strict refused 5 2"),
    (remove_corner(CLOCKWISE_SQUARE, 1, 6), "remove refused 6 0 2 list 77 77 77 77 77 77"),
    (remove_corner(CLOCKWISE, 5, 1), "remove refused 6 0 2 list 77"),
    (read_outline(LARGEST), "read counterclockwise 4 -16000 -16000 16000 -16000 16000 16000 -16000 16000"),
    (read_outline([16001, 0, 4, 0, 0, 4]), "read refused 4 0"),
    (read_outline(PARABOLA)[:29], "read counterclockwise 256 -12"),
    (read_outline(PARABOLA[-2:] + PARABOLA[:-2])[:36], "read counterclockwise 256 128 8384 -"),
    (read_outline(PARABOLA + [129, 8641]), "read refused 3"),
    (read_outline([]), "read refused 2"),
    (read_outline([0]), "read refused 1"),
    (remove_corner(SQUARE, 1, 6), "remove done list 0 0 4 4 0 4"),
    (remove_corner(TRIANGLE, 1, 4), "remove refused 2 list 77 77 77 77"),
    # Kind, steps and support corners, the overall corner, the clearance, A's corner, B's corner.
    (c_compare(SQUARE, TRIANGLE, 3, COMPARE_LENGTH), "c_compare 0 0 0 0 0 list 1 3 2 1 0 -1 -1 -1 -1 -1 -1 -1 -1 -1 "
     "0 -1 -1 -1 -1 -1 -1 -1 -1 0 -1 -1 -1 -1 -1 -1 -1 -1"),
    (c_compare(SQUARE, TRIANGLE, 4, COMPARE_LENGTH), "c_compare 0 0 0 0 0 list 1 4 2 2 1 2 2 1 256 32 64 64 32 -1 "
     "1 2 2 1 256 32 64 64 32 0 -1 -1 -1 -1 -1 -1 -1 -1"),
    (c_compare(TRIANGLE, SQUARE, 4, COMPARE_LENGTH), "c_compare 0 0 0 0 0 list 1 4 2 2 2 2 2 1 256 32 64 64 32 -1 "
     "0 -1 -1 -1 -1 -1 -1 -1 -1 2 2 2 1 256 32 64 64 32"),
    (c_compare(SQUARE, TRIANGLE, 7, COMPARE_LENGTH), "c_compare 0 0 0 0 0 list 0 7 -1 -1 1 2 2 1 256 32 64 64 32 3 "
     "1 2 2 1 256 32 64 64 32 2 0 0 -1 0 1 0 0 1"),
    (c_compare(SQUARE, MOVED, 8, COMPARE_LENGTH), "c_compare 0 0 0 0 0 list 0 8 -1 -1 1 0 1 0 100 1 10 0 1 10 "
     "1 0 1 0 100 1 10 0 1 2 1 1 1 100 1 4 0 1"),
    (c_compare(SQUARE, CLOCKWISE, 3, COMPARE_LENGTH), "c_compare 0 0 0 0 0 list 1 3 2 2 0 -1 -1 -1 -1 -1 -1 -1 -1 -1 "
     "0 -1 -1 -1 -1 -1 -1 -1 -1 0 -1 -1 -1 -1 -1 -1 -1 -1"),
    (c_compare(CLOCKWISE, SQUARE, 4, COMPARE_LENGTH), "c_compare 0 0 0 0 0 list 1 4 1 2 2 2 2 1 256 32 64 64 32 -1 "
     "0 -1 -1 -1 -1 -1 -1 -1 -1 2 2 2 1 256 32 64 64 32"),
    (c_compare(CLOCKWISE_SQUARE, CLOCKWISE_MOVED, 8, COMPARE_LENGTH), "c_compare 0 0 0 0 0 "
     "list 0 8 -1 -1 1 0 1 0 100 1 10 0 1 10 1 0 1 0 100 1 10 0 1 2 2 1 2 100 1 4 4 1"),
    (c_compare(SQUARE, TRIANGLE, 7, BEFORE_SIDES), "c_compare 100 0 0 0 0 list" + 14 * " 77"),
    (mismatch(SQUARE, TRIANGLE), "mismatch 8192"),
    (mismatch(CLOCKWISE, CLOCKWISE_SQUARE), "mismatch 8192"),
    (mismatch(SQUARE, MOVED), "mismatch 557056"),
    (mismatch(CLOCKWISE_MOVED, TURNED), "mismatch 557056"),
    (mismatch(SQUARE, SQUARE), "mismatch 0"),
    # Of each list a corner has 4095872001/2, and two have 2047872002/1.
    (mismatch(LOWER, UPPER), "mismatch 12582256649216"),
    (mismatch(STAR, [0]), "mismatch refused A 6 0 3"),
    (mismatch(SQUARE, [0, 0, 4, 0, 4, 0, 0, 4]), "mismatch refused B 5 1"),
    (c_mismatch(SQUARE, TRIANGLE, MISMATCH_LENGTH), "c_mismatch 0 0 0 0 0 list 8192"),
    (c_mismatch(SQUARE, STAR, MISMATCH_LENGTH), "c_mismatch 6 2 2 0 3 list 77"),
    (c_mismatch([0], STAR, MISMATCH_LENGTH), "c_mismatch 1 1 0 0 0 list 77"),
    (c_mismatch(SQUARE, TRIANGLE, 0), "c_mismatch 100 0 0 0 0 list"),
    (c_mismatch(STAR, [0], 2), "c_mismatch 100 0 0 0 0 list 77 77"),
]

# Wrong lengths of the result list of the mismatch sum.
OTHER_LENGTHS = [0, 2, NEAREST_LENGTH, COMPARE_LENGTH]
# A corner over an edge, for `over_edge`, and 1024 times its gap, brought down. The squared length of an edge without a
# whole point between its ends is odd or twice an odd number, so 1024 times a gap is whole only where twice the gap is.
UNITS_OVER_EDGES = [
    # The least gap; just below and just above 1 and 2.
    (32000, 31999, 1, 0),
    (32000, 1, 1000, 0),
    (31762, 30357, 1373, 1),
    (31128, 22753, 1704, 1),
    (31826, 31211, 1970, 2),
    # Just below 512, and 512; just below and above 1023; just below 1024, and 1024; just below and above 1025.
    (22001, 21999, 22000, 511),
    (1, 1, 1, 512),
    (8503, 51, 8499, 1022),
    (31104, 28673, 42283, 1023),
    (31999, 1, 31999, 1023),
    (20, 21, 29, 1024),
    (16387, 4, 16395, 1024),
    (10139, 32, 10144, 1025),
    # Below a whole number by 1 over the squared length, the second and third not so in doubles; above one by as much.
    (8362, 14589, 49666, 8932),
    (10746, 14947, 218090426, 143719358308),
    (29894, 4311, 886750590, 882664667292),
    (29704, 6239, 892463589, 885323880319),
    # 1024 times the square of the side number: below and above 2^63, below 2^64, and 2^64.
    (20000, 1, 94906265, 23058429731),
    (32000, 3, 94906266, 9007199246),
    (21001, 20000, 134217727, 21933201643),
    (15999, 16000, 134217728, 36031048889),
]
# A long rhombus, of which each edge has the squared length 256000001, and outlines with corners over its edges at side
# numbers of 500, for which 1024 times the gap is just below 1, and of 501.
RHOMBUS = [-16000, 0, 0, -1, 16000, 0, 0, 1]
OVER_RHOMBUS = [
    (RHOMBUS, [-16000, 0, -500, -1, 500, -1, 16000, 0, 500, 1, -500, 1], 0),
    ([-16000, 0, -501, -1, 501, -1, 16000, 0, 501, 1, -501, 1], RHOMBUS, 4),
    ([-16000, 0, -500, 1, 501, 1, 16000, 0, 500, -1, -501, -1], RHOMBUS, 2),
    ([-16000, 0, -500, -1, 0, -1, 16000, 0, 0, 1], [-16000, 0, 0, -1, 16000, 0, 500, 1, 0, 1], 0),
    ([-16000, 0, 0, -1, 501, -1, 16000, 0, 0, 1], [-16000, 0, -501, 1, 0, 1, 16000, 0, 0, -1], 2),
]


def in_range(n):
    return max(-LIMIT, min(LIMIT, n))


def near_edge(random, piece):
    """A point by an edge, at a multiple of its normal from an end or the middle: on the border, outside or inside."""
    i = random.below(len(piece))
    p, q = edge(piece, i)
    dx, dy = minus(q, p)
    x, y = random.one_of([p, q, ((p[0] + q[0]) // 2, (p[1] + q[1]) // 2)])
    k = random.one_of([-1, 0, 1, 1, 2])
    return in_range(x + k * dy), in_range(y - k * dx)


def point(random, piece):
    """A point for an outline, or any where there is none: 0 to 3 by an edge, 4 by a corner, 5 anywhere, 6 at the end of
    the range or out of it."""
    way = random.below(7) if piece else 5
    if way < 4:
        return near_edge(random, piece)
    if way == 4:
        x, y = random.one_of(piece)
        return in_range(x + random.between(-3, 3)), in_range(y + random.between(-3, 3))
    if way == 5:
        reach = random.one_of([5, 50, LIMIT])
        return random.between(-reach, reach), random.between(-reach, reach)
    far = random.one_of([LIMIT, -LIMIT, LIMIT + 1, -LIMIT - 1, LARGEST_COORDINATE, LEAST_COORDINATE])
    near = random.between(-9, 9)
    return random.one_of([(far, near), (near, far), (far, far)])


def often(random, usual, others):
    """Mostly the usual one."""
    return usual if random.below(5) else random.one_of(others)


def numbers_for(random, a, b, refused=refusal):
    """The numbers of a case for two lists; the point is for A, where it is not refused."""
    accepted = corners(a) if refused(a) is None else []
    x, y = point(random, accepted)
    n = len(a) // 2
    corner = often(random, random.below(max(n, 1)), [n, n + 1, 256, 2**32, LARGEST_CORNER])
    remaining = max(len(a) - 2, 0)
    out_length = min(often(random, remaining, [0, max(remaining - 1, 0), remaining + 1, remaining + 2]), LONGEST_LIST)
    edges = n + len(b) // 2
    some = random.below(edges + 1)
    allowance = random.one_of([0, 1, some, max(edges - 1, 0), edges, edges, edges + 1, LARGEST_ALLOWANCE])
    nearest_length = often(random, NEAREST_LENGTH, [0, NEAREST_LENGTH - 1, NEAREST_LENGTH + 1, BEFORE_SIDES])
    compare_length = often(random, COMPARE_LENGTH, [0, BEFORE_SIDES, COMPARE_LENGTH - 1, COMPARE_LENGTH + 1])
    return [x, y, nearest_length, corner, out_length, allowance, compare_length]


def worked():
    """The examples of the specification, and every refusal."""
    for x, y in ((6, 6), (12, 9), (1, 1), (9, 0), (6, 1), (3, 5), (16001, 0), (0, -16001)):
        yield FLAT, TRIANGLE, [x, y, NEAREST_LENGTH, 0, 4, 6, COMPARE_LENGTH]
    for corner in (0, 1, 3, 4, 5, 2**32, LARGEST_CORNER):
        for out_length in (6, 5, 8):
            yield SQUARE, TRIANGLE, [4, 5, NEAREST_LENGTH, corner, out_length, corner % 10, COMPARE_LENGTH]
    for corner in (0, 2, 3):
        for out_length in (4, 0):
            yield TRIANGLE, SQUARE, [2, 2, NEAREST_LENGTH, corner, out_length, 7, COMPARE_LENGTH]
    yield LOWER, UPPER, [16000, 16000, NEAREST_LENGTH, 0, 4, 6, COMPARE_LENGTH]
    yield LARGEST, TURNED, [0, 0, NEAREST_LENGTH, 2, 6, 8, COMPARE_LENGTH]
    lists = [[], [0], [3, 1, 2], [0, 0, 4, 0], SQUARE + [0], [0, 0] * 257,
             [16001] + SQUARE[1:], SQUARE[:5] + [-16001] + SQUARE[6:], [LARGEST_COORDINATE, LEAST_COORDINATE] * 3,
             [0, 0, 4, 0, 4, 0, 0, 4], [0, 0, 4, 0, 4, 4, 0, 0], STAR, STRAIGHT, CLOCKWISE]
    for faulty in lists:
        length = max(len(faulty) - 2, 0) if len(faulty) < 100 else 4
        # Refused alone; with a point, a corner and lengths that would be refused too; as B.
        yield faulty, SQUARE, [1, 1, NEAREST_LENGTH, 0, length, 9, COMPARE_LENGTH]
        yield faulty, STAR, [16001, 1, NEAREST_LENGTH - 1, 99, length + 1, 9, COMPARE_LENGTH - 1]
        yield SQUARE, faulty, [-1, 1, NEAREST_LENGTH, 0, 6, 9, COMPARE_LENGTH]
    yield STAR, [0], [16001, 1, NEAREST_LENGTH, 99, 0, 9, COMPARE_LENGTH]
    yield PARABOLA, SQUARE, [127, 8000, NEAREST_LENGTH, 255, 510, 260, COMPARE_LENGTH]
    yield PARABOLA, SQUARE, [0, -8001, NEAREST_LENGTH, 256, 3, 259, COMPARE_LENGTH]


def accepted_pair(random):
    way = random.below(10)
    if way < 5:
        a = small(random)
        return a, beside(random, a) if random.below(2) else small(random)
    if way < 8:
        a = middling(random)
        return a, beside(random, a)
    if way < 9:
        return large(random), large(random)
    return random.one_of([near_tie(random), (from_edges(random, random.between(25, 60), 100), small(random))])


def generated(random):
    for _ in range(110):
        a, b = accepted_pair(random)
        yield from_corner(a, random.below(len(a))), b
    for _ in range(25):
        a, b = small(random), small(random)
        bad_a, bad_b = spoiled(random, a), spoiled(random, b)
        yield random.one_of([(bad_a, b), (a, bad_b), (bad_a, bad_b)])
    a = from_edges(random, 100, 100)
    yield a, opposite(a)


def of_sides(random):
    """Pairs for what the two sides show, with allowances."""
    for k in (0, 7, 14, 21, 28):
        yield from showing_others(*SIDES[k])
    for a, b in ((SQUARE, MOVED), (TURNED, SQUARE), (AROUND, TRIANGLE)):
        yield from showing_others(a, b)
    for k in (4, 13, 22, 31):
        b, a = SIDES[k]
        yield from showing_others(a, b)
    for _ in range(4):
        a, b = near_tie_of_sides(random)
        yield numbers(a), numbers(b), len(a) + len(b)


def showing_others(a, b):
    """The pair with each allowance for which other corners are shown than for one less, and with the edge count."""
    comparing = Comparing(corners(a), corners(b))
    edges = (len(a) + len(b)) // 2
    shown = None
    for allowance in range(edges + 1):
        *_, sides = comparing.found(allowance)
        if sides != shown or allowance == edges:
            shown = sides
            yield a, b, allowance


def of_lengths():
    """Result lists of comparing that are too short or too long; at last with outlines that would be refused."""
    for length in (0, 7, 13, BEFORE_SIDES, 15, 23, COMPARE_LENGTH - 1, COMPARE_LENGTH + 1, LONGEST_RESULT):
        yield SQUARE, TRIANGLE, [4, 5, NEAREST_LENGTH, 0, 6, 7, length]
    yield SQUARE, TRIANGLE, [4, 5, NEAREST_LENGTH, 0, 6, 3, BEFORE_SIDES]
    yield STAR, [0], [4, 5, NEAREST_LENGTH, 0, 8, 7, BEFORE_SIDES]


def point_cases():
    """Points for clockwise lists: off every feature, on the border, inside, and out of range."""
    for point in ((6, 6), (12, 9), (-2, 1), (4, -5), (-1, 5), (-1, -1), (1, 1), (0, 3), (3, 2), (16001, 0)):
        yield CLOCKWISE_FLAT, point
    # From another corner: edges 0 to 3, corners 0 to 3.
    square = numbers(from_corner(corners(CLOCKWISE_SQUARE), 1))
    for point in ((2, 7), (7, 2), (2, -7), (-7, 2), (-1, 6), (6, 6), (6, -1), (-1, -2)):
        yield square, point


def of_orientations(random):
    """Cases with clockwise lists."""
    # B is a small triangle at the point, of either orientation.
    for number, (a, (x, y)) in enumerate(point_cases()):
        b = [(x, y), (x + 1, y), (x, y + 1)]
        b = numbers(clockwise(b) if number % 3 == 0 else b)
        edges = (len(a) + len(b)) // 2
        length = NEAREST_LENGTH - (number % 8 == 7)
        allowance = edges - number // 3 % 2 * (number % 4)
        yield a, b, [x, y, length, number % 5, len(a) - 2 - number % 2, allowance, COMPARE_LENGTH]
    # As A or as B, but for the longest.
    for number, (one, _) in enumerate(FAULTY):
        if len(one) < 100 and number % 3 < 2:
            yield one, CLOCKWISE, [1, 1, NEAREST_LENGTH, 0, max(len(one) - 2, 0), 9, COMPARE_LENGTH]
        elif len(one) < 100:
            yield CLOCKWISE_SQUARE, one, [5, 1, NEAREST_LENGTH, 4, 6, 9, COMPARE_LENGTH]
    for a, b, allowance in [
        (SQUARE, CLOCKWISE, 3), (CLOCKWISE_SQUARE, TRIANGLE, 5), (CLOCKWISE, CLOCKWISE_SQUARE, 4),
        (CLOCKWISE, CLOCKWISE_SQUARE, 7), (TRIANGLE, CLOCKWISE_SQUARE, 4), (CLOCKWISE, UPPER, 6),
        (CLOCKWISE_SQUARE, CLOCKWISE_MOVED, 8), (SQUARE, CLOCKWISE_MOVED, 7),
        (ABOUT, ABOUT_MOVED, 8), (ABOUT_FROM_LATER, ABOUT_MOVED, 1), (ABOUT_FROM_LATER, ABOUT_MOVED, 8),
        ([4, 0, -2, -2, 0, 4, 4, 4], CLOCKWISE, 7),
        # The last edge of B, and its edge 0.
        ([0, 0, 1, -3, 4, 0], CLOCKWISE, 6), ([0, 0, 0, 4, -3, 1], CLOCKWISE, 6),
    ]:
        yield a, b, [b[0], b[1], NEAREST_LENGTH, 1, len(a) - 2, allowance, COMPARE_LENGTH]
    around = numbers(clockwise(corners(PARABOLA)))
    yield around, CLOCKWISE, [127, 8000, NEAREST_LENGTH, 255, 510, 259, COMPARE_LENGTH]
    for number in range(8):
        a, b = accepted_pair(random)
        a, b = (numbers(piece) for piece in in_orientations(a, b, CLOCKWISE_SIDES[number % 4]))
        yield a, b, numbers_for(random, a, b, default_refusal)


def pairs_of_mismatch(random):
    # The examples, with the lists exchanged, clockwise and from other corners.
    yield from [(SQUARE, TRIANGLE), (TRIANGLE, SQUARE), (CLOCKWISE_SQUARE, TRIANGLE), (SQUARE, CLOCKWISE),
                (CLOCKWISE, CLOCKWISE_SQUARE), (TURNED, [0, 4, 0, 0, 4, 0]), (SQUARE, MOVED),
                (CLOCKWISE_MOVED, TURNED), (SQUARE, SQUARE), (CLOCKWISE_SQUARE, TURNED)]
    # Nested, equal, touching, crossing and apart; touching along a part of an edge, and by a corner on an edge.
    for k in (1, 3, 5, 6, 8, 11, 12, 16, 19, 23, 26, 29):
        yield SIDES[k] if k % 2 else SIDES[k][::-1]
    yield from [(SQUARE, [4, 1, 9, 1, 9, 3, 4, 3]), ([9, 4, 9, 0, 4, 2], CLOCKWISE_SQUARE)]
    for number, (x, y, side, _) in enumerate(UNITS_OVER_EDGES):
        a, b = (numbers(piece) for piece in in_orientations(*over_edge(x, y, side), CLOCKWISE_SIDES[number % 4]))
        yield (a, b) if number % 3 else (b, a)
    for a, b, _ in OVER_RHOMBUS:
        yield a, b
    # At the ends of the range, one in the other or apart. The halves of the largest square have the largest side
    # numbers; the longest edge of the second half has no whole point between its ends.
    half, other_half = LARGEST[:4] + LARGEST[6:], [-15999, 16000] + LARGEST[2:6]
    yield from [(UPPER, LARGEST), (half, UPPER), (LOWER, other_half)]
    # Nearly the largest sum.
    piece = from_edges(random, 256, 12)
    far = moved(piece, *(-LIMIT - min(corner[k] for corner in piece) for k in (0, 1)))
    yield numbers(far), numbers(clockwise(opposite(far)))


def of_mismatch(random):
    """Cases for the mismatch sum: pairs, with the nearest point to B's first corner; and A refused, B, or both."""
    for a, b in pairs_of_mismatch(random):
        yield a, b, [b[0], b[1], NEAREST_LENGTH, 0, 0, (len(a) + len(b)) // 2, COMPARE_LENGTH]
    lists = [SQUARE + [0], [4, 0, 0, 4], [0, 0, 4, -16001, 4, 4], [0, 0, 4, 0, 4, 4, 0, 0], STAR]
    for k, faulty in enumerate(lists):
        for a, b in ((faulty, CLOCKWISE), (SQUARE, faulty), (faulty, lists[k - 1])):
            yield a, b, [1, 1, NEAREST_LENGTH, 0, 0, 9, COMPARE_LENGTH]


def mismatch_length(number):
    """The length of the result list of the mismatch sum, by the number of the case: mostly the right one."""
    return OTHER_LENGTHS[number // 5 % 4] if number % 5 == 3 else MISMATCH_LENGTH


def cases():
    random = Random(SEED)
    for number, (a, b, given) in enumerate(chain(of_other_calls(random), of_mismatch(random))):
        yield a, b, given + [mismatch_length(number)]


def of_other_calls(random):
    yield from worked()
    for a, b in generated(random):
        a, b = numbers(a), numbers(b)
        yield a, b, numbers_for(random, a, b)
    # The pairs for rounding, exchanged, and the nearest point to the corner that has the gap.
    for b, a, _ in rounded():
        x, y = next(corner for corner in b if corner not in a)
        yield numbers(a), numbers(b), [x, y, NEAREST_LENGTH, 0, 2 * len(a) - 2, len(a) + len(b), COMPARE_LENGTH]
    # What the two sides show, and the nearest point to B's first corner.
    for a, b, allowance in of_sides(random):
        yield a, b, [b[0], b[1], NEAREST_LENGTH, 0, len(a) - 2, allowance, COMPARE_LENGTH]
    yield from of_lengths()
    yield from of_orientations(random)


def kinds(text):
    """The call, and the refusal's number and side, or the orientation, or the feature, or the kind of a comparison,
    side and feature."""
    words = text.split()
    call, first, second = words[0], words[1], words[2] if len(words) > 2 else ""
    if call == "mismatch":
        return (call, *words[1:4]) if first == "refused" else (call, "done")
    if call == "c_mismatch":
        return call, first, second
    if first == "refused" or call == "nearest":
        return (call, first, second) if first == "refused" else (call, first)
    if call == "c_compare":
        return (call, first, second) if first != "0" else (call, first, words[7], words[11], words[13])
    if call == "c_nearest":
        return (call, first, words[7]) if first == "0" else (call, first)
    return (call, first) if call in ("c_remove", "read") else (call, "done")


def as_held(piece):
    return clockwise(piece) if is_clockwise(piece) else piece


def on_border(v, piece):
    return is_within(v, piece) and any(side_number(*edge(piece, i), v) == 0 for i in range(len(piece)))


def check_coverage(given, texts, accepted):
    """The cases have what they are to have, whatever the seed. `accepted` has those of which no list is refused, each
    with its texts."""
    found = {kinds(text) for one in texts for text in one}
    expected = {("read", "counterclockwise"), ("read", "clockwise"), ("read_strict", "done")}
    expected |= {(call, "refused", str(n)) for call in ("read", "read_strict") for n in range(1, 7)}
    expected |= {("nearest", feature) for feature in ("within", "corner", "edge")}
    expected |= {("nearest", "refused", str(n)) for n in range(1, 8)}
    expected |= {("remove", "done")} | {("remove", "refused", str(n)) for n in (1, 2, 3, 4, 5, 6, 8, 9)}
    expected |= {("c_nearest", "0", f) for f in "012"} | {("c_nearest", str(n)) for n in (1, 2, 3, 4, 5, 6, 7, 100)}
    expected |= {("c_remove", str(n)) for n in (0, 1, 2, 3, 4, 5, 6, 8, 9)}
    expected |= {("c_compare", str(n), side) for n in range(1, 7) for side in "12"} | {("c_compare", "100", "0")}
    # Done and spent, the side, and the feature; none, only if spent; within, only if done and of A.
    expected |= {("c_compare", "0", kind, side, feature) for kind in "01" for side in "12" for feature in "12"}
    expected |= {("c_compare", "0", "1", "0", "-1"), ("c_compare", "0", "0", "1", "0")}
    expected |= {("mismatch", "refused", side, str(n)) for n in range(1, 7) for side in "AB"} | {("mismatch", "done")}
    expected |= {("c_mismatch", str(n), side) for n in range(1, 7) for side in "12"}
    expected |= {("c_mismatch", "0", "0"), ("c_mismatch", "100", "0")}
    assert found == expected, found ^ expected
    over_steps = {allowance - (len(a) + len(b)) // 2 for a, b, (*_, allowance, _, _), _ in accepted}
    over_corners = {corner - len(a) // 2 for a, _, (_, _, _, corner, *_), _ in accepted}
    over_length = {out_length - len(a) + 2 for a, _, (*_, out_length, _, _, _), _ in accepted}
    assert min(over_steps) < -2 and {-1, 0, 1} <= over_steps and 0 in {one[2][5] for one in accepted}
    assert min(over_corners) < -2 and {-1, 0, 1} <= over_corners
    assert min(over_length) < -2 and {-1, 0, 1, 2} <= over_length
    points = [((x, y), as_held(corners(a))) for a, _, (x, y, *_) in given if default_refusal(a) is None]
    assert sum(on_border(v, piece) for v, piece in points) >= 10
    assert sum(is_within(v, piece) and not on_border(v, piece) for v, piece in points) >= 10
    assert max(out_length for _, _, (*_, out_length, _, _, _) in given) <= LONGEST_LIST
    assert max(nearest_length for _, _, (_, _, nearest_length, *_) in given) <= BEFORE_SIDES
    lengths = {compare_length for _, _, (*_, compare_length, _) in given}
    assert lengths >= {0, BEFORE_SIDES, COMPARE_LENGTH - 1, COMPARE_LENGTH, COMPARE_LENGTH + 1}
    assert max(lengths) == LONGEST_RESULT
    # Each length of the result list of the mismatch sum; the right one and a wrong one, with none, A, B, both refused.
    assert {length for _, _, (*_, length) in given} == {MISMATCH_LENGTH, *OTHER_LENGTHS}
    taken = [[default_refusal(one) is None for one in (a, b)] for a, b, _ in given]
    assert len({(*sides, length == MISMATCH_LENGTH) for sides, (_, _, (*_, length)) in zip(taken, given)}) == 8
    answered = answered_places(texts)
    # Done: within, a corner or an edge, of A's corner and of B's. Spent: none, a corner or an edge.
    found = {(places[0], places[16], places[25]) for places in answered}
    expected = {*product((0,), (0, 1, 2), (0, 1, 2)), *product((1,), (-1, 1, 2), (-1, 1, 2))}
    assert found == expected, found ^ expected
    # Comparisons that are done: the gap is in places 8 and 9 of the list, the clearance in place 13.
    done = [places for places in answered if places[0] == 0]
    counted = Counter()
    for places in done:
        counted.update(roundings(places[8], places[9]))
    assert min(counted.values()) >= 1 and max(places[13] for places in done) == 45255, counted
    check_orientations(accepted)


def check_orientations(accepted):
    """Of pairs that the default reading takes: each combination of orientations, done and spent, with either side
    named; every feature of a clockwise list, as nearest to a point and in a comparison; removing refused by 6 for a
    clockwise list, and for no other."""
    found = set()
    for a, b, given, texts in accepted:
        pair = corners(a), corners(b)
        turned = [is_clockwise(piece) for piece in pair]
        nearest, removed, *_, compared, _, _ = texts[2:]
        assert (removed == line("remove refused 6 0 2 list", *[FILL] * given[4])) == turned[0]
        _, kind, *number = nearest.split()[:3]
        if turned[0] and kind != "refused":
            place = "" if kind == "within" else f" {which_number(int(number[0]), len(pair[0]))}"
            found.add(f"nearest, clockwise: {kind}{place}")
        status, _, places = compared.partition(" list ")
        if status == "c_compare 0 0 0 0 0":
            places = [int(n) for n in places.split()]
            found.add(f"clockwise: {which(*turned)}; {['done', 'spent'][places[0]]}, side {places[4]}")
            for s, k in ((0, 14), (1, 23)):
                if turned[1 - s] and places[k] and places[k + 2]:
                    place = which_number(places[k + 3], len(pair[1 - s]))
                    found.add(f"comparing, on clockwise {'BA'[s]}: {FEATURES[places[k + 2]]} {place}")
    numbers_of = [f"{feature} {number}" for feature in ("corner", "edge") for number in ("0", "the last", "another")]
    expected = {f"nearest, clockwise: {one}" for one in ["within"] + numbers_of}
    expected |= {f"comparing, on clockwise {side}: {one}" for side in "AB" for one in numbers_of}
    for turned, kind, side in product(("none", "A alone", "B alone", "both"), ("done", "spent"), "12"):
        expected.add(f"clockwise: {turned}; {kind}, side {side}")
    expected |= {f"clockwise: {turned}; spent, side 0" for turned in ("none", "A alone", "B alone", "both")}
    assert found == expected, found ^ expected


def to_border(v, piece):
    """The squared distance from a point in a piece to its border, in whole units, rounded down."""
    edges = [edge(piece, i) for i in range(len(piece))]
    return min(UNITS * side_number(p, q, v) ** 2 // dot(minus(q, p), minus(q, p)) for p, q in edges)


def mistaken(a, b):
    """The mismatch sums of two accepted lists of corners that programs with a mistake give, by the mistake."""
    both = [(gap.upper, gap.lower) for side in gaps(a, b) for gap in side]
    down, roots = [UNITS * n // d for n, d in both], [isqrt(UNITS * UNITS * n // d) for n, d in both]
    inside = [to_border(v, other) for piece, other in ((a, b), (b, a)) for v in piece if is_within(v, as_held(other))]
    return {
        "the distances unsquared": sum(roots),
        "the first distance unsquared": roots[0] + sum(down[1:]),
        "the exact sum brought down": int(UNITS * sum(fractions.Fraction(n, d) for n, d in both)),
        "rounded up": sum(-(-UNITS * n // d) for n, d in both),
        "rounded to the nearest": sum((2 * UNITS * n + d) // (2 * d) for n, d in both),
        "whole square millimetres alone": sum(UNITS * (n // d) for n, d in both),
        "1000 units": sum(1000 * n // d for n, d in both),
        "A's corners alone": sum(down[:len(a)]),
        "B's corners alone": sum(down[len(a):]),
        "the greatest gap alone": max(down),
        "corners inside measured to the border": sum(down + inside),
        "1024 times the upper number in 64 bits": sum(UNITS * n % 2**64 // d for n, d in both),
        "the same in 64 bits with a sign": sum(((UNITS * n + 2**63) % 2**64 - 2**63) // d for n, d in both),
        "in doubles": sum(int(1024.0 * n / d) for n, d in both),
    }


def count_mistakes(accepted):
    """How many mismatch sums would differ, for each mistake."""
    counted = Counter()
    for a, b, *_ in accepted:
        pair = corners(a), corners(b)
        check_mismatch(*pair)
        found = mismatch_sum(*pair)
        counted.update({mistake: int(other != found) for mistake, other in mistaken(*pair).items()})
    assert min(counted.values()) >= 3, counted
    return counted


def answered_places(texts):
    """The result lists of the comparisons that answer."""
    lists = [text.partition(" list ") for one in texts for text in one if text.startswith("c_compare")]
    return [[int(n) for n in places.split()] for status, _, places in lists if status == "c_compare 0 0 0 0 0"]


def table(texts):
    """How many comparisons of each kind there are, by what A and B show: places 16 and 25 have the features."""
    words = {-1: "none", 0: "within", 1: "corner", 2: "edge"}
    counted = Counter((places[0], places[16], places[25]) for places in answered_places(texts))
    for (kind, a, b), count in sorted(counted.items()):
        yield f"{count:6} {'spent' if kind else 'done'}, A's {words[a]}, B's {words[b]}"


def main():
    for text, said in STATED:
        assert text == said, (text, said)
    for x, y, side, units in UNITS_OVER_EDGES:
        assert mismatch_sum(*over_edge(x, y, side)) == units, (x, y, side)
    for a, b, units in OVER_RHOMBUS:
        assert mismatch_sum(corners(a), corners(b)) == units, (a, b)
    given = list(cases())
    texts = [answers(*one) for one in given]
    accepted = [(*one, text) for one, text in zip(given, texts) if pair_refusal(*one[:2])[0] is None]
    check_coverage(given, texts, accepted)
    mistakes = count_mistakes(accepted)
    crate = Path(__file__).resolve().parent.parent / "crates" / "call_cases"
    crate.mkdir(exist_ok=True)
    lines = [len(given)]
    for a, b, (x, y, nearest_length, corner, *others) in given:
        lines += [line(len(a), *a), line(len(b), *b)]
        lines.append(line(x, y, nearest_length, corner >> 32, corner % 2**32, *others))
    (crate / "stdin").write_bytes("".join(f"{one}\n" for one in lines).encode())
    (crate / "stdout").write_bytes("".join(f"{text}\n" for one in texts for text in one).encode())
    print(f"{len(given)} cases", *table(texts), sep="\n")
    for mistake, count in mistakes.items():
        print(f"{count:6} of {len(accepted)} mismatch sums differ: {mistake}")


if __name__ == "__main__":
    main()
