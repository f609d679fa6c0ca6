"""Writes the input of the program `pairs`, and the answers that `reference.py` gives: crates/pairs/stdin and
crates/pairs/stdout.

Run without arguments from anywhere. The same seed gives the same files, on any machine: whole numbers only, and a
generator of its own. The input has, for each pair, how many numbers A's list has and the numbers, the same of B's, and
how many allowances there are and these. The script prints how many pairs and answers there are, and of which kinds.

The pairs of `of_orientations`, which come last, have lists of either orientation; of those before only one list is
clockwise. Every answer for a clockwise list is compared with that for the same outline listed counterclockwise from the
same corner, and every accepted pair with the lists in the opposite order.
"""
from collections import Counter
from functools import cmp_to_key
from itertools import product
from math import gcd, isqrt
from pathlib import Path

from reference import DONE, LIMIT, SPENT, Comparing, Fraction, check_reversal, compare, compare_all, corners
from reference import default_refusal, edge, half, is_within, refusal, side_number

SEED = 20261115
LARGEST_ALLOWANCE = 2**32 - 1
# The room, in bytes, that the program has for its input.
LARGEST_INPUT = 2**20


class Random:
    """xorshift64*."""

    def __init__(self, seed):
        self.state = seed

    def below(self, n):
        x = self.state
        x ^= x >> 12
        x = (x ^ (x << 25)) % 2**64
        x ^= x >> 27
        self.state = x
        return (x * 2685821657736338717 % 2**64 >> 11) % n

    def between(self, low, high):
        return low + self.below(high - low + 1)

    def one_of(self, items):
        return items[self.below(len(items))]


def hull(points):
    """The strictly convex hull, counterclockwise."""
    points = sorted(set(points))
    chains = []
    for run in (points, points[::-1]):
        chain = []
        for p in run:
            while len(chain) > 1 and side_number(chain[-2], chain[-1], p) <= 0:
                chain.pop()
            chain.append(p)
        chains.append(chain[:-1])
    return chains[0] + chains[1]


def from_points(random, reach, points):
    """The hull of random points, of three corners at least."""
    while True:
        piece = hull([(random.between(-reach, reach), random.between(-reach, reach)) for _ in range(points)])
        if len(piece) >= 3:
            return piece


def from_edges(random, n, reach):
    """n corners: edges of different directions and their opposites, one after the other, and some corners left out."""
    runs = {}
    while 2 * len(runs) < n:
        d = (random.between(-reach, reach), random.between(0, reach))
        if half(d) == 0 and d != (0, 0):
            g = gcd(*d)
            runs[d[0] // g, d[1] // g] = d
    first = sorted(runs.values(), key=cmp_to_key(lambda d, e: -(d[0] * e[1] - d[1] * e[0])))
    x = y = 0
    piece = []
    for dx, dy in first + [(-dx, -dy) for dx, dy in first]:
        piece.append((x, y))
        x, y = x + dx, y + dy
    middle = (piece[0][0] + piece[len(first)][0]) // 2, (piece[0][1] + piece[len(first)][1]) // 2
    while len(piece) > n:
        piece.pop(random.below(len(piece)))
    return [(x - middle[0], y - middle[1]) for x, y in piece]


def moved(piece, dx, dy):
    return [(x + dx, y + dy) for x, y in piece]


def times(piece, k):
    return [(k * x, k * y) for x, y in piece]


def from_corner(piece, k):
    """The same outline, listed from another corner."""
    return piece[k:] + piece[:k]


def clockwise(piece):
    """The same outline in the other orientation, listed from the same corner: clockwise, if it was counterclockwise."""
    return piece[:1] + piece[:0:-1]


def is_clockwise(piece):
    """Of an accepted list of corners: corner 2 is right of edge 0."""
    return side_number(piece[0], piece[1], piece[2]) < 0


def opposite(piece):
    """The outline turned by half a turn."""
    return [(-x, -y) for x, y in piece]


def fits(piece):
    return all(abs(x) <= LIMIT and abs(y) <= LIMIT for x, y in piece)


def numbers(piece):
    return [z for corner in piece for z in corner]


def small(random):
    reach = random.one_of([1, 2, 3, 4, 6, 10])
    return from_points(random, reach, random.between(3, 14))


def middling(random):
    return from_edges(random, random.between(3, 24), random.one_of([3, 10, 100, 600]))


def large(random):
    return from_points(random, LIMIT, random.between(3, 20))


def beside(random, piece):
    """A second outline: 0 mostly apart, 1 the same moved, 2 the same enlarged, 3 turned by half a turn (parallel
    edges), 4 the same, 5 touching at a corner, 6 with a corner less, 7 the same with corners moved by one, 8 another
    one over it."""
    way = random.below(9)
    reach = max(max(abs(x), abs(y)) for x, y in piece)
    if way == 0:
        return moved(small(random), reach + random.between(10, 40), random.between(-reach, reach))
    if way == 1:
        return moved(piece, random.between(-reach, reach), random.between(-reach, reach))
    if way == 2:
        return times(piece, random.between(2, 3))
    if way == 3:
        return moved(opposite(piece), random.between(-reach, reach), random.between(-2, 2))
    if way == 4:
        return piece[:]
    if way == 5:
        corner, other = random.one_of(piece), opposite(piece)
        touching = random.one_of(other)
        return moved(other, corner[0] - touching[0], corner[1] - touching[1])
    if way == 6 and len(piece) > 3:
        k = random.below(len(piece))
        return piece[:k] + piece[k + 1:]
    if way == 7:
        return hull(piece + [(x + random.between(-1, 1), y + random.between(-1, 1)) for x, y in piece])
    return from_points(random, max(reach, 1), random.between(3, 12))


def over_two_edges(random):
    """Without end: a triangle, two points over its edges 0 and 2, and their gaps multiplied by the same number.

    The gaps are s²/L and t²/M. For edges of squared lengths L and M, s/t is a convergent of the root of L/M."""
    while True:
        b = [(0, -random.between(9000, 16000)), (random.between(5000, 9000), random.between(-500, 500)),
             (-random.between(5000, 9000), random.between(-500, 500))]
        runs = [(b[1][0] - b[0][0], b[1][1] - b[0][1]), (b[0][0] - b[2][0], b[0][1] - b[2][1])]
        if any(gcd(*run) != 1 for run in runs):
            continue
        lengths = [dx * dx + dy * dy for dx, dy in runs]
        for s, t in convergents(lengths[0], lengths[1]):
            k = random.between(1, 40)
            sides = (k * s, k * t)
            points = [over(b[0], runs[0], lengths[0], sides[0]), over(b[2], runs[1], lengths[1], sides[1])]
            if None not in points:
                yield b, points, (s * s * lengths[1], t * t * lengths[0])


def nearly_equal(x, y):
    """They differ, but by less than a part in 2^53."""
    return x != y and abs(x - y) << 53 < x


def near_tie(random):
    """Two corners of A, over two edges of B, with the two greatest gaps, which are nearly equal."""
    for b, points, gaps in over_two_edges(random):
        a = hull(points + [(0, random.between(-2000, -500))])
        if len(a) == 3 and fits(a) and nearly_equal(*gaps) and two_greatest(a, b, points):
            return a, b


def near_tie_of_sides(random):
    """A and B are a triangle with one more corner each, over different edges of it. No other corner of either is
    outside the other, and the two gaps are nearly equal."""
    for triangle, points, gaps in over_two_edges(random):
        a, b = (hull(triangle + [point]) for point in points)
        if len(a) == len(b) == 4 and fits(a + b) and nearly_equal(*gaps):
            return a, b


def two_greatest(a, b, corners):
    """The greatest two gaps are on edges, and are those of two corners of A."""
    comparing = Comparing(a, b)
    both = sorted(range(len(a)), key=lambda i: a[i] not in corners)[:2]
    rest = [(0, i) for i in range(len(a)) if i not in both] + [(1, i) for i in range(len(b))]
    gaps = [comparing.nearest(0, i) for i in both]
    return all(g.feature.startswith("edge") and all(comparing.nearest(*r).gap < g.gap for r in rest) for g in gaps)


def convergents(upper, lower):
    """Pairs s, t with s/t close to the root of upper/lower: the convergents of its continued fraction, of 10^4 to
    10^8."""
    found = []
    root, scale = isqrt(upper * lower << 128), lower << 64
    s, t, last_s, last_t = 1, 0, 0, 1
    while scale and t < 10**8:
        whole = root // scale
        s, t, last_s, last_t = whole * s + last_s, whole * t + last_t, s, t
        root, scale = scale, root - whole * scale
        if 10**4 < t < 10**8:
            found.append((s, t))
    return found


def over(start, run, length, side):
    """A point strictly right of an edge, with this size of its side number and its foot between the ends, or None."""
    dx, dy = run
    x, y = bezout(dx, -dy)
    x, y = -side * y, -side * x
    along = (x * dx + y * dy) // length
    px, py = x - along * dx, y - along * dy
    p = (start[0] + px, start[1] + py)
    return p if 0 < px * dx + py * dy < length and fits([p]) else None


def bezout(a, b):
    """u, w with a·u + b·w = 1, of numbers without a common factor."""
    u, w, next_u, next_w = 1, 0, 0, 1
    while b:
        whole = a // b
        a, b = b, a - whole * b
        u, w, next_u, next_w = next_u, next_w, u - whole * next_u, w - whole * next_w
    return (u, w) if a == 1 else (-u, -w)


def over_edge(x, y, side):
    """B is a right triangle whose longest edge has the differences -x and -y; A is B with one more corner, whose side
    number against that edge has the size `side`. No other corner of either is outside the other, so the gap is the
    square of `side` over the squared length of the edge."""
    triangle = moved([(0, 0), (x, 0), (x, y)], min(0, LIMIT - x), -LIMIT)
    corner = over(triangle[2], (-x, -y), x * x + y * y, side)
    return hull(triangle + [corner]), triangle


def allowances(random, a, b):
    n = (len(a) + len(b)) // 2
    return sorted({0, 1, random.below(n + 2), random.below(n + 2), max(n - 1, 0), n, n + 1, LARGEST_ALLOWANCE})


SQUARE = [0, 0, 4, 0, 4, 4, 0, 4]
TRIANGLE = [0, 0, 4, 0, 0, 4]
LOWER = [-16000, -16000, -15999, -16000, -16000, -15999]
UPPER = [16000, 16000, 15999, 16000, 16000, 15999]
MOVED = [10, 0, 14, 0, 14, 4, 10, 4]
TURNED = SQUARE[2:] + SQUARE[:2]
STRAIGHT = [0, 0, 2, 0, 4, 0, 0, 3]
# The triangle, the square and the square moved, clockwise.
CLOCKWISE = [0, 0, 0, 4, 4, 0]
CLOCKWISE_SQUARE = [0, 0, 0, 4, 4, 4, 4, 0]
CLOCKWISE_MOVED = [10, 0, 10, 4, 14, 4, 14, 0]
STAR = [0, 3, -2, -3, 3, 1, -3, 1, 2, -3]
LARGEST = [-16000, -16000, 16000, -16000, 16000, 16000, -16000, 16000]


# Four corners with two equal gaps to the triangle, 256/32 and 8/1; the clockwise square about the origin, from two of
# its corners, and the same moved.
FOUR = [4, 0, 4, 4, 0, 4, -2, -2]
ABOUT, ABOUT_FROM_LATER = [1, -1, -1, -1, -1, 1, 1, 1], [-1, 1, 1, 1, 1, -1, -1, -1]
ABOUT_MOVED = [11, -1, 9, -1, 9, 1, 11, 1]

# The values of the specification's examples, and of clockwise lists.
S_TO_T = "A 2 edge 1 256/32 64/32 64/32"
T_TO_S = "B 2 edge 1 256/32 64/32 64/32"
S_TO_MOVED = "A 0 corner 0 100/1 10/1 0/1"
A_WITHIN, B_WITHIN = "A 0 within 0/1 0/1 0/1", "B 0 within 0/1 0/1 0/1"
LOWER_TO_UPPER = "A 0 edge 1 4095872001/2 31999/2 31999/2"
STATED = [
    (SQUARE, TRIANGLE, 512, f"done 7 {S_TO_T} 3 {S_TO_T} {B_WITHIN}"),
    (SQUARE, TRIANGLE, 0, "spent 0 0 0 none none none"),
    (SQUARE, TRIANGLE, 3, "spent 3 2 1 none none none"),
    (SQUARE, TRIANGLE, 4, f"spent 4 2 2 {S_TO_T} {S_TO_T} none"),
    (TRIANGLE, SQUARE, 4, f"spent 4 2 2 {T_TO_S} none {T_TO_S}"),
    (TRIANGLE, SQUARE, 7, f"done 7 {T_TO_S} 3 {A_WITHIN} {T_TO_S}"),
    (SQUARE, MOVED, 0, "spent 0 0 0 none none none"),
    (SQUARE, MOVED, 1, f"spent 1 1 0 {S_TO_MOVED} {S_TO_MOVED} B 0 corner 1 36/1 4/1 0/1"),
    (SQUARE, MOVED, 8, f"done 8 {S_TO_MOVED} 10 {S_TO_MOVED} B 1 corner 1 100/1 4/1 0/1"),
    (SQUARE, SQUARE, 7, "spent 7 0 3 none none none"),
    (SQUARE, SQUARE, 8, f"done 8 {A_WITHIN} 0 {A_WITHIN} {B_WITHIN}"),
    (SQUARE, TURNED, 8, f"done 8 {A_WITHIN} 0 {A_WITHIN} B 0 within 0/1 4/1 0/1"),
    (LOWER, UPPER, 6, f"done 6 {LOWER_TO_UPPER} 45255 {LOWER_TO_UPPER} B 0 edge 1 4095872001/2 -31999/2 -31999/2"),
    (STAR, SQUARE, 0, "refused A 6 0 3"),
    (STRAIGHT, SQUARE, 0, "refused A 6 0 2"),
    # Clockwise T: corners 1 and 2 are exchanged, and so are edges 0 and 2. Clockwise S: corners 1 and 3.
    (SQUARE, CLOCKWISE, 0, "spent 0 0 0 none none none"),
    (SQUARE, CLOCKWISE, 2, "spent 2 1 2 none none none"),
    (SQUARE, CLOCKWISE, 3, "spent 3 2 2 none none none"),
    (SQUARE, CLOCKWISE, 4, f"spent 4 2 1 {S_TO_T} {S_TO_T} none"),
    (SQUARE, CLOCKWISE, 7, f"done 7 {S_TO_T} 3 {S_TO_T} {B_WITHIN}"),
    (CLOCKWISE, SQUARE, 4, f"spent 4 1 2 {T_TO_S} none {T_TO_S}"),
    (CLOCKWISE, SQUARE, 7, f"done 7 {T_TO_S} 3 {A_WITHIN} {T_TO_S}"),
    (CLOCKWISE_SQUARE, TRIANGLE, 1, "spent 1 3 0 none none none"),
    (CLOCKWISE_SQUARE, TRIANGLE, 5, f"spent 5 1 2 {S_TO_T} {S_TO_T} none"),
    (CLOCKWISE_SQUARE, CLOCKWISE, 2, "spent 2 3 2 none none none"),
    (CLOCKWISE_SQUARE, CLOCKWISE, 4, f"spent 4 2 1 {S_TO_T} {S_TO_T} none"),
    (CLOCKWISE_SQUARE, CLOCKWISE, 7, f"done 7 {S_TO_T} 3 {S_TO_T} {B_WITHIN}"),
    (CLOCKWISE_SQUARE, SQUARE, 8, f"done 8 {A_WITHIN} 0 {A_WITHIN} {B_WITHIN}"),
    (CLOCKWISE, CLOCKWISE, 6, f"done 6 {A_WITHIN} 0 {A_WITHIN} {B_WITHIN}"),
    # Of B's corners (14,0) and (14,4) the second has the lower number, and not as held.
    (CLOCKWISE_SQUARE, CLOCKWISE_MOVED, 1, f"spent 1 3 0 {S_TO_MOVED} {S_TO_MOVED} B 0 corner 3 36/1 4/1 0/1"),
    (CLOCKWISE_SQUARE, CLOCKWISE_MOVED, 8, f"done 8 {S_TO_MOVED} 10 {S_TO_MOVED} B 2 corner 2 100/1 4/1 4/1"),
    # Of A's corners (-1,-1) and (-1,1) the first has the lower number, and not as held; then the second, which is
    # counted later.
    (ABOUT, ABOUT_MOVED, 8, "done 8 A 1 corner 1 100/1 9/1 -1/1 10 A 1 corner 1 100/1 9/1 -1/1 "
     "B 0 corner 0 100/1 1/1 -1/1"),
    (ABOUT_FROM_LATER, ABOUT_MOVED, 1, "spent 1 2 1 A 3 corner 1 100/1 9/1 -1/1 A 3 corner 1 100/1 9/1 -1/1 "
     "B 1 corner 2 64/1 1/1 -1/1"),
    (ABOUT_FROM_LATER, ABOUT_MOVED, 8, "done 8 A 0 corner 2 100/1 9/1 1/1 10 A 0 corner 2 100/1 9/1 1/1 "
     "B 0 corner 2 100/1 1/1 -1/1"),
    # Two equal gaps, of (4,4) and (-2,-2): counterclockwise; its reversal; clockwise from the same corner.
    (FOUR, TRIANGLE, 7, f"done 7 A 1 edge 1 256/32 64/32 64/32 3 A 1 edge 1 256/32 64/32 64/32 {B_WITHIN}"),
    ([-2, -2, 0, 4, 4, 4, 4, 0], TRIANGLE, 7, f"done 7 A 0 corner 0 8/1 0/1 0/1 3 A 0 corner 0 8/1 0/1 0/1 {B_WITHIN}"),
    ([4, 0, -2, -2, 0, 4, 4, 4], TRIANGLE, 7, f"done 7 A 1 corner 0 8/1 0/1 0/1 3 A 1 corner 0 8/1 0/1 0/1 {B_WITHIN}"),
    # The last edge of a clockwise list, and edge 0.
    ([0, 0, 1, -3, 4, 0], CLOCKWISE, 6, "done 6 B 1 corner 0 16/1 0/1 0/1 4 A 1 edge 2 144/16 16/16 0/16 "
     "B 1 corner 0 16/1 0/1 0/1"),
    ([0, 0, 0, 4, -3, 1], CLOCKWISE, 6, "done 6 B 2 corner 0 16/1 0/1 0/1 4 A 2 edge 0 144/16 0/16 16/16 "
     "B 2 corner 0 16/1 0/1 0/1"),
    # Clockwise, with a fault.
    ([0, 0, 0, 4, 0, 4, 4, 0], SQUARE, 0, "refused A 5 1"),
    ([0, 3, 4, 0, 2, 0, 0, 0], SQUARE, 0, "refused A 6 0 2"),
    ([0, 3, 2, -3, -3, 1, 3, 1, -2, -3], SQUARE, 0, "refused A 6 0 2"),
    (CLOCKWISE_SQUARE, 2 * CLOCKWISE, 0, "refused B 6 0 2"),
    (CLOCKWISE, [0, 0, 0, 16001, 4, 0], 0, "refused B 4 1"),
    (CLOCKWISE, CLOCKWISE + [4], 0, "refused B 1"),
]

# Pairs for what the two sides show, which are taken exchanged too, all allowances each.
AROUND = [-10, -10, 10, -10, 10, 10, -10, 10]
SIDES = [
    # Nested: off the border; a corner of the inner one on an edge of the outer one; all on edges; all on corners; along
    # an edge; a long outer one; the outer one without a corner.
    (SQUARE, AROUND),
    ([9, 3, 1, 8, -7, -5], AROUND),
    ([2, 0, 4, 3, 1, 3], SQUARE),
    ([2, 0, 4, 2, 2, 4, 0, 2], SQUARE),
    ([4, 4, 0, 4, 0, 0], SQUARE),
    ([1, 0, 3, 0, 2, 2], [4, 0, 2, 9, 0, 0]),
    ([1, 1, 2, 1, 1, 2], [0, 4, 0, 0, 40, 0]),
    ([6, 0, 9, 3, 9, 6, 6, 9, 3, 9, 0, 6, 0, 3], [6, 0, 9, 3, 9, 6, 6, 9, 3, 9, 0, 6, 0, 3, 3, 0]),
    # Equal, listed from other corners.
    (TRIANGLE, [0, 4, 0, 0, 4, 0]),
    ([3, 0, 6, 1, 8, 5, 4, 7, 0, 4], [4, 7, 0, 4, 3, 0, 6, 1, 8, 5]),
    # Apart, touching, crossing: both sides have gaps.
    (TURNED, MOVED),
    (SQUARE, [4, 4, 9, 4, 4, 9]),
    ([-9, -1, 9, -1, 9, 1, -9, 1], [-1, -5, 1, -5, 1, 5, -1, 5]),
    ([3, 0, -4, 4, 1, 1], [3, 4, 4, 7, -2, 7]),
    ([-1, 2, -2, 1, 1, 1], [-1, 3, 0, 5, -1, 5, -3, 4, -3, 3]),
    # The greatest gaps of both sides are equal: over corners; over edges; as values alone, in each of which one is over
    # a corner and the other over an edge, or both over edges.
    (SQUARE, [7, 4, 11, 4, 11, 8, 7, 8]),
    ([2, 1, 1, 4, -1, -2, 1, -4, 2, -2], [3, -2, -1, 1, 4, -6]),
    ([3, -4, 3, 3, -1, 1, -4, -4], [-4, -3, 1, 0, -5, 3]),
    ([2, 1, -1, 1, -1, 0, 1, -2], [4, -2, 2, 1, 1, -2]),
    ([-2, -2, 4, 0, 0, 4], SQUARE),
    ([1, 0, 1, 2, -1, 2, -2, 0], [1, -3, -2, 1, -3, 0, -2, -1]),
    ([1, 2, 0, 1, 0, -2, 2, -2], [-3, 0, -2, 1, -5, -1]),
    ([-1, -2, 0, -2, 2, 2], [3, -2, 1, 0, 2, -2]),
    # They have the same whole part; the smaller gap has the smaller upper number, and the greater one.
    ([1, 2, -2, 2, 2, -2], [-1, 3, -1, -1, 2, 0, 3, 2]),
    ([1, 2, -1, 2, 0, -2], [-1, -1, -1, -2, 2, -1, 2, 1, 0, 1]),
    ([-2, 1, -3, -4, 2, -1, 1, 1], [-6, 1, -6, -5, 0, -3]),
    ([-6, 4, 0, -4, 6, -2], [2, 7, -2, 2, 3, 3]),
    # Equal gaps on one side, the lower number counted later: the same fraction, and as values alone.
    ([1, -1, 1, 1, -1, 1, -1, -1], [11, -1, 11, 1, 9, 1, 9, -1]),
    ([-2, -2, 2, -3, 3, -3, -2, -1], [0, 2, 1, 0, 4, 4, -1, 5]),
    ([0, 0, -2, -1, -2, -4], [-1, -3, 3, -5, 3, 1]),
    ([4, 2, -6, 4, -4, 1, 6, 1], [3, -5, -2, 5, -4, -5]),
    ([1, 3, -2, 0, -2, -3, 1, -2], [2, 0, 1, 2, -3, 1, -3, -2]),
]
# How many near ties of the two sides.
NEAR_TIES_OF_SIDES = 12

# 256 corners on a parabola, counterclockwise.
PARABOLA = [(i, i * i - 8000) for i in range(-127, 129)]
# Lists that are clockwise but for a fault, or of no orientation, and how each is refused.
FAULTY = [
    (CLOCKWISE + [0], "1"),
    ([0, 0, 0, 4], "2"),
    (numbers(clockwise([(-128, 8384)] + PARABOLA)), "3"),
    ([0, 0, 0, 16001, 4, 0], "4 1"),
    ([0, 0, 0, 4, 4, -16001, 4, -16001], "4 2"),
    # A corner repeated, the last against corner 0 too.
    ([0, 0, 0, 4, 0, 4, 4, 0], "5 1"),
    ([0, 0, 0, 4, 4, 0, 0, 0], "5 3"),
    # A straight corner, at each place in turn; three corners in a line; the line walked to and fro.
    ([0, 3, 4, 0, 2, 0, 0, 0], "6 0 2"),
    ([4, 0, 2, 0, 0, 0, 0, 3], "6 0 2"),
    ([2, 0, 0, 0, 0, 3, 4, 0], "6 0 2"),
    ([0, 0, 0, 3, 4, 0, 2, 0], "6 0 2"),
    ([0, 0, 1, 1, 2, 2], "6 0 2"),
    ([0, 0, 4, 4, 2, 2, 1, 1], "6 0 2"),
    # The star, which turns right at each corner; the triangle walked twice; a dent; a corner left of edge 0; two that
    # cross themselves, the second of which has all corners left of edge 0.
    ([0, 3, 2, -3, -3, 1, 3, 1, -2, -3], "6 0 2"),
    (2 * CLOCKWISE, "6 0 2"),
    ([0, 0, 0, 4, 4, 4, 3, 2, 4, 0], "6 0 2"),
    ([0, 0, 0, 4, -2, 2, 4, 4, 4, 0], "6 0 3"),
    ([0, 0, 4, 4, 4, 0, 0, 4], "6 0 2"),
    ([0, 0, 4, 0, 0, 4, 4, 4], "6 1 3"),
]

# Which of the two lists are clockwise; examples, for each of these.
CLOCKWISE_SIDES = [(False, False), (True, False), (False, True), (True, True)]
EXAMPLES = [(SQUARE, TRIANGLE), (TRIANGLE, SQUARE), (SQUARE, MOVED), (SQUARE, SQUARE), (SQUARE, TURNED), (LOWER, UPPER),
            (LARGEST, SQUARE), (FOUR, TRIANGLE)]


# Gaps at and beside the square k² of a whole number, with the clearance. A square moved: k², k² + 1, k² - 1.
MOVES = [
    (31996, 0, 31996),
    (31996, 1, 31997),
    (13860, 13860, 19601),
]
# A corner over an edge, for `over_edge`: k²; below k² by 1 over the squared length; above it by as much; below 1 by as
# much; the smallest gap above 0.
OVER_EDGES = [
    (20, 21, 2900, 100),
    (14399, 240, 144010000, 10000),
    (1, 1, 8119, 5741),
    (80, 1, 2048240, 25601),
    (11509, 1970, 137652910, 11789),
    (1, 1, 19601, 13861),
    (16000, 1, 512000001, 32001),
    (31999, 1, 31999, 1),
    (32000, 31999, 1, 1),
]


def rounded():
    """The pairs for rounding, with their clearances."""
    square = moved(corners(SQUARE), -LIMIT, -LIMIT)
    for dx, dy, clearance in MOVES:
        yield square, moved(square, dx, dy), clearance
    for x, y, side, clearance in OVER_EDGES:
        yield *over_edge(x, y, side), clearance


def roundings(upper, lower):
    """For each kind of gap that matters for rounding, 1 if this gap is of it, else 0."""
    whole, part = divmod(upper, lower)

    def is_square(n):
        return isqrt(n) ** 2 == n

    kinds = {
        "zero": upper == 0,
        "below 1": 0 < upper < lower,
        "square over 1": whole > 0 and lower == 1 and is_square(whole),
        "square over more": whole > 0 and lower > 1 and part == 0 and is_square(whole),
        "square and a part": whole > 0 and part > 0 and is_square(whole),
        "square and 1": whole > 1 and part == 0 and is_square(whole - 1),
        "square less 1": whole > 1 and part == 0 and is_square(whole + 1),
        "square and the least part": whole > 0 and part == 1 and is_square(whole),
        "square less the least part": whole > 0 and part > 0 and part == lower - 1 and is_square(whole + 1),
    }
    return {kind: int(holds) for kind, holds in kinds.items()}


def worked():
    """The examples of the specification, and refusals."""
    yield SQUARE, TRIANGLE, list(range(10)) + [512, LARGEST_ALLOWANCE]
    yield TRIANGLE, SQUARE, list(range(10))
    yield SQUARE, MOVED, list(range(11))
    yield SQUARE, SQUARE, [0, 7, 8]
    yield SQUARE, TURNED, [0, 7, 8]
    yield LOWER, UPPER, list(range(8))
    yield LARGEST, SQUARE, [0, 4, 8]
    beyond = LARGEST[:4] + [16001, 16000] + LARGEST[6:]
    dented = [0, 0, 4, 0, 3, 2, 4, 4, 0, 4]
    lists = [[], [0], [0] * 515, [0] * 514, [0, 0, 4, 0], STAR, STRAIGHT, CLOCKWISE, dented, beyond,
             [0, 0, 4, 0, 4, 0, 0, 4], [0, 0, 4, 0, 4, 4, 0, 0], [2**31 - 1, -2**31] * 3, SQUARE]
    for a in lists:
        for b in lists:
            yield a, b, [0, LARGEST_ALLOWANCE]


def random_pairs(random, smalls, middlings, larges, near_ties):
    """So many random pairs of each kind."""
    for _ in range(smalls):
        a = small(random)
        yield a, beside(random, a) if random.below(2) else small(random)
    for _ in range(middlings):
        a = middling(random)
        yield a, beside(random, a) if random.below(3) else middling(random)
    for _ in range(larges):
        yield large(random), large(random)
    for _ in range(near_ties):
        a, b = near_tie(random)
        yield (a, b) if random.below(2) else (b, a)


def generated(random):
    yield from random_pairs(random, 1200, 700, 150, 60)
    for count in (32, 63, 64, 100, 128, 200, 255, 256, 256, 256):
        a = from_edges(random, count, 100)
        yield a, from_edges(random, random.one_of([3, count, 256]), 100)
        yield moved(a, random.between(-900, 900), 7), a


def of_sides(random):
    """The pairs for what the two sides show."""
    for a, b in SIDES:
        yield a, b
        yield b, a
    for _ in range(NEAR_TIES_OF_SIDES):
        a, b = near_tie_of_sides(random)
        yield numbers(a), numbers(b)


def in_orientations(a, b, clockwise_sides):
    """The pair, each outline clockwise or not."""
    return [clockwise(piece) if turned else piece for piece, turned in zip((a, b), clockwise_sides)]


def mirrored(random):
    """Two outlines that are their own mirror images, on one axis, so that gaps are equal two by two."""

    def one():
        reach = random.one_of([3, 6, 12])
        points = [(random.between(-reach, reach), random.between(1, reach)) for _ in range(random.between(2, 5))]
        return hull([(x, z) for x, y in points for z in (y, -y)])

    while True:
        a, b = one(), moved(one(), random.between(-15, 15), 0)
        if len(a) >= 3 and len(b) >= 3:
            return [[(y, x) for x, y in piece][::-1] for piece in (a, b)] if random.below(2) else [a, b]


def ties(random):
    """Pairs with equal gaps, which the numbers as given decide: of each list from each corner."""
    about, about_moved = (corners(one) for one in (ABOUT, ABOUT_MOVED))
    for k, other in product(range(4), repeat=2):
        yield from_corner(about, k), from_corner(about_moved, other)
    for k in range(4):
        yield from_corner(clockwise(about), k), from_corner(about_moved, k)
        yield from_corner(about, k), from_corner(clockwise(about_moved), k)
        one = from_corner(corners(FOUR), k)
        yield one[::-1], corners(TRIANGLE)
        yield corners(TRIANGLE), one[::-1]
        yield one[::-1], corners(CLOCKWISE)
        yield clockwise(one), clockwise(moved(one, 5, 3))
    for number in range(48):
        a, b = mirrored(random)
        a, b = from_corner(a, random.below(len(a))), from_corner(b, random.below(len(b)))
        yield in_orientations(a, b, CLOCKWISE_SIDES[number % 3 + 1])


def generated_in_orientations(random):
    """Random pairs, as `generated` makes them."""
    yield from random_pairs(random, 200, 120, 40, 12)
    for _ in range(8):
        yield near_tie_of_sides(random)


def of_orientations(random):
    """Pairs of which one list or both are clockwise, and some of which none is."""

    def every(a, b):
        return numbers(a), numbers(b), list(range(len(a) + len(b) + 2))

    for a, b in EXAMPLES:
        for sides in CLOCKWISE_SIDES[1:]:
            *lists, to_the_edges = every(*in_orientations(corners(a), corners(b), sides))
            yield *lists, to_the_edges + [512, LARGEST_ALLOWANCE]
    for one, _ in FAULTY:
        for a, b in ((one, SQUARE), (one, CLOCKWISE_SQUARE), (SQUARE, one), (CLOCKWISE_SQUARE, one)):
            # The longest list, once as A and once as B.
            if len(one) < 100 or CLOCKWISE_SQUARE in (a, b):
                yield a, b, [0, LARGEST_ALLOWANCE]
    for a, b in ties(random):
        yield every(a, b)
    for number, (a, b) in enumerate(SIDES):
        for sides in CLOCKWISE_SIDES[1:]:
            pair = [corners(a), corners(b)]
            yield every(*in_orientations(*(pair if number % 2 else pair[::-1]), sides))
    for number, (a, b) in enumerate(generated_in_orientations(random)):
        a, b = from_corner(a, random.below(len(a))), from_corner(b, random.below(len(b)))
        a, b = (numbers(piece) for piece in in_orientations(a, b, CLOCKWISE_SIDES[number % 4]))
        if not (default_refusal(a) or default_refusal(b)):
            yield a, b, allowances(random, a, b)
    for number, count in enumerate((64, 255, 256, 256, 256)):
        a = from_edges(random, count, 100)
        b = moved(a, random.between(-900, 900), 7) if number % 2 else from_edges(random, random.one_of([3, 40]), 100)
        a = from_corner(a, random.below(len(a)))
        a, b = (numbers(piece) for piece in in_orientations(a, b, CLOCKWISE_SIDES[number % 3 + 1]))
        yield a, b, allowances(random, a, b)
    yield numbers(clockwise(PARABOLA)), CLOCKWISE, [0, 130, 258, 259]
    yield CLOCKWISE, numbers(PARABOLA[::-1]), [0, 130, 258, 259]


def pairs():
    random = Random(SEED)
    yield from worked()
    for a, b in generated(random):
        a = numbers(from_corner(a, random.below(len(a))))
        b = numbers(from_corner(b, random.below(len(b))))
        if not (refusal(a) or refusal(b)):
            yield a, b, allowances(random, a, b)
    for a, b, _ in rounded():
        yield numbers(a), numbers(b), [len(a) + len(b)]
    for a, b in of_sides(random):
        yield a, b, list(range((len(a) + len(b)) // 2 + 1))
    yield from of_orientations(random)


def position(a, b):
    """Where two accepted outlines lie: the same, one in the other, overlapping by a corner, or apart or crossing."""
    a, b = (clockwise(piece) if is_clockwise(piece) else piece for piece in (a, b))
    a_within, b_within = [is_within(v, b) for v in a], [is_within(v, a) for v in b]
    if all(a_within) and all(b_within):
        return "same"
    if all(a_within) or all(b_within):
        return "nested"
    return "overlapping" if any(a_within) or any(b_within) else "apart"


def gap_of(shown):
    return Fraction(*map(int, shown.split()[-3].split("/")))


def which(a, b):
    """In words, of which sides something holds."""
    return {(0, 0): "none", (1, 0): "A alone", (0, 1): "B alone", (1, 1): "both"}[int(a), int(b)]


def shown_kinds(text):
    """What is to be counted of a text: what a spent report shows; which sides of an answer have all gaps zero, and how
    their greatest gaps compare, if they are above zero."""
    if text.startswith("spent"):
        *_, a, b = SPENT.fullmatch(text).groups()
        yield f"spent, shown: {which(a != 'none', b != 'none')}"
    if text.startswith("done"):
        _, answer, _, a, b = DONE.fullmatch(text).groups()
        g, h = gap_of(a), gap_of(b)
        yield f"done, zero: {which(g.upper == 0, h.upper == 0)}"
        if g.upper and h.upper:
            lower = "the same" if g.lower == h.lower else "other"
            order = "equal" if g == h else f"{'B' if g < h else 'A'}'s greater"
            assert (answer == b) == (g < h) and answer in (a, b)
            yield f"done, both above zero: {order}"
            if g == h:
                yield f"done, equal, over {lower} lower number{'' if g.lower == h.lower else 's'}"
            elif g.upper // g.lower == h.upper // h.lower:
                yield f"done, the same whole part: {order}"
            if nearly_equal(g.upper * h.lower, h.upper * g.lower):
                yield f"done, nearly equal: {order}"


def step_kinds(before, after):
    """What is to be counted of two spent reports, the second with a step more: a corner that takes the place of another
    of equal gap, overall and of a side."""
    *_, before_all, before_a, before_b = SPENT.fullmatch(before).groups()
    *_, after_all, after_a, after_b = SPENT.fullmatch(after).groups()
    for name, one, two in (("overall", before_all, after_all), ("A", before_a, after_a), ("B", before_b, after_b)):
        if one != "none" and one != two and gap_of(one) == gap_of(two):
            yield f"a step, of equals the one counted later stands: {name}"
            if one[0] != two[0]:
                yield "a step, of equals the one counted later stands: A's after B's"


def count_sides(given, answers):
    counted = Counter()
    for (_, _, allowances), texts in zip(given, answers):
        spent = {allowance: text for allowance, text in zip(allowances, texts) if text.startswith("spent")}
        for text in texts:
            counted.update(shown_kinds(text))
        for allowance in spent:
            if allowance + 1 in spent:
                counted.update(step_kinds(spent[allowance], spent[allowance + 1]))
    return counted


def check_sides(counted):
    """Every kind comes, and often enough."""
    kinds = {f"spent, shown: {one}" for one in ("none", "A alone", "B alone", "both")}
    kinds |= {f"done, zero: {one}" for one in ("none", "A alone", "B alone", "both")}
    kinds |= {f"done, both above zero: {one}" for one in ("equal", "A's greater", "B's greater")}
    kinds |= {"done, equal, over the same lower number", "done, equal, over other lower numbers"}
    kinds |= {f"done, {near}: {one}'s greater" for near in ("the same whole part", "nearly equal") for one in "AB"}
    names = ("overall", "A", "B", "A's after B's")
    kinds |= {f"a step, of equals the one counted later stands: {name}" for name in names}
    assert set(counted) == kinds, set(counted) ^ kinds
    assert min(counted.values()) >= 3, counted


def located(shown, a, b):
    """A shown corner without its numbers: its side and place, the kind and the corners of its feature, the gap, and the
    nearest point. The lists are of corners, as given."""
    side, corner, *feature, gap, x, y = shown.split()
    own, other = (a, b) if side == "A" else (b, a)
    made_of = []
    if feature[0] != "within":
        number = int(feature[1])
        made_of = sorted(edge(other, number)) if feature[0] == "edge" else [other[number]]
    return side, own[int(corner)], feature[0], made_of, gap, x, y


def check_as_held(text, held_text, pair, held_pair):
    """An answer for a pair, and that for the pair of the lists as they are held: steps, support corners, clearance and
    nearest points are the same. A corner differs only where its gap is equal: yields the sides of such."""
    assert text.split()[:2] == held_text.split()[:2]
    if text.startswith("spent"):
        (_, *support, overall, a, b), (_, *held_support, held_overall, held_a, held_b) = (
            SPENT.fullmatch(one).groups() for one in (text, held_text))
        assert [piece[int(i)] for piece, i in zip(pair, support)] == [
            piece[int(i)] for piece, i in zip(held_pair, held_support)]
    else:
        (_, overall, clearance, a, b), (_, held_overall, held_clearance, held_a, held_b) = (
            DONE.fullmatch(one).groups() for one in (text, held_text))
        assert clearance == held_clearance
    for name, one, held in (("overall", overall, held_overall), ("A", a, held_a), ("B", b, held_b)):
        assert (one == "none") == (held == "none")
        if one != "none" and located(one, *pair) != located(held, *held_pair):
            assert one[0] == held[0] and gap_of(one) == gap_of(held) and gap_of(one).upper > 0
            assert located(one, *pair)[1] != located(held, *held_pair)[1]
            yield name


def which_number(number, count):
    return "0" if number == 0 else "the last" if number == count - 1 else "another"


def orientation_kinds(text, pair):
    """What is to be counted of a text: the orientations and the side named; of clockwise lists which corners are shown,
    and which features are named."""
    kind = text.split()[0]
    groups = (SPENT if kind == "spent" else DONE).fullmatch(text).groups()
    overall, sides = groups[3 if kind == "spent" else 1], groups[-2:]
    turned = [is_clockwise(piece) for piece in pair]
    yield f"clockwise: {which(*turned)}; {kind}, named: {overall[0] if overall != 'none' else 'none'}"
    for s, shown in enumerate(sides):
        if shown != "none":
            _, corner, feature, *number = shown.split()[:4]
            if turned[s] and feature != "within":
                yield f"{kind}, of clockwise {'AB'[s]}: corner {which_number(int(corner), len(pair[s]))}"
            if turned[1 - s]:
                count = len(pair[1 - s])
                place = "" if feature == "within" else f" {which_number(int(number[0]), count)}"
                yield f"{kind}, on clockwise {'BA'[s]}: {feature}{place}"


def count_orientations(given, answers):
    """Counts the kinds, and holds every pair against its reversals, and every pair with a clockwise list against the
    lists as held."""
    counted = Counter()
    for (a, b, allowances), texts in zip(given, answers):
        if texts[0].startswith("refused"):
            continue
        pair = corners(a), corners(b)
        turned = [is_clockwise(piece) for piece in pair]
        assert turned == [refusal(one) is not None for one in (a, b)]
        check_reversal(*pair)
        for text in texts:
            counted.update(orientation_kinds(text, pair))
        if any(turned):
            held_pair = in_orientations(*pair, turned)
            held_texts = compare_all(*map(numbers, held_pair), allowances)
            for text, held_text in zip(texts, held_texts):
                for name in check_as_held(text, held_text, pair, held_pair):
                    counted[f"{text.split()[0]}, a tie that the numbers as held decide otherwise: {name}"] += 1
            spent = [text for text in texts if text.startswith("spent")]
            for before, after in zip(spent, spent[1:]):
                if int(after.split()[1]) == int(before.split()[1]) + 1:
                    for kind in step_kinds(before, after):
                        if kind[-1] in "AB" and turned["AB".index(kind[-1])]:
                            counted[f"{kind}, clockwise"] += 1
    return counted


def check_orientations(counted):
    """Every kind comes, and often enough."""
    combinations, both = ("none", "A alone", "B alone", "both"), ("done", "spent")
    kinds = {f"clockwise: {one}; {kind}, named: {side}" for one in combinations for kind in both for side in "AB"}
    kinds |= {f"clockwise: {one}; spent, named: none" for one in combinations}
    for kind, side, number in product(both, "AB", ("0", "the last", "another")):
        kinds |= {f"{kind}, of clockwise {side}: corner {number}"}
        kinds |= {f"{kind}, on clockwise {side}: {feature} {number}" for feature in ("corner", "edge")}
    kinds |= {f"done, on clockwise {side}: within" for side in "AB"}
    tie = "a tie that the numbers as held decide otherwise"
    kinds |= {f"{kind}, {tie}: {name}" for kind in both for name in ("overall", "A", "B")}
    kinds |= {f"a step, of equals the one counted later stands: {side}, clockwise" for side in "AB"}
    assert set(counted) == kinds, set(counted) ^ kinds
    assert min(counted.values()) >= 3, counted


def check_coverage(given, answers):
    """The pairs have what they are to have, whatever the seed. The last answer for a pair is done, if accepted."""
    accepted = [(corners(a), corners(b)) for a, b, _ in given if not (default_refusal(a) or default_refusal(b))]
    assert len(accepted) >= 2000
    positions = [position(a, b) for a, b in accepted]
    assert all(positions.count(one) >= 100 for one in ("same", "nested", "overlapping", "apart"))
    assert {min(len(a), len(b)) for a, b in accepted} >= {3} and {max(len(a), len(b)) for a, b in accepted} >= {256}
    done = [DONE.fullmatch(texts[-1]).groups() for texts in answers if texts[-1].startswith("done")]
    assert len(done) == len(accepted) and max(int(clearance) for _, _, clearance, _, _ in done) == 45255
    counted = Counter()
    for _, answer, *_ in done:
        gap = gap_of(answer)
        counted.update(roundings(gap.upper, gap.lower))
    assert min(counted.values()) >= 3, counted


def main():
    for a, b, allowance, text in STATED:
        assert compare(a, b, allowance) == text, text
    for a, b, clearance in rounded():
        text = compare(numbers(a), numbers(b), 512)
        assert DONE.fullmatch(text).group(3) == str(clearance), (a, b)
    for one, refused in FAULTY:
        assert compare(one, SQUARE, 0) == f"refused A {refused}" and compare(SQUARE, one, 9) == f"refused B {refused}"
    given = list(pairs())
    answers = [compare_all(*one) for one in given]
    check_coverage(given, answers)
    counted = count_sides(given, answers)
    check_sides(counted)
    orientations = count_orientations(given, answers)
    check_orientations(orientations)
    crate = Path(__file__).resolve().parent.parent / "crates" / "pairs"
    lines = [" ".join(map(str, (len(part), *part))) for one in given for part in one]
    stdin = "".join(f"{line}\n" for line in lines).encode()
    assert len(stdin) <= LARGEST_INPUT, len(stdin)
    (crate / "stdin").write_bytes(stdin)
    (crate / "stdout").write_bytes("".join(f"{text}\n" for texts in answers for text in texts).encode())
    print(f"{len(given)} pairs, {sum(map(len, answers))} answers")
    for kind, count in sorted(counted.items()) + sorted(orientations.items()):
        print(f"{count:6} {kind}")


if __name__ == "__main__":
    main()
