"""Comparing two outlines, from the requirements alone: whole numbers only, every corner against every edge.

Written apart from the proved code, for comparison with it. `compare(a, b, allowance)` takes two lists of numbers and
gives the text that the program `pairs` prints for them:
    refused SIDE NUMBER [PLACE..]
    spent STEPS A-CORNER B-CORNER WORST A-WORST B-WORST
    done STEPS ANSWER CLEARANCE A-ANSWER B-ANSWER
Each answer is SIDE CORNER FEATURE GAP X Y, and each worst so far that or `none`: the overall one, then A's and B's.

There are two readings of a list. `refusal` is the strict one, which takes counterclockwise lists alone. Comparing has
the default one, `default_refusal`, which takes either orientation. A clockwise list is held as corner 0 followed by the
rest reversed. What is computed is computed on the list as held; every corner and every edge that is named, support
corners too, has its number in the list as given, and so have the ties and the order of the exhaustive search.
"""
import re
from functools import cmp_to_key

LIMIT = 16000

# The forms of the texts: the groups are their parts, a corner that is shown being one part.
SHOWN = r"[AB] \d+ (?:within|corner \d+|edge \d+) \d+/\d+ -?\d+/\d+ -?\d+/\d+"
DONE = re.compile(rf"done (\d+) ({SHOWN}) (\d+) ({SHOWN}) ({SHOWN})")
SPENT = re.compile(rf"spent (\d+) (\d+) (\d+) (none|{SHOWN}) (none|{SHOWN}) (none|{SHOWN})")


def side_number(p, q, v):
    return (q[0] - p[0]) * (v[1] - p[1]) - (q[1] - p[1]) * (v[0] - p[0])


def dot(a, b):
    return a[0] * b[0] + a[1] * b[1]


def minus(q, p):
    return (q[0] - p[0], q[1] - p[1])


def edge(piece, i):
    """Edge i runs from corner i to corner i + 1, the last back to corner 0."""
    return piece[i], piece[(i + 1) % len(piece)]


def corners(numbers):
    return [(numbers[i], numbers[i + 1]) for i in range(0, len(numbers) - 1, 2)]


LEFT, RIGHT = 1, -1


def misplaced(piece, side):
    """The lowest edge with a corner, other than its ends, that is not strictly on this side of it, and its lowest such
    corner; or None."""
    n = len(piece)
    for i in range(n):
        p, q = edge(piece, i)
        for c in range(n):
            if c != i and c != (i + 1) % n and side * side_number(p, q, piece[c]) <= 0:
                return i, c
    return None


def list_refusal(numbers):
    """Refusals 1 to 5, for which the orientation does not matter: the number and the place, or None."""
    if len(numbers) % 2 == 1:
        return (1,)
    piece = corners(numbers)
    n = len(piece)
    if n < 3:
        return (2,)
    if n > 256:
        return (3,)
    for i, (x, y) in enumerate(piece):
        if not (-LIMIT <= x <= LIMIT and -LIMIT <= y <= LIMIT):
            return (4, i)
    for i in range(n):
        p, q = edge(piece, i)
        if p == q:
            return (5, i)
    return None


def refusal(numbers):
    """The number and the place of the refusal of a list in the strict reading, or None where it is accepted."""
    found = list_refusal(numbers)
    if found:
        return found
    place = misplaced(corners(numbers), LEFT)
    return (6, *place) if place else None


def default_refusal(numbers):
    """The same in the default reading: 6 only for a list that fits neither orientation, its place as in the strict
    one."""
    strict = refusal(numbers)
    if strict is None or strict[0] != 6:
        return strict
    return strict if misplaced(corners(numbers), RIGHT) else None


class Outline:
    """The corners of a list that the default reading accepts, as given and as held, and which numbers the corners and
    edges held have in the list as given."""

    def __init__(self, piece):
        n = len(piece)
        fits = [side for side in (LEFT, RIGHT) if misplaced(piece, side) is None]
        assert n >= 3 and len(fits) == 1, "an accepted list fits one orientation and not the other"
        self.given, self.clockwise = piece, fits == [RIGHT]
        numbered = list(enumerate(piece))
        if self.clockwise:
            numbered = numbered[:1] + numbered[:0:-1]
        self.corner_numbers, self.held = ([one[part] for one in numbered] for part in (0, 1))
        assert misplaced(self.held, LEFT) is None, "an outline is held counterclockwise"
        # An edge as given joins a corner to the following one; the edge as held that joins the same two is that edge.
        joining = {frozenset(edge(range(n), i)): i for i in range(n)}
        self.edge_numbers = [joining[frozenset(edge(self.corner_numbers, j))] for j in range(n)]
        for table in (self.corner_numbers, self.edge_numbers):
            assert [table[i] for i in table] == list(range(n)), "a table of numbers is its own inverse"
        assert self.corner_numbers[0] == 0, "corner 0 as held is corner 0 as given"


class Fraction:
    """Not reduced; compared by cross products."""

    def __init__(self, upper, lower):
        self.upper, self.lower = upper, lower

    def __lt__(self, other):
        return self.upper * other.lower < other.upper * self.lower

    def __eq__(self, other):
        return self.upper * other.lower == other.upper * self.lower

    def __str__(self):
        return f"{self.upper}/{self.lower}"


class Nearest:
    """The nearest feature of a piece to a corner, the gap, and the nearest point at x / lower, y / lower."""

    def __init__(self, feature, gap, x, y, lower):
        self.feature, self.gap, self.x, self.y, self.lower = feature, gap, x, y, lower


def is_within(v, piece):
    return all(side_number(*edge(piece, i), v) >= 0 for i in range(len(piece)))


def nearest(v, outline):
    """The exhaustive search for one corner: every corner and every edge of the other outline, as held. The feature has
    its number as given."""
    piece = outline.held
    if is_within(v, piece):
        return Nearest("within", Fraction(0, 1), v[0], v[1], 1)
    tried = []
    for c, number in zip(piece, outline.corner_numbers):
        to = minus(v, c)
        tried.append(Nearest(f"corner {number}", Fraction(dot(to, to), 1), c[0], c[1], 1))
    for j, number in enumerate(outline.edge_numbers):
        p, q = edge(piece, j)
        run = minus(q, p)
        length, t, s = dot(run, run), dot(minus(v, p), run), side_number(p, q, v)
        if s < 0 and 0 < t < length:
            x, y = length * p[0] + t * run[0], length * p[1] + t * run[1]
            tried.append(Nearest(f"edge {number}", Fraction(s * s, length), x, y, length))
    least = tried[0]
    for one in tried[1:]:
        if one.gap < least.gap:
            least = one
    assert is_nearest(v, least, piece), "the least gap tried is not that of the nearest point"
    return least


def is_nearest(v, near, piece):
    """(v - y)·(c - y) is at most 0 for every corner c, with both differences multiplied by y's lower number."""
    x, y, lower = near.x, near.y, near.lower
    to_v = (lower * v[0] - x, lower * v[1] - y)
    return all(dot(to_v, (lower * c[0] - x, lower * c[1] - y)) <= 0 for c in piece)


def half(d):
    return 0 if d[1] > 0 or (d[1] == 0 and d[0] > 0) else 1


def angular_order(pieces):
    """All edges of A (0) and B (1), as held, as (side, number), by direction; at equal direction A's edge first."""

    def later(one, two):
        d, e = (minus(*reversed(edge(pieces[s], i))) for s, i in (one, two))
        if half(d) != half(e):
            return half(d) - half(e)
        turn = d[0] * e[1] - d[1] * e[0]
        return -turn if turn else one[0] - two[0]

    edges = [(s, i) for s in (0, 1) for i in range(len(pieces[s]))]
    return sorted(edges, key=cmp_to_key(later))


def lies_on(point, p, q):
    """A point at x / lower, y / lower lies on the edge from p to q, its ends included."""
    x, y, lower = point
    from_p = (x - lower * p[0], y - lower * p[1])
    run = minus(q, p)
    on_line = run[0] * from_p[1] - run[1] * from_p[0] == 0
    return on_line and 0 <= dot(from_p, run) <= lower * dot(run, run)


def counts(near, piece, support):
    """Not within, and the nearest point is the support corner or lies on one of the two edges that meet there."""
    if near.feature == "within":
        return False
    point = (near.x, near.y, near.lower)
    if (near.x, near.y) == (near.lower * piece[support][0], near.lower * piece[support][1]):
        return True
    return lies_on(point, *edge(piece, support - 1)) or lies_on(point, *edge(piece, support))


def clearance(gap):
    """The smallest whole number whose square is not below the gap: tried from 0 up, at most to 45,255."""
    m = 0
    while m * m * gap.lower < gap.upper:
        m += 1
    return m


class Comparing:
    """An accepted pair of corner lists, swept step by step. The edges go by the lists as held. A corner is (side,
    number), and its number is that in the list as given."""

    def __init__(self, a, b):
        self.outlines = (Outline(a), Outline(b))
        self.order = angular_order([outline.held for outline in self.outlines])
        self.gaps = {}

    def nearest(self, s, i):
        if (s, i) not in self.gaps:
            self.gaps[s, i] = nearest(self.outlines[s].given[i], self.outlines[1 - s])
        return self.gaps[s, i]

    def corners_of(self, s):
        """A side's corners, by number."""
        return [(s, i) for i in range(len(self.outlines[s].given))]

    def gap(self, corner):
        return self.nearest(*corner).gap

    def worse(self, one, two):
        """Of two corners the one with the greater gap; of equals A's before B's, then the lower number. Either may be
        None, for no corner."""
        if one is None or two is None:
            return two if one is None else one
        if self.gap(one) == self.gap(two):
            return min(one, two)
        return two if self.gap(one) < self.gap(two) else one

    def sweep(self, steps):
        """The support corners after some steps; the worst so far over both sides at once; that of A, and that of B.

        A worst so far is a corner, or None. The steps go by the support corners as held."""
        support = [next(j for t, j in self.order if t == s) for s in (0, 1)]
        worst, sides = None, [None, None]
        for side, number in self.order[:steps]:
            for s in (0, 1):
                corner = (s, self.outlines[s].corner_numbers[support[s]])
                if counts(self.nearest(*corner), self.outlines[1 - s].held, support[1 - s]):
                    worst, sides[s] = self.worse(worst, corner), self.worse(sides[s], corner)
            support[side] = (number + 1) % len(self.outlines[side].held)
        return [one.corner_numbers[j] for one, j in zip(self.outlines, support)], worst, sides

    def exhaustive(self, s):
        """One side: its corner 0 at first; a later corner takes its place only if its gap is greater."""
        worst = (s, 0)
        for corner in self.corners_of(s):
            if self.gap(worst) < self.gap(corner):
                worst = corner
        return worst

    def exhaustive_at_once(self):
        """Both sides at once: A's corner 0 at first, then A's corners by number, then B's."""
        worst = (0, 0)
        for corner in self.corners_of(0) + self.corners_of(1):
            if self.gap(worst) < self.gap(corner):
                worst = corner
        return worst

    def overall(self, sides):
        """Of what A and B show the one with the greater gap, A's of equals; the other's where one shows none."""
        a, b = sides
        if a is None or b is None:
            return b if a is None else a
        return b if self.gap(a) < self.gap(b) else a

    def named(self, corner):
        if corner is None:
            return "none"
        near = self.nearest(*corner)
        x, y = f"{near.x}/{near.lower}", f"{near.y}/{near.lower}"
        return f"{'AB'[corner[0]]} {corner[1]} {near.feature} {near.gap} {x} {y}"

    def found(self, allowance):
        """Whether it is done, the steps made, the support corners; the overall answer or worst so far; A's, and B's.

        An answer or worst so far is a corner, or None. Support corners have their numbers as given."""
        n = len(self.order)
        steps = min(allowance, n)
        support, worst, sides = self.sweep(steps)
        assert worst == self.overall(sides), "the worst over both sides at once is not the worse of the two"
        true = [self.exhaustive(s) for s in (0, 1)]
        if allowance < n:
            for one, most in zip(sides, true):
                assert one is None or not self.gap(most) < self.gap(one), "a worst so far above the worst of its side"
            return False, steps, support, worst, sides
        for s in (0, 1):
            if sides[s] is None:
                zero = all(self.gap(corner).upper == 0 for corner in self.corners_of(s))
                assert zero, "a side with a gap above 0 was not counted"
                assert self.nearest(s, 0).feature == "within"
                sides[s] = (s, 0)
        assert sides == true, "the sweep and the exhaustive search of a side differ"
        answer = (0, 0) if worst is None else worst
        assert answer == self.exhaustive_at_once(), "the sweep and the exhaustive search differ"
        assert answer == self.overall(sides), "the overall answer is not the worse of the two"
        return True, steps, support, answer, sides

    def report(self, allowance):
        done, steps, support, overall, (a, b) = self.found(allowance)
        sides = f"{self.named(a)} {self.named(b)}"
        if done:
            text = f"done {steps} {self.named(overall)} {clearance(self.gap(overall))} {sides}"
            assert DONE.fullmatch(text)
        else:
            text = f"spent {steps} {support[0]} {support[1]} {self.named(overall)} {sides}"
            assert SPENT.fullmatch(text)
        return text


def compare_all(a, b, allowances):
    """The texts for one pair of lists and several allowances."""
    for side, numbers in (("A", a), ("B", b)):
        found = default_refusal(numbers)
        if found:
            return [" ".join(map(str, ("refused", side) + found))] * len(allowances)
    comparing = Comparing(corners(a), corners(b))
    return [comparing.report(allowance) for allowance in allowances]


def compare(a, b, allowance):
    return compare_all(a, b, [allowance])[0]


def feature_corners(near, piece):
    """The corners that make a feature of a list of corners: none within, its own of a corner, the ends of an edge."""
    if near.feature == "within":
        return ()
    kind, number = near.feature.split()
    return edge(piece, int(number)) if kind == "edge" else (piece[int(number)],)


def check_same_point(one, piece, two, other):
    """Two answers for one point, of lists that have the same corners in another order: the same gap and nearest point,
    written alike, and the same feature, by whatever number."""
    assert (str(one.gap), one.x, one.y, one.lower) == (str(two.gap), two.x, two.y, two.lower), "another nearest point"
    assert one.feature.split()[0] == two.feature.split()[0], "another kind of feature"
    assert set(feature_corners(one, piece)) == set(feature_corners(two, other)), "another feature"


def check_point_reversal(v, piece):
    """A point's gap, nearest point and feature do not depend on the orientation."""
    given, reverse = Outline(piece), Outline(piece[::-1])
    assert given.clockwise != reverse.clockwise
    check_same_point(nearest(v, given), piece, nearest(v, reverse), piece[::-1])


def check_reversal(a, b):
    """An accepted pair of corner lists, and the same with the corners of one or both in the opposite order: every
    corner has the same nearest point; the answers have equal gaps, overall and of each side, and the same clearance,
    though not always the same corners."""
    first = Comparing(a, b)
    steps = len(first.order)
    _, _, _, overall, sides = first.found(steps)
    for c, d in ((a[::-1], b), (a, b[::-1]), (a[::-1], b[::-1])):
        other = Comparing(c, d)
        for pieces, lists, s in (((a, c), (b, d), 0), ((b, d), (a, c), 1)):
            for i, v in enumerate(pieces[0]):
                same = other.nearest(s, pieces[1].index(v))
                check_same_point(first.nearest(s, i), lists[0], same, lists[1])
        done, made, _, answer, shown = other.found(steps)
        assert done and made == steps
        for one, two in zip([overall] + sides, [answer] + shown):
            assert one[0] == two[0] and first.gap(one) == other.gap(two), "another gap of the reversed lists"
        assert clearance(first.gap(overall)) == clearance(other.gap(answer))
