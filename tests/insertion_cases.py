"""Writes the input of the program `insertion_cases`, and the answers that `insertion_reference.py` gives:
crates/insertion_cases/stdin and crates/insertion_cases/stdout.

Run without arguments from anywhere. The same seed gives the same files, on any machine. The input has the number of
cases, and for each how many numbers the outline's list has and the numbers, and six numbers: a place in two parts (over
2^32, and the rest), x and y of a point, the length of the list to write in inserting it there, and the length of that
of the second call, which undoes the first. The script prints how many cases there are, how many of each kind, and how
many would show each of several mistakes.
"""
from collections import Counter
from functools import lru_cache
from itertools import chain, product
from pathlib import Path

from call_cases import FLAT, LARGEST_COORDINATE, LARGEST_CORNER, LEAST_COORDINATE, LONGEST_LIST
from call_reference import FILL, NO_SIDE, SIDE_A, line, removed, status
from insertion_reference import MOST_CORNERS, answers, c_insert_corner, insert_corner, insert_remove, inserted
from insertion_reference import remove_insert, with_corner
from pairs import CLOCKWISE, CLOCKWISE_SQUARE, LARGEST, SQUARE, STAR, TRIANGLE, Random, clockwise, from_corner
from pairs import from_edges, from_points, large, moved, numbers, small, times
from record_cases import HEXAGON, arc, shuffled
from reference import LEFT, LIMIT, corners, default_refusal, edge, misplaced, refusal, side_number

SEED = 20261119
LARGEST_PLACE = LARGEST_CORNER
LARGEST_INPUT = 64_000
# How much longer than the outline's list that of the second call is, where it is not to fit.
OTHER_BACKS = [2, -2, 1, -1, 4, -8]
# The square without corner 1, and the largest one without corner 3.
HALVED = [0, 0, 4, 4, 0, 4]
LARGEST_HALF = LARGEST[:6]
# 256 corners: an outline, and to and fro.
ARC = numbers(arc(256))
TO_AND_FRO = [0, 0, 1, 0] * 128


def filled(length):
    return length * " 77"


# The values that the requirements state, and what follows from them.
STATED = [
    (insert_corner(HALVED, 1, (4, 0), 8), "insert done list 0 0 4 0 4 4 0 4"),
    (insert_corner(HALVED, 0, (-1, 2), 8), "insert done list -1 2 0 0 4 4 0 4"),
    (insert_corner(HALVED, 3, (-1, 2), 8), "insert done list 0 0 4 4 0 4 -1 2"),
    (insert_corner(LARGEST_HALF, 3, (-16000, 16000), 8), line("insert done list", *LARGEST)),
    (insert_corner(LARGEST_HALF, 3, (-16001, 16000), 8), "insert refused 7 list" + filled(8)),
    (insert_corner(ARC[:200] + ARC[202:], 100, ARC[200:202], 512), line("insert done list", *ARC)),
    (insert_corner(ARC, 256, (129, 8641), 514), "insert refused 3 list" + filled(514)),
    (insert_corner(ARC, 0, (0, 0), 0), "insert refused 3 list"),
    # Over another edge; beyond the edge before the one of the place, and the edge after it; inside; on the edge, and on
    # its line.
    (insert_corner(HALVED, 0, (4, 0), 8), "insert refused 6 0 2 list" + filled(8)),
    (insert_corner(HALVED, 2, (4, 0), 8), "insert refused 6 0 2 list" + filled(8)),
    (insert_corner(HALVED, 3, (4, 0), 8), "insert refused 6 0 3 list" + filled(8)),
    (insert_corner(HALVED, 1, (-1, -2), 8), "insert refused 6 0 3 list" + filled(8)),
    (insert_corner(HALVED, 1, (6, 5), 8), "insert refused 6 1 3 list" + filled(8)),
    (insert_corner(HALVED, 1, (1, 3), 8), "insert refused 6 0 2 list" + filled(8)),
    (insert_corner(HALVED, 3, (0, 2), 8), "insert refused 6 2 0 list" + filled(8)),
    (insert_corner(HALVED, 2, (-1, 4), 8), "insert refused 6 1 3 list" + filled(8)),
    # Equal to the corner before, to the one after, and to another.
    (insert_corner(HALVED, 1, (0, 0), 8), "insert refused 5 0 list" + filled(8)),
    (insert_corner(HALVED, 1, (4, 4), 8), "insert refused 5 1 list" + filled(8)),
    (insert_corner(HALVED, 0, (0, 4), 8), "insert refused 5 3 list" + filled(8)),
    (insert_corner(HALVED, 0, (0, 0), 8), "insert refused 5 0 list" + filled(8)),
    (insert_corner(HALVED, 3, (0, 4), 8), "insert refused 5 2 list" + filled(8)),
    (insert_corner(HALVED, 3, (0, 0), 8), "insert refused 5 3 list" + filled(8)),
    (insert_corner(HALVED, 1, (0, 4), 8), "insert refused 6 0 2 list" + filled(8)),
    # The order.
    (insert_corner(HALVED + [0], 9, (16001, 0), 1), "insert refused 1 list" + filled(1)),
    (insert_corner([], 1, (16001, 0), 1), "insert refused 2 list" + filled(1)),
    (insert_corner([0, 0] * 257, 258, (0, -16001), 0), "insert refused 3 list"),
    (insert_corner([0, 0, 4, 4, 16001, 4], 4, (0, -16001), 9), "insert refused 4 2 list" + filled(9)),
    (insert_corner([0, 0, 4, 4, 0, 0], 4, (0, -16001), 9), "insert refused 5 2 list" + filled(9)),
    (insert_corner(CLOCKWISE, 4, (0, -16001), 9), "insert refused 6 0 2 list" + filled(9)),
    (insert_corner(CLOCKWISE, 2, (4, 4), 8), "insert refused 6 0 2 list" + filled(8)),
    (insert_corner(HALVED, 4, (0, -16001), 9), "insert refused 8 list" + filled(9)),
    (insert_corner(HALVED, 2**32 + 1, (4, 0), 8), "insert refused 8 list" + filled(8)),
    (insert_corner(HALVED, 1, (0, -16001), 9), "insert refused 7 list" + filled(9)),
    (insert_corner(HALVED, 1, (4, 0), 6), "insert refused 9 list" + filled(6)),
    (insert_corner(HALVED, 1, (0, 0), 9), "insert refused 9 list" + filled(9)),
    (c_insert_corner(HALVED, 1, (4, 0), 8), "c_insert 0 0 0 0 0 list 0 0 4 0 4 4 0 4"),
    (c_insert_corner(HALVED, 1, (1, 3), 8), "c_insert 6 0 2 0 2 list" + filled(8)),
    (c_insert_corner(HALVED, 0, (0, 4), 8), "c_insert 5 0 1 3 0 list" + filled(8)),
    (c_insert_corner(HALVED, 9, (0, 4), 7), "c_insert 8 0 0 0 0 list" + filled(7)),
    (c_insert_corner(HALVED, 1, (4, 0), 7), "c_insert 9 0 0 0 0 list" + filled(7)),
    # The square without corner 1, and there and back.
    (insert_remove(HALVED, 1, (4, 0), 8, 6), "insert_remove done list 0 0 4 4 0 4"),
    (insert_remove(HALVED, 1, (4, 0), 8, 8), "insert_remove refused 9 list" + filled(8)),
    (insert_remove(HALVED, 1, (4, 0), 6, 6), "insert_remove none"),
    (remove_insert(SQUARE, 1, 8), "remove_insert done list 0 0 4 0 4 4 0 4"),
    (remove_insert(SQUARE, 3, 7), "remove_insert refused 9 list" + filled(7)),
    (remove_insert(SQUARE, 4, 8), "remove_insert none"),
    (remove_insert(TRIANGLE, 1, 6), "remove_insert none"),
]

# How a point lies that an outline takes: strictly right of the edge that it is inserted over, and strictly left of the
# edge before that one and of the edge after it.
FITS = (-1, 1, 1)
# And how some lie that it does not take.
NOT_OVER = (1, 1, 1)
ON_LINES = [(0, 1, 1), (-1, 0, 1), (-1, 1, 0)]
BEFORE, AFTER, ANOTHER = "the corner before", "the corner after", "another corner"
# The two second calls, as their lines name them.
TWICE = ("insert_remove", "remove_insert")


def lies(piece, place, v):
    """How a point lies for a place of an outline: equal to a corner; or left (1), on the line (0) or right (-1) of the
    edge that it is inserted over, of the edge before that one and of the edge after it."""
    first, p, q, last = (piece[k % len(piece)] for k in range(place - 2, place + 2))
    if v in piece:
        return BEFORE if v == p else AFTER if v == q else ANOTHER
    sides = [side_number(*one, v) for one in ((p, q), (first, p), (q, last))]
    return tuple((side > 0) - (side < 0) for side in sides)


def ways(piece, place):
    """The whole points in and about an outline, by how they lie for a place."""
    xs, ys = (range(min(of) - 3, max(of) + 4) for of in zip(*piece))
    found = {}
    for v in product(xs, ys):
        found.setdefault(lies(piece, place, v), []).append(v)
    return found


def without(piece, k):
    return piece[:k] + piece[k + 1:]


def of_points(random):
    """At every place two points that fit, one on the other side of the edge, one beyond the line of the edge before it
    and of the edge after it, one equal to each corner beside it, one equal to another, and some that lie otherwise,
    each in another way."""
    always = [FITS, FITS, NOT_OVER, (-1, -1, 1), (-1, 1, -1), BEFORE, AFTER, ANOTHER]
    for outline, others in ((HALVED, 5), (SQUARE, 1), (HEXAGON, 0)):
        for place in range(len(outline) // 2 + 1):
            found = ways(corners(outline), place)
            for way in always + shuffled(random, [way for way in found if way not in always])[:others]:
                yield outline, place, *random.one_of(found[way]), len(outline) + 2


def of_places(random):
    """Every corner of an outline inserted where it is missing; corner 0 also last, and the last corner first."""
    points = [from_points(random, 9, 12), from_edges(random, 7, 600), from_points(random, LIMIT, 14)]
    for piece in [corners(FLAT + [-1, 1]), corners(LARGEST), *points]:
        length = 2 * len(piece)
        for place, corner in enumerate(piece):
            yield numbers(without(piece, place)), place, *corner, length
        yield numbers(piece[1:]), len(piece) - 1, *piece[0], length
        yield numbers(piece[:-1]), 0, *piece[-1], length


def of_many_corners(random):
    """Outlines of 255 corners and of 256."""
    piece = from_edges(random, 257, 11)
    piece = moved(piece, *(-min(of) for of in zip(*piece)))
    inside = tuple((p + q) // 2 for p, q in zip(piece[0], piece[128]))
    for number, place in enumerate((0, 100, 256)):
        outline, missing = numbers(without(piece, place)), piece[place]
        # 3 alone or with 6 of the result, with 9, with 7, and with 8.
        yield outline, place, *[missing, inside, missing][number], 514
        yield outline, [0, 255, 256][number], *[missing, inside, piece[255]][number], [512, 515, 0][number]
        yield outline, place, *[(0, -16001), (16001, -16001), (LEAST_COORDINATE, 3)][number], [514, 512, 514][number]
        yield outline, [257, 2**32 + 100, 258][number], *missing, [514, 514, 512][number]
    piece = without(piece, 128)
    for place in (0, 90, 255):
        yield numbers(without(piece, place)), place, *piece[place], 512
    outline = piece[1:]
    yield numbers(outline), 255, *outline[0], 512
    yield numbers(outline), 200, *outline[20], 512
    yield numbers(outline), 254, *inside, 512
    # 256 corners, and 4, 5 or 6.
    yield [16001] + TO_AND_FRO[1:], 256, 0, 4, 514
    yield [0, 0] * 256, 128, 0, 4, 514
    yield TO_AND_FRO, 0, 0, 4, 514


# 1, 2, 3, 4, 5 and 6; the last is clockwise.
FAULTS = [SQUARE + [0], [0], [0, 0, 4, 0], [0, 0] * 257, [0, 0, 4, 0, 4, -16001], [0, 0, 4, 0, 4, 4, 0, 0], STAR,
          CLOCKWISE_SQUARE]


def of_faults():
    """A fault of the outline alone, with 8, with 7, with 9, and with all of these."""
    for number, outline in enumerate(FAULTS):
        count, right = len(outline) // 2, len(outline) + 2
        wrong, far = right + [-1, 1, 2][number % 3], [LIMIT + 1, -LIMIT - 1, LEAST_COORDINATE][number % 3]
        yield outline, number % (count + 1), -1, 2, right
        yield outline, count + 1, -1, 2, right
        yield outline, 0, far, 2, right
        yield outline, count, -1, 2, wrong
        yield outline, [count + 1, 2**32, LARGEST_PLACE][number % 3], 2, far, wrong
    # Two corners, one or none, and points that would make three corners or fewer.
    yield from [([0, 0, 4, 0], 2, 0, 4, 6), ([0, 0, 0, 4], 1, 4, 0, 6), ([4, 0, 0, 4], 0, 0, 0, 6),
                ([0, 0], 1, 4, 0, 4), ([], 0, 0, 0, 2)]
    # 4 to 6 before the place and after it.
    for outline in ([16001] + HALVED[1:], HALVED + [0, 4], HALVED[:4] + HALVED[2:], [0, 0, 4, 0, 0, 4, 4, 4]):
        for place in (0, 2):
            yield outline, place, -1, 1, len(outline) + 2


def of_clockwise():
    """Clockwise outlines, and points that make a longer one."""
    for whole in (CLOCKWISE_SQUARE, numbers(clockwise(corners(HEXAGON)))):
        piece = corners(whole)
        for place in (0, 1, len(piece) - 1):
            yield numbers(without(piece, place)), place, *piece[place], len(whole)


def of_orders(random):
    """8, 7, 9, and 5 and 6 of the result, each with some of the others."""
    for number, outline in enumerate((HALVED, SQUARE, FLAT, HEXAGON)):
        count, right = len(outline) // 2, len(outline) + 2
        far = [(LIMIT + 1, 1), (1, -LIMIT - 1), (LEAST_COORDINATE, LARGEST_COORDINATE), (-LIMIT - 1, 0)][number]
        wrong = [right + 1, right - 2, 0, right + 2, right - 1][number:]
        place = random.below(count + 1)
        found = ways(corners(outline), place)
        fitting, inside, same = (random.one_of(found[way]) for way in (FITS, NOT_OVER, BEFORE))
        yield outline, count + 1, *far, right
        yield outline, count + 1, *fitting, wrong[0]
        yield outline, [count + 1, 2**32 + place][number % 2], *far, wrong[1]
        yield outline, place, *far, wrong[0]
        yield outline, place, *same, wrong[1]
        yield outline, place, *inside, wrong[0]


def of_lengths(random):
    """A point that fits, and lists to write of other lengths."""
    for outline in (HALVED, HEXAGON):
        for length in (0, 1, len(outline) - 2, len(outline), len(outline) + 1, len(outline) + 3, len(outline) + 4,
                       LONGEST_LIST):
            place = random.below(len(outline) // 2 + 1)
            yield outline, place, *random.one_of(ways(corners(outline), place)[FITS]), length


def of_far_places(random):
    """Places past the count, with a point that would fit if some bits of the place were left out."""
    for far, k in ((2**8, 3), (2**16, 1), (2**31, 1), (2**32, 0), (2**32, 1), (2**32, 3), (2**63, 0), (2**63, 1)):
        yield HALVED, far + k, *[(-1, 2), (4, 0)][k % 3], 8
    for outline in (SQUARE, HEXAGON):
        count = len(outline) // 2
        for bit in (8, 16, 31, 32, 63):
            k = random.below(count + 1)
            yield outline, 2**bit + k, *random.one_of(ways(corners(outline), k)[FITS]), len(outline) + 2
        for place in (count + 1, count + 2, 2 * count, LARGEST_PLACE, LARGEST_PLACE - count):
            yield outline, place, *random.one_of(ways(corners(outline), 0)[FITS]), len(outline) + 2


def of_ranges():
    """Points at the ends of the range and past them, most of which would fit else."""
    for low, high in ((-LIMIT, LIMIT), (-LIMIT - 1, LIMIT + 1), (-2**16 - 5, 2**16 + 5),
                      (LEAST_COORDINATE, LARGEST_COORDINATE)):
        yield from [(HALVED, 1, high, 3, 8), (HALVED, 2, 3, high, 8), (HALVED, 1, 3, low, 8), (HALVED, 3, low, 3, 8)]
    for x, y in ((16000, -16001), (-16001, 16000), (16001, -16001), (-16001, -15999), (15999, 16001),
                 (LEAST_COORDINATE, LEAST_COORDINATE), (LARGEST_COORDINATE, LEAST_COORDINATE), (-2**16, 2**16),
                 (LEAST_COORDINATE, 16000), (-15999, 16000), (-16000, 15999)):
        yield LARGEST_HALF, 3, x, y, 8


def of_near_lines(random):
    """Outlines of large coordinates, and points on the line of an edge or beside it by one."""
    for outline, k in ((HALVED, 3999), (SQUARE, 3500), (HEXAGON, 1777), (FLAT, 1600)):
        piece = corners(outline)
        for _ in range(6):
            place = random.below(len(piece) + 1)
            found = ways(piece, place)
            x, y = random.one_of(found[random.one_of([way for way in ON_LINES if way in found])])
            dx, dy = random.one_of([(0, 0), (1, 0), (-1, 0), (0, 1), (0, -1)])
            v = k * x + dx, k * y + dy
            yield numbers(times(piece, k)), place, *(max(-LIMIT, min(LIMIT, z)) for z in v), len(outline) + 2


def of_random_outlines(random):
    """Outlines from any of their corners, and points that fit, where there are any, or lie anywhere about. Some have a
    list to write of the wrong length, and some a place past the count."""
    for number in range(44):
        piece = small(random)
        piece = from_corner(piece, random.below(len(piece)))
        place = random.one_of([0, len(piece), *range(len(piece) + 1)])
        found = ways(piece, place)
        anywhere = list(chain.from_iterable(found.values()))
        v = random.one_of(found.get(FITS, anywhere) if number % 3 else anywhere)
        more = [0, 1, -2, 2][number // 4 % 4] if number % 4 == 3 else 0
        past = len(piece) if number % 16 == 4 else 0
        yield numbers(piece), place + past, *v, 2 * len(piece) + 2 + more
    for number in range(8):
        piece = large(random)
        k = random.below(len(piece))
        rest = without(piece, k) if len(piece) > 3 else piece
        v = piece[k] if number % 2 else (random.between(-LIMIT, LIMIT), random.between(-LIMIT, LIMIT))
        yield numbers(rest), k, *v, 2 * len(rest) + 2


def back_length(number, outline):
    """The length of the list to write of the second call, by the number of the case: mostly the right one, and always
    for long outlines."""
    more = OTHER_BACKS[number // 7 % 6] if number % 7 == 3 and len(outline) < 500 else 0
    return max(0, len(outline) + more)


def cases():
    random = Random(SEED)
    parts = ([(HALVED, 1, 4, 0, 8)], of_points(random), of_places(random), of_many_corners(random), of_faults(),
             of_clockwise(), of_orders(random), of_lengths(random), of_far_places(random), of_ranges(),
             of_near_lines(random), of_random_outlines(random))
    for number, (outline, *others) in enumerate(chain.from_iterable(parts)):
        yield outline, *others, back_length(number, outline)
    for more in OTHER_BACKS:
        yield SQUARE, 2, 6, 2, 10, len(SQUARE) + more


@lru_cache(None)
def read_outline(outline, reading):
    return reading(list(outline))


@lru_cache(None)
def not_left(piece, least=1):
    """Every edge and corner, other than its ends, with a side number below the least that is left of an edge; by edge,
    then by corner."""
    n = len(piece)
    others = [(i, c) for i in range(n) for c in range(n) if c not in (i, (i + 1) % n)]
    return [(i, c) for i, c in others if side_number(*edge(piece, i), piece[c]) < least]


class Inserting:
    """Inserting a corner as `insertion_reference` does it, in parts of which a mistake replaces some."""
    order = ("outline", 8, 7, 3, 9, "result")
    tests = (5, 6)

    def __init__(self, outline, place, x, y, length):
        self.outline, self.length, self.count = outline, length, len(outline) // 2
        self.place, self.point = self.taken(place), self.pointed(x, y)

    def taken(self, place):
        return place

    def pointed(self, x, y):
        return x, y

    def outline_refusal(self):
        return read_outline(tuple(self.outline), refusal)

    def is_past(self):
        return self.place > self.count

    def is_far(self):
        return any(self.is_beyond(z) for z in self.point)

    def is_beyond(self, z):
        return not -LIMIT <= z <= LIMIT

    def is_full(self):
        return self.count == MOST_CORNERS

    def is_misfit(self):
        return self.length != len(self.outline) + 2

    def at(self):
        """The number that the point gets as a corner."""
        return self.place

    def result(self):
        return with_corner(self.outline, self.at(), self.point)

    def repeated(self, piece):
        """The place of 5, or None."""
        return next(((i,) for i in range(len(piece)) if piece[i] == piece[(i + 1) % len(piece)]), None)

    def misplaced(self, piece):
        """The place of 6, or None."""
        return next(iter(self.not_left(piece)), None)

    def not_left(self, piece):
        return not_left(piece)

    def result_refusal(self):
        piece = tuple(corners(self.result()))
        for number in self.tests:
            place = {5: self.repeated, 6: self.misplaced}[number](piece)
            if place is not None:
                return number, *place
        return None

    def refused(self):
        """The check that refuses, and the refusal; or None twice."""
        applies = {8: self.is_past, 7: self.is_far, 3: self.is_full, 9: self.is_misfit}
        for check in self.order:
            if check in applies:
                found = (check,) if applies[check]() else None
            else:
                found = {"outline": self.outline_refusal, "result": self.result_refusal}[check]()
            if found:
                return check, self.told(check, found)
        return None, None

    def told(self, check, found):
        """What is told of a refusal by this check."""
        return found

    def written(self, check):
        """The list to write after the call."""
        return [FILL] * self.length if check else self.fitted()

    def fitted(self):
        """The result, as far as the list goes."""
        return (self.result() + [FILL] * self.length)[:self.length]

    def answer(self):
        check, found = self.refused()
        return found, self.written(check)


def mistake(**parts):
    """Inserting with these parts in place of the right ones."""
    return type("Mistake", (Inserting,), parts)


def in_order(*order):
    return mistake(order=order)


def of_equals(chosen):
    """5 for some of the corners alone: those that are chosen, of a place, a corner count and a corner."""
    def repeated(self, piece):
        found = Inserting.repeated(self, piece)
        return found if found and chosen(self.at(), len(piece), *found) else None

    return mistake(repeated=repeated)


def of_corners(chosen):
    """6 by some of the edges and corners alone: those that are chosen, of a place, a corner count, an edge and a
    corner."""
    return mistake(not_left=lambda self, piece: (
        one for one in not_left(piece) if chosen(self.at(), len(piece), *one)))


def of_place(choice):
    """6 with another of the edges and corners."""
    return mistake(misplaced=lambda self, piece: choice(not_left(piece)) if not_left(piece) else None)


def where_it_fits(self):
    piece = corners(self.outline)
    return next((k for k in range(len(piece) + 1) if lies(piece, k, self.point) == FITS), self.place)


def turned_round(self):
    """A clockwise outline as it is held in the default reading."""
    found = read_outline(tuple(self.outline), default_refusal)
    if found is None and read_outline(tuple(self.outline), refusal):
        self.outline = numbers(clockwise(corners(self.outline)))
    return found


def default_result(self):
    """5, and 6 where the result fits neither orientation."""
    found = Inserting.result_refusal(self)
    return read_outline(tuple(self.result()), default_refusal) if found and found[0] == 6 else found


def in_outline(self, check, found):
    """The places of 5 and 6 of the result as numbers of the outline."""
    return (found[0], *(k - (k > self.place) for k in found[1:])) if check == "result" else found


def in_result(self, check, found):
    """The places of 4 to 6 of the outline as numbers of the result."""
    return (found[0], *(k + (k >= self.place) for k in found[1:])) if check == "outline" else found


def any_equal(self, piece):
    return next(((i,) for i in range(len(piece)) if piece[i] in piece[i + 1:]), None)


# Two more would change nothing: a result read by default, for it is never clockwise; and its last edge not checked, for
# it is never the lowest that some corner is not left of.
MISTAKES = {
    # The order.
    "8 before 1 to 6": in_order(8, "outline", 7, 3, 9, "result"),
    "7 before 1 to 6": in_order(7, "outline", 8, 3, 9, "result"),
    "9 before 1 to 6": in_order(9, "outline", 8, 7, 3, "result"),
    "3 before 1 to 6": in_order(3, "outline", 8, 7, 9, "result"),
    "7 before 8": in_order("outline", 7, 8, 3, 9, "result"),
    "3 before 8": in_order("outline", 3, 8, 7, 9, "result"),
    "9 before 8": in_order("outline", 9, 8, 7, 3, "result"),
    "3 before 7": in_order("outline", 8, 3, 7, 9, "result"),
    "9 before 7": in_order("outline", 8, 9, 7, 3, "result"),
    "9 before 3": in_order("outline", 8, 7, 9, 3, "result"),
    "5 and 6 of the result before 9": in_order("outline", 8, 7, 3, "result", 9),
    "5 and 6 of the result before 3": in_order("outline", 8, 7, "result", 3, 9),
    "5 and 6 of the result before 7": in_order("outline", 8, "result", 7, 3, 9),
    "6 of the result before 5": mistake(tests=(6, 5)),
    # The outline.
    "the outline not read": in_order(8, 7, 3, 9, "result"),
    "the result read in place of the outline": mistake(
        order=(8, 7, 9, "result"), result_refusal=lambda self: refusal(self.result())),
    "5 and 6 of the outline not tested": mistake(
        outline_refusal=lambda self: found if (found := refusal(self.outline)) and found[0] < 5 else None),
    "2 corners taken": mistake(outline_refusal=lambda self: None if self.count == 2 else refusal(self.outline)),
    "2 for 3 corners, as in removing": mistake(
        outline_refusal=lambda self: read_outline(tuple(self.outline), refusal) or ((2,) if self.count == 3 else None)),
    "the outline read by default": mistake(
        outline_refusal=lambda self: read_outline(tuple(self.outline), default_refusal)),
    "clockwise outlines taken": mistake(
        outline_refusal=lambda self: read_outline(tuple(self.outline), default_refusal), result_refusal=default_result),
    "clockwise outlines taken, and turned round": mistake(outline_refusal=turned_round),
    "places of the outline's refusals in the result": mistake(told=in_result),
    # The place.
    "inserted one place later": mistake(at=lambda self: self.place + 1),
    "inserted one place earlier": mistake(at=lambda self: max(self.place - 1, 0)),
    "inserted last": mistake(at=lambda self: self.count),
    "inserted first": mistake(at=lambda self: 0),
    "inserted first for the place that is the count": mistake(at=lambda self: self.place % self.count),
    "inserted where it fits": mistake(at=where_it_fits),
    "inserted in place of a corner": mistake(
        result=lambda self: self.outline[:2 * self.place] + [*self.point] + self.outline[2 * self.place + 2:]),
    "inserted at the place as an index of numbers": mistake(
        result=lambda self: self.outline[:self.place] + [*self.point] + self.outline[self.place:]),
    "the place that is the count refused": mistake(is_past=lambda self: self.place >= self.count),
    "place 0 refused": mistake(is_past=lambda self: not 0 < self.place <= self.count),
    "one past the count taken": mistake(is_past=lambda self: self.place > self.count + 1),
    "the place compared with the length": mistake(is_past=lambda self: self.place > len(self.outline)),
    "8 not tested": mistake(is_past=lambda self: False),
    "the place counted round": mistake(taken=lambda self, place: place % (self.count + 1)),
    "the place in 8 bits": mistake(taken=lambda self, place: place % 2**8),
    "the place in 16 bits": mistake(taken=lambda self, place: place % 2**16),
    "the place in 32 bits": mistake(taken=lambda self, place: place % 2**32),
    "twice the place in 32 bits": mistake(taken=lambda self, place: place % 2**31),
    "twice the place in 64 bits": mistake(taken=lambda self, place: place % 2**63),
    "the place with a sign": mistake(
        taken=lambda self, place: (place + 2**63) % 2**64 - 2**63, at=lambda self: max(self.place, 0)),
    # The point.
    "x and y exchanged": mistake(pointed=lambda self, x, y: (y, x)),
    "7 not tested": mistake(is_far=lambda self: False),
    "x alone tested for 7": mistake(is_far=lambda self: self.is_beyond(self.point[0])),
    "y alone tested for 7": mistake(is_far=lambda self: self.is_beyond(self.point[1])),
    "7 where x and y are out of range": mistake(is_far=lambda self: all(map(self.is_beyond, self.point))),
    "16000 out of range": mistake(is_beyond=lambda self, z: not -LIMIT <= z < LIMIT),
    "-16000 out of range": mistake(is_beyond=lambda self, z: not -LIMIT < z <= LIMIT),
    "16001 in range": mistake(is_beyond=lambda self, z: not -LIMIT <= z <= LIMIT + 1),
    "-16001 in range": mistake(is_beyond=lambda self, z: not -LIMIT - 1 <= z <= LIMIT),
    "no upper end of the range": mistake(is_beyond=lambda self, z: z < -LIMIT),
    "no lower end of the range": mistake(is_beyond=lambda self, z: z > LIMIT),
    "-2^31 in range": mistake(is_beyond=lambda self, z: z != LEAST_COORDINATE and abs(z) > LIMIT),
    "the point in 16 bits": mistake(pointed=lambda self, *point: tuple((z + 2**15) % 2**16 - 2**15 for z in point)),
    "4 with the place for 7": mistake(told=lambda self, check, found: (4, self.place) if check == 7 else found),
    # The count and the lengths.
    "256 corners taken": mistake(is_full=lambda self: False),
    "255 corners refused": mistake(is_full=lambda self: self.count >= 255),
    "9 in place of 3": mistake(told=lambda self, check, found: (9,) if check == 3 else found),
    "9 not tested": mistake(is_misfit=lambda self: False),
    "longer lists taken": mistake(is_misfit=lambda self: self.length < len(self.outline) + 2),
    "shorter lists taken": mistake(is_misfit=lambda self: self.length > len(self.outline) + 2),
    "one number more taken": mistake(is_misfit=lambda self: self.length // 2 != self.count + 1),
    "one corner more taken": mistake(
        is_misfit=lambda self: not len(self.outline) + 2 <= self.length <= len(self.outline) + 4),
    "9 by the outline's length": mistake(is_misfit=lambda self: self.length != len(self.outline)),
    "the outline's length taken too": mistake(
        is_misfit=lambda self: self.length not in (len(self.outline), len(self.outline) + 2)),
    "9 by the length in removing": mistake(is_misfit=lambda self: self.length != len(self.outline) - 2),
    # The result.
    "the result not checked": in_order("outline", 8, 7, 3, 9),
    "5 of the result not tested": mistake(tests=(6,)),
    "6 of the result not tested": mistake(tests=(5,)),
    "places of 5 and 6 in the outline": mistake(told=in_outline),
    "5 not across the end": of_equals(lambda place, n, i: i + 1 < n),
    "5 for the corner before alone": of_equals(lambda place, n, i: i != place),
    "5 for the corner after alone": of_equals(lambda place, n, i: i == place),
    "5 with the number of the second corner": mistake(
        told=lambda self, check, found: (5, (found[1] + 1) % (self.count + 1)) if found[0] == 5 else found),
    "5 with the number of the new corner": mistake(
        told=lambda self, check, found: (5, self.place) if check == "result" and found[0] == 5 else found),
    "5 for any two equal corners": mistake(repeated=any_equal),
    "6 in place of 5": mistake(told=lambda self, check, found: (6, *found[1:], 0) if found[0] == 5 else found),
    "points on a line taken": mistake(not_left=lambda self, piece: not_left(piece, 0)),
    "edge 0 not checked": of_corners(lambda place, n, i, c: i != 0),
    "later corners alone checked": of_corners(lambda place, n, i, c: c > i),
    "the edges of the new corner alone checked": of_corners(lambda place, n, i, c: i in (place, (place - 1) % n)),
    "the new corner alone checked": of_corners(lambda place, n, i, c: c == place),
    "left turns alone checked": of_corners(lambda place, n, i, c: c == (i + 2) % n),
    "left turns at the new corner and those beside it": of_corners(
        lambda place, n, i, c: c == (i + 2) % n and (i + 2 - place) % n in (0, 1, 2)),
    "a left turn at the new corner alone": of_corners(
        lambda place, n, i, c: c == (i + 2) % n and (i + 1) % n == place),
    "left turns beside the new corner alone": of_corners(
        lambda place, n, i, c: c == (i + 2) % n and place in (i, (i + 2) % n)),
    "the edge before not checked": of_corners(
        lambda place, n, i, c: (i + 2) % n not in (place, (place + 1) % n) or c not in (place, (place - 2) % n)),
    "the edge after not checked": of_corners(
        lambda place, n, i, c: (i - 1) % n not in (place, (place - 1) % n) or c not in (place, (place + 2) % n)),
    "6 with the highest corner of the edge": of_place(lambda found: max(one for one in found if one[0] == found[0][0])),
    "6 with the highest edge": of_place(lambda found: min(one for one in found if one[0] == found[-1][0])),
    "6 with the lowest corner, then the edge": of_place(lambda found: min(found, key=lambda one: one[::-1])),
    "6 with edge and corner exchanged": of_place(lambda found: found[0][::-1]),
    "6 with edge and new corner": mistake(
        told=lambda self, check, found: (*found[:2], self.place) if check == "result" and found[0] == 6 else found),
    "6 without a place": mistake(told=lambda self, check, found: found[:1] if found[0] == 6 else found),
    # What is written.
    "the result written before it is checked": mistake(
        written=lambda self, check: self.fitted() if check == "result" else Inserting.written(self, check)),
    "the result written with a wrong length": mistake(
        written=lambda self, check: self.fitted() if check == 9 else Inserting.written(self, check)),
    "the outline written in a refusal": mistake(
        written=lambda self, check: (self.outline + [FILL] * self.length)[:self.length] if check else self.fitted()),
    "zeros written in a refusal": mistake(written=lambda self, check: [0] * self.length if check else self.fitted()),
    "nothing written": mistake(written=lambda self, check: [FILL] * self.length),
    "the outline written in place of the result": mistake(
        written=lambda self, check: [FILL] * self.length if check else self.outline + [FILL] * 2),
}


# Other statuses of the C function for a refusal.
C_MISTAKES = {
    "C: side A": lambda found: status(found, SIDE_A),
    "C: the code alone": lambda found: status(found[:1], NO_SIDE),
    "C: the first place alone": lambda found: status(found[:2], NO_SIDE),
    "C: the places exchanged": lambda found: status((found[0], *found[:0:-1]), NO_SIDE),
    "C: two places always": lambda found: status((*found, 0, 0)[:3], NO_SIDE),
    "C: 100 for 9": lambda found: status((100,) if found == (9,) else found, NO_SIDE),
    "C: always answered": lambda found: status(None, NO_SIDE),
}


def count_mistakes(given):
    """How many cases would show each mistake."""
    counted = Counter()
    for outline, place, x, y, length, _ in given:
        found, out = inserted(outline, place, (x, y), length)
        assert Inserting(outline, place, x, y, length).answer() == (found, out)
        for name, mistaken in MISTAKES.items():
            counted[name] += mistaken(outline, place, x, y, length).answer() != (found, out)
        for name, other in C_MISTAKES.items():
            counted[name] += found is not None and other(found) != status(found, NO_SIDE)
    assert min(counted.values()) >= 3, counted
    return counted


def conditions(outline, place, x, y, length):
    """Every condition of a refusal that holds in a case, in their order; of the outline's only the one that stands."""
    found, past = refusal(outline), place > len(outline) // 2
    piece = [] if found or past else corners(with_corner(outline, place, (x, y)))
    holds = [(f"outline {found[0] if found else 0}", found), ("8", past), ("7", max(abs(x), abs(y)) > LIMIT),
             ("3", len(outline) == 2 * MOST_CORNERS), ("9", length != len(outline) + 2),
             ("result 5", Inserting.repeated(None, piece)), ("result 6", misplaced(piece, LEFT))]
    return [name for name, one in holds if one]


def expected_pairs():
    """Every two conditions that can hold together, the one that is told first. A point out of range equals no corner of
    an accepted outline, and past the count there is no result."""
    yield from product([f"outline {n}" for n in range(1, 7)], "879")
    yield from product([f"outline {n}" for n in (4, 5, 6)], "3")
    yield from [("8", "7"), ("8", "3"), ("8", "9"), ("7", "3"), ("7", "9"), ("7", "result 6"), ("3", "9")]
    yield from product("39", ("result 5", "result 6"))
    yield "result 5", "result 6"


FIRST, LAST, BETWEEN = WHERE = ("first", "last", "between")


def where(place, last):
    return FIRST if place == 0 else LAST if place == last else BETWEEN


def kinds(outline, place, x, y, length, texts):
    """The kinds of the answers, and more closely: where a corner is inserted, and how many there were; what the places
    of 5 and 6 of the result name."""
    found, _ = inserted(outline, place, (x, y), length)
    count = len(outline) // 2
    of_count = f"{count if count in (3, 4, 255, 256) else 'other'} corners"
    there, again = (text.split(" list")[0] for text in texts[2:])
    yield from (there, again)
    if again == "remove_insert done":
        yield f"{again}, {of_count}, {where(place, count - 1)}"
    if found is None:
        yield "done"
        yield f"done, {of_count}, {where(place, count)}"
        return
    of = "" if refusal(outline) is None else " of the outline"
    yield f"refused {found[0]}{of}"
    if found[0] == 8:
        yield f"refused 8, place {'1 past' if place == count + 1 else 'far past'}"
    if found[0] in (5, 6) and not of:
        new = {place: "from the new corner", (place - 1) % (count + 1): "to the new corner"}
        yield f"refused {found[0]}, edge {new.get(found[1], 'of others')}, {where(place, count)}"


def expected_kinds():
    yield "done"
    yield from (f"done, {count} corners, {at}" for count, at in product((3, 4, 255, "other"), WHERE))
    yield from (f"refused {n} of the outline" for n in range(1, 7))
    yield from (f"refused {n}" for n in (3, 5, 6, 7, 8, 9))
    yield from ("refused 8, place 1 past", "refused 8, place far past")
    yield from (f"refused 5, edge {end} the new corner, {at}" for end, at in product(("to", "from"), WHERE))
    # Edges that some corner is not left of come in twos, one after the other; the last is never the lowest.
    yield from (f"refused 6, edge of others, {at}" for at in WHERE)
    yield from (f"refused 6, edge to the new corner, {at}" for at in (LAST, BETWEEN))
    yield from (f"refused 6, edge from the new corner, {at}" for at in (FIRST, BETWEEN))
    yield from (f"{name} {kind}" for name, kind in product(TWICE, ("done", "none", "refused 9")))
    yield from (f"remove_insert done, {count} corners, {at}" for count, at in product((4, 255, 256, "other"), WHERE))


def count_kinds(given, texts):
    counted = Counter(kind for (*one, _), text in zip(given, texts) for kind in kinds(*one, text))
    expected = set(expected_kinds())
    assert set(counted) == expected, set(counted) ^ expected
    return counted


def count_pairs(given):
    """How many cases are refused by a condition while another one holds."""
    counted = Counter()
    for outline, place, x, y, length, _ in given:
        told, *others = conditions(outline, place, x, y, length) or ["none"]
        found, _ = inserted(outline, place, (x, y), length)
        assert told.split()[-1] == (str(found[0]) if found else "none")
        counted.update(f"{told} told, {other} too" for other in others)
    expected = {f"{told} told, {other} too" for told, other in expected_pairs()}
    assert set(counted) == expected, set(counted) ^ expected
    return counted


def check_coverage(given, texts):
    """The cases have what they are to have, whatever the seed."""
    assert {c_text.split()[1] for _, c_text, *_ in texts} == {str(n) for n in range(10)}
    for k, name in enumerate(TWICE, 2):
        refused = [one for one, text in zip(given, texts) if text[k].startswith(f"{name} refused 9")]
        assert {back - len(outline) for outline, *_, back in refused} >= set(OTHER_BACKS)
    over = {place - len(outline) // 2 for outline, place, *_ in given}
    lengths = {length - len(outline) for outline, _, _, _, length, _ in given}
    assert {-1, 0, 1, 2} <= over and {-2, 0, 1, 2, 3, 4} <= lengths
    assert {2**32, 2**32 + 1, 2**63, LARGEST_PLACE} <= {place for _, place, *_ in given}
    ends = {LIMIT, LIMIT + 1, LARGEST_COORDINATE, -LIMIT, -LIMIT - 1, LEAST_COORDINATE}
    assert all(ends <= {one[k] for one in given} for k in (2, 3))
    assert max(max(len(outline), *lengths) for outline, _, _, _, *lengths in given) <= LONGEST_LIST


def check_laws(given, texts):
    """What must hold of every case, and of the reading.

    Of an accepted outline: without a corner it is accepted, if it has four corners at least, and that corner inserted
    again gives it back. Inserting fits exactly if the point is strictly right of the edge that it is inserted over, and
    strictly left of the edges before and after that one. First and last, a point fits alike. A result is accepted with
    a corner more, and without the new corner it is the outline; it is never clockwise, nor is its last edge that of the
    place of 6."""
    checked = set()
    for (outline, place, x, y, length, back), (_, _, there, again) in zip(given, texts):
        found, out = inserted(outline, place, (x, y), length)
        count, piece = len(outline) // 2, corners(outline)
        assert found is None or out == [FILL] * length, "a refusal that writes"
        if found is None:
            assert refusal(out) is None and len(out) == len(outline) + 2 and out[2 * place:2 * place + 2] == [x, y]
            assert removed(out, place, len(outline)) == (None, outline)
            assert back != len(outline) or there == line("insert_remove done list", *outline)
        if refusal(outline) is not None:
            continue
        if 3 < count and place < count and back == len(outline):
            assert again == line("remove_insert done list", *outline)
        if found is None or found[0] in (5, 6):
            assert (found is None) == (lies(piece, place, (x, y)) == FITS)
            if found is not None:
                assert found == default_refusal(with_corner(outline, place, (x, y)))
                assert found[0] == 5 or found[1] < count
            if place in (0, count):
                other, _ = inserted(outline, count - place, (x, y), length)
                assert (found is None) == (other is None)
        if 3 < count and tuple(outline) not in checked:
            checked.add(tuple(outline))
            for k in range(count) if count < 100 else (0, 1, count // 2, count - 1):
                refused, rest = removed(outline, k, len(outline) - 2)
                assert refused is None and refusal(rest) is None
                assert inserted(rest, k, piece[k], len(outline)) == (None, outline)


def main():
    for text, said in STATED:
        assert text == said, (text, said)
    given = list(cases())
    texts = [answers(*one) for one in given]
    check_coverage(given, texts)
    counted = count_kinds(given, texts) + count_pairs(given)
    check_laws(given, texts)
    mistakes = count_mistakes(given)
    crate = Path(__file__).resolve().parent.parent / "crates" / "insertion_cases"
    crate.mkdir(exist_ok=True)
    lines = [len(given)]
    for outline, place, *others in given:
        lines += [line(len(outline), *outline), line(place >> 32, place % 2**32, *others)]
    stdin = "".join(f"{one}\n" for one in lines).encode()
    assert len(stdin) <= LARGEST_INPUT, len(stdin)
    (crate / "stdin").write_bytes(stdin)
    (crate / "stdout").write_bytes("".join(f"{text}\n" for one in texts for text in one).encode())
    print(f"{len(given)} cases")
    for kind, count in sorted(counted.items()):
        print(f"{count:6} {kind}")
    for name, count in mistakes.items():
        print(f"{count:6} of {len(given)} cases show: {name}")


if __name__ == "__main__":
    main()
