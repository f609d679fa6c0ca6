"""Writes the input of the program `record_cases`, and the answers that `record_reference.py` gives:
crates/record_cases/stdin and crates/record_cases/stdout.

Run without arguments from anywhere. The same seed gives the same files, on any machine. The input has the number of
cases, and for each how many numbers the store has and the numbers, and four numbers: the start of A's chain, that of
B's, an allowance, and the length of the result list. The script prints how many cases there are, how many of each kind,
and how many would show each of several mistakes.
"""
from collections import Counter
from functools import lru_cache
from itertools import chain, product
from pathlib import Path

from call_cases import LARGEST_COORDINATE, LEAST_COORDINATE, LONGEST_RESULT, accepted_pair, often
from call_reference import COMPARE_LENGTH, NO_SIDE, SIDE_A, SIDE_B, c_compare, line
from pairs import ABOUT_FROM_LATER, ABOUT_MOVED, A_WITHIN, B_WITHIN, CLOCKWISE, CLOCKWISE_MOVED, CLOCKWISE_SIDES
from pairs import CLOCKWISE_SQUARE, FAULTY, LARGEST, LARGEST_ALLOWANCE, LOWER, MOVED, SQUARE, STAR, S_TO_T, TRIANGLE
from pairs import TURNED, T_TO_S, UPPER, Random, clockwise, from_corner, from_edges, in_orientations, small
from record_reference import answers, c_compare_records, compare_records, read_store
from reference import LIMIT, compare, corners, default_refusal, refusal

SEED = 20261118
LARGEST_INDEX, LEAST_INDEX = LARGEST_COORDINATE, LEAST_COORDINATE
LONGEST_STORE = 2400
LARGEST_INPUT = 600_000
OTHER_LENGTHS = [COMPARE_LENGTH - 1, 0, COMPARE_LENGTH + 1, LONGEST_RESULT, 14]
# Indexes that are 1 in 8 or 16 bits, or of which three times the index is small, or negative, in 32 bits.
FAR = [257, 65537, 1431655766, -1431655765, 715827883]
# The records in no chain, record 0 among them.
UNUSED = [(LARGEST_COORDINATE, LEAST_COORDINATE, -1), (1, 2, 0), (16001, 3, LARGEST_INDEX), (-1, 2, 1),
          (0, 0, LEAST_INDEX), (4, 4, 99), (2, 9, 3)]
HEXAGON = [2, 0, 6, 0, 8, 3, 6, 6, 2, 6, 0, 3]

# The square in records 1 to 4, the triangle in 5 to 7.
BOTH = [9, 9, 9, 0, 0, 2, 4, 0, 3, 4, 4, 4, 0, 4, 0, 0, 0, 6, 4, 0, 7, 0, 4, 0]
# The same, scattered: the square in records 6, 2, 9, 4, the triangle in 3, 8, 1.
SCATTERED = [4, 4, 1, 0, 4, 0, 4, 0, 9, 0, 0, 8, 0, 4, 0, -1, -1, -1, 0, 0, 2, 16001, 0, 99, 4, 0, 1, 4, 4, 4]
# Four records that are a square and a cycle.
CYCLE = [0, 0, 0, 0, 0, 2, 4, 0, 3, 4, 4, 4, 0, 4, 1]


def arc(n):
    """n corners on a parabola, counterclockwise."""
    return [(i, i * i - 8000) for i in range(-127, n - 127)]


def in_order(piece, end):
    """A store with the corners in records 1, 2 and so on, and this index after the last."""
    following = [*range(2, len(piece) + 1), end]
    return [0, 0, 0] + [z for corner, index in zip(piece, following) for z in (*corner, index)]


# The values that the requirements state, and what follows from them.
STATED = [
    (compare_records(BOTH, 1, 5, 512), f"done 7 {S_TO_T} 3 {S_TO_T} {B_WITHIN}"),
    (compare_records(SCATTERED, 6, 3, 512), f"done 7 {S_TO_T} 3 {S_TO_T} {B_WITHIN}"),
    (compare_records(SCATTERED, 3, 6, 4), f"spent 4 2 2 {T_TO_S} none {T_TO_S}"),
    (compare_records(SCATTERED, 6, 6, 8), f"done 8 {A_WITHIN} 0 {A_WITHIN} {B_WITHIN}"),
    (compare_records(BOTH, 1, 5, 3), "spent 3 2 1 none none none"),
    # B is (4,0) (4,4) (0,4): of A's corners (0,0) is farthest.
    (compare_records(BOTH, 1, 2, 7), "done 7 A 0 edge 2 256/32 64/32 64/32 3 A 0 edge 2 256/32 64/32 64/32 "
     "B 0 within 0/1 4/1 0/1"),
    (compare_records(BOTH, 0, 5, 9), "refused A 2"),
    (compare_records(BOTH, 1, 0, 9), "refused B 2"),
    (compare_records(BOTH, 0, 0, 9), "refused A 2"),
    (compare_records(BOTH, 3, -1, 9), "refused A 2"),
    (compare_records(BOTH, 8, 5, 9), "refused A 12 0"),
    (compare_records(BOTH, 1, 7, 9), "refused B 2"),
    (compare_records(BOTH, 1, -1, 9), "refused B 12 0"),
    (compare_records(BOTH, 1, LARGEST_INDEX, 9), "refused B 12 0"),
    (compare_records(SCATTERED, 7, 3, 9), "refused A 12 1"),
    (compare_records(SCATTERED, 6, 5, 9), "refused B 12 1"),
    (compare_records(BOTH[:-1], 1, 5, 9), "refused A 10"),
    (compare_records(BOTH + [0], 0, -1, 9), "refused A 10"),
    (compare_records([], 0, 0, 9), "refused A 2"),
    (compare_records([], 1, 0, 9), "refused A 12 0"),
    (compare_records([7], 0, 0, 9), "refused A 10"),
    (compare_records([1, 2, 1], 0, 1, 9), "refused A 2"),
    (compare_records(CYCLE, 1, 1, 9), "refused A 11 256"),
    (compare_records(in_order(corners(STAR), 0), 1, 9, 9), "refused A 6 0 3"),
    (compare_records(in_order(corners(STAR), 6), 1, 9, 9), "refused A 12 5"),
    (compare_records(in_order([(16001, 0)], 1), 1, 1, 9), "refused A 11 256"),
    (compare_records(in_order(arc(255), -1), 1, 1, 9), "refused A 12 255"),
    (compare_records(in_order(arc(256), -1), 1, 1, 9), "refused A 11 256"),
    (compare_records(in_order(arc(257), 0), 1, 1, 9), "refused A 11 256"),
    (compare_records(in_order(arc(257), 0), 2, 1, 9), "refused B 11 256"),
    (compare_records(in_order(arc(256), 0), 1, 1, 9), "spent 9 132 131 none none none"),
    (c_compare_records(BOTH, 1, 5, 7, COMPARE_LENGTH), "c_compare_records 0 0 0 0 0 list 0 7 -1 -1 "
     "1 2 2 1 256 32 64 64 32 3 1 2 2 1 256 32 64 64 32 2 0 0 -1 0 1 0 0 1"),
    (c_compare_records(BOTH[1:], 0, 0, 7, COMPARE_LENGTH), "c_compare_records 10 1 0 0 0 list" + 32 * " 77"),
    (c_compare_records(CYCLE, 1, 1, 7, COMPARE_LENGTH), "c_compare_records 11 1 1 256 0 list" + 32 * " 77"),
    (c_compare_records(BOTH, 1, 8, 7, COMPARE_LENGTH), "c_compare_records 12 2 1 0 0 list" + 32 * " 77"),
    (c_compare_records(BOTH, 1, 0, 7, COMPARE_LENGTH), "c_compare_records 2 2 0 0 0 list" + 32 * " 77"),
    (c_compare_records(BOTH[1:], 0, 0, 7, 31), "c_compare_records 100 0 0 0 0 list" + 31 * " 77"),
    (c_compare_records(BOTH, 1, 5, 7, 33), "c_compare_records 100 0 0 0 0 list" + 33 * " 77"),
]


def shuffled(random, items):
    items = list(items)
    for i in range(len(items) - 1, 0, -1):
        k = random.below(i + 1)
        items[i], items[k] = items[k], items[i]
    return items


# Where the records of two chains are: A's and then B's, B's and then A's, from the last to the first, by turns, and
# anywhere among unused ones.
A_FIRST, B_FIRST, BACKWARDS, BY_TURNS, ANYWHERE = range(5)


def layout(random, way, m, n, unused):
    """The indexes of a chain of m records and those of one of n, and the record count; so many are unused."""
    at = list(range(1, m + n + 1))
    if way == ANYWHERE:
        at = shuffled(random, range(1, m + n + unused + 1))
    order = [at, at[n:] + at[:n], at[::-1], at[::2] + at[1::2], at][way]
    return (order[:m], order[m:m + n]), len(at) + 1


def laid_out(random, a, b, a_end=0, b_end=0, way=ANYWHERE, unused=4):
    """A store with the corners of A and those of B as two chains, and the two starts. An end is the index after the
    last corner, or what gives it from the indexes of the chain and the record count; a chain without corners starts
    with it."""
    both, count = layout(random, way, len(a), len(b), unused)
    records, starts = {}, []
    for piece, at, end in zip((a, b), both, (a_end, b_end)):
        indexes = at + [end(at, count) if callable(end) else end]
        records.update({i: (*corner, following) for corner, i, following in zip(piece, indexes, indexes[1:])})
        starts.append(indexes[0])
    store = [z for i in range(count) for z in records.get(i, UNUSED[(i + count) % len(UNUSED)])]
    return store, *starts


def record_count(at, count):
    """An end: the least index that is no record's."""
    return count


def back_to(corner):
    """An end: the index of this corner, which makes a cycle."""
    return lambda at, count: at[corner]


def index_of(store, start, corner):
    """The index of the record of a corner, in the chain from this start."""
    index = start
    for _ in range(corner):
        index = store[3 * index + 2]
    return index


def with_next(store, start, corner, index):
    """The store with another index after a corner."""
    at = 3 * index_of(store, start, corner) + 2
    return store[:at] + [index] + store[at + 1:]


def bad_indexes(store):
    count = len(store) // 3
    return [-1, count, LARGEST_INDEX, LEAST_INDEX, count + 1, *FAR, -count, 3 * count - 1]


EXAMPLES = [(SQUARE, TRIANGLE), (TRIANGLE, SQUARE), (SQUARE, MOVED), (SQUARE, SQUARE), (SQUARE, TURNED), (LOWER, UPPER),
            (LARGEST, CLOCKWISE), (CLOCKWISE_SQUARE, TRIANGLE), (CLOCKWISE, CLOCKWISE_SQUARE),
            (CLOCKWISE_SQUARE, CLOCKWISE_MOVED), (ABOUT_FROM_LATER, ABOUT_MOVED)]


def of_examples(random):
    """Examples in three layouts each, with allowances about the number of edges."""
    for number, (a, b) in enumerate(EXAMPLES):
        a, b = corners(a), corners(b)
        edges = len(a) + len(b)
        for k in range(3):
            allowance = [0, edges - 1, edges, edges + 1, LARGEST_ALLOWANCE][(3 * number + k) % 5]
            yield *laid_out(random, a, b, way=(number + 2 * k) % 5), allowance
    for allowance in range(1, 6):
        yield *laid_out(random, corners(SQUARE), corners(TRIANGLE)), allowance


def of_record_zero(random):
    """Contents of record 0, some of which would be a fourth corner of the triangle: with both chains, and with starts
    of zero."""
    zeros = [(0, 0, 0), (-1, 2, 0), (-1, 2, 5), (-1, 2, 1), (4, 4, 0), (16001, 0, -1), (-1, 2, LARGEST_INDEX),
             (LEAST_COORDINATE, LARGEST_COORDINATE, LEAST_INDEX)]
    for number, zero in enumerate(zeros):
        store, a_start, b_start = laid_out(random, corners(TRIANGLE), corners(SQUARE), way=number % 5)
        store[:3] = zero
        yield store, a_start, b_start, 7
        yield store, *[(0, b_start), (a_start, 0), (0, 0), (0, -1)][number % 4], 7


def of_shared_records(random):
    """Starts in one chain, equal ones too; and chains that run into another."""
    piece = corners(HEXAGON)
    for a, b in ((0, 0), (0, 1), (1, 0), (0, 3), (3, 0), (2, 2), (3, 3), (3, 1), (0, 4), (4, 0), (0, 5), (5, 5)):
        store, start, _ = laid_out(random, piece, [])
        yield store, index_of(store, start, a), index_of(store, start, b), 12 - a - b
    # One or two corners, and after them corner 2, 3 or 5 of the hexagon.
    for own, corner in (([(5, -1)], 2), ([(0, -2), (9, -2)], 2), ([(0, 0), (8, 0)], 3), ([(4, -9), (9, 3)], 5)):
        store, a_start, b_start = laid_out(random, piece, own)
        store = with_next(store, b_start, len(own) - 1, index_of(store, a_start, corner))
        yield store, a_start, b_start, 12
        yield store, b_start, a_start, 12


def of_starts(random):
    """Starts that are no record's index, of A, of B and of both; and the last record's."""
    store, a_start, b_start = laid_out(random, corners(SQUARE), corners(TRIANGLE), way=A_FIRST)
    bad = bad_indexes(store)
    for number, start in enumerate(bad + [len(store) // 3 - 1]):
        yield store, start, [b_start, bad[number - 1]][number % 3 == 0], 7
        yield store, a_start, start, 7


def of_next_indexes(random):
    """A bad index after each corner, of A and of B."""
    a, b = corners(HEXAGON), corners(SQUARE)
    for number in range(12):
        store, a_start, b_start = laid_out(random, a, b, way=number % 5)
        bad = bad_indexes(store)
        yield with_next(store, a_start, number // 2, bad[number]), a_start, b_start, 10
        if number // 2 < len(b):
            yield with_next(store, b_start, number // 2, bad[number - 5]), a_start, b_start, 10


def of_cycles(random):
    """Chains without an end: from the last corner back to the first, or to another."""
    other = corners(TRIANGLE)
    closed = [(n, 0) for n in (1, 2, 3, 7, 256, 257)]
    tailed = [(2, 1), (5, 2), (7, 6), (256, 255), (256, 1), (257, 100), (258, 2)]
    for number, (n, corner) in enumerate(closed + tailed):
        way = number % 5
        yield *laid_out(random, arc(n), other, a_end=back_to(corner), way=way), 9
        if n < 257 or corner == 0:
            yield *laid_out(random, other, arc(n), b_end=back_to(corner), way=way), 9


def of_long_chains(random):
    """Chains of about 256 corners, ended by 0 and by a bad index; faults at the last of 256 corners, and before a 257th
    one; two outlines of 256 corners, also in one chain, and in the longest store."""
    other = corners(TRIANGLE)
    for number, (n, end) in enumerate(product((255, 256, 257, 258), (0, -1, record_count, LARGEST_INDEX))):
        way = (number + number // 4) % 5
        yield *laid_out(random, arc(n), other, a_end=end, way=way), n + 2 + number % 2
        yield *laid_out(random, other, arc(n), b_end=end, way=way), n + 2 + number % 2
    for way, corner in enumerate(((0, 16001), arc(1)[0], (127, 8129))):
        last, before = arc(255) + [corner], [corner, *arc(256)]
        yield *laid_out(random, last, other, way=way), 9
        yield *laid_out(random, other, last, way=way + 2), 9
        yield *laid_out(random, before, other, a_end=[0, -1, 0][way]), 9
    a, b = from_edges(random, 256, 100), clockwise(from_edges(random, 256, 100))
    yield *laid_out(random, a, b, way=BY_TURNS), 511
    yield *laid_out(random, b, a, unused=LONGEST_STORE // 3 - 513), 512
    store, start, _ = laid_out(random, a, other, way=BACKWARDS)
    yield store, index_of(store, start, 100), start, 412
    yield store, start, start, LARGEST_ALLOWANCE


# Chains, each with its end: 2, 4, 5, 6, 11, 12, and an accepted one.
CHAINS = [
    ([], 0),
    ([0, 0, 4, 0, 4, -16001], 0),
    ([0, 0, 4, 0, 4, 4, 0, 0], 0),
    (STAR, 0),
    (SQUARE, back_to(0)),
    (CLOCKWISE_SQUARE, record_count),
    (CLOCKWISE, 0),
]


def of_faults(random):
    """Every fault of A's chain or none, with every one of B's or none; two faults of one chain; the faults of `pairs`,
    but for 1 and 3, of A or B in turn."""
    for number, ((a, a_end), (b, b_end)) in enumerate(product(CHAINS, repeat=2)):
        yield *laid_out(random, corners(a), corners(b), a_end, b_end, way=(number + number // 7) % 5), 7
    for (faulty, _), end in product(CHAINS[1:4], (record_count, back_to(0))):
        yield *laid_out(random, corners(faulty), corners(SQUARE), a_end=end), 8
        yield *laid_out(random, corners(SQUARE), corners(faulty), b_end=end), 8
    faults = [corners(one) for one, refused in FAULTY if refused not in ("1", "3")]
    for number, faulty in enumerate(faults):
        other = corners(SQUARE)
        yield *laid_out(random, *[(faulty, other), (other, faulty)][number % 2], way=number % 5), 9


def of_store_lengths(random):
    """Stores of a length that is no multiple of three; then empty ones, and of one record or two."""
    for number, more in enumerate((-1, -2, 1, 2)):
        # Without the last numbers only B's chain is hurt.
        store, a_start, b_start = laid_out(random, corners(SQUARE), corners(TRIANGLE), way=A_FIRST)
        count = len(store) // 3
        for starts in ((a_start, b_start), (0, b_start), (a_start, count), (-1, 0), (a_start, 0)):
            yield (store + [0, 0])[:len(store) + more], *starts, 7
        (a, a_end), (b, b_end) = CHAINS[number + 1], CHAINS[number + 2]
        store, *starts = laid_out(random, corners(a), corners(b), a_end, b_end)
        yield (store + [0, 0])[:len(store) + more], *starts, 7
    for length, start in product((1, 2, 4, 5), (0, 1)):
        yield [1, 2, 0, 3, 4][:length], start, start, 7
    for a_start, b_start in ((0, 0), (1, 0), (0, 1), (-1, LARGEST_INDEX), (LEAST_INDEX, 0)):
        yield [], a_start, b_start, 7
        yield [0, 4, 0], a_start, b_start, 7
    yield from [([0, 0, 0, 1, 2, 0], 1, 1, 0), ([0, 0, 0, 1, 2, 1], 1, 0, 0), ([0, 0, 1, 1, 2, 2], 1, 1, 0)]


def of_random_stores(random):
    """At most six records: the corners of a small outline, mostly in order, or any. Indexes are from -2 to one more
    than the record count. Some stores have a number more."""
    for number in range(60):
        in_turn = number % 3 > 0
        far = [(LIMIT, random.between(-3, 3)), (0, LIMIT + 1)]
        some = [often(random, (random.between(-3, 3), random.between(-3, 3)), far) for _ in range(random.between(0, 5))]
        piece = random.one_of([list, clockwise])(small(random))[:5] if in_turn else some
        count = len(piece) + 1

        def index(usual):
            other = random.one_of([*range(-2, count + 2), *range(count)])
            return often(random, usual, [other]) if in_turn else other

        store = [random.between(-3, 3), random.between(-3, 3), index(0)]
        for i, corner in enumerate(piece, 1):
            store += [*corner, index((i + 1) % count)]
        a_start, b_start = index(1), index(random.below(count))
        yield store + [0] * (number % 16 == 5), a_start, b_start, random.one_of([random.below(12), LARGEST_ALLOWANCE])


def of_random_outlines(random):
    for number in range(24):
        a, b = in_orientations(*accepted_pair(random), CLOCKWISE_SIDES[number % 4])
        a, b = from_corner(a, random.below(len(a))), from_corner(b, random.below(len(b)))
        edges = len(a) + len(b)
        allowance = random.one_of([random.below(edges), edges - 1, edges, edges, LARGEST_ALLOWANCE])
        yield *laid_out(random, a, b, unused=random.below(9)), allowance


def result_length(number):
    """The length of the result list, by the number of the case: mostly the right one."""
    return OTHER_LENGTHS[number // 8 % 5] if number % 8 == 5 else COMPARE_LENGTH


def cases():
    random = Random(SEED)
    parts = (of_examples, of_record_zero, of_shared_records, of_starts, of_next_indexes, of_cycles, of_long_chains,
             of_faults, of_store_lengths, of_random_stores, of_random_outlines)
    for number, one in enumerate(chain.from_iterable(part(random) for part in parts)):
        yield *one, result_length(number)


@lru_cache(None)
def read_outline(numbers, reading):
    return reading(list(numbers))


@lru_cache(None)
def compared(a, b, allowance):
    return compare(list(a), list(b), allowance)


class Reading:
    """A store read as `record_reference` reads it, in parts of which a mistake replaces some. Numbers outside of the
    store are 0."""
    order = ("store", "A's chain", "A's outline", "B's chain", "B's outline")
    tests = (11, 12)
    most = 256
    fields = (0, 1, 2)
    store_side = SIDE_A

    def __init__(self, store, a_start, b_start):
        self.store, self.count, self.given = store, len(store) // 3, (a_start, b_start)
        self.before = []
        self.found = {"store": (self.store_refusal(), self.store_side)}
        self.lists = []
        for k, (name, side) in enumerate((("A", SIDE_A), ("B", SIDE_B))):
            read, refused = self.walk(self.start(k))
            self.lists.append(self.numbers(read))
            self.found[f"{name}'s chain"] = refused, side
            self.found[f"{name}'s outline"] = self.outline_refusal(read), side
            self.before = read

    def store_refusal(self):
        return (10,) if len(self.store) % 3 else None

    def start(self, k):
        return self.given[k]

    def walk(self, index):
        """The indexes of the records read, and the refusal, empty where there is none."""
        read = []
        while True:
            index = self.taken(index)
            met = self.met(index, read)
            if met is not None:
                return read, met
            read.append(index)
            index = self.record(index)[2]

    def met(self, index, read):
        """When an index is met: nothing at the end, a refusal, or None, for another corner."""
        if self.ends(index, read):
            return ()
        applies = {11: self.is_full(index, read), 12: self.is_bad(index, read)}
        return next((self.refused(number, read) for number in self.tests if applies[number]), None)

    def taken(self, index):
        return index

    def ends(self, index, read):
        return index == 0

    def is_full(self, index, read):
        return len(read) == self.most

    def is_bad(self, index, read):
        return not 0 <= index < self.count

    def refused(self, number, read):
        return number, len(read)

    def at(self, index):
        return 3 * index

    def record(self, index):
        at = self.at(index)
        return [self.store[at + k] if 0 <= at + k < len(self.store) else 0 for k in self.fields]

    def numbers(self, read):
        return tuple(z for index in read for z in self.record(index)[:2])

    def outline_refusal(self, read):
        return read_outline(self.numbers(read), default_refusal)

    def result(self):
        """The refusal and its side; or None, no side, and the two lists."""
        for found, side in (self.found[check] for check in self.order):
            if found:
                return found, side
        return None, NO_SIDE, *self.lists


def met_and_range(self, index, read):
    """4 as soon as a corner is read."""
    far = [i for i, one in enumerate(read) if max(map(abs, self.record(one)[:2])) > LIMIT]
    return (4, far[0]) if far else Reading.met(self, index, read)


def by_record(self, read):
    """The places of 4, 5 and 6 as indexes of records."""
    number, *places = Reading.outline_refusal(self, read) or (None,)
    return number and (number, *(read[place] for place in places))


def mistake(**parts):
    """A reading with these parts in place of the right ones."""
    return type("Mistake", (Reading,), parts)


MISTAKES = {
    "record 0 read as the last corner": mistake(
        numbers=lambda self, read: Reading.numbers(self, read + [0] if read else read)),
    "record 0 read as a corner, and its index followed": mistake(
        ends=lambda self, index, read: index == 0 and read[-1:] == [0]),
    "record 0 read at the start": mistake(ends=lambda self, index, read: index == 0 and len(read) > 0),
    "12 tested before 11": mistake(tests=(12, 11)),
    "B's chain walked before A's 2 to 6": mistake(
        order=("store", "A's chain", "B's chain", "A's outline", "B's outline")),
    "B's checks before A's": mistake(order=("store", "B's chain", "B's outline", "A's chain", "A's outline")),
    "2 to 6 of the corners read before 11 and 12": mistake(
        order=("store", "A's outline", "A's chain", "B's outline", "B's chain")),
    "4 as each corner is read": mistake(met=met_and_range),
    "10 not tested": mistake(store_refusal=lambda self: None),
    "10 after A's 11 and 12": mistake(order=("A's chain", "store", "A's outline", "B's chain", "B's outline")),
    "10 after all of A's": mistake(order=("A's chain", "A's outline", "store", "B's chain", "B's outline")),
    "10 not for a start of zero": mistake(
        store_refusal=lambda self: Reading.store_refusal(self) if self.given[0] else None),
    "10 with side B": mistake(store_side=SIDE_B),
    "an index equal to the record count is good": mistake(
        is_bad=lambda self, index, read: not 0 <= index <= self.count),
    "an index below the count of numbers is good": mistake(
        is_bad=lambda self, index, read: not 0 <= index < len(self.store)),
    "the index of the last record is bad": mistake(
        is_bad=lambda self, index, read: not 0 <= index < self.count - 1),
    "the start not tested": mistake(
        is_bad=lambda self, index, read: len(read) > 0 and Reading.is_bad(self, index, read)),
    "the start alone tested": mistake(
        is_bad=lambda self, index, read: len(read) == 0 and Reading.is_bad(self, index, read)),
    "a bad index ends the chain": mistake(
        ends=lambda self, index, read: index == 0 or Reading.is_bad(self, index, read)),
    "a negative index ends the chain": mistake(ends=lambda self, index, read: index <= 0),
    "a negative index taken as its absolute value": mistake(taken=lambda self, index: abs(index)),
    "a negative index counted from the end": mistake(
        taken=lambda self, index: index + self.count if index < 0 else index),
    "indexes in 8 bits": mistake(taken=lambda self, index: index % 2**8),
    "indexes in 16 bits": mistake(taken=lambda self, index: index % 2**16),
    "three times the index in 32 bits": mistake(
        at=lambda self, index: 3 * index % 2**32,
        is_bad=lambda self, index, read: 3 * index % 2**32 >= 3 * self.count),
    "places of 11 and 12 one more": mistake(refused=lambda self, number, read: (number, len(read) + 1)),
    "places of 11 and 12 one less": mistake(refused=lambda self, number, read: (number, len(read) - 1)),
    "places of 11 and 12 as records": mistake(refused=lambda self, number, read: (number, (read or [0])[-1])),
    "places of 4 to 6 as records": mistake(outline_refusal=by_record),
    "11 and 12 without a place": mistake(refused=lambda self, number, read: (number,)),
    "places of B's 11 and 12 counted on from A's": mistake(
        refused=lambda self, number, read: (number, len(self.before) + len(read))),
    "255 as the limit": mistake(most=255),
    "257 as the limit": mistake(most=257),
    "256 as the limit of both chains together": mistake(
        is_full=lambda self, index, read: len(self.before) + len(read) == 256),
    "11 after 256 corners also at the end": mistake(
        ends=lambda self, index, read: index == 0 and len(read) < 256),
    "the chain cut after 256 corners": mistake(ends=lambda self, index, read: index == 0 or len(read) == 256),
    "3 in place of 11": mistake(
        refused=lambda self, number, read: (3,) if number == 11 else (number, len(read))),
    "fields x, next, y": mistake(fields=(0, 2, 1)),
    "fields next, x, y": mistake(fields=(1, 2, 0)),
    "fields y, x, next": mistake(fields=(1, 0, 2)),
    "records counted from 1": mistake(at=lambda self, index: 3 * index - 3),
    "an index of numbers": mistake(at=lambda self, index: index),
    "B's chain from A's last record": mistake(start=lambda self, k: (self.before or self.given[k:])[-1]),
    "both chains from A's start": mistake(start=lambda self, k: self.given[0]),
    "A and B exchanged": mistake(start=lambda self, k: self.given[1 - k]),
    "11 at once where a record comes again": mistake(
        is_full=lambda self, index, read: len(read) == 256 or index in read),
    "12 where a record comes again": mistake(
        is_bad=lambda self, index, read: index in read or Reading.is_bad(self, index, read)),
    "a record that comes again ends the chain": mistake(
        ends=lambda self, index, read: index == 0 or index in read),
    "the start that comes again ends the chain": mistake(
        ends=lambda self, index, read: index in [0] + read[:1]),
    "12 where B's chain has a record of A's": mistake(
        is_bad=lambda self, index, read: index in self.before or Reading.is_bad(self, index, read)),
    "a record of A's ends B's chain": mistake(
        ends=lambda self, index, read: index == 0 or index in self.before),
    "strict reading": mistake(
        outline_refusal=lambda self, read: read_outline(self.numbers(read), refusal)),
}


def differs(one, other, allowance):
    """Whether two results of reading a store give other answers."""
    if one == other or one[0] or other[0]:
        return one != other
    return compared(*one[2:], allowance) != compared(*other[2:], allowance)


def count_mistakes(given):
    """How many cases would show each mistake."""
    counted = Counter()
    for *read, allowance, length in given:
        right = Reading(*read).result()
        found, side, *lists = read_store(*read)
        assert right == ((found, side) if found else (found, side, *map(tuple, lists)))
        counted["the length of the result list judged last"] += length != COMPARE_LENGTH and found is not None
        for name, mistaken in MISTAKES.items():
            counted[name] += differs(mistaken(*read).result(), right, allowance)
    assert min(counted.values()) >= 3, counted
    return counted


def renumbered(store, *starts):
    """The same chains in other records, from the last to the first, and another record 0."""
    count = len(store) // 3

    def other(index):
        return count - index if 0 < index < count else index

    records = [(x, y, other(index)) for x, y, index in zip(*(store[k::3] for k in range(3)))]
    return [z for record in [(5, -5, 3)][:count] + records[:0:-1] for z in record], *map(other, starts)


def check_coverage(given, texts):
    """The cases have what they are to have, whatever the seed. An answer is that of comparing the two lists; it does
    not depend on where in the store the records are, nor on record 0."""
    lengths, refused = set(), set()
    assert max(len(store) for store, *_ in given) == LONGEST_STORE
    for (store, *starts, allowance, length), (_, c_text) in zip(given, texts):
        found, side, a, b = read_store(store, *starts)
        assert len(store) % 3 or read_store(*renumbered(store, *starts)) == (found, side, a, b)
        if length != COMPARE_LENGTH:
            lengths.add((length, found is None))
            refused.add(found and found[0])
        elif found is None:
            assert c_text.replace("c_compare_records", "c_compare") == c_compare(a, b, allowance, length)
    assert lengths == set(product(OTHER_LENGTHS, (False, True))) and refused >= {None, 2, 10, 11, 12}
    numbers = (2, 4, 5, 6, 11, 12)
    kinds = {f"refused {side} {number}" for number, side in product(numbers, "AB")}
    assert set(count_kinds(texts)) == kinds | {"refused A 10", "done", "spent"}
    codes = {(str(number), side) for number, side in product(numbers, "12")}
    found = {tuple(c_text.split()[1:3]) for _, c_text in texts}
    assert found == codes | {("10", "1"), ("0", "0"), ("100", "0")}


def count_kinds(texts):
    """How many cases are done, spent, and refused with each number and side."""
    return Counter(" ".join(text.split()[:3] if text.startswith("refused") else text.split()[:1]) for text, _ in texts)


def main():
    for text, said in STATED:
        assert text == said, (text, said)
    given = list(cases())
    texts = [answers(*one) for one in given]
    check_coverage(given, texts)
    mistakes = count_mistakes(given)
    crate = Path(__file__).resolve().parent.parent / "crates" / "record_cases"
    crate.mkdir(exist_ok=True)
    lines = [len(given)]
    for store, *others in given:
        lines += [line(len(store), *store), line(*others)]
    stdin = "".join(f"{one}\n" for one in lines).encode()
    assert len(stdin) <= LARGEST_INPUT, len(stdin)
    (crate / "stdin").write_bytes(stdin)
    (crate / "stdout").write_bytes("".join(f"{text}\n" for one in texts for text in one).encode())
    print(f"{len(given)} cases")
    for kind, count in sorted(count_kinds(texts).items()):
        print(f"{count:6} {kind}")
    for name, count in mistakes.items():
        print(f"{count:6} of {len(given)} cases show: {name}")


if __name__ == "__main__":
    main()
