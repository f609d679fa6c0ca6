"""Writes the inputs of `fit`, `fit_other`, `fit_long` and `fit_cases`, and what `fit_reference.py` answers: the files
`stdin` and `stdout` of these crates.

Run without arguments from anywhere; the files do not change. Each case is an input of the program fit, chosen by hand,
and beside it stands what fit is to print, its lines joined by commas. The first three programs are fit on one case
each. The input of `fit_cases` has its cases one after another, each ended by a byte 255, which is in no case; its
output has what fit prints for each. The cases of clockwise lists come last, but for two. The script prints how many
cases there are, and of which kinds.
"""
from collections import Counter
from itertools import product
from pathlib import Path

from fit_reference import LARGEST_INPUT, fit, read
from pairs import ABOUT, ABOUT_MOVED, AROUND, CLOCKWISE, CLOCKWISE_MOVED, CLOCKWISE_SQUARE, FOUR, LARGEST, LOWER, MOVED
from pairs import PARABOLA, SQUARE, STAR, STRAIGHT, TRIANGLE, TURNED, UPPER, clockwise, is_clockwise, numbers, opposite
from pairs import which, which_number
from reference import corners

END = b"\xff"

# The example of the specification, and exactly what it prints.
EXAMPLE = b"4 0 0 4 0 4 4 0 4 3 0 0 4 0 0 4"
EXAMPLE_PRINTED = b"""gap 256/32
mm 3
from A 2
to edge 1 at 64/32 64/32
from B 0
to within at 0/1 0/1
steps 7
"""
SAME_AS_EXAMPLE = "gap 256/32, mm 3, from A 2, to edge 1 at 64/32 64/32, from B 0, to within at 0/1 0/1, steps 7"


def text(*lists):
    """Each list with its count before it, all split by single spaces."""
    return b" ".join(b"%d" % n for one in lists for n in [len(one) // 2] + one)


ROUND = numbers(PARABOLA)
RAISED = numbers([(x, y + 100) for x, y in PARABOLA])
TURNED_OVER = numbers(opposite(PARABOLA))

FEATURES = [
    # The example and the others of comparing; the points (6,6) and (12,9) as the worst corner of a triangle.
    (text(SQUARE, TRIANGLE), SAME_AS_EXAMPLE),
    (text(SQUARE, MOVED),
     "gap 100/1, mm 10, from A 0, to corner 0 at 10/1 0/1, from B 1, to corner 1 at 4/1 0/1, steps 8"),
    (text(SQUARE, SQUARE), "gap 0/1, mm 0, from A 0, to within at 0/1 0/1, from B 0, to within at 0/1 0/1, steps 8"),
    (text(SQUARE, TURNED), "gap 0/1, mm 0, from A 0, to within at 0/1 0/1, from B 0, to within at 4/1 0/1, steps 8"),
    (text(TURNED, SQUARE), "gap 0/1, mm 0, from A 0, to within at 4/1 0/1, from B 0, to within at 0/1 0/1, steps 8"),
    (text(LOWER, UPPER),
     "gap 4095872001/2, mm 45255, from A 0, to edge 1 at 31999/2 31999/2, "
     "from B 0, to edge 1 at -31999/2 -31999/2, steps 6"),
    (text([0, 0, 9, 0, 6, 6], [0, 0, 9, 0, 0, 3]),
     "gap 2025/90, mm 5, from A 2, to edge 1 at 405/90 135/90, from B 2, to edge 2 at 108/72 108/72, steps 6"),
    (text([0, 0, 9, 0, 12, 9], [0, 0, 9, 0, 0, 3]),
     "gap 90/1, mm 10, from A 2, to corner 1 at 9/1 0/1, from B 2, to edge 2 at 324/225 243/225, steps 6"),
    # 16,000 is taken.
    (text(LARGEST, SQUARE),
     "gap 512000000/1, mm 22628, from A 0, to corner 0 at 0/1 0/1, from B 0, to within at 0/1 0/1, steps 8"),
    # The worst corner is B's, all gaps of A being zero: over an edge; over a corner, A in B.
    (text(TRIANGLE, SQUARE),
     "gap 256/32, mm 3, from A 0, to within at 0/1 0/1, from B 2, to edge 1 at 64/32 64/32, steps 7"),
    (text(SQUARE, AROUND),
     "gap 200/1, mm 15, from A 0, to within at 0/1 0/1, from B 0, to corner 0 at 0/1 0/1, steps 8"),
    # The nearest point has negative coordinates: on a corner, on an edge, within.
    (text(SQUARE, [-9, -20, -5, -20, -5, -16, -9, -16]),
     "gap 481/1, mm 22, from A 2, to corner 2 at -5/1 -16/1, from B 0, to corner 0 at 0/1 0/1, steps 8"),
    (text(UPPER, LOWER),
     "gap 4095872001/2, mm 45255, from A 0, to edge 1 at -31999/2 -31999/2, "
     "from B 0, to edge 1 at 31999/2 31999/2, steps 6"),
    (text([-9, -9, -5, -9, -7, -5], [-5, -9, -7, -5, -9, -9]),
     "gap 0/1, mm 0, from A 0, to within at -9/1 -9/1, from B 0, to within at -5/1 -9/1, steps 6"),
    # Large fractions: over an edge nearly from one end of the range to the other, far from it and close to its end.
    (text([-16000, -16000, 16000, -16000, -16000, 16000], [-16000, -16000, 15999, 16000, -16000, 16000]),
     "gap 1048576000000000000/2047936001, mm 22628, from A 1, to edge 0 at -1023984000/2047936001 -16000/2047936001, "
     "from B 1, to edge 1 at -1024000000/2048000000 1024000000/2048000000, steps 6"),
    (text([16000, 16000, -16000, -15990, -15999, -16000, 16000, -16000], [16000, 16000, -15999, -16000, 16000, -16000]),
     "gap 123896960100/2047936001, mm 8, from A 1, to edge 0 at -32755712336000/2047936001 -32757759984000/2047936001, "
     "from B 0, to within at 16000/1 16000/1, steps 7"),
    # A gap below 1, and gaps at and beside the square of a whole number.
    (text([0, 0, 1, 0, 1, 1, 0, 1], [0, 0, 1, 0, 0, 1]),
     "gap 1/2, mm 1, from A 2, to edge 1 at 1/2 1/2, from B 0, to within at 0/1 0/1, steps 7"),
    (text([0, 0, 4, 0, 4, 4, 0, 5], SQUARE),
     "gap 1/1, mm 1, from A 3, to corner 3 at 0/1 4/1, from B 0, to within at 0/1 0/1, steps 8"),
    (text([0, 0, 3, 0, 5, 2, 0, 4], [0, 0, 3, 0, 0, 4]),
     "gap 196/25, mm 3, from A 2, to edge 1 at 69/25 8/25, from B 0, to within at 0/1 0/1, steps 7"),
    (text([0, 0, 3, 0, 3, 5, 0, 4], [0, 0, 3, 0, 0, 4]),
     "gap 225/25, mm 3, from A 2, to edge 1 at 15/25 80/25, from B 0, to within at 0/1 0/1, steps 7"),
    # Equal gaps: the lower number although it comes later in the angular order; 8/1 before 256/32, and after it.
    (text([1, -1, 1, 1, -1, 1, -1, -1], [11, -1, 11, 1, 9, 1, 9, -1]),
     "gap 100/1, mm 10, from A 2, to corner 2 at 9/1 1/1, from B 0, to corner 0 at 1/1 -1/1, steps 8"),
    (text([-2, -2, 4, 0, 4, 4, 0, 4], TRIANGLE),
     "gap 8/1, mm 3, from A 0, to corner 0 at 0/1 0/1, from B 0, to within at 0/1 0/1, steps 7"),
    (text([4, 4, 0, 4, -2, -2, 4, 0], TRIANGLE),
     "gap 256/32, mm 3, from A 0, to edge 1 at 64/32 64/32, from B 0, to within at 0/1 0/1, steps 7"),
    # Gaps that are equal as floats: A0's is smaller than A2's by less than a part in 2^53.
    (text([7102, -10352, 0, -1205, -8645, -8007], [0, -10458, 6452, -461, -6821, 26]),
     "gap 5463561603296281/156440297, mm 5910, from A 2, to edge 2 at -577491977609/156440297 -748437042790/156440297, "
     "from B 1, to edge 0 at 277096859072/134106013 -518483829857/134106013, steps 6"),
    # A crosses B, no corner within the other.
    (text([-9, -1, 9, -1, 9, 1, -9, 1], [-1, -5, 1, -5, 1, 5, -1, 5]),
     "gap 6400/100, mm 8, from A 0, to edge 3 at -100/100 -100/100, from B 0, to edge 0 at -324/324 -324/324, steps 8"),
    # 256 corners: one above the other, the second turned over, and against three.
    (text(ROUND, RAISED),
     "gap 10000/1, mm 100, from A 127, to corner 127 at 0/1 -7900/1, "
     "from B 255, to corner 255 at 128/1 8384/1, steps 512"),
    (text(ROUND, TURNED_OVER),
     "gap 163840/1, mm 405, from A 255, to corner 127 at 0/1 8000/1, "
     "from B 255, to corner 127 at 0/1 -8000/1, steps 512"),
    (text(TRIANGLE, ROUND),
     "gap 70240784/1, mm 8381, from A 0, to within at 0/1 0/1, from B 255, to corner 2 at 0/1 4/1, steps 259"),
]

LAYOUTS = [
    # A line end after the last; a line for each number; separators before, after and several between; line ends alone.
    (EXAMPLE + b"\n", SAME_AS_EXAMPLE),
    (EXAMPLE.replace(b" ", b"\n"), SAME_AS_EXAMPLE),
    (b"\n  " + EXAMPLE.replace(b" ", b" \n\n  ") + b"  \n ", SAME_AS_EXAMPLE),
    (b"4\n0 0\n4 0\n4 4\n0 4\n\n3\n0 0\n4 0\n0 4\n", SAME_AS_EXAMPLE),
    # Leading zeros; a minus before zero, which prints 0.
    (b"00004 0 00 0004 000 04 004 00000 00004 03 0 0 4 0 0 00004", SAME_AS_EXAMPLE),
    (b"4 -0 0 4 -00 4 4 -00000 4 3 0 -0 4 0 0 4", SAME_AS_EXAMPLE),
    (b"3 -0 -0 4 0 0 4 3 4 0 0 4 -0 -0",
     "gap 0/1, mm 0, from A 0, to within at 0/1 0/1, from B 0, to within at 4/1 0/1, steps 6"),
    (b"3 -0004 00 -0 -004 004 0 3 -4 0 4 0 0 4",
     "gap 1024/64, mm 4, from A 1, to edge 0 at 0/64 0/64, from B 2, to edge 2 at 0/64 0/64, steps 6"),
    # 16,384 bytes: filled up after the last number, before the first, and between.
    (EXAMPLE.ljust(LARGEST_INPUT), SAME_AS_EXAMPLE),
    (EXAMPLE.rjust(LARGEST_INPUT, b"\n"), SAME_AS_EXAMPLE),
    (EXAMPLE.replace(b"4 3", b"4".ljust(LARGEST_INPUT - len(EXAMPLE) + 2) + b"3"), SAME_AS_EXAMPLE),
]

REFUSED = [
    # Fewer than 3 corners: no place.
    (b"0 0", "refused A 2"),
    (b"-0 -0", "refused A 2"),
    (b"00000 3 0 0 4 0 0 4", "refused A 2"),
    (b"1 99999 0 0", "refused A 2"),
    (b"2 0 0 1 1 3 0 0 4 0 0 4", "refused A 2"),
    (text(SQUARE, []), "refused B 2"),
    (text(SQUARE) + b" -0\n", "refused B 2"),
    (text(SQUARE, [1, 1, 1, 1]), "refused B 2"),
    # A count above 256 ends the reading: nothing after it is judged. 256 corners are taken, above.
    (b"257", "refused A 3"),
    (b"257 x", "refused A 3"),
    (b" \n257\n\xfe\x00", "refused A 3"),
    (b"00257", "refused A 3"),
    (b"99999", "refused A 3"),
    ((b"257 " + EXAMPLE).ljust(LARGEST_INPUT, b"-"), "refused A 3"),
    (text(SQUARE) + b" 257", "refused B 3"),
    (text(SQUARE) + b" 99999 --", "refused B 3"),
    # B's count above 256, and A faulty: A is checked first.
    (b"2 0 0 1 1 300", "refused A 2"),
    (text(STAR) + b" 257 x", "refused A 6 0 3"),
    # A coordinate out of range: its corner. Before equal corners and before one that is not left.
    (text([16001, 0, 4, 0, 0, 4], TRIANGLE), "refused A 4 0"),
    (text([0, 0, 4, -16001, 0, 16001], TRIANGLE), "refused A 4 1"),
    (b"4 0 0 0 0 4 4 -99999 99999 3 0 0 4 0 0 4", "refused A 4 3"),
    (text(TRIANGLE, [0, 0, 0, 16001, 4, 0]), "refused B 4 1"),
    (text(ROUND[:-2] + [128, 16001], TRIANGLE), "refused A 4 255"),
    # A corner equal to the following one, the last against corner 0.
    (text([0, 0, 4, 0, 4, 0, 0, 4], TRIANGLE), "refused A 5 1"),
    (text([0, 0, 4, 0, 4, 4, 0, 0], TRIANGLE), "refused A 5 3"),
    (b"3 0 0 -0 00 0 0 0", "refused A 5 0"),
    (text(TRIANGLE, [0, 0, 0, 4, 4, 0, 4, 0]), "refused B 5 2"),
    (text(TRIANGLE, ROUND[:-2] + ROUND[:2]), "refused B 5 255"),
    # Neither counterclockwise nor clockwise: the star, a straight corner, a dent, the lowest corner by number (corner 4
    # comes sooner after the edge), a triangle walked twice, the last but one of 256 corners straight. Among them stands
    # a clockwise list, as A and as B, which is taken.
    (text(STAR, SQUARE), "refused A 6 0 3"),
    (text(STRAIGHT, SQUARE), "refused A 6 0 2"),
    (text(CLOCKWISE, SQUARE),
     "gap 256/32, mm 3, from A 0, to within at 0/1 0/1, from B 2, to edge 1 at 64/32 64/32, steps 7"),
    (text([0, 0, 4, 0, 3, 2, 4, 4, 0, 4], SQUARE), "refused A 6 1 3"),
    (text([0, 0, 4, 0, 4, 4, 1, 1, 0, 4], SQUARE), "refused A 6 2 0"),
    (text([0, 0, 4, 0, 4, 4, 0, 4, 1, 1], SQUARE), "refused A 6 3 0"),
    (text(2 * TRIANGLE, SQUARE), "refused A 6 0 3"),
    (text(ROUND[:-2] + [128, 8382], SQUARE), "refused A 6 253 255"),
    (text(SQUARE, STAR), "refused B 6 0 3"),
    (text(SQUARE, CLOCKWISE), SAME_AS_EXAMPLE),
    # A and B faulty: A's refusal, also where its number is greater.
    (text(STAR, [0, 0]), "refused A 6 0 3"),
    (text([0, 0, 0, 0, 4, 4], [16001, 0, 4, 0, 0, 4]), "refused A 5 0"),
]

UNREADABLE = [
    # Nothing, and separators alone.
    b"", b" ", b"\n\n \n",
    # A missing number: every beginning of the example; A's numbers for 256 corners; B's count after a faulty A.
    *[b" ".join(EXAMPLE.split()[:n]) for n in range(1, 16)],
    b"256 0 0", b"0", b"2 0 0 1 1\n",
    # A number too many, after a good and after a faulty B.
    EXAMPLE + b" 0", text(SQUARE, []) + b" 0",
    # A negative count, for A and for B; as no corners, or without its minus, it would be read.
    b"-1 0", b"-3 0 0 4 0 0 4 3 0 0 4 0 0 4", b"-257 x", text(SQUARE) + b" -3 0 0 4 0 0 4", text(SQUARE) + b" -1",
    # Six digits, also for a small number.
    b"000003 0 0 4 0 0 4 3 0 0 4 0 0 4", b"000257", b"100000", b"3 0 0 4 -000000 0 4 3 0 0 4 0 0 4",
    text(SQUARE) + b" 000257",
    # What stands for no number: lone, doubled and misplaced minus, a plus, a part, a power, letters.
    b"- 0 0", b"3 0 0 - 4 0 0 4", b"3 0 0 --1 0 0 4 3 0 0 4 0 0 4", b"3 0 0 1- 0 0 4 3 0 0 4 0 0 4",
    b"3 0 0 1-2 0 4 3 0 0 4 0 0 4", b"+3 0 0 4 0 0 4 3 0 0 4 0 0 4", b"3 0 0 4.0 0 0 4 3 0 0 4 0 0 4",
    b"3 0 0 4e0 0 0 4 3 0 0 4 0 0 4", b"four 0 0", b"0x3 0 0",
    # A count above 256 that is no number.
    b"257x", b"257-", b"257\t0", text(SQUARE) + b" 257x",
    # A fault of the text behind a faulty A, and behind the last number.
    b"2 0 0 1 1 x", EXAMPLE + b"x", EXAMPLE + b" x", EXAMPLE + b" -",
    # Other bytes between the numbers: tab, the two after the line end, CR before a line end, NUL, comma, the bytes
    # beside the space, and above 127.
    *[EXAMPLE.replace(b" ", byte) for byte in (b"\t", b"\v", b"\f", b"\r\n", b"\0", b",", b"\x1f", b"\x21")],
    *[EXAMPLE.replace(b" ", byte) for byte in (b"\x80", b"\xa0", b"\xfe")],
    EXAMPLE + b"\r\n", EXAMPLE + b"\0",
    # In the place of the last digit: the bytes beside the digits, a digit with its top bit set, a superscript in two
    # encodings.
    *[b"3 0 0 4 0 0 4 3 0 0 4 0 0 " + byte for byte in (b"/", b":", b"\xb4", b"\xb2", b"\xc2\xb2")],
    # 16,385 bytes: the example filled up after and before, a count above 256. 16,384 bytes without a separator.
    EXAMPLE.ljust(LARGEST_INPUT + 1), EXAMPLE.rjust(LARGEST_INPUT + 1), b"257 ".ljust(LARGEST_INPUT + 1),
    b"4" * LARGEST_INPUT,
]

SIDES = [
    # All gaps of both are zero, of A alone, of B alone: corner 0 of each, on an edge of the other, and inside it.
    (text(TRIANGLE, [0, 4, 0, 0, 4, 0]),
     "gap 0/1, mm 0, from A 0, to within at 0/1 0/1, from B 0, to within at 0/1 4/1, steps 6"),
    (text([2, 0, 4, 2, 2, 4, 0, 2], SQUARE),
     "gap 16/8, mm 2, from A 0, to within at 2/1 0/1, from B 0, to edge 3 at 8/8 8/8, steps 8"),
    (text([1, 1, 2, 1, 1, 2], AROUND),
     "gap 242/1, mm 16, from A 0, to within at 1/1 1/1, from B 0, to corner 0 at 1/1 1/1, steps 7"),
    (text(SQUARE, [2, 0, 4, 2, 2, 4, 0, 2]),
     "gap 16/8, mm 2, from A 0, to edge 3 at 8/8 8/8, from B 0, to within at 2/1 0/1, steps 8"),
    (text(AROUND, [1, 1, 2, 1, 1, 2]),
     "gap 242/1, mm 16, from A 0, to corner 0 at 1/1 1/1, from B 0, to within at 1/1 1/1, steps 7"),
    # A's and B's greatest gaps are equal as values, 8/1 and 256/32: the gap printed is A's.
    (text([-2, -2, 4, 0, 0, 4], SQUARE),
     "gap 8/1, mm 3, from A 0, to corner 0 at 0/1 0/1, from B 2, to edge 1 at 64/32 64/32, steps 7"),
    (text(SQUARE, [-2, -2, 4, 0, 0, 4]),
     "gap 256/32, mm 3, from A 2, to edge 1 at 64/32 64/32, from B 0, to corner 0 at 0/1 0/1, steps 7"),
    # B's is greater: the two have the same whole part, 36/10 and 64/17; they differ by less than a part in 2^53.
    (text([1, 2, -2, 2, 2, -2], [-1, 3, -1, -1, 2, 0, 3, 2]),
     "gap 64/17, mm 2, from A 2, to edge 1 at 14/10 -2/10, from B 3, to edge 2 at 19/17 26/17, steps 7"),
    (text([-7865, -252, 0, -13565, 13644, -7984, 6898, 290], [-10652, -14657, 0, -13565, 6898, 290, -7865, -252]),
     "gap 22619755726606336/239094194, mm 9727, "
     "from A 2, to edge 1 at 1182600480166/239543429 -874090631100/239543429, "
     "from B 0, to edge 0 at -544574047160/239094194 -2321518172018/239094194, steps 8"),
    # Equal gaps of B: the lower number, 3600/100, although 36/1 is counted before it.
    (text([4, 2, -6, 4, -4, 1, 6, 1], [3, -5, -2, 5, -4, -5]),
     "gap 3600/100, mm 6, from A 3, to edge 0 at 150/125 -175/125, from B 0, to edge 2 at 300/100 100/100, steps 7"),
]

ORIENTATIONS = [
    # A clockwise, both, B; corners and edges have their numbers in the list as given.
    (text(CLOCKWISE_SQUARE, TRIANGLE), SAME_AS_EXAMPLE),
    (text(CLOCKWISE_SQUARE, CLOCKWISE), SAME_AS_EXAMPLE),
    # Equal gaps of B: (14,4) has a lower number than (14,0) in the clockwise list.
    (text(CLOCKWISE_SQUARE, CLOCKWISE_MOVED),
     "gap 100/1, mm 10, from A 0, to corner 0 at 10/1 0/1, from B 2, to corner 2 at 4/1 4/1, steps 8"),
    (text(SQUARE, CLOCKWISE_MOVED),
     "gap 100/1, mm 10, from A 0, to corner 0 at 10/1 0/1, from B 2, to corner 2 at 4/1 4/1, steps 8"),
    # Equal gaps of A: (-1,-1) has a lower number than (-1,1).
    (text(ABOUT, ABOUT_MOVED),
     "gap 100/1, mm 10, from A 1, to corner 1 at 9/1 -1/1, from B 0, to corner 0 at 1/1 -1/1, steps 8"),
    # Equal gaps of (4,4) and (-2,-2): counterclockwise, its reversal, clockwise from the same corner.
    (text(FOUR, TRIANGLE),
     "gap 256/32, mm 3, from A 1, to edge 1 at 64/32 64/32, from B 0, to within at 0/1 0/1, steps 7"),
    (text([-2, -2, 0, 4, 4, 4, 4, 0], TRIANGLE),
     "gap 8/1, mm 3, from A 0, to corner 0 at 0/1 0/1, from B 0, to within at 0/1 0/1, steps 7"),
    (text([4, 0, -2, -2, 0, 4, 4, 4], TRIANGLE),
     "gap 8/1, mm 3, from A 1, to corner 0 at 0/1 0/1, from B 0, to within at 0/1 0/1, steps 7"),
    # The last edge of a clockwise list, and edge 0.
    (text([0, 0, 1, -3, 4, 0], CLOCKWISE),
     "gap 16/1, mm 4, from A 1, to edge 2 at 16/16 0/16, from B 1, to corner 0 at 0/1 0/1, steps 6"),
    (text(CLOCKWISE, [0, 0, 0, 4, -3, 1]),
     "gap 16/1, mm 4, from A 2, to corner 0 at 0/1 0/1, from B 2, to edge 0 at 0/16 16/16, steps 6"),
    # 256 corners: in the opposite order; clockwise from the same corner.
    (text(numbers(PARABOLA[::-1]), RAISED),
     "gap 10000/1, mm 100, from A 128, to corner 127 at 0/1 -7900/1, "
     "from B 255, to corner 0 at 128/1 8384/1, steps 512"),
    (text(CLOCKWISE, numbers(clockwise(PARABOLA))),
     "gap 70240784/1, mm 8381, from A 0, to within at 0/1 0/1, from B 1, to corner 1 at 0/1 4/1, steps 259"),
    # Clockwise, but walked twice; a star that turns right at each corner, after a clockwise list; a straight corner.
    (text(2 * CLOCKWISE, SQUARE), "refused A 6 0 2"),
    (text(CLOCKWISE, [0, 3, 2, -3, -3, 1, 3, 1, -2, -3]), "refused B 6 0 2"),
    (text(SQUARE, [0, 3, 4, 0, 2, 0, 0, 0]), "refused B 6 0 2"),
]

# The one case of each program that is fit itself: the example; one whose answer differs in every line; one of which the
# first 16,384 bytes alone would be answered.
SINGLE = {
    "fit": (EXAMPLE, SAME_AS_EXAMPLE),
    "fit_other": (b"4\n-9 -20\n-5 -20\n-5 -16\n-9 -16\n5\n7 -31\n12 5\n-2 9\n-30 8\n-40 -3\n",
                  "gap 1130/1, mm 34, from A 0, to within at -9/1 -20/1, from B 4, to corner 3 at -9/1 -16/1, steps 9"),
    "fit_long": (EXAMPLE.rjust(LARGEST_INPUT) + b"\n", "unreadable"),
}

CASES = FEATURES + LAYOUTS + REFUSED + [(case, "unreadable") for case in UNREADABLE] + SIDES + ORIENTATIONS


def kind(said):
    """A printed text by its words alone: the features for A's corner and B's, the side and the number of a refusal."""
    words = said.split()
    features = tuple(feature for word, feature in zip(words, words[1:]) if word == "to")
    return features if words[0] == "gap" else tuple(words[:3])


def check_coverage():
    """The cases have what they are to have."""
    assert fit(EXAMPLE) == EXAMPLE_PRINTED
    assert not set(fit(SINGLE["fit_other"][0]).splitlines()) & set(EXAMPLE_PRINTED.splitlines())
    assert fit(SINGLE["fit_long"][0][:LARGEST_INPUT]) == EXAMPLE_PRINTED
    inputs = [case for case, _ in CASES]
    assert len(set(inputs)) == len(inputs) and not any(END in case for case in inputs)
    assert {len(case) for case in inputs} >= {0, LARGEST_INPUT, LARGEST_INPUT + 1}
    gaps = set(product(("within", "corner", "edge"), repeat=2))
    refusals = {("refused", side, number) for side in "AB" for number in "23456"}
    assert {kind(said) for _, said in CASES} == gaps | refusals | {("unreadable",)}
    check_orientations()


def check_orientations():
    """Each combination of orientations comes, with the gap of A and with that of B; of clockwise lists a corner that is
    not 0, a corner, edge 0, the last edge and another."""
    found = set()
    for case, said in CASES:
        if said.startswith("gap"):
            pair = [corners(one) for one in read(case)]
            turned = [is_clockwise(piece) for piece in pair]
            _, _, *lines, _ = said.split(", ")
            for s, (shown, feature) in enumerate((lines[:2], lines[2:])):
                _, what, number, *_ = feature.split()
                if what != "within":
                    found.add((which(*turned), "AB"[s]))
                    if turned[s] and not shown.endswith(" 0"):
                        found.add("corner shown")
                    if turned[1 - s]:
                        found.add(what if what == "corner" else f"edge {which_number(int(number), len(pair[1 - s]))}")
    expected = set(product(("none", "A alone", "B alone", "both"), "AB"))
    expected |= {"corner shown", "corner", "edge 0", "edge the last", "edge another"}
    assert found == expected, found ^ expected


def printed(case, said):
    """What fit prints for a case, which is what is said of it."""
    lines = fit(case)
    assert lines.decode() == said.replace(", ", "\n") + "\n", (case[:200], said, lines)
    return lines


def store(name, stdin, stdout):
    crate = Path(__file__).resolve().parent.parent / "crates" / name
    crate.mkdir(exist_ok=True)
    (crate / "stdin").write_bytes(stdin)
    (crate / "stdout").write_bytes(stdout)


def main():
    check_coverage()
    for name, (case, said) in SINGLE.items():
        store(name, case, printed(case, said))
    store("fit_cases", b"".join(case + END for case, _ in CASES), b"".join(printed(*case) for case in CASES))
    print(f"{len(CASES)} cases")
    for words, count in sorted(Counter(kind(said) for _, said in CASES).items()):
        print(f"{count:6} {' '.join(words)}")


if __name__ == "__main__":
    main()
