"""Runs the program fit on random inputs and compares what it writes with `fit_reference.py`.

    python3 tests/fit.py SEED COUNT [PROGRAM]

The same seed, from 1 up, gives the same inputs on any machine. PROGRAM is crates/fit/out/fit of the repository if none is
named. The exit status is 1 if anything differs; the first input that does is shown and stored. Outlines are of either
orientation, and so are those with a fault.
"""
import subprocess
import sys
import tempfile
import time
from collections import Counter
from pathlib import Path

from fit_reference import LARGEST_INPUT, fit, read
from pairs import CLOCKWISE_SIDES, Random, beside, from_corner, from_edges, in_orientations, is_clockwise, large
from pairs import middling, mirrored, moved, near_tie, numbers, small, which
from reference import corners

PROGRAM = Path(__file__).resolve().parent.parent / "crates" / "fit" / "out" / "fit"
# Every 20th input arrives in parts, with pauses, so that reads come short; the longest that a run may take, in seconds.
CHUNKED = 20
PAUSE = 0.02
SECONDS = 60
BYTES = b" \n-0123456789" + b"\t\v\r\0+.,x/:!\x1f\x80\xa0\xb4\xfe\xff"
WORDS = b"256 257 00257 300 99999 -257 000003 100000 16001 -16001 - --1 1- 1-2 +1 257x -0 00000 x".split()


def pair(random):
    """Two outlines of any orientations, mostly accepted: with equal gaps, small, middling, large, a near tie, and up to
    256 corners."""
    way = random.below(40)
    if way < 4:
        a, b = mirrored(random)
    elif way < 20:
        a = small(random)
        b = beside(random, a) if random.below(2) else small(random)
    elif way < 32:
        a = middling(random)
        b = beside(random, a) if random.below(3) else middling(random)
    elif way < 36:
        a, b = large(random), large(random)
    elif way < 37:
        a, b = near_tie(random)
    else:
        a = from_edges(random, random.one_of([random.between(25, 255), 256]), 100)
        b = moved(a, random.between(-90, 90), 7) if random.below(2) else from_edges(random, random.between(3, 256), 100)
    a, b = (from_corner(piece, random.below(len(piece))) for piece in random.one_of([(a, b), (b, a)]))
    return in_orientations(a, b, random.one_of(CLOCKWISE_SIDES))


def spoiled(random, piece):
    """The outline with a change, which is mostly a fault: 0 a coordinate beyond the range or at its end, 1 a corner
    twice, 2 a corner moved by a little, 3 two corners exchanged, 4 in the opposite order, which is no fault, 5 walked
    twice, 6 a corner halfway along an edge of the outline doubled, 7 too few corners."""
    way, k = random.below(8), random.below(len(piece))
    (x, y), (next_x, next_y) = piece[k], piece[(k + 1) % len(piece)]
    if way == 0:
        far = random.one_of([15999, 16000, 16001, 16384, 32768, 65536, 99999]) * random.one_of([1, -1])
        return piece[:k] + [random.one_of([(far, y), (x, far)])] + piece[k + 1:]
    if way == 1:
        return from_corner(piece[:k + 1] + piece[k:], random.below(len(piece) + 1))
    if way == 2:
        return piece[:k] + [(x + random.between(-2, 2), y + random.between(-2, 2))] + piece[k + 1:]
    if way == 3:
        other = random.below(len(piece))
        exchanged = piece[:]
        exchanged[k], exchanged[other] = piece[other], piece[k]
        return exchanged
    if way == 4:
        return piece[::-1]
    if way == 5:
        return piece + piece
    if way == 6:
        doubled = [(2 * x, 2 * y) for x, y in piece]
        return doubled[:k + 1] + [(x + next_x, y + next_y)] + doubled[k + 1:]
    return piece[:random.below(3)]


def written(random, n):
    """A number, sometimes with leading zeros to at most five digits; zero sometimes with a minus."""
    digits = str(abs(n)).zfill(random.below(6) if random.below(4) == 0 else 0)
    return b"-" + digits.encode() if n < 0 or (n == 0 and random.below(4) == 0) else digits.encode()


def separators(random, least):
    return bytes(random.one_of(b" \n") for _ in range(random.one_of([least, least, least, 1, 2, 4])))


def laid_out(random, words):
    """The words, split by single spaces or by any separators, which may stand before and after too."""
    if random.below(3) == 0:
        return b" ".join(words)
    before = separators(random, 0) + b"".join(word + separators(random, 1) for word in words[:-1])
    return before + words[-1] + separators(random, 0)


def words_of(random, pieces):
    return [written(random, n) for piece in pieces for n in [len(piece)] + numbers(piece)]


def damaged_words(random, words, count_of_b):
    """One word changed, removed or inserted, often a count."""
    k = random.one_of([0, count_of_b, random.below(len(words))])
    other = random.one_of(WORDS + [b"%d" % random.between(-4, 9)])
    before, after = words[:k], words[k + 1:]
    return random.one_of([before + [other] + after, before + [other] + words[k:], before + after])


def damaged_text(random, text):
    """A byte changed, removed, inserted or doubled, or the text cut."""
    k, byte = random.below(len(text)), bytes([random.one_of(BYTES)])
    before, after = text[:k], text[k + 1:]
    inserted, doubled = before + byte + text[k:], text[:k + 1] + text[k:]
    return random.one_of([before + byte + after, before + after, inserted, doubled, before, after])


def filled(random, text):
    """The text with more separators at one place, to 16,384 bytes or a few less or more."""
    more = bytes(random.one_of(b" \n") for _ in range(LARGEST_INPUT + random.between(-1, 2) - len(text)))
    places = [0, len(text)] + [k for k, byte in enumerate(text) if byte in b" \n"]
    k = random.one_of([0, len(text), random.one_of(places)])
    return text[:k] + more + text[k:]


def random_bytes(random):
    """Bytes that an input may have, or any; a few, or about 16,384."""
    of = random.one_of([b" 0123", b" \n-0123456789", BYTES, bytes(range(256))])
    length = LARGEST_INPUT + random.between(-1, 1) if random.below(8) == 0 else random.below(60)
    return random.one_of([b"", b"", b"257 ", b"0 0 "]) + bytes(random.one_of(of) for _ in range(length))


def input_of(random):
    """Of 20 inputs some 9 as they should be, 5 with a fault of an outline, 4 with a fault of the text, sometimes of
    both, 1 filled up, 1 of bytes alone."""
    way = random.below(20)
    if way == 19:
        return random_bytes(random)
    a, b = pair(random)
    if 9 <= way < 14 or (way >= 14 and random.below(4) == 0):
        at_a, at_b = random.one_of([(True, False), (False, True), (True, True)])
        a, b = spoiled(random, a) if at_a else a, spoiled(random, b) if at_b else b
    words = words_of(random, (a, b))
    if way in (14, 15):
        words = damaged_words(random, words, 1 + 2 * len(a))
    text = laid_out(random, words)
    if way in (16, 17):
        text = damaged_text(random, text)
    return filled(random, text) if way == 18 or random.below(40) == 0 else text


def chunks(random, data):
    """The data in up to ten parts."""
    cuts = sorted(random.below(len(data) + 1) for _ in range(random.between(1, 9)))
    return [data[start:end] for start, end in zip([0] + cuts, cuts + [len(data)])]


def run(program, parts):
    """What the program writes, what it writes to standard error, and its exit status. It may stop reading before the
    last part."""
    pipe = subprocess.PIPE
    with subprocess.Popen([program], stdin=pipe, stdout=pipe, stderr=pipe, bufsize=0) as process:
        try:
            for part in parts[:-1]:
                process.stdin.write(part)
                time.sleep(PAUSE)
        except BrokenPipeError:
            parts = [b""]
        try:
            out, err = process.communicate(parts[-1], timeout=SECONDS)
        except subprocess.TimeoutExpired:
            process.kill()
            return b"", b"stopped by the test: too slow", None
    return out, err, process.returncode


def show(name, data, expected, found):
    """The input, stored as a file too, and what the program was to do and did."""
    stored = Path(tempfile.gettempdir()) / name
    stored.write_bytes(data)
    print(f"differs: {data[:1000]!r}{' and so on' if len(data) > 1000 else ''}\nstored in {stored}, {len(data)} bytes")
    for which, (out, err, status) in (("expected", expected), ("found", found)):
        print(f"{which} {out!r}, standard error {err!r}, exit status {status}")


def kinds(data, printed):
    """The kind of a response, and the same with the features for A's corner and B's and with the sides that are
    clockwise, or with the side and number of a refusal."""
    words = printed.decode().split()
    to = [f"to {feature}" for word, feature in zip(words, words[1:]) if word == "to"]
    closer = {"gap": to, "refused": words[1:3], "unreadable": []}[words[0]]
    found = {words[0], " ".join(words[:1] + closer)}
    if words[0] == "gap":
        found.add(f"gap clockwise {which(*(is_clockwise(corners(one)) for one in read(data)))}")
    return found


def main(seed, count, program=PROGRAM):
    random = Random(seed)
    responses, failed = Counter(), 0
    for number in range(1, count + 1):
        data = input_of(random)
        expected = (fit(data), b"", 0)
        responses.update(kinds(data, expected[0]))
        found = run(program, chunks(random, data) if number % CHUNKED == 0 else [data])
        if found != expected:
            failed += 1
            if failed == 1:
                show(f"fit-{seed}-{number}", data, expected, found)
    print(", ".join(f"{kind}: {n}" for kind, n in sorted(responses.items())))
    print(f"{count - failed} passed, {failed} failed")
    return 1 if failed else 0


if __name__ == "__main__":
    if len(sys.argv) not in (3, 4) or not all(word.isdecimal() for word in sys.argv[1:3]) or int(sys.argv[1]) < 1:
        sys.exit(__doc__)
    if not Path((sys.argv + [PROGRAM])[3]).is_file():
        sys.exit("the program is not there: rt run in crates/fit builds it")
    sys.exit(main(int(sys.argv[1]), int(sys.argv[2]), *sys.argv[3:]))
