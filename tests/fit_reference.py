"""The program fit, from the requirements alone: `fit(data)` takes the bytes of standard input and gives the bytes that
it must write.

Written apart from the proved code, for comparison with it. Comparing is `reference.py`'s, every corner against every
edge; it takes a list of either orientation, and names corners and edges by the list as given.
"""
import re

from reference import DONE, compare

LARGEST_INPUT = 16 * 1024
LARGEST_COUNT = 256
# A list that comparing refuses for its number of corners.
TOO_MANY = [0, 0] * (LARGEST_COUNT + 1)
ALLOWANCE = 512
NUMBER = re.compile(rb"-?[0-9]{1,5}")


class Unreadable(Exception):
    pass


def next_number(words):
    """The value of the next word; a word that is no number, or none left, is unreadable."""
    word = next(words, b"")
    if not NUMBER.fullmatch(word):
        raise Unreadable
    return int(word)


def next_outline(words):
    """The numbers of the next outline, or None for a count above 256, after which nothing is read."""
    count = next_number(words)
    if count < 0:
        raise Unreadable
    if count > LARGEST_COUNT:
        return None
    return [next_number(words) for _ in range(2 * count)]


def read(data):
    """The numbers of A and of B; None in the place of one with a count above 256, and for B too if that is A."""
    if len(data) > LARGEST_INPUT:
        raise Unreadable
    words = iter([word for word in data.replace(b"\n", b" ").split(b" ") if word])
    a = next_outline(words)
    if a is None:
        return None, None
    b = next_outline(words)
    if b is not None and next(words, None) is not None:
        raise Unreadable
    return a, b


def pair_of_lines(shown):
    """One side's corner and its nearest point."""
    side, corner, *feature, _, x, y = shown.split()
    return f"from {side} {corner}\nto {' '.join(feature)} at {x} {y}\n"


def printed(text):
    """What `compare` says, as the program prints it: a refusal as it is, and seven lines when done.

    The gap and the clearance are the overall ones; then come A's corner and B's."""
    if text.startswith("refused"):
        return text + "\n"
    steps, answer, clearance, a, b = DONE.fullmatch(text).groups()
    gap = answer.split()[-3]
    return f"gap {gap}\nmm {clearance}\n{pair_of_lines(a)}{pair_of_lines(b)}steps {steps}\n"


def fit(data):
    try:
        a, b = (TOO_MANY if numbers is None else numbers for numbers in read(data))
    except Unreadable:
        return b"unreadable\n"
    return printed(compare(a, b, ALLOWANCE)).encode()
