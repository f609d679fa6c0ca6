"""Comparing two outlines that are chains of records in one store, from the requirements alone, and its C function, from
the requirements and what the header says of comparing.

Written apart from the proved code, for comparison with it. `answers` gives the lines that the program `record_cases`
prints for a case:
    refused SIDE NUMBER [PLACE..], spent .. or done .., as in `reference.py`
    c_compare_records CODE SIDE PLACES FIRST SECOND list NUMBER ..
After `list` stands what is in the result list after the call; before the call every place of it has FILL.

A store is a list of numbers, three for each record: x, y, and the index of the next record. A chain goes from its start
to index 0, which ends it; record 0 is never a corner, and never read. Corners, edges and places are numbered along the
chain. The order of the refusals is 10, of A, for the length of the store; then of A, and after all of A's of B: 11 and
12, as each index is met, and when the chain is at its end 2 to 6, in the default reading.
"""
from call_reference import COMPARE_LENGTH, FILL, NO_SIDE, SIDE_A, SIDE_B, WRONG_RESULT_LENGTH, compare_places, line
from call_reference import status
from reference import compare, default_refusal

RECORD_LENGTH = 3
MOST_CORNERS = 256


def read_chain(store, start):
    """The refusal, 11 or 12, or None; and the numbers of the corners read, in chain order."""
    records = len(store) // RECORD_LENGTH
    numbers, index = [], start
    while index != 0:
        read = len(numbers) // 2
        if read == MOST_CORNERS:
            return (11, read), numbers
        if index < 0 or index >= records:
            return (12, read), numbers
        x, y, index = store[RECORD_LENGTH * index:RECORD_LENGTH * (index + 1)]
        numbers += [x, y]
    return None, numbers


def read_store(store, a_start, b_start):
    """The refusal and its side, or None and no side; and the lists of A and B, empty where there is a refusal."""
    if len(store) % RECORD_LENGTH != 0:
        return (10,), SIDE_A, [], []
    lists = []
    for side, start in ((SIDE_A, a_start), (SIDE_B, b_start)):
        found, numbers = read_chain(store, start)
        found = found or default_refusal(numbers)
        if found:
            assert found[0] in (2, 4, 5, 6, 11, 12), "a refusal that a chain cannot get"
            return found, side, [], []
        lists.append(numbers)
    return None, NO_SIDE, *lists


def compare_records(store, a_start, b_start, allowance):
    found, side, a, b = read_store(store, a_start, b_start)
    return line("refused", "AB"[side - SIDE_A], *found) if found else compare(a, b, allowance)


def c_compare_records(store, a_start, b_start, allowance, length):
    """The length of the result list comes first."""
    found, side, a, b = WRONG_RESULT_LENGTH, NO_SIDE, [], []
    if length == COMPARE_LENGTH:
        found, side, a, b = read_store(store, a_start, b_start)
    result = [FILL] * length if found else compare_places(a, b, allowance)
    return line("c_compare_records", *status(found, side), "list", *result)


def answers(store, a_start, b_start, allowance, result_length):
    """Both calls for one case: the numbers of a store, the start of A's chain and of B's, an allowance, and the length
    of the result list."""
    return [
        compare_records(store, a_start, b_start, allowance),
        c_compare_records(store, a_start, b_start, allowance, result_length),
    ]
