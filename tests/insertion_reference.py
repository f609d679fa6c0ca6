"""Inserting a corner, from the requirements alone, and its C function, from the requirements and what embed/ravinebowl.h
says of a status and of removing a corner.

Written apart from the proved code, for comparison with it. `answers` gives the lines that the program `insertion_cases`
prints for a case:
    insert done list NUMBER ..                           insert refused NUMBER [PLACE..] list NUMBER ..
    c_insert CODE SIDE PLACES FIRST SECOND list NUMBER ..
    insert_remove, remove_insert: as `insert`, or none
After `list` stands what is in the list to write after the call; before the call every place of it has FILL.

The point becomes the corner whose number is the place, and the later corners move up by one; the place that is the
corner count puts it last. The outline and the result have the strict reading. The order of the refusals is 1 to 6 for
the outline, 8, 7, 3, 9, and then 5 and 6 for the result, with places in the result. None has a side.

`insert_remove` inserts and then removes the same corner, `remove_insert` removes a corner and then inserts it again. Of
each the second call is shown, and `none` where the first is refused.
"""
from call_reference import FILL, NO_SIDE, line, removed, status
from reference import LIMIT, refusal

MOST_CORNERS = 256


def with_corner(numbers, place, point):
    return numbers[:2 * place] + [*point] + numbers[2 * place:]


def insertion_refusal(numbers, place, point, length):
    found = refusal(numbers)
    if found:
        return found
    count = len(numbers) // 2
    if place > count:
        return (8,)
    if not all(-LIMIT <= z <= LIMIT for z in point):
        return (7,)
    if count == MOST_CORNERS:
        return (3,)
    result = with_corner(numbers, place, point)
    if length != len(result):
        return (9,)
    found = refusal(result)
    assert found is None or found[0] in (5, 6), "a refusal that a result cannot get"
    return found


def inserted(numbers, place, point, length):
    """The refusal or None, and the list to write after the call."""
    found = insertion_refusal(numbers, place, point, length)
    return found, [FILL] * length if found else with_corner(numbers, place, point)


def shown(name, found, out):
    return line(name, *(("refused",) + found if found else ("done",)), "list", *out)


def insert_corner(numbers, place, point, length):
    return shown("insert", *inserted(numbers, place, point, length))


def c_insert_corner(numbers, place, point, length):
    found, out = inserted(numbers, place, point, length)
    return line("c_insert", *status(found, NO_SIDE), "list", *out)


def insert_remove(numbers, place, point, length, back_length):
    found, out = inserted(numbers, place, point, length)
    return "insert_remove none" if found else shown("insert_remove", *removed(out, place, back_length))


def remove_insert(numbers, place, back_length):
    """The list between the two calls is as long as what remains."""
    found, out = removed(numbers, place, max(len(numbers) - 2, 0))
    if found:
        return "remove_insert none"
    return shown("remove_insert", *inserted(out, place, numbers[2 * place:2 * place + 2], back_length))


def answers(numbers, place, x, y, out_length, back_length):
    """All calls for one case: the numbers of an outline, a place, a point, and the lengths of the list to write of
    inserting and of that of the second call."""
    return [
        insert_corner(numbers, place, (x, y), out_length),
        c_insert_corner(numbers, place, (x, y), out_length),
        insert_remove(numbers, place, (x, y), out_length, back_length),
        remove_insert(numbers, place, back_length),
    ]
