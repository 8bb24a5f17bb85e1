"""Limits of memory, from the least with which a program starts to more than it needs: out of memory or the right answer, and no signal."""
from .programs import Case, shown
from .shapes import SHAPES, cases_of
from .values import long_values, many_lines

PAGE = 4096
# More than any of these cases needs.
AMPLE = 64 << 20
# Shapes and the names of their cases, with a size.
CASES = {
    ("structs", 3000): ["check", "json", "table", "strip", "list", "find demo", "diff with itself", "diff with all changed"],
    ("ring", 3000): ["prune first", "reader prune first", "graph first", "diff with itself"],
    ("chain up", 3000): ["prune all", "reader prune all"],
    ("quotes docs", 20_000): ["check", "json", "list"],
}
# Of lines that come one by one, those that were written before memory was out stay written.
LINES = "lines"


def all_cases():
    """The cases whose memory is limited."""
    for (shape, count), names in CASES.items():
        for case in cases_of(SHAPES[shape], count):
            if case.name in names:
                case.name = f"{shape}: {case.name}"
                yield case
    yield from long_values(50_000)
    yield from (it for it in many_lines(3000) if it.name.startswith("good"))


def least(runner, case, level_is_enough):
    """The least level, in pages, that is enough; by bisection."""
    low, high = 0, AMPLE // PAGE
    while high - low > 1:
        middle = (low + high) // 2
        low, high = (low, middle) if level_is_enough(runner.ran(case, middle * PAGE)) else (middle, high)
    return high


def levels_of(start, need, is_long):
    """The levels to try: all along from the start to above the need, and each page near both."""
    steps, near = (200, 40) if is_long else (24, 6)
    above = need + (need - start) // 2 + 1
    along = range(start, above, max(1, (above - start) // steps))
    return sorted({*along, *range(start, start + near), *range(max(start, need - near), need + near)})


def level_fault(case, came):
    """Why what came at a level is neither the right answer nor out of memory; None if it is one."""
    status, output, errors = came
    refused = (1, f"{case.program}: out of memory\n".encode())
    is_begun = not output or "table" in case.files and case.output.startswith(output)
    if came == (case.status, case.output, case.errors) or (status, errors) == refused and is_begun:
        return None
    return f"status {status}, output {shown(output)}, lines {shown(errors)}"


def looked_at(runner, is_long):
    """Each case at each level, with why it is not as wanted, or None."""
    starts = {}
    for case in all_cases():
        usage = Case("", case.program, [])
        if case.program not in starts:
            starts[case.program] = least(runner, usage, lambda came: came[0] == 2)
        right = (case.status, case.output, case.errors)
        need, was_right = least(runner, case, lambda came: came == right), False
        for level in levels_of(starts[case.program], need, is_long):
            came = runner.ran(case, level * PAGE)
            fault = level_fault(case, came)
            if was_right and came != right:
                fault = f"out of memory, though less was enough: {shown(came[2])}"
            was_right = was_right or came == right
            yield f"{case.name} in {level * PAGE // 1024} KB", fault
        if not was_right:
            yield case.name, "never right"
