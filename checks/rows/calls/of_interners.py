"""Rows of interners: lists of texts, no two of which are equal."""
from .inputs import bracketed
from .shown import done, lent, some, text, truth

FOUR = ["Hello", ", World!", "", "1 2 3"]


def interned(so_far, it):
    """The list with a text that is interned, whether that is new, and its number."""
    after = so_far if it in so_far else [*so_far, it]
    return after, it not in so_far, after.index(it)


def all_interned(so_far, all_of):
    """A list to which texts are interned, and what each returned."""
    answers = []
    for it in all_of:
        so_far, is_new, number = interned(so_far, it)
        answers.append(f"{truth(is_new)} {number} ")
    return so_far, "".join(answers)


def shown(all_of):
    """The elements of an interner."""
    return "[" + ", ".join(map(text, all_of)) + "]"


def counted(all_of):
    """How many elements there are, and how many are the digits of their index."""
    return f"{len(all_of)} {sum(it == str(index) for index, it in enumerate(all_of))}"


def one_interned(row, so_far, shown_as):
    """A text that is interned after others."""
    after, is_new, number = interned(so_far, row)
    return lent(shown_as(so_far), shown_as(after), done(f"({truth(is_new)}, {number})"))


def looked_up(it, all_of, other):
    """The number of a text, and what it stands for in another interner."""
    if it not in all_of:
        return done(f"no symbol {len(all_of)} {truth(all_of == other)}")
    number = all_of.index(it)
    found = some(other[number] if number < len(other) else None, text)
    return done(f"{number} {found} {len(all_of)} {truth(all_of == other)}")


def compared(row):
    """A text that is looked up among some, and then among others."""
    it, lists = row.split(":", 1)
    return looked_up(it, *(all_interned([], bracketed(texts))[0] for texts in lists.split("/")))


def truncated(row):
    """An interner of which the texts before a slash are kept, and the others interned again."""
    left, gone = map(bracketed, row.split("/"))
    before, _ = all_interned([], left + gone)
    after = before[:len(left)]
    _, numbers = all_interned(after, gone)
    return lent(shown(before), shown(after), done(f"true {numbers}"))


def first_numbers(count):
    """The digits of so many numbers."""
    return list(map(str, range(count)))


def numbers_truncated(row):
    """An interner of the digits of numbers, of which some are kept."""
    count, kept = map(int, row.split())
    return lent(counted(first_numbers(count)), counted(first_numbers(kept)), done("truncated"))


CALLS = {
    "interners.intern": lambda row: done(all_interned([], bracketed(row))[1]),
    **dict.fromkeys(
        ("interners.intern_or_get", "interners.intern_or_get_known", "interners.intern_copy", "interners.intern_copy_known"),
        lambda row: one_interned(row, FOUR, shown),
    ),
    "interners.intern_or_get_after": lambda row: one_interned(row, first_numbers(int(row)), counted),
    "interners.look": lambda row: looked_up(row, FOUR, FOUR),
    "interners.compare": compared,
    "interners.truncate": truncated,
    "interners.truncate_numbers": numbers_truncated,
}
