"""What changed between two tables, and the first change in words."""
import re
from itertools import zip_longest

from .declarations import lines_of
from .numberings import Dangling, are_same, kept, only_table, order_of, pruned
from .tables import ENTRY, paths_of, stripped
from .values import Unmodelled


def ids_by_path(table):
    """The ids of the types of each path, the paths in the order of the first types that have them."""
    found = {}
    for index, path in enumerate(paths_of(table)):
        if table[index].ty.path:
            found.setdefault(path, []).append(index)
    return found


def have_changed(old, ids, new, others):
    """Whether types of one path are others in the new table."""
    try:
        return not are_same(old, ids, new, others)
    except Dangling:
        raise Unmodelled("which id is dangling, and whether that is met, where types are compared") from None


def changes_of(old, new):
    """What became of each path: pairs of a word and the path."""
    before, after = ids_by_path(old), ids_by_path(new)
    found = []
    for path, ids in before.items():
        if path not in after:
            found.append(("Removed", path))
        elif have_changed(old, ids, new, after[path]):
            found.append(("Changed", path))
    return found + [("Added", path) for path in after if path not in before]


def both_tables(old, new, with_docs):
    """The tables that two inputs are, without docs where these do not count."""
    tables = only_table(old), only_table(new)
    return tables if with_docs else tuple(map(stripped, tables))


def changes(old, new, with_docs=False):
    """What became of each path of two tables as bytes."""
    return changes_of(*both_tables(old, new, with_docs))


def first_difference(old, ids, new, others):
    """The old ids where entries that are pruned to given ids first differ; None, where none does."""
    (first, numbers), (second, new_numbers) = pruned(old, ids), pruned(new, others)
    for at, (left, right) in enumerate(zip(first, second)):
        if ENTRY.write(left) != ENTRY.write(right):
            return tuple(next(key for key, value in it.items() if value == at) for it in (numbers, new_numbers))
    return None


def written(line):
    """A line with its indentation."""
    level, text = line
    return " " * 4 * level + text


def without_indentation(line):
    """A line without the four blanks of each level before it."""
    return re.sub("^(    )+", "", line)


def first_line(left, right):
    """The first line of one declaration that is another one in the other, and that other line; past the last come empty ones."""
    both = zip_longest(map(written, left), map(written, right), fillvalue="")
    return next(((line, other) for line, other in both if line != other), None)


def path_before(table, at):
    """What stands before the words of a change: the path of the type at a place, if it has one and is not the first."""
    path = table[at].ty.path if 0 < at < len(table) else []
    return "::".join(path) + ": " if path else ""


def declared_change(first, second):
    """The first line by which a type of pruned tables is declared otherwise, in words; None, where there is none."""
    for at in range(max(len(first), len(second))):
        left, right = lines_of(first, at) or [], lines_of(second, at) or []
        if left != right and any("\n" in text for _, text in left + right):
            raise Unmodelled("the lines of a declaration with a line feed in a name")
        lines = first_line(left, right)
        if lines:
            return path_before(first, at) + " -> ".join(map(without_indentation, lines))
    return None


def first_declared_change(old, ids, new, others):
    """The same of tables as bytes, each pruned to given ids."""
    (first, _), (second, _) = pruned(old, ids), pruned(new, others)
    return declared_change(first, second)


def declared_change_of(old, ids, new, others):
    """The same of tables that are read, of which all ids are indices."""
    return declared_change(kept(old, order_of(old, ids))[0], kept(new, order_of(new, others))[0])
