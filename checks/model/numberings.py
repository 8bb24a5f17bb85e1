"""What ids reach in a table, in depth-first order of discovery, and what is kept of the table."""
from .tables import TABLE, Definition, Description, Entry, references, with_types


class Dangling(Exception):
    """An id is met that is no index of the table."""

    def __init__(self, number):
        super().__init__(number)
        self.id = number


class NoSuchType(Exception):
    """A given id is no index of the table."""

    def __init__(self, number):
        super().__init__(number)
        self.id = number


class Trailing(Exception):
    """There are bytes after the table."""


def order_of(entries, roots):
    """The indices that the roots reach, in order of discovery: a root and all that it reaches before the next root."""
    order, seen, pending = [], set(), list(reversed(roots))
    while pending:
        index = pending.pop()
        if index in seen:
            continue
        if index >= len(entries):
            raise Dangling(index)
        seen.add(index)
        order.append(index)
        pending += reversed(references(entries[index].ty))
    return order


def steps_of(entries, order):
    """The number of references of what is numbered."""
    return sum(len(references(entries[index].ty)) for index in order)


def kept(entries, order):
    """The table of these indices, and the new id of each."""
    numbers = {old: new for new, old in enumerate(order)}
    return [Entry(numbers[it], with_types(entries[it].ty, numbers.__getitem__)) for it in order], numbers


def only_table(data):
    """The table that the bytes are."""
    entries, rest = TABLE.decode(data)
    if rest:
        raise Trailing
    return entries


def all_inside(entries, ids):
    """Asks that ids are indices of a table."""
    for number in ids:
        if number >= len(entries):
            raise NoSuchType(number)


def pruned(data, ids):
    """The table of what the ids reach, ascending, in the table that the bytes are; and the new ids."""
    entries = only_table(data)
    all_inside(entries, ids)
    return kept(entries, order_of(entries, sorted(ids)))


def are_same(first, ids, second, others):
    """Whether what ids reach in one table matches what others reach in another, one to one and in order."""
    order, other = order_of(first, ids), order_of(second, others)
    (table, numbers), (again, new) = kept(first, order), kept(second, other)
    return TABLE.write(table) == TABLE.write(again) and [numbers[it] for it in ids] == [new[it] for it in others]


def same_types(first, ids, second, others):
    """The same of tables as bytes."""
    old = only_table(first)
    all_inside(old, ids)
    order_of(old, ids)
    new = only_table(second)
    all_inside(new, others)
    return are_same(old, ids, new, others)


def loaded(entries, ids):
    """The part of a table that ids reach, as long as the table: a type whose values are not decoded at each other index."""
    reached = order_of(entries, ids)
    missing = Description([], [], Definition("bitsequence", types=[0, 0]))
    return [it if index in reached else Entry(it.id, missing) for index, it in enumerate(entries)]
