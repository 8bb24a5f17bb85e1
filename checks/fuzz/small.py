"""Cases made small: what is not needed for a difference is taken away, piece by piece."""
import dataclasses

from model.tables import TABLE

from .tables import decoded


def fewer_entries(data):
    """Tables without one of the entries that bytes have."""
    table = decoded(data) or []
    for at in range(len(table)):
        yield TABLE.write(table[:at] + table[at + 1:])


def fewer_bytes(data):
    """Bytes without some of them, more at first."""
    size = len(data) // 2
    while size:
        for at in range(0, len(data), size):
            yield data[:at] + data[at + size:]
        size //= 2


def smaller(case):
    """Cases that are smaller by one step."""
    for name, data in [*case.files.items(), (None, case.stdin)]:
        for pieces in (fewer_entries, fewer_bytes):
            for it in pieces(data):
                yield dataclasses.replace(case, stdin=it) if name is None else dataclasses.replace(case, files={**case.files, name: it})
    for at in range(1, len(case.words)):
        yield dataclasses.replace(case, words=case.words[:at] + case.words[at + 1:])
        if case.words[at] not in case.files:
            for it in fewer_bytes(case.words[at]):
                yield dataclasses.replace(case, words=[*case.words[:at], it, *case.words[at + 1:]])


def made_small(case, differs, most_tries=2000):
    """A smaller case of which the same is true, found in so many tries at most."""
    tries = 0
    found = True
    while found:
        found = False
        for it in smaller(case):
            tries += 1
            if tries > most_tries:
                return case
            if differs(it):
                case, found = it, True
                break
    return case
