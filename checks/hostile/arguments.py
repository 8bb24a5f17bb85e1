"""Ids as arguments: long ones, other digits, many words, and words that are no text."""
from .nodes import LARGEST, U8, Table, renumbered
from .programs import Case, refusal, usage

# The longest word that a process may have is a little longer.
LONG = 131_000
TWO = Table([U8, U8])
# Words that are ids, and which.
IDS = {"0" * LONG: 0, "0" * (LONG - 1) + "1": 1, "00": 0, "01": 1}
# Words of digits that are ids of no table of two types.
OUTSIDE = {"2": 2, "0" * (LONG - 1) + "2": 2, str(LARGEST): LARGEST, f"000{LARGEST}": LARGEST}
# Words that are no id.
BAD = [
    "", "+1", "-1", "-0", "+0", " 1", "1 ", "1\n", "\t1", "1,0", "1_0", "0x1", "1.0", "1e0", "x", str(1 << 32), str(1 << 64), str(1 << 128),
    f"000{1 << 32}", "9" * 130_000, "1" + "0" * 130_000, "\u0661", "1\u0661", "\u0967", "\uff11", "\u00b9", "\u00bd", "\u2460", "1" * 65536,
]
NOT_UTF8 = [b"\xff", b"1\xff", b"\xc0\xb1", b"\xed\xa0\x80", b"0" * 1000 + b"\x80"]
MANY = 100_000


def short(word):
    """A word for people."""
    return repr(word) if len(word) < 30 else f"{len(word)} of {word[:1]!r} .. {word[-6:]!r}"


def single():
    """Each word alone, and behind a good one."""
    data = TWO.data
    for before in ([], ["1"]):
        where = "behind 1" if before else "alone"
        for word, number in IDS.items():
            kept, lines = renumbered(TWO, sorted({number, *map(int, before)}))
            name = f"{short(word)} {where}"
            yield Case(f"{name}: prune", "type_table", ["prune", *before, word], data, output=kept)
            yield Case(f"{name}: reader prune", "type_reader", ["prune", "-", *before, word], data, output=kept, errors=lines)
        for word, number in OUTSIDE.items():
            for program, words in (("type_table", ["prune"]), ("type_reader", ["prune", "-"]), ("type_reader", ["graph", "-"])):
                yield refusal(f"{short(word)} {where}: {program} {words[0]}", program, [*words, *before, word], f"no such type {number}",
                              stdin=data)
        for word in BAD:
            yield usage(f"{short(word)} {where}: prune", "type_table", ["prune", *before, word], stdin=data)
            for command in ("prune", "graph", "list"):
                yield refusal(f"{short(word)} {where}: reader {command}", "type_reader", [command, "-", *before, word],
                              f"no such path {word}", stdin=data)
        for word in NOT_UTF8:
            yield usage(f"{short(word)} {where}: prune", "type_table", ["prune", *before, word], stdin=data)
            yield usage(f"{short(word)} {where}: reader prune", "type_reader", ["prune", "-", *before, word], stdin=data)


def many():
    """So many words: equal, all, downwards, one outside, one bad."""
    table = Table([U8] * MANY)
    data, all_ids = table.data, list(map(str, range(MANY)))
    good = {"equal": (["7"] * MANY, [7]), "all": (all_ids, range(MANY)), "downwards": (all_ids[::-1], range(MANY))}
    for name, (ids, order) in good.items():
        kept, _ = renumbered(table, order)
        yield Case(f"{MANY} words, {name}: prune", "type_table", ["prune", *ids], data, output=kept)
    kept, lines = renumbered(table, [7])
    yield Case(f"{MANY} words, equal: reader prune", "type_reader", ["prune", "-", *["7"] * MANY], data, output=kept, errors=lines)
    node = b'    7 [label="7 u8"];\n'
    drawn = b"digraph types {\n" + node + b"}\n"
    yield Case(f"{MANY} words, equal: graph", "type_reader", ["graph", "-", *["7"] * MANY], data, output=drawn)
    listed = b"// 7\nu8\n" * MANY
    yield Case(f"{MANY} words, equal: list", "type_reader", ["list", "-", *["7"] * MANY], data, output=listed)
    for where, ids in (("at the end", [*all_ids[1:], str(MANY)]), ("in front", [str(MANY), *all_ids[1:]])):
        for program, words in (("type_table", ["prune"]), ("type_reader", ["prune", "-"])):
            yield refusal(f"{MANY} words, one outside {where}: {program}", program, [*words, *ids], f"no such type {MANY}", stdin=data)
    for where, ids in (("at the end", [*all_ids[1:], "-1"]), ("in front", ["-1", *all_ids[1:]])):
        yield usage(f"{MANY} words, one bad {where}: prune", "type_table", ["prune", *ids], stdin=data)
        yield refusal(f"{MANY} words, one bad {where}: reader prune", "type_reader", ["prune", "-", *ids], "no such path -1", stdin=data)
        ids = [b"\xff" if it == "-1" else it.encode() for it in ids]
        yield usage(f"{MANY} words, one no text {where}: prune", "type_table", ["prune", *ids], stdin=data)
    yield usage(f"{MANY} words, check", "type_table", ["check", *all_ids[1:]], stdin=data)


def cases(_):
    """All of these, and no words."""
    yield from single()
    yield from many()
    for program in ("type_table", "type_reader"):
        for words in ([], [""], ["prune"], ["check", "json"], ["prune", ""]):
            yield usage(f"words {words}: {program}", program, words, stdin=TWO.data)
