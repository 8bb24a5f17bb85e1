"""What is measured: commands of both programs, each on tables of a shape, or on lines of input."""
import os
import subprocess
import sys
from typing import NamedTuple

from .measured import program

SEED = "1"


class Job(NamedTuple):
    """A command on tables of a shape; how many of the table's types the other table of a diff has changed; the status that is wanted; and
    the most types with which it is measured."""
    name: str
    shape: str
    program: str
    words: list
    changed: str = ""
    status: int = 0
    most: int = 1_000_000


def diff(shape, which, changed, status, most=1_000_000):
    """A diff of a table and one of which so many types have changed."""
    return Job(f"diff, {which}", shape, "type_reader", ["diff", "OLD", "-"], changed, status, most)


# LAST is the index of the last type, OLD the file of the older table, TABLE that of the table of a job on lines.
JOBS = [
    Job("check", "runtime", "type_table", ["check"]),
    Job("json", "runtime", "type_table", ["json"]),
    Job("prune to three ids", "runtime", "type_table", ["prune", "100", "200", "300"]),
    Job("strip", "runtime", "type_reader", ["strip", "-"]),
    Job("list", "runtime", "type_reader", ["list", "-"]),
    Job("find", "runtime", "type_reader", ["find", "-", "pallet_balances"]),
    Job("graph of three ids", "runtime", "type_reader", ["graph", "-", "100", "200", "300"]),
    # (where all have changed, each path is explained by what it reaches, which takes more than ten times as long for ten times the types)
    diff("runtime", "none changed", "0", 0), diff("runtime", "ten changed", "10", 1), diff("runtime", "all changed", "all", 1, 10_000),
    Job("check", "structs", "type_table", ["check"]),
    Job("json", "structs", "type_table", ["json"]),
    Job("prune to one id", "structs", "type_table", ["prune", "LAST"]),
    diff("structs", "none changed", "0", 0), diff("structs", "ten changed", "10", 1), diff("structs", "all changed", "all", 1),
    Job("check", "up", "type_table", ["check"]),
    Job("json", "up", "type_table", ["json"]),
    Job("prune to all", "up", "type_table", ["prune", "0"]),
    Job("prune to all", "down", "type_table", ["prune", "LAST"]),
    Job("check", "wide", "type_table", ["check"]),
    Job("json", "wide", "type_table", ["json"]),
    Job("list", "wide", "type_reader", ["list", "-"]),
    Job("check", "escapes", "type_table", ["check"]),
    Job("json", "escapes", "type_table", ["json"]),
    Job("value, by line", "lines", "type_reader", ["value", "TABLE", "1"]),
    Job("encode, by line", "lines", "type_reader", ["encode", "TABLE", "1"]),
]
# What one type of each shape is, in words.
SHAPES = {
    "runtime": "like a runtime's metadata", "structs": "structs of two fields", "up": "a chain, each of the next",
    "down": "a chain, each of the one before", "wide": "one struct with so many fields", "escapes": "docs that JSON escapes",
    "lines": "so many lines, each a struct of two bytes",
}


class Given(NamedTuple):
    """The words of a command, the file that it reads, and how many bytes it is given."""
    words: list
    path: str
    length: int


class Inputs:
    """Inputs in a folder, each made when it is asked for."""

    def __init__(self, folder):
        self.folder = folder

    def table(self, shape, size, changed="0"):
        """The file of a table, which is made if it is not there."""
        path = f"{self.folder}/{shape}-{size}-{changed}"
        if not os.path.exists(path):
            count = str(size) if changed == "all" else changed
            with open(path, "wb") as out:
                done = subprocess.run([program("type_table_make"), shape, str(size), SEED, count], stdout=out, check=False)
            if done.returncode:
                sys.exit(f"growth: no table {shape} of {size} types was made")
        return path

    def lines(self, command, size):
        """The file of so many lines for a command on lines."""
        path = f"{self.folder}/{command}-{size}"
        if not os.path.exists(path):
            with open(path, "w", encoding="ascii") as out:
                for at in range(size):
                    one, other = at % 256, at // 256 % 256
                    out.write(f"{one:02x}{other:02x}\n" if command == "value" else f'{{"first":{one},"second":{other}}}\n')
        return path

    def of(self, job, size):
        """What a job is given at a size."""
        if job.shape == "lines":
            path = self.lines(job.words[0], size)
            return Given([self.table("structs", 1000) if it == "TABLE" else it for it in job.words], path, os.path.getsize(path))
        old = self.table(job.shape, size)
        path = self.table(job.shape, size, job.changed or "0")
        named = {"LAST": str(size - 1), "OLD": old}
        length = os.path.getsize(path) + (os.path.getsize(old) if "OLD" in job.words else 0)
        return Given([named.get(it, it) for it in job.words], path, length)

    def drop(self, job, size):
        """Removes large inputs that later jobs do not take."""
        shapes = [it.shape for it in JOBS[JOBS.index(job) + 1:]]
        for name in os.listdir(self.folder):
            shape, _, rest = name.partition("-")
            if rest.startswith(f"{size}") and size >= 1_000_000 and shape == job.shape and shape not in shapes:
                os.remove(f"{self.folder}/{name}")
