"""Programs that are run and measured."""
import hashlib
import os
import subprocess
import sys
from typing import NamedTuple

TOP = os.path.dirname(os.path.dirname(os.path.dirname(os.path.realpath(__file__))))


def program(name):
    """The path of a program of this repository."""
    path = os.path.abspath(os.environ.get(name.upper()) or f"{TOP}/crates/{name}/out/{name}")
    if not os.access(path, os.X_OK):
        sys.exit(f"growth: there is no program {path}")
    return path


class Figure(NamedTuple):
    """Processor seconds, and peak memory in MB of 1,048,576 bytes."""
    seconds: float
    peak: float


class Measure:
    """Runs programs by measure.c, which it compiles with the floor."""

    def __init__(self, folder, sources):
        self.floor, self.measure = f"{folder}/floor", f"{folder}/measure"
        for path in (self.floor, self.measure):
            source = f"{sources}/{os.path.basename(path)}.c"
            if subprocess.run(["cc", "-O2", "-o", path, source], check=False).returncode:
                sys.exit(f"growth: cc does not compile {source}")

    def once(self, words, path, status):
        """The figures of one run of a program over a file."""
        seen, told = os.pipe()
        with open(path, "rb") as stdin:
            moved = f'exec 3>&{told}; exec "$@"'
            words = ["sh", "-c", moved, "sh", self.measure, *words]
            ran = subprocess.Popen(words, stdin=stdin, stdout=subprocess.DEVNULL, stderr=subprocess.DEVNULL, pass_fds=[told])
        os.close(told)
        with open(seen, encoding="ascii") as it:
            said = it.read().split()
        if ran.wait() or len(said) != 3 or int(said[0]) != status:
            sys.exit(f"growth: {' '.join(words[5:])[:200]} ended with {' '.join(said) or 'nothing'}, and not with status {status}")
        return Figure(int(said[1]) / 1e6, int(said[2]) / 1024)

    def least(self, sides, path, turns, status):
        """The least figures of each side, which take turns over a file."""
        found = {}
        for turn in range(turns):
            for side, words in sorted(sides.items(), reverse=turn % 2 == 1):
                wanted = 0 if side == "floor" else status
                found.setdefault(side, []).append(self.once(words, path, wanted))
        return {side: Figure(*map(min, zip(*runs))) for side, runs in found.items()}

    def compare(self, job, words, others, path):
        """Stops where two programs write different bytes over one file."""
        one, other = (hash_of(it, path) for it in (words, others))
        if one != other:
            sys.exit(f"growth: {job.name}: the outputs of both programs differ")


def hash_of(words, path):
    """A sum of what a program writes over a file."""
    found = hashlib.sha256()
    with open(path, "rb") as stdin:
        ran = subprocess.Popen(words, stdin=stdin, stdout=subprocess.PIPE, stderr=subprocess.DEVNULL)
    while piece := ran.stdout.read(1 << 20):
        found.update(piece)
    return found.digest(), ran.wait()
