"""Cases: what a program is given and what must come of it; and how they are run, under a limit of memory or under valgrind."""
import os
import re
import shutil
import subprocess
from dataclasses import dataclass, field

TOP = os.path.dirname(os.path.dirname(os.path.dirname(os.path.realpath(__file__))))
PROGRAMS = {
    name: os.path.abspath(os.environ.get(name.upper()) or f"{TOP}/crates/{name}/out/{name}") for name in ("type_table", "type_reader")
}
TABLE_USAGE = b"usage: type_table check | prune ID .. | json\n"
# What the line on the usage of type_reader begins with, which is as long as the program has commands.
READER_USAGE = b"usage: type_reader table TABLE | "
USAGES = {"type_table": TABLE_USAGE, "type_reader": READER_USAGE}
# The memory that a run may take, as after 'ulimit -v', in bytes: so many, and so many for each byte of input, of output, and for each word.
BASE, PER_INPUT, PER_OUTPUT, PER_WORD = 4 << 20, 32, 4, 400
# Seconds that a run may take: no measure, but a bound for what never ends.
LONGEST = 300


@dataclass
class Case:
    """What a program is given, what must come of it, and what it is called."""
    name: str
    program: str
    words: list
    stdin: bytes = b""
    files: dict = field(default_factory=dict)
    status: int = 0
    output: bytes = b""
    errors: bytes = b""
    per_input: int = PER_INPUT

    def limit(self):
        """The memory that the run may take."""
        given = len(self.stdin) + sum(map(len, self.files.values())) + sum(map(len, self.words))
        return BASE + self.per_input * given + PER_OUTPUT * (len(self.output) + len(self.errors)) + PER_WORD * len(self.words)


def refusal(name, program, words, line, **given):
    """A case that ends with status 1 and a line."""
    return Case(name, program, words, status=1, errors=f"{program}: {line}\n".encode(), **given)


def usage(name, program, words, **given):
    """A case whose arguments are no command."""
    return Case(name, program, words, status=2, errors=USAGES[program], **given)


def shown(data):
    """Bytes for people: all, or how many there are, the first and the last ones."""
    return repr(data) if len(data) <= 200 else f"{len(data)} bytes, {data[:80]!r} .. {data[-80:]!r}"


def is_line(errors, wanted):
    """Whether lines of errors are those that are wanted; of the usage of type_reader the beginning counts."""
    return errors == wanted or wanted == READER_USAGE and errors.startswith(wanted) and errors.find(b"\n") == len(errors) - 1


def fault_of(case, status, output, errors):
    """Why a run is not as wanted; None if it is."""
    faults = []
    if status != case.status:
        faults.append(f"status {status}, not {case.status}")
    if output != case.output:
        at = next((at for at, (one, other) in enumerate(zip(output, case.output)) if one != other), min(len(output), len(case.output)))
        faults.append(f"output {shown(output)}, not {shown(case.output)}, from byte {at} on")
    if not is_line(errors, case.errors):
        faults.append(f"lines {shown(errors)}, not {shown(case.errors)}")
    return "; ".join(faults) or None


class Runner:
    """Runs programs in a folder that has their files."""

    def __init__(self, folder):
        self.folder, self.kept = folder, {}

    def keep(self, files):
        """Writes the files that the folder does not have yet."""
        for name, data in files.items():
            if self.kept.get(name) is not data:
                with open(f"{self.folder}/{name}", "wb") as it:
                    it.write(data)
                self.kept[name] = data

    def ran(self, case, limit):
        """The status, the output and the lines of errors of a case under a limit of memory; prlimit sets it, since a fork is dear here."""
        self.keep({"stdin": case.stdin, **case.files})
        words = [shutil.which("prlimit"), f"--as={limit}", "--", PROGRAMS[case.program], *case.words]
        with open(f"{self.folder}/stdin", "rb") as stdin:
            try:
                done = subprocess.run(words, stdin=stdin, capture_output=True, cwd=self.folder, env={}, timeout=LONGEST, check=False)
            except subprocess.TimeoutExpired as late:
                return f"none after {LONGEST} seconds", late.stdout or b"", late.stderr or b""
        return done.returncode, done.stdout, done.stderr

    def fault(self, case):
        """Why a case is not as wanted; None if it is."""
        return fault_of(case, *self.ran(case, case.limit()))

    def counted(self, case, setting):
        """The instructions that a case takes by valgrind's callgrind; a text where there is no such count."""
        self.keep({"stdin": case.stdin, **case.files})
        words = [shutil.which("valgrind"), "--tool=callgrind", "--callgrind-out-file=/dev/null", PROGRAMS[case.program], *case.words]
        with open(f"{self.folder}/stdin", "rb") as stdin:
            done = subprocess.run(words, stdin=stdin, stdout=subprocess.DEVNULL, stderr=subprocess.PIPE, cwd=self.folder,
                                  env={"PATH": "/usr/bin:/bin", "GLIBC_TUNABLES": setting}, timeout=LONGEST, check=False)
        found = re.search(rb"Collected : (\d+)", done.stderr)
        if done.returncode != case.status or not found:
            return f"under valgrind status {done.returncode}, not {case.status}: {shown(done.stderr)}"
        return int(found[1])
