"""Streams that fail: outputs that are full, closed or left by their reader, inputs that are closed or no file."""
import os
import signal
import subprocess

from .programs import LONGEST, PROGRAMS, shown
from .shapes import SHAPES
from .values import LISTS

# The commands of each program, each with its input: a table, or lines of values of the table in the file "lists".
COMMANDS = {
    "type_table": [(["check"], "table"), (["json"], "table"), (["prune", "0"], "table")],
    "type_reader": [
        (["table", "-"], "table"), (["strip", "-"], "table"), (["list", "-"], "table"), (["find", "-", "demo"], "table"),
        (["prune", "-", "0"], "table"), (["graph", "-", "0"], "table"), (["diff", "empty", "-"], "table"),
        (["diff", "-", "empty"], "table"),
        (["value", "lists", "0"], "digits"), (["encode", "lists", "0"], "texts"),
    ],
}
# Inputs with little output, and with more than a pipe holds.
INPUTS = {
    name: {"table": SHAPES["ring"](count).table.data, "digits": b"0401\n" * count, "texts": b"[1]\n" * count}
    for name, count in (("little", 2), ("much", 30_000))
}
FILES = {"empty": b"\0", "lists": LISTS}
STREAMS = {"input": 0, "output": 1, "errors": 2}


def close(*streams):
    """What closes streams before a program starts."""
    return lambda: [os.close(STREAMS[it]) for it in streams]


def no_reader(action):
    """What puts a pipe without reader in the place of the output, with this action for the signal."""
    def prepare():
        """Done in the process that becomes the program."""
        reading, writing = os.pipe()
        os.close(reading)
        os.dup2(writing, STREAMS["output"])
        signal.signal(signal.SIGPIPE, action)
    return prepare


def opened(path, flags, *streams):
    """What opens a file in the place of streams."""
    return lambda: [os.dup2(os.open(path, flags), STREAMS[it]) for it in streams]


# What is done to the streams before a program starts, and how it then ends, besides with status 1; None where that line can't be written.
OUTPUTS = {
    "output full": (opened("/dev/full", os.O_WRONLY, "output"), "output failed"),
    "output only read": (opened("/dev/null", os.O_RDONLY, "output"), "output failed"),
    "output closed": (close("output"), "output failed"),
    "no reader": (no_reader(signal.SIG_DFL), "output failed"),
    "no reader, signal ignored": (no_reader(signal.SIG_IGN), "output failed"),
    "output and errors full": (opened("/dev/full", os.O_WRONLY, "output", "errors"), None),
    "output and errors closed": (close("output", "errors"), None),
}
INPUTS_THAT_FAIL = {
    "input closed": (close("input"), "input failed"),
    "a folder as input": (opened("/", os.O_RDONLY, "input"), "input failed"),
    "input only written": (opened("/dev/null", os.O_WRONLY, "input"), "input failed"),
    "input and errors closed": (close("input", "errors"), None),
}
# Where the input is closed, a file that is named takes its place, and the pages do not say what is then read.
NAMES_A_FILE = {"diff", "value", "encode"}
# Files that are named and can't be read.
NO_FILES = ["absent", "", "/", "lists/x"]


def started(runner, program, words, data, **given):
    """A run of a program with this input."""
    runner.keep({"stdin": data, **FILES})
    with open(f"{runner.folder}/stdin", "rb") as stdin:
        return subprocess.Popen([PROGRAMS[program], *words], stdin=stdin, stdout=subprocess.PIPE, stderr=subprocess.PIPE, cwd=runner.folder,
                                env={}, **given)


def end_fault(program, line, status, errors):
    """Why a run did not end with status 1 and this line; None if it did."""
    wanted = b"" if line is None else f"{program}: {line}\n".encode()
    return None if (status, errors) == (1, wanted) else f"status {status}, not 1; lines {shown(errors)}, not {shown(wanted)}"


def failing(runner, program, words, data, prepare, line):
    """Why a run over streams that fail did not end as wanted."""
    with started(runner, program, words, data, preexec_fn=prepare) as run:
        output, errors = run.communicate(timeout=LONGEST)
    return f"output {shown(output)}" if output else end_fault(program, line, run.returncode, errors)


def left(runner, program, words, data, action, size):
    """Why a run whose reader leaves after so many bytes did not end as wanted."""
    with started(runner, program, words, data, preexec_fn=lambda: signal.signal(signal.SIGPIPE, action), bufsize=0) as run:
        run.stdout.read(size)
        run.stdout.close()
        errors = run.stderr.read()
        run.wait(LONGEST)
    return end_fault(program, "output failed", run.returncode, errors)


def looked_at(runner, _):
    """Each case with why it is not as wanted, or None."""
    for program, commands in COMMANDS.items():
        for words, kind in commands:
            what = f"{program} {words[0]}"
            for much, inputs in INPUTS.items():
                for name, (prepare, line) in OUTPUTS.items():
                    yield f"{name}, {much}: {what}", failing(runner, program, words, inputs[kind], prepare, line)
            for name, (prepare, line) in INPUTS_THAT_FAIL.items():
                if "closed" not in name or words[0] not in NAMES_A_FILE:
                    yield f"{name}: {what}", failing(runner, program, words, inputs[kind], prepare, line)
            for action in (signal.SIG_DFL, signal.SIG_IGN):
                for size in (0, 1, 5000):
                    name = f"reader that leaves after {size}, signal {action.name}: {what}"
                    yield name, left(runner, program, words, inputs[kind], action, size)
    for file in NO_FILES:
        for words in (["table", file], ["list", file], ["value", file, "0"], ["encode", file, "0", "1"], ["diff", file, "-"]):
            yield f"file {file!r}: type_reader {words[0]}", failing(runner, "type_reader", words, b"\0", lambda: None, "input failed")
