"""The page of figures: docs/FIGURES.md, with the picture docs/growth.svg."""
import os
import platform
import re
import subprocess
import sys

from .measured import TOP
from .picture import picture_of

PAGE, PICTURE = f"{TOP}/docs/FIGURES.md", f"{TOP}/docs/growth.svg"
BEGIN, END = "<!-- figures: written by checks/growth/run -->", "<!-- end of figures -->"


def first_line(words):
    """The first line that a command prints; empty where there is no such command."""
    try:
        return subprocess.run(words, capture_output=True, text=True, check=False).stdout.partition("\n")[0]
    except FileNotFoundError:
        return ""


def machine():
    """What the figures were made on."""
    with open("/proc/cpuinfo", encoding="utf-8") as it:
        model = re.search(r"^model name\s*: (.*)", it.read(), re.M)
    commit = first_line(["git", "-C", TOP, "rev-parse", "--short=8", "HEAD"])
    where = f"{model[1].strip() if model else platform.machine()}, {os.cpu_count()} processors, {platform.system()} {platform.release()}"
    return f"Made at {commit} with {first_line(['rt', 'version'])}, on {where}."


def write_page(text, rows, sizes):
    """Writes the figures into their place on the page, and the picture beside it."""
    with open(PAGE, encoding="utf-8") as it:
        before, begin, rest = it.read().partition(BEGIN)
    _, end, after = rest.partition(END)
    if not begin or not end:
        sys.exit("growth: docs/FIGURES.md has no place for the figures")
    with open(PAGE, "w", encoding="utf-8") as it:
        it.write(f"{before}{BEGIN}\n\n{machine()}\n\n![Growth](growth.svg)\n\n{text}\n\n{END}{after}")
    with open(PICTURE, "w", encoding="utf-8") as it:
        it.write(picture_of(rows, sizes))
