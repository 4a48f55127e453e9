"""Texts of the parser: each help fits a terminal of 80 columns, the version is that of its source file, of the
changelog and of the kit that stands on this machine, and no input is waited for.

What the help of a command says of its options stands in `program/help`.
"""

import functools
import re
import shutil
import subprocess

from process import ROOT, run_unheard

REQUESTS = [
    "--help",
    "-h",
    "help",
    "replay --help",
    "replay -h",
    "help replay",
    "live --help",
    "help live",
    "knapsack --help",
    "help knapsack",
]


def helps(words):
    status, answer = run_unheard(words)
    lines = answer.split(b"\n")
    if status != 0 or not any(line.startswith(b"Usage: klsm ") for line in lines):
        return f"the status is {status}, and the text is {answer!r}"
    # So many bytes are at most so many columns.
    long = [line for line in lines if len(line) > 80]
    return f"a line is too long: {long[0]!r}" if long else None


def version():
    """What the source file of the version says: a text, whose lines go on behind a backslash."""
    source = (ROOT / "crates/klsm_words/src/version.rt").read_text()
    return re.search(r'VERSION: &str = "(.*?)";', source, re.DOTALL)[1].replace("\\\n", "")


def newest():
    """The newest version of the changelog."""
    return re.search(r"^## \[(.+?)\]", (ROOT / "CHANGELOG.md").read_text(), re.MULTILINE)[1]


def tells_version(word):
    status, answer = run_unheard([word])
    if status != 0 or answer != f"klsm {version()}\n".encode():
        return f"the status is {status}, and the text is {answer!r}"
    if not answer.startswith(f"klsm {newest()}, proved with rattle logic ".encode()):
        return f"the text is {answer!r}, and the newest version of the changelog is {newest()}"
    return None


def names_the_logic():
    """The program says that it was proved in the logic of the kit at hand. Kits of several names share a logic."""
    kit = subprocess.run(["rt", "version"], capture_output=True, check=True).stdout.strip()
    logic = kit.partition(b" logic ")[2]
    answer = run_unheard(["--version"])[1]
    return None if answer.endswith(b", proved with rattle logic " + logic + b"\n") else f"the text is {answer!r}, and the kit is {kit!r}"


def checks():
    if shutil.which("rt"):
        yield "the logic of the version beside that of the kit", names_the_logic
    for words in REQUESTS:
        yield f"help of 80 columns: {words}", functools.partial(helps, words.split())
    for word in ("--version", "-V"):
        yield f"the version: {word}", functools.partial(tells_version, word)
