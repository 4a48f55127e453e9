"""The program that is tested, as a process."""

import os
import pathlib
import subprocess

ROOT = pathlib.Path(__file__).resolve().parent.parent
PROGRAM = os.path.abspath(os.environ.get("KLSM") or ROOT / "klsm")

# No run takes more than a few; one that waits for ever is stopped after so many.
SECONDS = 300


def run(words, text=b"", path=PROGRAM):
    """The status and the whole answer to these words and this input.

    Words and paths may be bytes. The first word of the process is `path`, and there is no word at all where that
    is None.
    """
    return ended([] if path is None else [path, *words], input=text)


def run_unheard(words):
    """The same, with an input that gives nothing and does not end."""
    reader, writer = os.pipe()
    try:
        return ended([PROGRAM, *words], stdin=reader)
    finally:
        os.close(reader)
        os.close(writer)


def ended(process, **given):
    how = {"stdout": subprocess.PIPE, "stderr": subprocess.DEVNULL, "timeout": SECONDS}
    ran = subprocess.run(process, executable=PROGRAM, **how, **given)
    return ran.returncode, ran.stdout
