"""The program as a co-process, whose input stays open while it is asked: a replay answers each row before the next one is
written, and behind a row that is refused no command waits for more or reads on.

The scripts and their answers are those of `examples`.
"""

import functools
import math
import os
import select
import subprocess
import tempfile
import threading
import time

from cases import difference, lines_of, read
from process import PROGRAM, ROOT

# A row is answered at once, and a program that waits for another one never ends.
PATIENCE = 20

# The program asks for so many bytes at a time, at most.
BLOCK = 64 * 1024


class Driven:
    """A run whose rows are given one by one."""

    def __init__(self, words):
        self.process = subprocess.Popen([PROGRAM, *words], stdin=subprocess.PIPE, stdout=subprocess.PIPE,
                                        stderr=subprocess.DEVNULL, bufsize=0)
        self.answer = b""

    def give(self, row):
        try:
            self.process.stdin.write(row)
        except BrokenPipeError:
            pass

    def hear(self, lines):
        """Waits until so many lines were answered, or the program has ended. Says whether it has."""
        until = time.monotonic() + PATIENCE
        while self.answer.count(b"\n") < lines:
            ready, _, _ = select.select([self.process.stdout], [], [], max(0, until - time.monotonic()))
            if not ready:
                raise subprocess.TimeoutExpired(PROGRAM, PATIENCE)
            more = os.read(self.process.stdout.fileno(), BLOCK)
            if not more:
                return True
            self.answer += more
        return False

    def end(self):
        self.process.kill()
        self.process.wait()
        self.process.stdin.close()
        self.process.stdout.close()


def parts_of(stem):
    """The words, the rows, and the whole answer of a case."""
    of = {kind: read(stem.with_suffix(f".{kind}")) for kind in ("args", "csv", "txt")}
    return lines_of(of["args"] or b"replay\n"), of["csv"].splitlines(keepends=True), of["txt"]


def answers(stem, rows_are_answered):
    """The answer is that of the case while the input stays open. A replay answers each row by a line before it is given
    the next one; what is refused ends the program, and what is not ends with the input."""
    words, rows, wanted = parts_of(stem)
    run = Driven(words)
    try:
        for number, row in enumerate(rows, 1):
            run.give(row)
            if rows_are_answered and run.hear(number):
                break
        if not stem.name.startswith("refused"):
            run.process.stdin.close()
        run.hear(math.inf)
        return None if run.answer == wanted else difference(run.answer, wanted)
    finally:
        run.end()


def answers_far_behind():
    """Rows behind more than 2^24 bytes are answered while the input stays open, each before the next one is given."""
    row = b"0,i," + b"0" * 1000 + b"5,0\n"
    rows = 2**24 // len(row) + 2
    run = Driven(["replay"])
    writer = threading.Thread(target=run.give, args=(row * rows,))
    writer.start()
    try:
        run.hear(rows)
        for more in range(1, 4):
            run.give(row)
            run.hear(rows + more)
        *_, last = run.answer.splitlines()
        wanted = b"0 i 5 0.%d" % (rows + 2)
        return None if last == wanted else f"the last line is {last!r}, and not {wanted!r}"
    finally:
        run.end()
        writer.join()


def answers_before_quotes_end():
    """Within quotes two of them are one, and a line end belongs to the field: so that row is not whole, and the one
    before it is answered while the rest is waited for."""
    run = Driven(["replay"])
    try:
        run.give(b'0,d,,\n0,i,"1""\n')
        run.hear(1)
        heard = run.answer
        run.give(b'",0\n')
        run.hear(math.inf)
        wanted = (b"0 d none\n", b"0 d none\nrefused row 2: key\n")
        return None if (heard, run.answer) == wanted else f"the answer is {heard!r}, and then {run.answer!r}"
    finally:
        run.end()


def reads_no_further(stem):
    """Of what stands far behind a row that is refused nothing is read."""
    words, rows, wanted = parts_of(stem)
    with tempfile.TemporaryFile() as file:
        file.write(b"".join(rows) + rows[0] * (32 * BLOCK // len(rows[0])))
        file.seek(0)
        ran = subprocess.run([PROGRAM, *words], stdin=file, stdout=subprocess.PIPE, stderr=subprocess.DEVNULL,
                             timeout=PATIENCE, check=False)
        read_bytes = os.lseek(file.fileno(), 0, os.SEEK_CUR)
    if ran.stdout != wanted:
        return difference(ran.stdout, wanted)
    return f"{read_bytes} bytes were read" if read_bytes > len(b"".join(rows)) + BLOCK else None


def checks():
    yield "row by row: behind 2^24 bytes", answers_far_behind
    yield "row by row: quotes within quotes", answers_before_quotes_end
    for stem in sorted(it.with_suffix("") for it in (ROOT / "examples").glob("*.csv")):
        words = parts_of(stem)[0]
        if words[0] == b"replay":
            yield f"row by row: {stem.name}", functools.partial(answers, stem, True)
        if stem.name.startswith("refused"):
            yield f"it ends at a refusal: {stem.name}", functools.partial(answers, stem, False)
            yield f"it reads no further: {stem.name}", functools.partial(reads_no_further, stem)
