"""What the options of `klsm knapsack` change, beside its answer: a worker asks as often in vain as `--idle` says."""

import os
import subprocess

from process import PROGRAM

# So many answers "nothing" take longer than all else that the program does for a small instance.
MOST_IDLE = "1000000"

INSTANCE = b"capacity,10\n60,5\n50,4\n70,6\n30,3\n"


def seconds(idle):
    """How long processors were busy with a search of one worker."""
    with subprocess.Popen([PROGRAM, "knapsack", "--idle", idle], stdin=subprocess.PIPE, stdout=subprocess.PIPE) as search:
        search.stdin.write(INSTANCE)
        search.stdin.close()
        answer = search.stdout.read()
        _, status, used = os.wait4(search.pid, 0)
        search.returncode = os.waitstatus_to_exitcode(status)
    assert (search.returncode, answer) == (0, b"value 120 weight 10 picks 1 2\n"), f"the answer is {answer!r}"
    return used.ru_utime + used.ru_stime


def is_idle():
    soon, late = (min(seconds(idle) for _ in range(3)) for idle in ("1", MOST_IDLE))
    return None if late > soon + 0.01 else f"it takes {late} seconds in the place of {soon}"


def checks():
    yield "a worker of a search is idle as often as --idle says", is_idle
