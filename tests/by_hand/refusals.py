"""Refuses each growth of memory of the program `klsm` in turn, and checks what it then writes.

    cc -O2 -shared -fPIC -o refuse.so refuse.c
    python3 refusals.py ./refuse.so ../../crates/klsm/out/klsm

The program has to stand built: `./klsm --help` at the root of the repository builds it. The text has to
be some of the usual lines and then `no memory`, with status 3. It may be the usual text where the
growth was one that the program can do without: of a thread's own, which the C library makes, or of the
set by which a replay counts skips. The runs are those of `examples/`, and words that are refused or ask
for help. A search by a worker that keeps no node for itself has more growths than one that keeps 64.
"""

import os
import pathlib
import subprocess
import sys

EXAMPLES = pathlib.Path(__file__).resolve().parents[2] / "examples"

# Words, and the example that is read.
RUNS = [
    (["replay"], "first.csv"),
    (["replay", "--threads", "2", "--k", "1", "--pick", "last"], "two_threads.csv"),
    (["replay", "--threads", "4", "--k", "4", "--pick", "random"], "four_threads_random.csv"),
    (["replay"], "more_than_64.csv"),
    (["live"], "first.csv"),
    (["live", "--threads", "2", "--k", "1"], "live_two_threads.csv"),
    (["live", "--threads", "4", "--k", "4"], "four_threads_random.csv"),
    (["replay", "--threads", "2", "--k", "4", "--refill", "2"], "refilled_items.csv"),
    (["knapsack"], "knapsack.csv"),
    (["knapsack", "--k", "0"], "knapsack.csv"),
    (["knapsack", "--threads", "2", "--k", "1"], "knapsack.csv"),
    (["knapsack", "--threads", "4", "--k", "0"], "knapsack.csv"),
    (["replay"], "refused_after_answer.csv"),
    (["replay", "--pick", "middle"], "first.csv"),
    (["replay", "--threads", "17"], "first.csv"),
    (["knapsack", "--help"], "first.csv"),
]


def run(command, example, environment):
    with open(EXAMPLES / example, "rb") as rows:
        return subprocess.run(command, stdin=rows, capture_output=True, env=environment, timeout=60)


def is_cut_off(text, usual):
    """Whether a text is some of the usual lines and then `no memory`."""
    lines = text.splitlines(keepends=True)
    return lines[-1:] == [b"no memory\n"] and usual.startswith(b"".join(lines[:-1]))


def main(library, klsm):
    growths = {}
    for words, example in RUNS:
        usual = run([klsm, *words], example, {})
        counts = {"no memory": 0, "the usual text": 0}
        for number in range(1, 100_000):
            refused = run([klsm, *words], example, {"LD_PRELOAD": os.path.abspath(library), "REFUSED": str(number)})
            if b"refused\n" not in refused.stderr:
                break
            if refused.returncode == 3 and is_cut_off(refused.stdout, usual.stdout):
                counts["no memory"] += 1
            else:
                where = f"{words} {example}, growth {number}: {refused}"
                assert (refused.returncode, refused.stdout) == (usual.returncode, usual.stdout), where
                counts["the usual text"] += 1
        print(f"{' '.join(words)} < {example}: {counts}", flush=True)
        growths[" ".join(words)] = sum(counts.values())
    # A worker that keeps no node for itself has the shared part grow.
    assert growths["knapsack"] < growths["knapsack --k 0"], "a search does not depend on --k"


main(*sys.argv[1:])
