"""Runs a million rows by sixteen threads with `klsm live`, for k of 0, 1 and 64, refills from 0 to k, and
with balances and without, and checks the totals.

    python3 soak.py ../../crates/klsm/out/klsm

The program has to stand built: `./klsm --help` at the root of the repository builds it. As many items have
to be inserted as there are rows that insert, each of them is deleted or left, and no more are deleted than
there are rows that delete.
"""

import random
import re
import subprocess
import sys

ROWS = 1_000_000
THREADS = 16

# k, refill and balance.
SIZES = [(0, 0, 0), (1, 0, 1), (1, 1, 0), (64, 0, 0), (64, 0, 1), (64, 1, 0), (64, 8, 0), (64, 16, 16), (64, 64, 0)]


def script(seed):
    """Rows of all threads, half of them insertions, and how many insert."""
    draw = random.Random(seed)
    rows = []
    insertions = 0
    for number in range(ROWS):
        thread = draw.randrange(THREADS)
        if draw.random() < 0.5:
            rows.append(f"{thread},i,{draw.randrange(1 << 32)},{number}\n")
            insertions += 1
        else:
            rows.append(f"{thread},d,,\n")
    return "".join(rows).encode(), insertions


def main(klsm):
    for seed, (k, refill, balance) in enumerate(SIZES):
        rows, insertions = script(seed)
        sizes = ["--k", str(k), "--refill", str(refill), "--balance", str(balance)]
        command = [klsm, "live", "--threads", str(THREADS), *sizes, "--pick", "random"]
        line = subprocess.run(command, input=rows, capture_output=True, check=True).stdout.decode()
        inserted, deleted, left = map(int, re.fullmatch(r"inserted (\d+) deleted (\d+) left (\d+)\n", line).groups())
        assert inserted == insertions, line
        assert inserted == deleted + left, line
        assert deleted <= ROWS - insertions, line
        print(f"k {k} refill {refill} balance {balance}: {line}", end="")


main(*sys.argv[1:])
