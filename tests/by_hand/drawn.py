#!/usr/bin/env python3
"""Solves drawn instances of the knapsack problem by `klsm knapsack`, in the order in which they were drawn.

    drawn.py KLSM [SEEDS]
    drawn.py instance KIND THINGS SEED

Of each kind, with 28 to 32 things, it draws an instance for the seeds 0 to SEEDS - 1 (6), with half of all weight
as the capacity. KLSM has to answer each with a selection within the capacity, of the value and the weight that
its line says; and no selection may be worth more, by a plain table of the best value for each capacity. The last
line counts the answers, and none may be `full`. With `instance` it prints one of them.

The kinds are eight of those of Pisinger, "Where are the hard knapsack problems?" (2005), with numbers from 1 to
1,000: each makes a value and a weight of two numbers drawn.
"""

import collections
import math
import random
import subprocess
import sys

GAP = 100

KINDS = {
    "uncorrelated": lambda a, b: (b, a),
    "weakly-correlated": lambda a, b: (max(1, a + b % (2 * GAP + 1) - GAP), a),
    "strongly-correlated": lambda a, b: (a + GAP, a),
    "inverse-strongly-correlated": lambda a, b: (a, a + GAP),
    "almost-strongly-correlated": lambda a, b: (a + GAP + b % 5 - 2, a),
    "subset-sum": lambda a, b: (a, a),
    "profit-ceiling": lambda a, b: (-(-a // 3) * 3, a),
    "circle": lambda a, b: (max(1, math.isqrt(2000**2 - (2000 - a) ** 2) * 2 // 3), a),
}


def drawn(kind, count, seed):
    """An instance as `klsm knapsack` reads it."""
    draws = random.Random(seed)
    things = [KINDS[kind](draws.randint(1, 1000), draws.randint(1, 1000)) for _ in range(count)]
    rows = [f"capacity,{sum(weight for _, weight in things) // 2}"]
    return "\n".join(rows + [f"{value},{weight}" for value, weight in things]) + "\n"


def output(words, text):
    return subprocess.run(words, input=text, capture_output=True, text=True, check=False).stdout


def read(text):
    """The capacity, and the value and the weight of each thing."""
    first, *rows = text.split()
    return int(first.removeprefix("capacity,")), [tuple(map(int, row.split(","))) for row in rows]


def best_value(capacity, things):
    best = [0] * (capacity + 1)
    for value, weight in things:
        for room in range(capacity, weight - 1, -1):
            best[room] = max(best[room], best[room - weight] + value)
    return best[capacity]


def end_of(klsm, text):
    """How a search ends: `solved`, `wrong`, or with the first word of another line."""
    line = output([klsm, "knapsack", "--threads", "2"], text).split()
    if line[:1] != ["value"]:
        return line[0] if line else "nothing"
    capacity, things = read(text)
    picks = [things[int(word)] for word in line[5:]]
    value, weight = (sum(thing[i] for thing in picks) for i in (0, 1))
    is_right = (value, weight) == (int(line[1]), int(line[3])) and weight <= capacity
    return "solved" if is_right and value == best_value(capacity, things) else "wrong"


def main(klsm, seeds=6):
    ends = collections.Counter()
    for kind in KINDS:
        for things in range(28, 33):
            for seed in range(int(seeds)):
                end = end_of(klsm, drawn(kind, things, seed))
                ends[end] += 1
                if end != "solved":
                    print(f"{kind}, {things} things, seed {seed}: {end}")
    print(", ".join(f"{number} {end}" for end, number in sorted(ends.items())))
    sys.exit(set(ends) != {"solved"})


if sys.argv[1:2] == ["instance"]:
    kind_named, things_named, seed_named = sys.argv[2:]
    sys.stdout.write(drawn(kind_named, int(things_named), int(seed_named)))
else:
    main(*sys.argv[1:])
