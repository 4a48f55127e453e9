"""Instances of 32 things of which more nodes wait than the queue has room for, so that workers search alone.

Each thing is worth its weight, and the capacity is met by no selection, so that few nodes can be closed.
"""

import functools
import random

from process import run

THINGS = 32


def best_sum(capacity, weights):
    """The greatest sum of some of the weights that is within the capacity, by all sums that there are."""
    sums = 1
    for weight in weights:
        sums |= sums << weight
    return (sums & ((2 << capacity) - 1)).bit_length() - 1


def solve(words, capacity, weights):
    """Whether the answer is a selection of the best sum."""
    rows = [f"capacity,{capacity}\n"] + [f"{weight},{weight}\n" for weight in weights]
    status, answer = run(["knapsack", *words], "".join(rows).encode())
    if status != 0:
        return f"the status is {status}, and the answer is {answer!r}"
    _, value, _, weight, _, *picks = answer.split()
    best = best_sum(capacity, weights)
    picked = sum(weights[number] for number in sorted({int(pick) for pick in picks}))
    if (int(value), int(weight), picked) != (best, best, best):
        return f"the value is {int(value)}, the weight {int(weight)}, and that of the picks {picked}, and not {best}"
    return None


def even():
    """Things of even weights, and a capacity that is odd."""
    draws = random.Random(0)
    weights = [2 * draws.randint(1, 500) for _ in range(THINGS)]
    return sum(weights) // 4 * 2 + 1, weights


def checks():
    for threads in (1, 2, 4):
        for k in (0, 1, 64):
            words = ["--threads", str(threads), "--k", str(k)]
            yield f"32 things that are the same, {words}", functools.partial(solve, words, 31, [2] * THINGS)
    for threads in (1, 4):
        words = ["--threads", str(threads)]
        yield f"32 things of even weights, {words}", functools.partial(solve, words, *even())
