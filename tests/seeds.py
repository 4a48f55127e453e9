"""Which seed the random picks of each thread follow from: that of the call plus its number, modulo 2^64."""

import functools

from process import run

ITEMS = 60
# How many threads delete, each alone. One more inserts.
DELETERS = 5


def picks(thread, seed):
    """What this thread deletes of the items that the last one inserted, as the lines say behind its number."""
    rows = [f"{DELETERS},i,{key},0\n" for key in range(ITEMS)] + [f"{thread},d,,\n"] * ITEMS
    words = ["replay", "--threads", str(DELETERS + 1), "--k", "8", "--pick", "random", "--seed", str(seed)]
    status, answer = run(words, "".join(rows).encode())
    assert status == 0, f"the status is {status}"
    return [line[1:] for line in answer.splitlines()]


def follow(seed):
    by_thread = [picks(thread, seed) for thread in range(DELETERS)]
    by_seed = [picks(0, (seed + thread) % 2**64) for thread in range(DELETERS)]
    for thread, (found, wanted) in enumerate(zip(by_thread, by_seed)):
        assert found == wanted, f"thread {thread} does not pick by a seed that is greater by {thread}"
    assert len(set(map(tuple, by_seed))) == DELETERS, "two seeds give one text"


def checks():
    for seed in (5, 2**64 - 2, 2**64 - 1):
        yield f"the seeds of the threads, --seed {seed}", functools.partial(follow, seed)
