"""Scripts of drawn rows for several threads, with each line of their answers beside a plain list of the live items."""

import bisect
import functools
import itertools
import random

from process import run

ROWS = 200


def drawn_rows(threads, seed):
    """Rows: the thread, and the key and the load where it inserts.

    Keys are few, so that equal ones occur, and insertions somewhat more than deletions.
    """
    draw = random.Random(seed)
    for _ in range(ROWS):
        thread = draw.randrange(threads)
        yield thread, None if draw.randrange(9) < 4 else (draw.randrange(100), draw.randrange(1 << 64))


def script_of(rows):
    return "".join(f"{thread},i,{item[0]},{item[1]}\n" if item else f"{thread},d,,\n" for thread, item in rows).encode()


def replayed(rows, threads, k, pick, seed):
    """The lines of the answer."""
    words = ["replay", "--threads", str(threads), "--k", str(k), "--pick", pick, "--seed", str(seed)]
    status, answer = run(words, script_of(rows))
    assert status == 0, f"the status is {status}"
    return answer.decode().splitlines()


class Plain:
    """Live items, ascending, each a key, the thread that inserted it, its number there, and a load."""

    def __init__(self, threads, k):
        self.inserted = [0] * threads
        self.live = []
        # The most smaller items that a deletion may skip, and the most that may be kept from a thread.
        self.bound = threads * k
        self.kept_from_one = (threads - 1) * k
        self.deleted = 0
        self.most = 0

    def insert(self, thread, key, load, line):
        number = self.inserted[thread]
        self.inserted[thread] += 1
        bisect.insort(self.live, (key, thread, number, load))
        assert line == f"{thread} i {key} {thread}.{number}", line

    def delete(self, thread, line):
        """A deletion takes one of the least items, and tells how many are smaller. It finds nothing only where all
        live items may be kept by the other threads."""
        for skip, (key, owner, number, load) in enumerate(self.live[: self.bound + 1]):
            if line == f"{thread} d {key} {owner}.{number} load {load} skip {skip}":
                del self.live[skip]
                self.deleted += 1
                self.most = max(self.most, skip)
                return
        assert line == f"{thread} d none" and len(self.live) <= self.kept_from_one, line


def followed(rows, text, threads, k):
    """What a plain queue comes to that takes over each answer of a text, where each is within the bounds."""
    *lines, last = text
    assert len(lines) == len(rows), f"there are {len(lines)} lines for {len(rows)} rows"
    plain = Plain(threads, k)
    for (thread, item), line in zip(rows, lines):
        if item:
            plain.insert(thread, *item, line)
        else:
            plain.delete(thread, line)
    assert last == f"max skip {plain.most} bound {plain.bound}", last
    return plain


def compare(pick, threads, k):
    rows = list(drawn_rows(threads, 11))
    plain = followed(rows, replayed(rows, threads, k, pick, 11), threads, k)
    assert plain.deleted > 50, f"only {plain.deleted} deletions"
    # One thread keeps its own order, so it skips none.
    assert (plain.most > 0) == (k > 0 and threads > 1), f"the most skipped is {plain.most}"


def is_one_text():
    """A seed gives one text, and others other texts."""
    rows = list(drawn_rows(4, 3))
    text = replayed(rows, 4, 4, "random", 5)
    assert text == replayed(rows, 4, 4, "random", 5), "two texts of one seed differ"
    for seed in (0, 4, 6, 2**64 - 1):
        assert text != replayed(rows, 4, 4, "random", seed), f"the texts of the seeds 5 and {seed} are the same"


def checks():
    for pick, threads, k in itertools.product(("first", "last", "random"), range(1, 5), (0, 1, 4)):
        yield f"drawn rows, --pick {pick} --threads {threads} --k {k}", functools.partial(compare, pick, threads, k)
    yield "the text of a seed", is_one_text
