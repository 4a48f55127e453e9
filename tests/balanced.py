"""Scripts of drawn rows for threads that balance.

In some no thread inserts more than it can keep, so no item is ever shared, and none deletes while it keeps nothing and
others do. By plain lists of what each thread keeps it is known then which item each deletion gives, and so when, with
whom and by how many items its thread balances. Others have shared items too, or are run by threads.
"""

import bisect
import functools
import itertools
import random

from drawn import drawn_rows, followed, replayed, script_of
from process import run

ROWS = 300
# How many items a thread may keep, and how many one balance moves at most.
K = 64
MOST = 4


class Threads:
    """What each thread keeps, ascending, how many items it inserted and deletions it made, and whose turn it is."""

    def __init__(self, threads, every):
        self.every = every
        self.kept = [[] for _ in range(threads)]
        self.inserted = [0] * threads
        self.deletions = [0] * threads
        self.balances = [0] * threads

    def insert(self, thread, key):
        number = self.inserted[thread]
        self.inserted[thread] += 1
        bisect.insort(self.kept[thread], (key, thread, number))
        return f"{thread} i {key} {thread}.{number}"

    def victim(self, thread):
        """With whom it balances before its next deletion: before each so-manyth with the next other one in turn."""
        others = len(self.kept) - 1
        if self.every == 0 or others == 0 or (self.deletions[thread] + 1) % self.every:
            return None
        return (thread + 1 + self.balances[thread] % others) % len(self.kept)

    def may_delete(self, thread):
        """A thread that keeps nothing, and finds nothing by a balance, would spy where others keep items."""
        victim = self.victim(thread)
        return self.kept[thread] or not any(self.kept) or (victim is not None and self.kept[victim])

    def balance(self, thread):
        victim = self.victim(thread)
        if victim is None:
            return
        self.balances[thread] += 1
        own, theirs = self.kept[thread], self.kept[victim]
        if theirs and (not own or theirs[0] < own[0]):
            count = min(MOST, (len(theirs) + 1) // 2, K - len(own))
            own.extend(theirs[:count])
            own.sort()
            del theirs[:count]

    def delete(self, thread):
        self.balance(thread)
        self.deletions[thread] += 1
        if not self.kept[thread]:
            assert not any(self.kept), "the script was to have no such row"
            return f"{thread} d none"
        key, owner, number = item = self.kept[thread].pop(0)
        skip = sum(other < item for kept in self.kept for other in kept)
        return f"{thread} d {key} {owner}.{number} load 0 skip {skip}"


def drawn(count, every):
    """Rows, their answers, and how often a thread balanced."""
    draw = random.Random(count * 100 + every)
    threads = Threads(count, every)
    rows, lines = [], []
    for _ in range(ROWS):
        thread = draw.randrange(count)
        if threads.may_delete(thread) and draw.random() < 0.5:
            rows.append(f"{thread},d,,\n")
            lines.append(threads.delete(thread))
        elif len(threads.kept[thread]) < K:
            # The one inserts greater keys than the other, so that balances gain.
            key = draw.randrange(100) + 40 * thread
            rows.append(f"{thread},i,{key},0\n")
            lines.append(threads.insert(thread, key))
    return "".join(rows).encode(), lines, sum(threads.balances)


def compare(count, every):
    rows, lines, balances = drawn(count, every)
    assert (balances > 3) == (every > 0 and count > 1), f"there are {balances} balances"
    words = ["replay", "--threads", str(count), "--k", str(K), "--balance", str(every)]
    status, answer = run(words, rows)
    assert status == 0, f"the status is {status}"
    *answers, _ = answer.decode().splitlines()
    for number, (line, wanted) in enumerate(itertools.zip_longest(answers, lines)):
        assert line == wanted, f"line {number + 1} is {line!r}, and not {wanted!r}"


def keep_the_bounds(count, k, every):
    """Threads that balance while items are shared too: what a deletion may pass over, and when it may find nothing."""
    rows = list(drawn_rows(count, 5))
    words = ["replay", "--threads", str(count), "--k", str(k), "--pick", "last", "--balance", str(every)]
    status, answer = run(words, script_of(rows))
    assert status == 0, f"the status is {status}"
    followed(rows, answer.decode().splitlines(), count, k)


def is_none():
    """A balance of 0 gives the text that no balance gives, and one of 1 another."""
    rows = list(drawn_rows(4, 7))
    words = ["replay", "--threads", "4", "--k", "4", "--seed", "7"]
    (_, never), (_, each) = (run([*words, "--balance", every], script_of(rows)) for every in ("0", "1"))
    assert never.decode().splitlines() == replayed(rows, 4, 4, "first", 7), "a balance of 0 is not none"
    assert never != each, "a balance of 1 gives the same text"


def totals(count, every):
    """Threads that balance with one another while all run: each item that was inserted is deleted or left."""
    rows = list(drawn_rows(count, every))
    status, answer = run(["live", "--threads", str(count), "--k", "4", "--balance", str(every)], script_of(rows))
    assert status == 0, f"the status is {status}"
    _, inserted, _, deleted, _, left = answer.decode().split()
    assert int(inserted) == sum(item is not None for _, item in rows), answer
    assert int(inserted) == int(deleted) + int(left), answer


def checks():
    for count, every in itertools.product(range(1, 5), (0, 1, 2, 3, 7)):
        yield f"threads that balance, --threads {count} --balance {every}", functools.partial(compare, count, every)
    for count, k, every in itertools.product((2, 4), (1, 4, 16), (1, 3)):
        what = f"the bounds of threads that balance, --threads {count} --k {k} --balance {every}"
        yield what, functools.partial(keep_the_bounds, count, k, every)
    yield "a balance of 0 is none", is_none
    for count, every in itertools.product((2, 4, 16), (1, 3)):
        what = f"totals of threads that balance, --threads {count} --balance {every}"
        yield what, functools.partial(totals, count, every)
