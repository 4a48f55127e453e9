"""As many rows as a script may have, and one more."""

import functools

from process import run

MOST = 1_000_000

REFUSED = b"refused row 1000001: rows\n"


def is_answered(words, rows, wanted):
    """Whether so many deletions, where no item lives, end with this status and answer."""
    status, answer = run(words, b"0,d,,\n" * rows)
    if status != wanted[0] or answer != wanted[1]:
        return f"the status is {status}, and the answer ends with {answer[-60:]!r}"
    return None


def checks():
    answers = b"0 d none\n" * MOST
    whole = (0, answers + b"max skip 0 bound 64\n")
    yield "a million rows", functools.partial(is_answered, ["replay"], MOST, whole)
    yield "one row more", functools.partial(is_answered, ["replay"], MOST + 1, (1, answers + REFUSED))
    yield "one row more, by threads", functools.partial(is_answered, ["live"], MOST + 1, (1, REFUSED))
