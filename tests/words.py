"""Words of a process that no file of words can have: its own path, none at all, a long one, and many."""

import functools

from process import run

SCRIPT = b"0,d,,\n"


def is_replayed(path):
    """Whether a replay does not depend on the path."""
    wanted = (0, b"0 d none\nmax skip 0 bound 64\n")
    found = run(["replay"], SCRIPT, path=path)
    return None if found == wanted else f"the status and the answer are {found}"


def is_fault_without_words():
    """A new system gives one empty word in the place of none."""
    status, answer = run([], SCRIPT, path=None)
    is_right = status == 2 and answer and not answer.startswith((b"0 d none", b"refused"))
    return None if is_right else f"the status is {status}, and the answer is {answer!r}"


def is_told_whole(letters):
    word = b"a" * letters
    status, answer = run([word], SCRIPT)
    return None if status == 2 and word in answer else f"the status is {status}, and the answer is {answer!r}"


def is_read():
    """A word that is not UTF-8 is the cause that is told, wherever it stands."""
    wanted = (2, b"error: a word is not UTF-8\n\nFor more information, try '--help'.\n")
    found = run(["a"] * 19 + [b"\xff"], SCRIPT)
    return None if found == wanted else f"the status and the answer are {found}"


def checks():
    yield "a path that is not UTF-8", functools.partial(is_replayed, b"/a/\xff/klsm")
    yield "an empty path", functools.partial(is_replayed, b"")
    yield "no words at all", is_fault_without_words
    for letters in (1000, 5000):
        yield f"a word of {letters} letters", functools.partial(is_told_whole, letters)
    yield "the twentieth of twenty words", is_read
