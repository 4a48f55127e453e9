"""What a user at a terminal is told beside an answer that refuses something. Where standard error is no terminal nothing
of it is written.
"""

import errno
import os
import pty
import subprocess

from process import PROGRAM, SECONDS

USAGE = "rows come on standard input, as in: klsm replay < FILE; --threads is 1 to 16, --k 0 to 64, and --refill 0 to --k"
NUMBER = "a number from 0 to 18446744073709551615 is expected, without a sign or a point"

# The words, the input, and the line.
HINTS = [
    ("replay", b"0, i,1,2\n", 'row 1, field 2 is " i": i or d is expected; blanks are not trimmed'),
    ("replay", b"0,i,1,2\n0,x,1,2\n", 'row 2, field 2 is "x": i or d is expected'),
    ("replay", b"THREAD,OP,KEY,LOAD\n", 'row 1, field 1 is "THREAD": a thread\'s number is expected; a script has no header row'),
    ("replay", b"1,i,1,2\n", 'row 1, field 1 is "1": a thread\'s number is expected, below that of --threads, which is 1 '
                             "where it is not given"),
    ("live", b"0\ti\t1\t2\n", "row 1: four fields are expected, with commas between them, not tabs or semicolons"),
    ("replay", b"0;i;1;2\n", "row 1: four fields are expected, with commas between them, not tabs or semicolons"),
    ("replay", b"0,i,1\n", "row 1: four fields are expected: THREAD,i,KEY,LOAD or THREAD,d,,"),
    ("live", b"0,i,-1,2\n", f'row 1, field 3 is "-1": {NUMBER}'),
    ("replay", b"0,i,1,2.5\n", f'row 1, field 4 is "2.5": {NUMBER}'),
    ("replay", b"0,d,1,\n", 'row 1, field 3 is "1": nothing is expected here behind d'),
    ("replay", b"0,i,\xff,1\n", f"row 1, field 3 is not UTF-8: {NUMBER}"),
    ("replay", b"0,\x1b]0;title\x07,1,2\n", r'row 1, field 2 is "\u{1b}]0;title\u{7}": i or d is expected'),
    ("replay", b"0,i," + b"1" * 61 + b",1\n", f"row 1, field 3 is 61 bytes long: {NUMBER}"),
    ("knapsack", b"10\n", "row 1: the first row is capacity,C"),
    ("knapsack", b"capacity,1\n1\n", "row 2: two fields are expected, a value and a weight"),
    ("knapsack", b"capacity,1\n1,+1\n", "row 2: a number without a sign or a point is expected"),
    ("knapsack", b"capacity,1\n0,1\n",
     "row 2: a value from 1 to 1000000 and a weight from 1 to 1000000000 are expected"),
    ("knapsack", b"capacity,1\n" + b"1,1\n" * 33, "row 34: an instance has at most 32 things"),
    ("replay FILE", b"", USAGE),
    ("replay --threads -1", b"", USAGE),
    ("replay --pick least", b"", "--pick is first, last or random"),
    ("live --k 1 --refill 2", b"", "--refill is at most the number of --k"),
]


def read_all(master):
    """All that was written to the other end, which is closed."""
    text = b""
    while True:
        try:
            more = os.read(master, 4096)
        except OSError as error:
            if error.errno != errno.EIO:
                raise
            return text
        if not more:
            return text
        text += more


def watched(words, **streams):
    """What stands on standard error, which is a terminal, once the program has ended."""
    master, slave = pty.openpty()
    try:
        subprocess.run([PROGRAM, *words.split()], stderr=slave, timeout=SECONDS, **streams)
    finally:
        os.close(slave)
    said = read_all(master).decode()
    os.close(master)
    return said


def hint(words, text, wanted):
    said = watched(words, input=text, stdout=subprocess.DEVNULL)
    if said != wanted + "\r\n":
        return f"a terminal is told {said!r}"
    silent = subprocess.run([PROGRAM, *words.split()], input=text, capture_output=True, timeout=SECONDS).stderr
    return f"where standard error is no terminal it has {silent!r}" if silent else None


def failed_stream(words, wanted, **streams):
    said = watched(words, **streams)
    return None if said == wanted + "\r\n" else f"a terminal is told {said!r}"


def full_disk(words, text):
    """The first write of a command fails."""
    wanted = "cannot write to standard output: it is closed, or its disk is full"
    with open("/dev/full", "wb") as full:
        status = subprocess.run([PROGRAM, *words.split()], input=text, stdout=full, stderr=subprocess.DEVNULL,
                                timeout=SECONDS).returncode
        if status != 4:
            return f"the status is {status}"
        return failed_stream(words, wanted, input=text, stdout=full)


def no_file():
    folder = os.open("/", os.O_RDONLY)
    try:
        return failed_stream("replay", "cannot read standard input", stdin=folder, stdout=subprocess.DEVNULL)
    finally:
        os.close(folder)


def typed():
    """Rows that are typed: the terminal is standard input and standard error."""
    master, slave = pty.openpty()
    try:
        with subprocess.Popen([PROGRAM, "replay"], stdin=slave, stdout=subprocess.PIPE, stderr=slave) as process:
            os.write(master, b"0,d,,\n\x04")
            answer = process.communicate(timeout=SECONDS)[0]
    finally:
        os.close(slave)
    said = read_all(master)
    os.close(master)
    if b"reads rows from the terminal; Ctrl-D ends\r\n" not in said:
        return f"a terminal is told {said!r}"
    return None if answer == b"0 d none\nmax skip 0 bound 64\n" else f"the answer is {answer!r}"


def has_terminals():
    try:
        for end in pty.openpty():
            os.close(end)
    except OSError:
        return False
    return True


def checks():
    if not has_terminals():
        return
    for words, text, wanted in HINTS:
        yield f"hint: {words}, {text[:20]!r}", lambda case=(words, text, wanted): hint(*case)
    for words, text in (("replay", b"0,d,,\n"), ("live", b"0,d,,\n"), ("knapsack", b"capacity,1\n")):
        yield f"hint: a full disk, {words}", lambda case=(words, text): full_disk(*case)
    yield "hint: a folder as input", no_file
    yield "hint: rows that are typed", typed
