"""Cases and tables of cases, which are files: README.md beside this file says which.

Each check is a name and a function, which answers with what is wrong, or None.
"""

import functools
import shlex

from process import ROOT, run

FOLDERS = [ROOT / "examples", *sorted(it for it in (ROOT / "tests").glob("*/*") if it.is_dir())]


def read(file, other=b""):
    return file.read_bytes() if file.exists() else other


def lines_of(text):
    """The lines, of which the last may lack its end."""
    *lines, rest = text.split(b"\n")
    return [*lines, rest] if rest else lines


def shown(lines, number):
    return repr(lines[number].decode(errors="backslashreplace")) if number < len(lines) else "missing"


def difference(answer, wanted):
    """The first line in which two texts differ."""
    answers, wants = answer.split(b"\n"), wanted.split(b"\n")
    number = 0
    while answers[number : number + 1] == wants[number : number + 1]:
        number += 1
    return f"line {number + 1} is {shown(answers, number)}, and not {shown(wants, number)}"


def case(stem):
    """Whether the program answers a case as its files say."""
    of = {kind: stem.with_name(f"{stem.name}.{kind}") for kind in ("args", "csv", "txt", "lines", "status")}
    wanted_status = int(read(of["status"], b"1" if stem.name.startswith("refused") else b"0"))
    status, answer = run(lines_of(read(of["args"], b"replay\n")), read(of["csv"]))
    if of["txt"].exists() and answer != read(of["txt"]):
        return difference(answer, read(of["txt"]))
    for line in lines_of(read(of["lines"])):
        if line not in lines_of(answer):
            return f"no line is {line.decode()!r}"
    if status != wanted_status:
        return f"the status is {status}, and not {wanted_status}"
    if not of["txt"].exists() and not of["lines"].exists():
        return "there is no answer to compare with"
    return None


def call(words, text, wanted):
    """Whether the words of a table are answered with this status and a text, which is no answer to the script."""
    status, answer = run(words, text)
    if status != wanted:
        return f"the status is {status}, and not {wanted}"
    if not answer or answer.startswith((b"0 d none", b"refused")):
        return f"the answer begins with {shown(answer.splitlines(), 0)}"
    return None


def calls_of(table):
    text = read(table.with_suffix(".csv"))
    for line in table.read_text().splitlines():
        if line and not line.startswith("#"):
            status, *words = shlex.split(line)
            yield f"{table.relative_to(ROOT)}: {line}", functools.partial(call, words, text, int(status))


def checks():
    for folder in FOLDERS:
        tables = sorted(folder.glob("*.table"))
        for table in tables:
            yield from calls_of(table)
        stems = {it.with_suffix("") for it in folder.iterdir() if it.suffix not in (".md", ".table")}
        for stem in sorted(stems - {it.with_suffix("") for it in tables}):
            yield str(stem.relative_to(ROOT)), functools.partial(case, stem)
