"""The pages and the names: what a link leads to is there, no line is wider than 120, a definition's name stands once in
the `specs/` of all crates, and where a page says that it does, each name that a page has in quotes stands in some source
file, an edit says first by which clause it is refused, the libraries are as many as is said, and the tables of figures
are those of bench/results.csv.
"""

import functools
import os
import pathlib
import re
import subprocess
import sys
from collections import defaultdict

from process import ROOT

WIDTH = 120
DEFINITION = re.compile(r"^ *(?:abbrev pub|pub record|pub data) ([^\s:]+)|^pub (?!record|data|mod)([^\s:]+) :", re.MULTILINE)
NUMBERS = "no one two three four five six seven eight nine ten eleven twelve thirteen fourteen fifteen sixteen \
seventeen eighteen nineteen twenty".split()

TESTS = {"klsm_tests", "klsm_program_tests", "klsm_surface_tests", "klsm_test_support"}
# Names of the kit and of others' programs, and those that are put together where they are used.
FOREIGN = {"BUILD", "bazel", "start_io", "also_shares", "crossbeam_utils", "Backoff", "longjmp", "memmove",
           "latency_insert_", "libklsm2_VERSION_amd64"}
LITERAL = re.compile(r"\b(1024|1_024|67108864|67_108_864|64 21)\b|(Board|Members?)(<| )\d|(≤|<=) (16|21|64|128|129)\b"
                     r"|(?<!<)< (16|21|129)\b|(?<![*^<>] )\b(16|21|64|128|129) (≤|<(?!<))")


@functools.cache
def sources():
    """The files of the repository, without what is built."""
    found = []
    for folder, folders, files in os.walk(ROOT):
        folders[:] = [name for name in folders if name not in ("out", "target", ".git", "__pycache__")]
        found.extend(pathlib.Path(folder, file) for file in files)
    return found


@functools.cache
def pages():
    """Each page, with what it says outside its blocks of code."""
    return [(page, re.sub(r"^```.*?^```$", "", page.read_text(), flags=re.MULTILINE | re.DOTALL))
            for page in sorted(sources()) if page.suffix == ".md"]


@functools.cache
def anchors(page):
    """The anchors of the headings of a page, as GitHub makes them."""
    headings = re.findall(r"^#+ (.*)$", page.read_text(), re.MULTILINE)
    return {re.sub(r"[^\w -]", "", heading.lower()).replace(" ", "-") for heading in headings}


def links():
    dead = []
    for page, text in pages():
        for target in re.findall(r"\]\(([^)\s]+)\)", text):
            path, _, anchor = target.partition("#")
            if "://" in path:
                continue
            led = (page.parent / path).resolve() if path else page
            if not led.exists() or anchor and led.suffix == ".md" and anchor not in anchors(led):
                dead.append(f"{page.relative_to(ROOT)}: {target}")
    return f"lead nowhere: {dead}" if dead else None


def widths():
    wide = [f"{page.relative_to(ROOT)}: {line[:40]}.." for page, text in pages() for line in text.splitlines()
            if len(line) > WIDTH and not line.startswith(("|", "    ", "![")) and "<!--" not in line]
    return f"wider than {WIDTH}: {wide}" if wide else None


def names():
    places = defaultdict(set)
    for file in ROOT.glob("crates/*/specs/*.antt"):
        for one, other in DEFINITION.findall(file.read_text()):
            places[one or other].add(file.relative_to(ROOT / "crates").as_posix())
    twice = {name: sorted(files) for name, files in places.items() if len(files) > 1}
    return f"stand more than once: {twice}" if twice else None


@functools.cache
def words(file):
    return set(re.findall(r"\w+", file.read_text(errors="ignore")))


def definitions():
    """Of a name that leads to a file of definitions, or of code: that file has it."""
    absent = []
    for page, text in pages():
        for name, path in re.findall(r"\[`([^`]+)`\]\(([^)#]+\.(?:antt|rt))\)", text):
            led = (page.parent / path).resolve()
            if led.exists() and not words(led).issuperset(re.findall(r"\w+", name)):
                absent.append(f"{page.relative_to(ROOT)}: {name} in {path}")
    return f"do not stand there: {absent}" if absent else None


def quoted():
    """A name in quotes is a word of a source file, or of its path. The changelog may have names of before."""
    there = set()
    for file in sources():
        there.update(re.findall(r"\w+", file.relative_to(ROOT).as_posix()))
        if file.suffix not in (".md", ".svg", ".csv"):
            there.update(words(file))
    absent = defaultdict(set)
    for page, text in pages():
        for name in re.findall(r"`([\w.:()]+)`", text) if page.name != "CHANGELOG.md" else ():
            for word in set(re.findall(r"\w+", name)) - there - FOREIGN:
                if not word.endswith("_") or not any(other.startswith(word) for other in there):
                    absent[page.relative_to(ROOT).as_posix()].add(word)
    return f"stand in no source: {dict(absent)}" if absent else None


def edits():
    silent = [edit.name for edit in ROOT.glob("crates/*/must-fail/*.edit") if not edit.read_text().startswith("# refused by: ")]
    return f"name no clause first: {silent}" if silent else None


def libraries():
    said = re.search(r"The project is (\w+) libraries", (ROOT / "docs/ARCHITECTURE.md").read_text())
    shown = {crate.parent.parent.name for crate in ROOT.glob("crates/*/src/lib.rt")}
    count = len([name for name in shown if not re.search(r"_(tests|test_support|bench|assignment)$", name)])
    return None if said and said[1] == NUMBERS[count] else f"there are {NUMBERS[count]}"


def limits():
    """Limits have names, which klsm_run and klsm_world define. Tests and texts may have their numbers."""
    literal = []
    for file in sorted([*ROOT.glob("crates/*/src/**/*.rt"), *ROOT.glob("crates/*/specs/**/*.antt"), *ROOT.glob("crates/*/proofs/**/*.antt")]):
        crate = file.relative_to(ROOT / "crates").parts[0]
        if crate in TESTS or file.name == "limits.rt":
            continue
        for number, line in enumerate(file.read_text().splitlines(), 1):
            if LITERAL.search(re.sub(r'(?://|--).*|"[^"]*"', "", line)):
                literal.append(f"{file.relative_to(ROOT)}:{number}")
    return f"have a limit's number: {literal}" if literal else None


def figures():
    run = subprocess.run([sys.executable, ROOT / "bench/pages", "--check"], capture_output=True, text=True)
    return None if run.returncode == 0 else run.stdout + run.stderr


def checks():
    yield "pages: links", links
    yield "pages: widths", widths
    yield "pages: a definition's name stands once", names
    yield "pages: a definition stands where a page says", definitions
    yield "pages: names in quotes stand in the sources", quoted
    yield "pages: the clause that refuses an edit", edits
    yield "pages: how many libraries there are", libraries
    yield "pages: limits by their names", limits
    yield "pages: the tables of figures", figures
