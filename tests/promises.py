"""The promises: the numbers at the head of their page are those of its table, and the must-fail edits that the pages of
the crates name are those that there are.
"""

import re
from collections import Counter

from process import ROOT

PAGE = ROOT / "docs/PROMISES.md"
STATUSES = ("proved", "in part", "by tests", "law")


def counted():
    page = PAGE.read_text()
    counts = Counter(re.findall(r"^\| \[.*\]\([^)]*#[^)]*\) \|.*\| ([a-z ]+) \|$", page, re.MULTILINE))
    said = f"{counts.total()} promises: " + ", ".join(f"{counts[status]} {status}" for status in STATUSES)
    return None if f"{said}." in page.replace("\n", " ") else f"the page does not say '{said}.'"


def edits():
    """A README names an edit of its crate by the name, and one of another crate with that before a slash."""
    named, listed = set(), set()
    for readme in ROOT.glob("crates/*/*.md"):
        page, crate = readme.read_text(), readme.parent.name
        for text in [page, *re.findall(r"^- Edits: (.*?)(?=^- |^#|\Z)", page, re.MULTILINE | re.DOTALL)]:
            found = {it if "/" in it else f"{crate}/{it}" for it in re.findall(r"`([\w/]+)`", text)}
            (named if text is page else listed).update(found)
    there = {f"{edit.parent.parent.name}/{edit.stem}" for edit in ROOT.glob("crates/*/must-fail/*.edit")}
    if there <= named and listed <= there:
        return None
    return f"not named: {sorted(there - named)}, and not there: {sorted(listed - there)}"


def checks():
    yield "promises: how many there are of each status", counted
    yield "promises: the must-fail edits", edits
