"""The wrong bodies in the crates' folders, and the page that names them."""

import pathlib
import re
from dataclasses import dataclass

ROOT = pathlib.Path(__file__).resolve().parent.parent
PAGE = "docs/WRONG-BODIES.md"
# The folder whose edits the gate tries, and that of the others.
GATE = "must-fail"
LEFT_OUT = "wrong-bodies"
EDITS = "## Edits by crate\n"


@dataclass
class Fault:
    """A line of the page's table of faults: the crate has the edits or the tests, and what refuses them."""

    fault: str
    crate: str
    edits: list
    tests: list
    refused_by: str


def edits_of(root, crate, folders=(GATE, LEFT_OUT)):
    """The edits of a crate's folders, in the order of their names."""
    return [path for folder in folders for path in sorted((root / "crates" / crate / folder).glob("*.edit"))]


def crates_of(root):
    """For each crate its line of crates.txt and the crates that it names, lowest first."""
    lines = (root / "crates.txt").read_text().splitlines()
    lines = [line for line in lines if line.strip() and not line.startswith("#")]
    return {line.split(":")[0].split()[0]: (line, line.split(":")[1].split()) for line in lines}


def rows_between(text, begin, end):
    """The cells of each row of the table between two headings."""
    part = text.partition(begin)[2].partition(end)[0]
    rows = [line for line in part.splitlines() if line.startswith("|")][2:]
    return [[cell.strip() for cell in row.strip("|").split(" | ")] for row in rows]


def faults(root=ROOT):
    """The table of faults."""
    found = []
    for cells in rows_between((root / PAGE).read_text(), "## Faults\n", EDITS):
        fault, crate, what, refused_by = (cell.strip() for cell in cells)
        names = re.findall(r"`([^`]+)`", what)
        are_tests = what.startswith("test ")
        found.append(Fault(fault, crate, [] if are_tests else names, names if are_tests else [], refused_by))
    return found


def named_edits(root=ROOT):
    """The edits that the page's list by crates names, each with its folder and crate."""
    named = set()
    for crate, in_gate, others in rows_between((root / PAGE).read_text(), EDITS, "\n## "):
        named |= {(crate, GATE, name) for name in re.findall(r"`([^`]+)`", in_gate)}
        named |= {(crate, LEFT_OUT, name) for name in re.findall(r"`([^`]+)`", others)}
    return named


def write_page(root=ROOT):
    """Writes the page's list by crates anew, from the folders."""
    text = (root / PAGE).read_text()
    lines = ["", "| Crate | In the gate | By `make wrong-bodies` |", "|---|---|---|"]
    for crate in crates_of(root):
        cells = [", ".join(f"`{path.stem}`" for path in edits_of(root, crate, (folder,))) for folder in (GATE, LEFT_OUT)]
        if any(cells):
            lines.append(f"| {crate} | {cells[0]} | {cells[1]} |")
    (root / PAGE).write_text(text.partition(EDITS)[0] + EDITS + "\n".join(lines) + "\n")
