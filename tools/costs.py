#!/usr/bin/env python3
"""What each function of a crate takes of its proof, in seconds.

    python3 tools/costs.py CRATE [--rows N]          or    make costs CRATE=mg_bool

The crate is checked from nothing, in one job, over the libraries below it, which are proved first where they are not.
The prover writes a file for each module when it has checked it; the time from the file before it is the module's. These
are seconds of the clock, so nothing else should run. A function's modules are `Lts` (the walk of borrows), `Proof` (goals
that are searched), `Answers` (goals that are answered by hand) and smaller ones. A star marks what the contributor's
page asks to be cut or answered: an `Lts` of more than 3 MB, or a `Proof` of more than 3 seconds.
"""

import argparse
import os
import pathlib
import re
import subprocess
import sys
import tempfile

from kit import kit

ROOT = pathlib.Path(__file__).resolve().parent.parent
MOST_LTS = 3_000_000
MOST_PROOF = 3.0
KINDS = ("Lts", "Proof", "Answers")


def modules(folder):
    """Each module of a check with its seconds and the bytes of its file, in the order in which they were written."""
    written = [entry for place in folder.iterdir() if not place.name.endswith("-offers") for entry in os.scandir(place)]
    rows = sorted((entry.stat().st_mtime, entry.name, entry.stat().st_size) for entry in written if entry.name.endswith(".oantt"))
    seconds = (after[0] - before[0] for before, after in zip(rows, rows[1:]))
    return [(name, took, size) for took, (_, name, size) in zip(seconds, rows[1:])]


def place_of(name, crate):
    """The function that a module is of, and its kind; a module of no function is its own."""
    path = re.sub(r"\.oantt$", "", name).removeprefix("Rattle-").removeprefix(crate).lstrip(".-")
    path = re.sub(r"^(specs\.contracts|specs|proofs)\.", "", path)
    parts = path.split(".")
    if len(parts) > 1 and parts[-1][:1].isupper():
        kind = parts.pop()
        # `Code.Mir` is a part of `Code`, and so are links between functions.
        while len(parts) > 1 and parts[-1] in ("Code", "TheLinks", "TheImpl"):
            parts.pop()
        return "::".join(parts), kind
    return path, ""


def table(crate, found):
    """A row for each function: its seconds, those of each kind with the megabytes of its Lts, and whether it is dear."""
    functions = {}
    for name, took, size in found:
        function, kind = place_of(name, crate)
        row = functions.setdefault(function, {"all": 0.0, "size": 0, **dict.fromkeys(KINDS, 0.0)})
        row["all"] += took
        if kind in KINDS:
            row[kind] += took
        if kind == "Lts":
            row["size"] = max(row["size"], size)
    return sorted(functions.items(), key=lambda pair: (-pair[1]["all"], pair[0]))


def shown(rows, count):
    """The dearest functions, a line each."""
    yield f"{'seconds':>8} {'Lts':>7} {'MB':>5} {'Proof':>7} {'Answers':>8}  function"
    for function, row in rows[:count]:
        dear = "*" if row["size"] > MOST_LTS or row["Proof"] > MOST_PROOF else " "
        kinds = f"{row['Lts']:7.1f} {row['size'] / 1e6:5.1f} {row['Proof']:7.1f} {row['Answers']:8.1f}"
        yield f"{row['all']:8.1f} {kinds} {dear}{function}"


def check_anew(name, fresh):
    """Checks the crate into a folder in which nothing is kept."""
    folder = ROOT / "crates" / name
    # The libraries below are proved first, and are no part of what is measured.
    if subprocess.run(["rt", "check", "--jobs", "1"], cwd=folder).returncode:
        sys.exit(f"costs: {name} is not proved")
    # The prover is called with rt's own words, since rt itself begins with what any checkout on this machine kept.
    rtlib = kit("costs", ("rtlib",), "give the prover an empty folder by hand, by --incremental").rtlib
    crate = next(it for it in rtlib.crates_below(str(ROOT)) if it.name == name)
    words = [rtlib.RATTLE, "check", *crate.words(["--jobs", "1"]), "--incremental", fresh]
    if subprocess.run(words, cwd=folder).returncode:
        sys.exit(f"costs: {name} is not proved from nothing")


def main():
    words = argparse.ArgumentParser(description=__doc__.split("\n")[0])
    words.add_argument("crate")
    words.add_argument("--rows", type=int, default=30, help="how many functions are shown (30)")
    given = words.parse_args()
    if not (ROOT / "crates" / given.crate / "src").is_dir():
        sys.exit(f"costs: there is no crate {given.crate}")
    with tempfile.TemporaryDirectory() as fresh:
        check_anew(given.crate, fresh)
        found = modules(pathlib.Path(fresh))
    rows = table(given.crate, found)
    print(f"\n{given.crate}: {sum(took for _, took, _ in found):.1f} seconds for {len(found)} modules of {len(rows)} functions and files")
    print("\n".join(shown(rows, given.rows)))
    for kind in KINDS:
        print(f"{kind}: {sum(row[kind] for _, row in rows):.1f} seconds")


if __name__ == "__main__":
    main()
