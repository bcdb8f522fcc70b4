"""Tries the wrong bodies that the gate leaves out: the prover must refuse each.

    python3 tools/wrong_bodies.py [--all] [--jobs N] [--table FILE] [CRATE ..]
    python3 tools/wrong_bodies.py --list | --page

A wrong body is an edit `crates/NAME/wrong-bodies/*.edit`, in the form of those in `must-fail/`. The gate tries
only those in `must-fail/`, since it proves a crate that has any twice; with --all they are tried here too.

An edit changes one function, mostly. So that function is checked alone, over the libraries below: what is refused there is
refused in the whole crate. What is proved there is tried once more in the whole crate, from nothing; so is an edit whose
place is not found. Where the crate's own library is not at hand, the function is first checked as it stands.

Crates are tried side by side, in a copy of the repository, as many as `tools/jobs.sh` tells, and the edits of a crate in
turn, over what `rt check` kept of it and what the checks before proved. The libraries below are taken along, so that they
are not proved again: what `rt check` keeps of them in `crates/NAME/out/`, or what a whole `rt ci` over just these files
left there.

Each edit gives a row: the crate, the edit, the function that is refused first and its clause, what was checked, and the
seconds; with --table the rows are written to a file too. Where no clause is told, the prover refused the edit for
another reason, as a body that it does not cover: such an edit shows nothing. The exit status is 1 where an edit is not
refused. --list prints the table of faults of docs/WRONG-BODIES.md and tries nothing; --page writes that page's list of edits anew.
"""

import argparse
import functools
import os
import pathlib
import shutil
import subprocess
import sys
import tempfile
import time
from dataclasses import dataclass

from copied import copy_crates, is_left_by_gate, kept_work, take_kept_work
from edits import read_edit
from kit import kit, stop
from refusals import not_judged, refused_at
from wrong_bodies_page import GATE, LEFT_OUT, PAGE, ROOT, crates_of, edits_of, faults, write_page

# All that is used of the kit's rt: `checked` checks a copy of a crate with other texts, `in_lanes` runs tasks side by side.
NEEDED = ("checked", "in_lanes", "rtlib")
ROW = "| {:<14} | {:<60} | {:<48} | {:<24} | {:<8} | {:>5} |"
ONE_JOB = ["--jobs", "1"]


@dataclass
class Tried:
    """An edit that was tried: whether the prover refused it, where first, over what, and how long the checks took."""

    crate: str
    edit: str
    seconds: float
    is_refused: bool = False
    function: str = ""
    clause: str = ""
    over: str = "crate"
    said: str = ""

    def row(self):
        """The edit's row of the table."""
        clause = self.clause or "no clause is told"
        clause = clause if self.is_refused else "NOT REFUSED"
        return ROW.format(self.crate, self.edit, self.function, clause, self.over, round(self.seconds))


class Trial:
    """The crates of the copy, and what is known of them as they stand."""

    def __init__(self, rt, crates):
        self.rt = rt
        self.crates = crates
        self.left_by_gate = {name for name in crates if is_left_by_gate(name)}
        self.takes_left = False
        self.is_sound = functools.cache(self.is_proved)

    def check(self, crate, texts, place):
        """Checks a crate with these texts in place of its own: a place of it over what was kept, or the whole from nothing."""
        if not place:
            return self.rt.checked(crate, texts, ONE_JOB, None)
        return self.rt.checked(crate, texts, [*ONE_JOB, "--only", place], kept_work(crate))

    def is_proved(self, name, place):
        """Whether a crate is proved as it stands: its library is at hand, or the place of an edit is proved alone."""
        crate = self.crates[name]
        # What the gate left is asked first: to sum a crate with all below it takes a minute high up.
        return name in self.left_by_gate or crate.is_built() or self.check(crate, {}, place).returncode == 0

    def library(self, crate):
        """Builds a library where it is not at hand; whether it stands."""
        if self.takes_left:
            return True
        with tempfile.TemporaryFile("w+", errors="replace") as crate.out:
            if not crate.build_rlib(ONE_JOB, anew=False):
                return True
            crate.out.seek(0)
            print(crate.out.read(), end="", flush=True)
        print(f"wrong_bodies: {crate.name} is not proved, so nothing above it was tried", flush=True)
        return False

    def refusal(self, crate, edited, place):
        """What a check of an edit at one place gives: whether it is refused, the function and the clause, and why not."""
        if not self.is_sound(crate.name, place):
            return False, "", "", f"{place or crate.name} is not proved as it stands"
        ran = self.check(crate, edited.texts, place)
        why = not_judged(ran.returncode, ran.stdout, edited.texts)
        if why or not ran.returncode:
            return False, "", "", why or "the crate is still proved with this edit"
        return True, *refused_at(ran.stdout, list(edited.texts)), ""

    def edit(self, name, path):
        """Tries an edit, at its places alone and then in the whole crate, and prints its row."""
        start = time.monotonic()
        edited, why = read_edit(path, pathlib.Path(self.crates[name].folder))
        end = Tried(name, path.stem, 0, said=why)
        for place in [*edited.places, ""] if edited else []:
            end.is_refused, end.function, end.clause, end.said = self.refusal(self.crates[name], edited, place)
            end.over = place and "function" or "crate"
            if end.is_refused:
                break
        end.seconds = time.monotonic() - start
        print(end.row() if end.is_refused else f"{end.row()}\n{path.name}: {end.said}", flush=True)
        return end

    def edits(self, name, paths):
        """Tries a crate's edits in turn, each over what the checks before it proved."""
        tried = [self.edit(name, path) for path in paths]
        shutil.rmtree(kept_work(self.crates[name]))
        return tried


def tasks_of(trial, chosen, folders):
    """The tasks of a run: each library below, and the edits of each crate once the libraries below it stand."""
    needed = {dep.name for name in chosen for dep in trial.crates[name].below()}
    # The gate's libraries fit each other alone, so they are taken all or none.
    trial.takes_left = needed <= trial.left_by_gate
    tasks = {}
    for name, crate in trial.crates.items():
        waits, lines = [(dep.name, "lib") for dep in crate.below()], crate.count(rb"\n")
        if name in needed:
            call = lambda given, jobs, it=crate: trial.library(it)
            tasks[name, "lib"] = (waits, lines, 0, call)
        if name in chosen:
            # A library and its edits share what is kept of the crate.
            waits, paths = [*waits, *([(name, "lib")] if name in needed else [])], edits_of(ROOT, name, folders)
            call = lambda given, jobs, it=(name, paths), waits=waits: trial.edits(*it) if all(given[key] for key in waits) else []
            tasks[name, "edits"] = (waits, lines * len(paths), 0, call)
    return tasks


def try_all(rt, chosen, folders):
    """Tries the edits of these crates in a copy; what was seen of each that could be tried."""
    with tempfile.TemporaryDirectory(prefix="wrong-bodies-") as room:
        copy_crates(pathlib.Path(room), chosen)
        # Its first call sets a signal's handler, which only the main thread may.
        rt.rtlib.guarded()
        crates = sorted(rt.rtlib.crates_below(room), key=lambda it: len(it.below()))
        for crate in crates:
            take_kept_work(crate, crate.name in chosen)
        tasks = tasks_of(Trial(rt, {crate.name: crate for crate in crates}), chosen, folders)
        ends = rt.in_lanes(tasks)
    return [end for name in chosen for end in ends[name, "edits"]]


def head():
    """The lines above the rows of a table."""
    rule = "|".join("-" * (width + 2) for width in (14, 60, 48, 24, 8))
    return [ROW.format("crate", "edit", "refused at", "by", "over", "s"), f"|{rule}|------:|"]


def write_table(file, tried, seconds, jobs):
    """Writes the table with the commit and the day."""
    commit = subprocess.run(["git", "-C", ROOT, "describe", "--always", "--dirty"], capture_output=True, text=True)
    refused = sum(end.is_refused for end in tried)
    line = f"{len(tried)} edits at commit {commit.stdout.strip()} on {time.strftime('%Y-%m-%d')}: {refused} refused"
    line += f", in {round(seconds / 60)} minutes with {jobs} side by side."
    file.write_text("\n".join([line, "", *head(), *[end.row() for end in tried]]) + "\n")


def listed():
    """The table of faults, a line for each."""
    if not (ROOT / PAGE).is_file():
        stop("wrong_bodies", f"there is no {PAGE}")
    form = "{:<72} {:<13} {:<56} {}"
    rows = [form.format(it.fault, it.crate, ", ".join(it.edits + it.tests), it.refused_by) for it in faults(ROOT)]
    return "\n".join([form.format("Fault", "Crate", "Edit or test", "Refused by"), *rows])


def options():
    """What the words of the command line ask."""
    parser = argparse.ArgumentParser(description=__doc__.split("\n")[0])
    parser.add_argument("crates", nargs="*", metavar="CRATE", help="crates whose wrong bodies are tried; all if none")
    parser.add_argument("--all", action="store_true", help="the edits of the gate too")
    parser.add_argument("--jobs", metavar="N", help="how many crates are tried side by side")
    parser.add_argument("--table", type=pathlib.Path, metavar="FILE", help="a file that the table is written to")
    parser.add_argument("--list", action="store_true", help="print the table of faults, and try nothing")
    parser.add_argument("--page", action="store_true", help="write the page's list of edits anew, and try nothing")
    return parser.parse_args()


def main():
    """Tries what is asked; the exit status."""
    asked = options()
    if asked.list or asked.page:
        print(listed()) if asked.list else write_page(ROOT)
        return 0
    folders = (GATE, LEFT_OUT) if asked.all else (LEFT_OUT,)
    having = [name for name in crates_of(ROOT) if edits_of(ROOT, name, folders)]
    unknown = [name for name in asked.crates if name not in having]
    if unknown:
        stop("wrong_bodies", f"{unknown[0]} has no edit in crates/{unknown[0]}/{LEFT_OUT}")
    chosen = [name for name in having if not asked.crates or name in asked.crates]
    rt = kit("wrong_bodies", NEEDED, "try the edits by hand, by rt must-fail")
    jobs = asked.jobs or subprocess.run([ROOT / "tools" / "jobs.sh"], capture_output=True, text=True).stdout.strip()
    os.environ["RT_JOBS"] = jobs
    print("\n".join(head()), flush=True)
    start = time.monotonic()
    tried = try_all(rt, chosen, folders)
    if asked.table:
        write_table(asked.table, tried, time.monotonic() - start, jobs)
    refused = sum(end.is_refused for end in tried)
    print(f"{refused} refused, {len(tried) - refused} not refused")
    return 0 if refused == sum(len(edits_of(ROOT, name, folders)) for name in chosen) else 1


if __name__ == "__main__":
    sys.exit(main())
