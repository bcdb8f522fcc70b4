"""A copy of the repository's crates, with what is kept of their proofs."""

import os
import shutil

from wrong_bodies_page import GATE, LEFT_OUT, ROOT, crates_of


def with_all_below(chosen, crates):
    """These crates and all below them."""
    found, left = set(), list(chosen)
    while left:
        name = left.pop()
        if name in crates and name not in found:
            found.add(name)
            left += crates[name][1]
    return found


def linked(source, to):
    """Makes a hard link, or a copy where the file system has none."""
    try:
        os.link(source, to)
    except OSError:
        shutil.copy2(source, to)


def copy_crates(room, chosen):
    """Copies these crates and those below them, with the libraries that are at hand."""
    crates = crates_of(ROOT)
    names = with_all_below(chosen, crates)
    (room / "crates").mkdir()
    shutil.copy2(ROOT / "HANDLES", room)
    (room / "crates.txt").write_text("".join(f"{crates[name][0]}\n" for name in crates if name in names))
    for name in names:
        source, to = ROOT / "crates" / name, room / "crates" / name
        shutil.copytree(source, to, ignore=shutil.ignore_patterns("out", GATE, LEFT_OUT))
        # What rt builds anew it removes first, so that a link keeps the original.
        if (source / "out" / "rlib").is_dir():
            shutil.copytree(source / "out" / "rlib", to / "out" / "rlib", copy_function=linked)


def is_left_by_gate(name):
    """Whether the gate left the library of a crate, and none of the crate's files is newer."""
    crate = ROOT / "crates" / name
    library = crate / "out" / "rlib" / f"{name}.rlib"
    if not library.is_dir() or (crate / "out" / "rlib" / "stamp").exists():
        return False
    sources = [ROOT / "crates.txt", *(path for part in ("src", "specs", "proofs") for path in (crate / part).rglob("*"))]
    # What an earlier run kept is linked with the time of that run, so the folder's own time tells when the gate left it.
    return max(path.stat().st_mtime for path in sources) <= library.stat().st_mtime


def kept_work(crate):
    """The folder of the copy that keeps what checks of a crate proved; rt takes it where it builds the library."""
    return f"{crate.folder}/out/incremental"


def take_kept_work(crate, is_tried):
    """Copies what is kept of a crate's proof where the crate is tried, or its library is not at hand."""
    kept = ROOT / "crates" / crate.name / "out" / "incremental"
    if kept.is_dir() and (is_tried or not crate.is_built()):
        shutil.copytree(kept, kept_work(crate))
    elif is_tried:
        os.makedirs(kept_work(crate))
