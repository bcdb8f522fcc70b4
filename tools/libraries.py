#!/usr/bin/env python3
"""Lets `rt check` use the libraries that the gate left, in place of proving them once more.

    python3 tools/libraries.py CRATE ..          or    make libraries CRATE=mg_bool

A whole `rt ci` leaves each library in crates/NAME/out/rlib, without the stamp by which `rt check` knows of which text it
is. So the first `rt check` behind a gate proves all crates below once more. Here each library below the named crates gets
its stamp, where the gate left it and neither its crate nor one below it has changed since. Nothing is proved, and no
verdict rests on it: the gate goes by sums of its own.
"""

import argparse

from copied import is_left_by_gate, with_all_below
from kit import kit
from wrong_bodies_page import ROOT, crates_of


def stamped(names, crates):
    """Stamps the libraries below these crates, and answers which have one now and which don't."""
    rtlib = kit("libraries", ("rtlib",), "rt check proves the libraries itself").rtlib
    made = {it.name: it for it in rtlib.crates_below(str(ROOT))}
    lowest_first = sorted(with_all_below(names, crates) - set(names), key=lambda name: len(made[name].below()))
    usable, lacking = [], []
    for name in lowest_first:
        stands = all(below.name in usable for below in made[name].below())
        if stands and not made[name].is_built() and is_left_by_gate(name):
            (ROOT / "crates" / name / "out" / "rlib" / "stamp").write_text(made[name].stamp())
        (usable if stands and made[name].is_built() else lacking).append(name)
    return usable, lacking


def main():
    words = argparse.ArgumentParser(description=__doc__.split("\n")[0])
    words.add_argument("crates", nargs="+", metavar="CRATE")
    given = words.parse_args()
    crates = crates_of(ROOT)
    unknown = [name for name in given.crates if name not in crates]
    if unknown:
        words.error(f"there is no crate {unknown[0]}")
    usable, lacking = stamped(given.crates, crates)
    print(f"{len(usable)} libraries are used as the gate left them; to be proved anew: {', '.join(lacking) or 'none'}")


if __name__ == "__main__":
    main()
