"""Help, the version, and the hint behind words that are not understood."""

import re
import subprocess

from files import K
from transcripts import ROOT, VERSION, manual_blocks
from usages import not_understood, synopsis


def page_of_the_manual():
    """What `mg --help` prints, as mg(1) shows it."""
    block = next(block for block in manual_blocks(ROOT / "man" / "mg.1") if "$ mg --help" in block)
    lines = block[block.index("$ mg --help") + 1 :]
    end = next(i for i, line in enumerate(lines) if line.startswith("$ "))
    return "".join(line + "\n" for line in lines[:end])


def pages(suite):
    """Help and the version come on standard output at status 0, and no input is read."""
    wanted = page_of_the_manual()
    for word in ["--help", "-h", "help"]:
        suite.check(f"mg {word}", suite.run([word], b"cat\n"), (0, wanted.encode(), b""))
    for word in ["--version", "-V"]:
        suite.check(f"mg {word}", suite.run([word]), (0, f"mg {VERSION}\n".encode(), b""))
    for tool, usage in synopsis().items():
        lines = re.findall(rf"^(?:usage:|      ) mg ({tool} .*?)(?:  .*)?$", wanted, re.M)
        suite.check(f"help has the words of {tool}", lines, [usage])
    suite.check("help fits a terminal", [line for line in wanted.splitlines() if len(line) > 80], [])
    folder = subprocess.run([suite.program, "--help"], cwd=suite.folder, stdin=subprocess.DEVNULL, capture_output=True)
    suite.check("help at a closed input", folder.stdout.decode(), wanted)


def hints(suite):
    """Words that are not understood: the fault's line, then the words of the tool, or where help is."""
    for tool in synopsis():
        for words in [[tool], [tool, "--help"], [tool, "-h"], [tool, "a", "b", "c", "d", "e"]]:
            suite.check(f"the hint for {words}", suite.run(words), not_understood(words))
    others = [
        [], [""], ["Build"], ["buil"], ["help", "build"], ["--help", "x"], ["-V", "-V"], ["-v"], ["-help"], ["--", "--help"], ["--build"]
    ]
    for words in others:
        suite.check(f"the hint for {words}", suite.run(words), not_understood(words))


def names(suite):
    """Names that ask for help where they stand alone are names behind a tool."""
    for name in ["help", "--help", "-V"]:
        suite.file(name, K)
        suite.check(f"a collection {name}", suite.run(["scan", "--", name], b"sat\n"), (0, b"1\n= 1\n", b""))
        suite.check(f"a set {name}", suite.run(["build", "--", name, name])[0], 0)
        suite.check(f"a set {name} is decoded", suite.run(["decode", "--", name]), (0, K, b""))
        for path in [suite.folder / name, *suite.folder.glob(f"{name}.*")]:
            path.unlink()


def failing_outputs(suite):
    """A page that cannot be written has the status and the line of other output; a hint that cannot, changes nothing."""
    with open("/dev/full", "wb") as full:
        unwritten = (4, None, b"mg: the output could not be written\n")
        for word in ["--help", "--version"]:
            suite.check(f"a full output of {word}", suite.run([word], stdout=full), unwritten)
        run = subprocess.run([suite.program, "query"], stdout=subprocess.PIPE, stderr=full)
        suite.check("a full error output of a hint", (run.returncode, run.stdout), (1, b""))


PARTS = [pages, hints, names, failing_outputs]
