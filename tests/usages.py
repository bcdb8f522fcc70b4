"""What is told where words are not understood, by the synopsis of the manual."""

import re

from transcripts import ROOT


def synopsis():
    """The words of each tool as mg(1) has them, its arguments in capitals."""
    page = (ROOT / "man" / "mg.1").read_text()
    section = re.search(r"^\.Sh SYNOPSIS\n(.*?)^\.Sh ", page, re.M | re.S)[1]
    usages = {}
    for lines in section.split(".Nm\n")[1:]:
        words = []
        for macro, rest in re.findall(r"^\.(Cm|Ar|Op) (.*)$", lines, re.M):
            option = re.fullmatch(r"Fl \\-(\w+) Ar (\w+)", rest)
            named = rest.split(" Ar ")[-1]
            words.append(f"[--{option[1]} {option[2].upper()}]" if option else rest if macro == "Cm" else named.upper())
        if lines.startswith(".Cm"):
            usages[words[0]] = " ".join(words)
    return usages


def hint(words):
    """The line behind that of words that are not understood."""
    tool = synopsis().get(words[0]) if words else None
    return (f"usage: mg {tool}; " if tool else "") + "try: mg --help\n"


def not_understood(words):
    """Status 1, no output, the fault's line and the hint."""
    return 1, b"", b"mg: the words are not understood\n" + hint(words).encode()
