"""Transcripts of a terminal in pages: commands behind `$ `, their further lines behind `> `, and what they print.

A page is run as it stands: every command in a shell, in one folder a block or one folder a page, and what it
prints, errors among it, is compared with the lines below it.
"""

import os
import pathlib
import re
import subprocess
import tempfile

ROOT = pathlib.Path(__file__).resolve().parent.parent
# What `make install` writes into a page.
VERSION = (ROOT / "VERSION").read_text().strip()
# What mdoc writes otherwise within a literal display.
ESCAPES = {"\\e": "\\", "\\(aq": "'", "\\-": "-", "\\ ": " ", "\\&": ""}


def plain(line):
    """A line of a literal display as it is read on the page."""
    text = re.sub(r"\\(?:\(aq|e|-| |&)", lambda escape: ESCAPES[escape[0]], line)
    assert "\\" not in re.sub(r"\\e|\\\(aq|\\-|\\ |\\&", "", line), line
    return text


def manual_blocks(path):
    """The literal displays of a manual page as it is installed, each a list of lines."""
    page = path.read_text().replace("@VERSION@", VERSION)
    blocks = re.findall(r"^\.Bd -literal[^\n]*\n(.*?)^\.Ed$", page, re.M | re.S)
    return [[plain(line) for line in block.splitlines()] for block in blocks]


def markdown_blocks(path):
    """The indented blocks and the fenced ones of a page, each a list of lines."""
    text = path.read_text()
    fenced = [match[1].splitlines() for match in re.finditer(r"^```\w*\n(.*?)^```$", text, re.M | re.S)]
    indented = re.finditer(r"^    .*\n(?:(?:\n)*    .*\n)*", text, re.M)
    return fenced + [[line[4:] for line in match[0].splitlines()] for match in indented]


def commands_of(block):
    """Commands with the output that stands below each; none for a block that is no transcript."""
    if not block or not block[0].startswith("$ "):
        return []
    commands = []
    for line in block:
        if line.startswith("$ "):
            commands.append([line[2:], ""])
        elif line.startswith("> ") and not commands[-1][1]:
            commands[-1][0] += "\n" + line[2:]
        else:
            commands[-1][1] += line + "\n"
    return commands


def tools(suite):
    """A folder with the program and its companions by their names."""
    folder = suite.folder / "tools"
    if not folder.exists():
        folder.mkdir()
        (folder / "mg").symlink_to(suite.program)
        for name in ("mg-collect", "mg-archive", "mg-shards"):
            (folder / name).symlink_to(ROOT / "contrib" / name)
    return folder


def shell(suite, command, folder):
    """What a command prints in this folder, errors among it."""
    environment = {**os.environ, "PATH": f"{tools(suite)}:{os.environ['PATH']}", "LC_ALL": "C.UTF-8"}
    run = subprocess.run(
        ["sh", "-c", command], cwd=folder, stdout=subprocess.PIPE, stderr=subprocess.STDOUT, timeout=300, env=environment
    )
    return run.stdout.decode(errors="replace")


def run_block(suite, name, block, folder):
    """Compares what each command of a block prints, but for empty lines at its end; answers how many commands there are."""
    commands = commands_of(block)
    for command, wanted in commands:
        suite.check(f"{name}: {command}", shell(suite, command, folder).rstrip("\n"), wanted.rstrip("\n"))
    return len(commands)


def fresh_folder(suite):
    return tempfile.TemporaryDirectory(dir=suite.folder)
