"""Pages of the repository that show commands and what they print, run as they stand."""

import re
import shutil

from transcripts import ROOT, commands_of, fresh_folder, markdown_blocks, run_block, shell

PAGE = ROOT / "docs" / "FROM-GREP.md"


def answer(text):
    """What an answer of grep, SQLite or mg says: the numbers of its documents, its counts, or the text it shows."""
    lines = text.rstrip("\n").splitlines()
    if all(re.fullmatch(r"(letters/)?\d+( \d+)?|= \d+", line) for line in lines):
        rows = [int(re.sub(r"letters/| \d+$", "", line)) for line in lines if line[0] != "="]
        return rows or [int(line[2:]) for line in lines]
    if lines[0].startswith("-- "):
        return lines[1:-2]
    return lines


def questions(suite):
    """The ten questions to grep, to SQLite and to mg: each prints what the page says, and the three answers are the same."""
    for name in ["grep", "sqlite3"]:
        suite.check(f"{name} is installed (Debian's package {name})", bool(shutil.which(name)), True)
    sections = PAGE.read_text().split("\n## ")
    with fresh_folder(suite) as folder:
        shutil.copy(ROOT / "examples" / "letters.mail", folder)
        count = sum(run_block(suite, PAGE.name, block, folder) for block in markdown_blocks(PAGE))
        suite.check(f"commands of {PAGE.name}", count, 42)
        asked = 0
        for number in range(1, 11):
            section = next(section for section in sections if section.startswith(f"{number}. "))
            block = re.findall(r"^    .*\n(?:\n*    .*\n)*", section, re.M)[-1]
            commands = commands_of([line[4:] for line in block.splitlines()])
            kinds = [re.search(r"grep|sqlite3|mg query", command)[0] for command, _ in commands]
            suite.check(f"who is asked in question {number}", kinds, ["grep", "sqlite3", "mg query"])
            answers = [answer(output) for _, output in commands]
            suite.check(f"answers to question {number}", answers[1:], answers[:1] * 2)
            scanned = commands[2][0].replace("mg query book", "mg scan letters.mail")
            suite.check(f"a scan for question {number}", shell(suite, scanned, folder).rstrip("\n"), commands[2][1].rstrip("\n"))
            asked += 1
        suite.check("questions", asked, 10)


def shown(suite, page, wanted):
    """The commands of a page, in a folder that has the repository's own folders beside the program."""
    with fresh_folder(suite) as folder:
        (suite.folder / folder / "bin").mkdir()
        (suite.folder / folder / "bin" / "mg").symlink_to(suite.program)
        for name in ["contrib", "docs", "examples", "Makefile"]:
            (suite.folder / folder / name).symlink_to(ROOT / name)
        count = sum(run_block(suite, page, block, folder) for block in markdown_blocks(ROOT / page))
        suite.check(f"commands of {page}", count, wanted)


def readme(suite):
    """The commands of the README."""
    shown(suite, "README.md", 7)


def formats(suite):
    """The commands of the page on files and texts."""
    shown(suite, "docs/FORMAT.md", 12)


PARTS = [questions, readme, formats]
