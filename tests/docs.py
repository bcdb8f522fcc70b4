"""What the pages say of the repository, held to the repository itself.

Names, crates, laws, fields, links and targets that a page has must be there, sentences are short, and no proof
cites what another crate keeps for itself.
"""

import re

from transcripts import ROOT, commands_of, markdown_blocks, shell

CRATES = ROOT / "crates"
# Pages in which no sentence is longer than 25 words; the lab book of speeds is none of them.
SHORT = [
    "README.md", "CHANGELOG.md", "tests/README.md", "docs/ARCHITECTURE.md", "docs/BUILDING.md", "docs/CONTRIBUTING.md",
    "docs/DECISIONS.md", "docs/DEFINITIONS.md", "docs/FORMAT.md", "docs/GLOSSARY.md", "docs/MEMORY.md", "docs/OPEN.md", "docs/PROOFS.md", "docs/SPEEDS.md",
]
MOST_WORDS = 25
MOST_LINES = 130
# Pages whose code spans of one word are names of the crates.
NAMING = ["docs/ARCHITECTURE.md", "docs/CONTRIBUTING.md", "docs/DECISIONS.md", "docs/DEFINITIONS.md", "docs/GLOSSARY.md", "docs/OPEN.md", "docs/PROOFS.md"]


def pages():
    """Every page in Markdown, by its path from the top."""
    found = (path.relative_to(ROOT) for path in ROOT.rglob("*.md"))
    return sorted(str(path) for path in found if not {"out", ".git", "bin"} & set(path.parts))


def dependencies():
    """The crates of crates.txt, each with the crates that it stands on; a heading is no crate."""
    lines = (ROOT / "crates.txt").read_text().splitlines()
    rows = (line.split(":") for line in lines if ":" in line and not line.startswith("#"))
    return {name: set(below.split()) for name, below in rows}


def cells(line):
    """The cells of a table's row."""
    return [cell.strip() for cell in re.split(r"(?<!\\)\|", line.strip())[1:-1]]


def rows_of(text):
    """The rows of all tables of a text, without their heads."""
    rows = [cells(line) for line in text.splitlines() if line.startswith("|")]
    rules = [number for number, row in enumerate(rows) if all(re.fullmatch(r":?-+:?", cell) for cell in row)]
    heads = {number - 1 for number in rules}
    return [row for number, row in enumerate(rows) if number not in heads and number not in rules]


def spans(text):
    """The code spans of a text."""
    return re.findall(r"`([^`\n]+)`", text)


# A cell that only lists files by crate is no sentence, however many there are.
FILES = re.compile(r"(?:\w+: `\w+`(?:, `\w+`)*(?:; |$))+")


def paragraphs(path):
    """What a page says in sentences: its paragraphs, items and cells, without its blocks of code and its headings."""
    text = re.sub(r"^```.*?^```$", "", path.read_text(), flags=re.M | re.S)
    found = [[]]
    for line in text.splitlines():
        words = line.strip()
        if line.startswith("    ") and not found[-1] or not words or words.startswith("#"):
            found.append([])
        elif words.startswith("|"):
            found += [[cell] for cell in cells(words) if not FILES.fullmatch(cell)] + [[]]
        elif item := re.match(r"(?:[-*]|\d+\.) (.*)", words):
            found.append([item[1]])
        else:
            found[-1].append(words)
    return [" ".join(lines) for lines in found if lines]


def sentences_of(path):
    """The sentences of a page, a code span as one word and a link as its text."""
    for paragraph in paragraphs(path):
        text = re.sub(r"\[([^\]]*)\]\([^)]*\)", r"\1", re.sub(r"`[^`]*`", "code", paragraph)).replace("*", "")
        yield from re.split(r"(?<=[.!?])[\"')]*\s+(?=[A-Z0-9\"(c])", text)


def lengths(suite):
    """README is one page, and sentences are short."""
    lines = len((ROOT / "README.md").read_text().splitlines())
    suite.check("lines of README.md", lines <= MOST_LINES or lines, True)
    for page in SHORT:
        counts = [(len(re.findall(r"\S*\w\S*", sentence)), sentence) for sentence in sentences_of(ROOT / page)]
        suite.check(f"{page} has sentences", len(counts) > 10 or counts, True)
        suite.check(f"long sentences of {page}", [sentence for count, sentence in counts if count > MOST_WORDS], [])


def crates(suite):
    """The map has a row for each crate but those of tests, and what it stands on is so."""
    table = rows_of((ROOT / "docs" / "ARCHITECTURE.md").read_text().split("## The table")[1].split("\n## ")[0])
    named = [row[0] for row in table]
    known = dependencies()
    suite.check("crates of the map", sorted(named), sorted(name for name in known if not name.endswith("_tests")))
    for name, _, below in table:
        wrong = [crate for crate in re.findall(r"\bmg_\w+", below) if crate not in known.get(name, ())]
        suite.check(f"what the map says that {name} stands on", wrong, [])
    folders = sorted(path.name for path in CRATES.iterdir() if (path / "src").is_dir())
    suite.check("crates.txt has every folder of crates", sorted(known), folders)


def imports(suite):
    """A proof cites no module of another crate's proofs but CallerLemmas, and those of mg_defs and mg_laws."""
    found = set()
    for path in CRATES.rglob("*"):
        place = path.relative_to(CRATES)
        if path.suffix not in (".antt", ".rt") or "out" in place.parts:
            continue
        for crate, module in re.findall(r"Rattle\.(mg_\w+)\.proofs\.(\w+)", path.read_text()):
            if crate not in (place.parts[0], "mg_defs", "mg_laws") and module != "CallerLemmas":
                found.add((str(place), f"{crate}.proofs.{module}"))
    suite.check("proofs that cite another crate's own", sorted(found), [])


def words_of_crates():
    """Every word of the code, the definitions and the names of their files."""
    found = set()
    for path in CRATES.rglob("*"):
        if "out" not in path.parts and path.suffix in (".rt", ".antt", ".edit"):
            found |= set(re.findall(r"[A-Za-z_]+", f"{path.stem} {path.parent.name} {path.read_text()}"))
    return found | set(dependencies())


def names(suite):
    """A name that a page has in a code span is one of the crates', of the suite's, or of the toolchain's modules."""
    known = words_of_crates() | {"Lts", "Proof"}
    for path in (ROOT / "tests").glob("*.py"):
        known |= set(re.findall(r"\w+", f"{path.stem} {path.read_text()}"))
    for page in NAMING:
        found = [span for span in spans((ROOT / page).read_text()) if re.fullmatch(r"[A-Za-z_]+(::[A-Za-z_]+)*", span)]
        unknown = {span for span in found if not known.issuperset(span.split("::"))}
        suite.check(f"names of {page} that are nowhere", sorted(unknown - {"_tests"}), [])


def laws(suite):
    """DEFINITIONS has each law and each file of mg_defs and mg_laws."""
    page = (ROOT / "docs" / "DEFINITIONS.md").read_text()
    told = set(spans(page))
    for crate in ["mg_defs", "mg_laws"]:
        lib = (CRATES / crate / "src" / "lib.rt").read_text()
        exported = set(re.findall(r"\w+", " ".join(re.findall(r"^pub use \w+::\{?([^;}]*)", lib, re.M))))
        functions = {name for name in exported if re.fullmatch(r"[a-z_]+", name)}
        suite.check(f"laws of {crate} that DEFINITIONS has not", sorted(functions - told), [])
    files = {path.stem for path in (CRATES / "mg_defs" / "specs").glob("**/*.antt")} - {"Lib"}
    suite.check("files of mg_defs that DEFINITIONS has not", sorted(files - told), [])


def records_of(name):
    """The records of this name of the crates' definitions."""
    texts = [path.read_text() for path in CRATES.glob("*/specs/**/*.antt")]
    return "".join(found for text in texts for found in re.findall(rf"^pub record {name}\b.*?(?=^\S)", text + "\n.", re.M | re.S))


def fields_of(record):
    """The fields of a record of the crates' definitions, and those of the records that it holds."""
    text = re.sub(r"\n {4,}", " ", records_of(record))
    fields = set(re.findall(r"^  pub (\w+) :", text, re.M))
    for held in re.findall(r"^  pub \w+ : (?:.* → )?(?:CallsOnce \()?(\w+)", text, re.M):
        fields |= fields_of(held)
    return fields


def promises(suite):
    """PROOFS has a section for each tool, named with its record, and cites fields that the record has."""
    does = (CRATES / "mg_top" / "specs" / "Does.antt").read_text()
    tools = dict(re.findall(r"^Does \(Some \((\w+)[^)]*\)\) run = (\w+)", does, re.M))
    page = (ROOT / "docs" / "PROOFS.md").read_text()
    readme = rows_of((ROOT / "README.md").read_text())
    suite.check("tools", len(tools), 10)
    clauses = set(re.findall(r"^\s*ensures (\w+)", (CRATES / "mg_check" / "src" / "found.rt").read_text(), re.M))
    law = (CRATES / "mg_top" / "src" / "laws.rt").read_text().partition("pub fn runs_end_by_their_call()")[2]
    ends = {"runs_end_by_their_call"} | set(re.findall(r"^\s*ensures (\w+)", law, re.M))
    for tool, record in tools.items():
        section = page.partition(f"\n## {tool}\n")[2].split("\n#")[0]
        suite.check(f"the record of {tool} in PROOFS", section.strip().startswith(f"`{record}`"), True)
        promised = [row for row in readme if f"`{tool}`" in row[0] and f"`{record}`" in row[-1]]
        suite.check(f"{tool} and {record} in README", len(promised), 1)
        known = fields_of(record) | fields_of("AreMade") | ends | (clauses if tool == "check" else set())
        cited = {span for row in rows_of(section) for span in spans(row[1]) if re.fullmatch(r"[a-z_]+", span)}
        cited -= {"one_collection", "session_bound", "session_text_bound"}
        suite.check(f"fields of {record} in PROOFS", sorted(cited - known), [])


def limits(suite):
    """The numbers of README's limits are numbers of the manual's."""
    manual = (ROOT / "man" / "mg.1").read_text().split("\n.Sh LIMITS\n")[1].split("\n.Sh ")[0]
    known = {int(number) for number in re.findall(r"\b\d+\b", manual)}
    section = (ROOT / "README.md").read_text().split("\n## Limits\n")[1].split("\n## ")[0]
    told = re.findall(r"(\d+)\^(\d+)( - 1)?|(?<![\d,])(\d[\d,]*)", " ".join(row[1] for row in rows_of(section)))
    numbers = [int(base) ** int(power) - bool(less) if base else int(plain.replace(",", "")) for base, power, less, plain in told]
    suite.check("limits of README", len(numbers) > 8 or numbers, True)
    suite.check("limits of README that the manual has not", [number for number in numbers if number not in known], [])


def links(suite):
    """Each link of a page leads to a file, and one within a page to a heading; each page of docs/ has one to it."""
    linked = set()
    for page in pages():
        text = (ROOT / page).read_text()
        headings = {re.sub(r"[^\w -]", "", line.lstrip("# ").lower()).replace(" ", "-") for line in text.splitlines() if line.startswith("#")}
        for target in re.findall(r"\]\(([^)\s]+)\)", text):
            path, _, heading = target.partition("#")
            there = (ROOT / page).parent.joinpath(path).exists() if path else heading in headings
            suite.check(f"{page}: the link to {target}", "://" in target or there, True)
            linked.add((ROOT / page).parent.joinpath(path).resolve())
    lost = [page for page in pages() if page.startswith("docs/") and (ROOT / page).resolve() not in linked]
    suite.check("pages of docs/ that no page leads to", lost, [])


def is_there(suite, command):
    """A command of a page that is no transcript: its target, its script or its program is there."""
    words = [word for word in command.split("#")[0].split() if not re.match(r"[A-Z_]+=", word)]
    if words[0] == "make":
        folder = ROOT / words[words.index("-C") + 1] if "-C" in words else ROOT
        makefile = (folder / "Makefile").read_text()
        targets = [word for word in words[1:] if re.fullmatch(r"[a-z]+(-[a-z]+)*", word)]
        return all(re.search(rf"^{target}:", makefile, re.M) for target in targets)
    if words[0] == "python3":
        return (ROOT / words[1]).exists()
    if words[0] == "bin/mg":
        path = f"PATH={suite.program.parent}:$PATH"
        return "mg: " not in shell(suite, f"{path} {suite.program} {' '.join(words[1:])}", ROOT)
    if words[0].startswith("mg-"):
        return (ROOT / "contrib" / words[0]).exists() and (ROOT / "man" / f"{words[0]}.1").exists()
    return words[0] == "rt" or command.startswith(("file: ", "old: ", "new: "))


def commands(suite):
    """Pages with transcripts are run by the suite, and every other command of a block is one."""
    run = {"README.md", "docs/FROM-GREP.md", "docs/FORMAT.md", "examples/shards/README.md"}
    for page in pages():
        blocks = markdown_blocks(ROOT / page)
        suite.check(f"{page} is run where it has transcripts", page in run, any(commands_of(block) for block in blocks))
        for command in [line for block in blocks if not commands_of(block) for line in block if line.strip()]:
            suite.check(f"{page}: {command}", is_there(suite, command), True)
        for command in [span for span in spans((ROOT / page).read_text()) if re.match(r"(make|python3) \S", span)]:
            suite.check(f"{page}: {command}", is_there(suite, command), True)


def reading_order(suite):
    """The way through the definitions, contract by contract, is the one that the definitions have."""
    printed = shell(suite, "python3 tools/reading_order.py", ROOT)
    page = (ROOT / "docs/DEFINITIONS.md").read_text()
    for row in printed.splitlines():
        suite.check(f"docs/DEFINITIONS.md has the row {row.partition(' | ')[0]}", row in page, True)


PARTS = [lengths, crates, imports, names, laws, promises, limits, links, commands, reading_order]
