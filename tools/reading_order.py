#!/usr/bin/env python3
"""What a reader has to read to believe a contract: the definitions that its record leads to, in reading order.

    python3 tools/reading_order.py                 prints the table of docs/DEFINITIONS.md: a row for each tool's record
    python3 tools/reading_order.py CRATE.FILE.WORD     prints each definition that a word leads to, those that it uses before it

Only the texts of crates/*/specs are read. A definition leads to the words that stand in it, by its file and the imports of that
file. Words of std and the types that a crate's Rust code declares are left out.
"""

import pathlib
import re
import sys

ROOT = pathlib.Path(__file__).resolve().parent.parent
CRATES = ROOT / "crates"

# The headline's definitions, and the record of each tool's contract.
HEADLINE = ["mg_defs.Stands.Stand", "mg_layout.Stands.Stands", "mg_defs.Replies.session", "mg_defs.Summaries.summary_text"]
TOOLS = {
    "build": "mg_top.Built.Built",
    "decode": "mg_decode.Decoded.Decoded",
    "query": "mg_session.Queried.Queried",
    "scan": "mg_plain.Scanned.Scanned",
    "phrase": "mg_session.Phrased.Phrased",
    "wild": "mg_session.Matched.Matched",
    "merge": "mg_top.Merged.Merged",
    "migrate": "mg_top.Migrated.Migrated",
    "check": "mg_top.Checked.Checked",
    "trial": "mg_top.Tried.Tried",
}

IMPORT = re.compile(r"^(?:pub )?use\s+([^\n]+(?:\n[ \t]+[^\n]*)*)", re.M)
HEAD = re.compile(r"(?:(?:abbrev|pub|unfoldable|opaque|record|data)\s+)*([^\s:(){}]+)(?=[\s:])")
WORD = re.compile(r"[^\s(){},;λ→×]+")


class Specs:
    """The definitions of all specs/, each by its file, `mg_defs.Split`, and its name."""

    def __init__(self):
        self.definitions = {}
        self.imports = {}
        for path in sorted(CRATES.glob("*/specs/**/*.antt")):
            if path.name != "Lib.antt":
                self.read(path)

    def read(self, path):
        """Takes the imports and the definitions of a file."""
        file = ".".join([path.relative_to(CRATES).parts[0], *path.relative_to(CRATES).with_suffix("").parts[2:]])
        text = path.read_text()
        self.imports[file] = dict(pair for words in IMPORT.findall(text) for pair in imported(words.strip()))
        self.definitions[file] = found = {}
        name = None
        for line in text.splitlines():
            if not line or line.startswith(("use ", "pub use ", "--")):
                name = None
            elif not line[0].isspace():
                head = HEAD.match(line)
                name = head and head[1]
            if name:
                found[name] = found.get(name, "") + line.partition("--")[0] + "\n"

    def used_by(self, file, name):
        """The definitions that stand in one."""
        for word in sorted(set(WORD.findall(self.definitions[file][name]))):
            first, _, rest = word.partition(".")
            if first in self.definitions[file] and first != name:
                yield file, first
            elif first in self.imports[file]:
                other, inner = self.imports[file][first]
                inner = inner or rest.partition(".")[0]
                if inner in self.definitions.get(other, ()):
                    yield other, inner

    def leads_to(self, words):
        """All definitions that these lead to, each behind those that it uses."""
        order, seen = [], set()

        def visit(pair):
            if pair in seen:
                return
            seen.add(pair)
            for other in self.used_by(*pair):
                visit(other)
            order.append(pair)

        for word in words:
            file, _, name = word.rpartition(".")
            visit((file, name))
        return order


def imported(words):
    """The names that an import brings in, each with its file and its name there, or with none for the file itself."""
    path, _, names = words.partition(".{")
    file = re.sub(r"^Rattle\.(\w+)\.specs\.", r"\1.", path)
    if not names:
        file, _, other = file.partition(" as ")
        yield other or file.rpartition(".")[2], (file, None)
        return
    for item in names.rstrip("}").split(","):
        name, _, other = item.strip().partition(" as ")
        yield other or name, (file, name)


def files_of(order):
    """The files of definitions, in the order in which a reader is done with them."""
    last = {file: number for number, (file, _) in enumerate(order)}
    return sorted(last, key=last.get)


def by_crate(files):
    """The files a crate, `mg_defs` first, with their own names."""
    crates = {}
    for file in files:
        crate, _, name = file.partition(".")
        crates.setdefault(crate, []).append(f"`{name}`")
    crates = dict(sorted(crates.items(), key=lambda pair: pair[0] != "mg_defs"))
    return "; ".join(f"{crate}: {', '.join(names)}" for crate, names in crates.items())


def table():
    """The rows of the page: what each contract leads to beside the headline, and first what all ten lead to."""
    specs = Specs()
    known = files_of(specs.leads_to(HEADLINE))
    orders = {tool: specs.leads_to([record]) for tool, record in TOOLS.items()}
    beside = {tool: [file for file in files_of(order) if file not in known] for tool, order in orders.items()}
    shared = set.intersection(*map(set, beside.values()))
    first = [file for file in beside["build"] if file in shared]
    rows = ["| Tool | Contract | Definitions | Read, beside the headline's files |", "|---|---|---|---|"]
    rows.append(f"| all | | | {by_crate(first)} |")
    for tool, record in TOOLS.items():
        own = [file for file in beside[tool] if file not in shared]
        rows.append(f"| `{tool}` | `{record.rpartition('.')[2]}` | {len(orders[tool])} | {by_crate(own)} |")
    return rows


def main(words):
    if not words:
        print("\n".join(table()))
        return
    for file, name in Specs().leads_to(words):
        print(f"{file}.{name}")


if __name__ == "__main__":
    main(sys.argv[1:])
