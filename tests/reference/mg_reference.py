"""A plain reference for mg that shares no code with it: every answer straight from its definition."""

import argparse
import sys
from pathlib import Path

from generator import make_collection, make_session, trial
from parts import LIMITS, Damaged, build, decode, summary
from sessions import phrase_session, session, wild_session
from standing import check, read_parts, write_parts
from texts import Collection, first_limit, join, joined

DEFAULT_BUDGET = 16_777_216


def load(name: str) -> Collection:
    """The collection of a file."""
    return Collection(Path(name).read_bytes())


def decoded(name: str) -> Collection:
    """The collection that the coded text under a name means."""
    return Collection(join(*decode(read_parts(name))))


def stands(name: str, collection: str | None) -> bytes:
    """The line that says for how much the files stand; the first difference is raised."""
    parts = read_parts(name)
    found = check(parts)
    if collection is not None and Path(collection).read_bytes() != found.data:
        raise Damaged("collection", "is another one than that of the files")
    return b"stands %d documents %d bytes\n" % (len(found), len(found.data))


def build_files(collection: str, name: str, budget: int, version: int) -> bytes:
    """Writes all parts and answers the summary; a collection past a limit is refused."""
    read = load(collection)
    limit = first_limit(read.data, *LIMITS[version])
    if limit:
        raise SystemExit(limit)
    write_parts(name, build(read, budget, version))
    return summary(read, budget)


def main() -> int:
    """Runs one command; replies go to standard output as bytes."""
    parser = argparse.ArgumentParser(description=__doc__)
    tools = parser.add_subparsers(dest="tool", required=True)

    def tool(name: str, told: str, *places: str) -> argparse.ArgumentParser:
        added = tools.add_parser(name, help=told)
        for place in places:
            added.add_argument(place, type=int if place in ("seed", "docs") else str)
        return added

    tool("scan", "answer a session over a collection", "collection")
    tool("wild", "answer wildcard terms over a collection", "collection")
    tool("phrase", "answer phrases over a collection", "collection")
    building = tool("build", "write all parts of a collection", "collection", "name")
    building.add_argument("--budget", type=int, default=DEFAULT_BUDGET)
    building.add_argument("--version", type=int, choices=(1, 2), default=2)
    tool("stands", "check all parts under a name", "name").add_argument("collection", nargs="?")
    tool("decode", "print the collection of a name", "name")
    tool("query", "answer a session over the collection of a name", "name")
    tool("join", "print the join of two collections", "first", "second")
    summing = tool("summary", "print the summary of a build", "collection")
    summing.add_argument("--budget", type=int, default=DEFAULT_BUDGET)
    tool("make-collection", "print a generated collection", "seed", "docs")
    tool("make-session", "print a generated session", "seed")
    tool("trial", "print the summary of a trial", "seed", "docs")

    words = parser.parse_args()
    try:
        match words.tool:
            case "scan":
                out = session(load(words.collection), sys.stdin.buffer.read())
            case "wild":
                out = wild_session(load(words.collection), sys.stdin.buffer.read())
            case "phrase":
                out = phrase_session(load(words.collection), sys.stdin.buffer.read())
            case "build":
                out = build_files(words.collection, words.name, words.budget, words.version)
            case "stands":
                out = stands(words.name, words.collection)
            case "decode":
                out = decoded(words.name).data
            case "query":
                out = session(decoded(words.name), sys.stdin.buffer.read())
            case "join":
                out = joined(Path(words.first).read_bytes(), Path(words.second).read_bytes())
            case "summary":
                out = summary(load(words.collection), words.budget)
            case "make-collection":
                out = make_collection(words.seed, words.docs)
            case "make-session":
                out = make_session(words.seed)
            case _:
                out = trial(words.seed, words.docs)
    except Damaged as damage:
        print(f"differs: {damage}")
        return 1
    sys.stdout.buffer.write(out)
    return 0


if __name__ == "__main__":
    sys.exit(main())
