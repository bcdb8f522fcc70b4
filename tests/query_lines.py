"""Random query lines, and how each is read.

Writes `crates/mg_query_lines_tests/stdin`, a line each, and `crates/mg_query_lines_tests/stdout`, the line read
as a Boolean query, a tab, and the line read as a ranked one. A query is shown with its signs
before what they join, as in `(| (& cat dog) sat)`.

The lines are read by the reference (`reference/`), which shares nothing with the program.

Run it at the top of the repository: `python3 tests/query_lines.py`.
"""

import pathlib
import random
import sys

sys.path.insert(0, str(pathlib.Path(__file__).parent / "reference"))

from queries import Query, Refused, boolean, ranked

SEED = 20
LINES = 2000
LINE_LIMIT = 1024
WORDS = "cat Dog SAT the x Y1 2nd naïve École a".split()
SEPARATORS = [" ", " ", " ", "  ", ",", "\t", "-", ". ", "'"]
SIGNS = {"and": b"&", "or": b"|", "not": b"!"}


def shown(query: Query) -> bytes:
    """A query with each sign before what it joins."""
    if query[0] == "term":
        return query[1]
    return b"(" + b" ".join([SIGNS[query[0]], *map(shown, query[1:])]) + b")"


def answer(reading, line: bytes) -> bytes:
    try:
        return reading(line)
    except Refused as refusal:
        return str(refusal).encode()


def a_word(draw: random.Random) -> str:
    if draw.randrange(40) == 0:
        return "w" * draw.randrange(250, 260)
    if draw.randrange(4) == 0:
        return f"t{draw.randrange(200)}"
    return draw.choice(WORDS)


def a_query(draw: random.Random, depth: int) -> str:
    """A text that is a query, but for the limits."""
    kind = draw.randrange(8) if depth > 0 else 0
    if kind < 2:
        return a_word(draw)
    if kind == 2:
        return "!" * draw.randrange(1, 4) + a_query(draw, depth - 1)
    if kind == 3:
        return "(" + a_query(draw, depth - 1) + ")"
    between = draw.choice([" ", " & ", "&", " | ", "|", ", "])
    return a_query(draw, depth - 1) + between + a_query(draw, depth - 1)


def a_mess(draw: random.Random) -> str:
    """Words, signs and separators in any order."""
    parts: list[str] = []
    for _ in range(draw.randrange(14)):
        kind = draw.randrange(5)
        parts.append(a_word(draw) if kind < 2 else draw.choice("&|!()") if kind < 4 else draw.choice(SEPARATORS))
        parts.append(draw.choice(["", " "]))
    return "".join(parts)


def changed(draw: random.Random, text: str) -> str:
    """The text with one character left out, doubled or put in."""
    at = draw.randrange(len(text) + 1)
    kind = draw.randrange(3)
    if kind == 0:
        return text[:at] + text[at + 1 :]
    if kind == 1:
        return text[:at] + text[at : at + 1] * 2 + text[at + 1 :]
    return text[:at] + draw.choice("&|!() ,a") + text[at:]


def a_long_line(draw: random.Random) -> str:
    """Near a limit: many distinct words, deep parentheses, or many signs."""
    kind = draw.randrange(4)
    if kind == 0:
        return " ".join(f"t{number % draw.randrange(60, 80)}" for number in range(draw.randrange(60, 90)))
    if kind == 1:
        depth = draw.randrange(30, 36)
        return "(" * depth + "x" + ")" * draw.randrange(depth - 1, depth + 2)
    if kind == 2:
        return "!" * draw.randrange(900, 1024) + "x"
    return " | ".join(f"a{number} b" for number in range(draw.randrange(60, 80)))


def a_line(draw: random.Random) -> bytes:
    kind = draw.randrange(20)
    if kind < 8:
        text = a_query(draw, 6)
    elif kind < 12:
        text = changed(draw, a_query(draw, 5))
    elif kind < 19:
        text = a_mess(draw)
    else:
        text = a_long_line(draw)
    return text.encode()


def main() -> None:
    draw = random.Random(SEED)
    lines: list[bytes] = []
    while len(lines) < LINES:
        line = a_line(draw)
        if len(line) <= LINE_LIMIT:
            lines.append(line)
    with open("crates/mg_query_lines_tests/stdin", "wb") as out:
        out.writelines(line + b"\n" for line in lines)
    with open("crates/mg_query_lines_tests/stdout", "wb") as out:
        out.writelines(answer(lambda line: shown(boolean(line)), line) + b"\t" + answer(lambda line: b" ".join(ranked(line)), line) + b"\n" for line in lines)


if __name__ == "__main__":
    main()
