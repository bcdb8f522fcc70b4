"""An edit of a crate: the texts that it makes of the crate's files, and the parts of the crate that show it."""

import re
from dataclasses import dataclass

PARTS = ("src/", "specs/", "proofs/")
HEAD = re.compile(r"^( *)(?:pub(?:\([^)]*\))? )?(?:const |unsafe )*fn (\w+)", re.M)
IMPL = re.compile(r"^impl\b(.*?) ?(?:\n|\{$)", re.M)


@dataclass
class Edited:
    """What an edit makes: the new texts by the files' names, and where they change: functions as the prover names them,
    and the module of what stands in none. What is refused there alone is refused in the whole crate too."""

    texts: dict
    places: list


def without_angles(words):
    """Words of types without what stands in angles."""
    shorter = re.sub(r"<[^<>]*>", "", words.replace("->", ""))
    return words if shorter == words else without_angles(shorter)


def name_of_impl(words):
    """How the prover names the block `impl` with these words: `PageFeed`, or `PageFeedFeed` where the trait is Feed."""
    trait, _, kind = without_angles(words).partition(" where ")[0].rpartition(" for ")
    return "".join(name.strip().rpartition("::")[2] for name in (kind, trait))


def is_open(text, head, at):
    """Whether the item that begins at `head` still goes on at `at`, in the layout of rt fmt."""
    return f"\n{head[1]}}}\n" not in text[head.end() : at]


def place_of(crate, file, text, at):
    """The function around a place of a file as the prover names it, the file's module where none is, nothing in a file
    of definitions or proofs."""
    if not file.startswith("src/"):
        return ""
    path = [crate, *file.removeprefix("src/").removesuffix(".rt").split("/")]
    path = [name for name in path if name not in ("lib", "main")]
    heads = [head for head in HEAD.finditer(text, 0, at) if is_open(text, head, at)]
    if not heads:
        return "::".join(path)
    # A function within another is proved with that one.
    head = heads[0]
    if head[1]:
        blocks = [block for block in IMPL.finditer(text, 0, head.start()) if "\n}\n" not in text[block.end() : head.start()]]
        if not blocks:
            return "::".join(path)
        path.append(name_of_impl(blocks[-1][1].strip()))
    return "::".join([*path, head[2]])


def read_edit(path, crate):
    """What an edit makes of the crate in this folder, or why it cannot be applied."""
    texts, places, file, old = {}, [], None, None
    for line in path.read_text().splitlines():
        kind, _, text = line.partition(":")
        text = text.removeprefix(" ")
        if kind == "file":
            file = text
            if not file.startswith(PARTS) or ".." in file or not (crate / file).is_file():
                return None, f"there is no file {file}"
            texts.setdefault(file, (crate / file).read_text())
        elif kind == "old":
            stands = texts[file].count(text) if file and text else 0
            if stands != 1:
                return None, f"an old text stands {stands} times in {file}"
            if old is not None:
                return None, "an old text has no new one"
            old = text
        elif kind == "new":
            if old in (None, text):
                return None, "a new text has no old one, or is the old one"
            places.append(place_of(crate.name, file, texts[file], texts[file].index(old) + len(old)))
            texts[file], old = texts[file].replace(old, text), None
    if old is not None or not places:
        return None, "an old text has no new one" if places else "it has no pair of texts"
    return Edited(texts, [place for place in dict.fromkeys(places) if place]), None
