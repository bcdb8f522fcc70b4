"""Pictures of the pages: each shows what its file has now."""

import html
import json
import re
import subprocess
import sys

from transcripts import ROOT

LAYERS = ROOT / "docs" / "layers.svg"


def titles(picture, kind):
    """What graphviz calls the nodes or the edges of a picture."""
    found = re.findall(rf'<g id="\w+" class="{kind}">\s*<title>(.*?)</title>', picture)
    return sorted(html.unescape(title) for title in found)


def used_by(text):
    """What each crate of crates.txt uses, read apart from what draws the picture."""
    return {match[1]: match[2].split() for match in re.finditer(r"^(\w+)(?: [^:#\n]*)?:([^#\n]*)", text, re.M)}


def reaches(crates, upper, lower):
    return any(used == lower or reaches(crates, used, lower) for used in crates.get(upper, []))


def layers(suite):
    """docs/layers.svg shows the crates of crates.txt, and a line leads from each down to each crate that it uses."""
    drawn = subprocess.run([sys.executable, ROOT / "tools" / "layers.py", "--print"], capture_output=True, text=True)
    suite.check("the layers of crates.txt are those of docs/layers.dot (make docs)", (ROOT / "docs" / "layers.dot").read_text(), drawn.stdout)
    picture = LAYERS.read_text()
    crates = used_by((ROOT / "crates.txt").read_text())
    shown = sorted(name for name in crates if not re.search(r"_tests$|^mg_bench$", name))
    suite.check("the crates of the picture (make docs)", titles(picture, "node"), shown)
    lines = {}
    for title in titles(picture, "edge"):
        upper, lower = title.split("->")
        lines.setdefault(upper, []).append(lower)
    missing = [(upper, lower) for upper in shown for lower in crates[upper] if lower in shown and not reaches(lines, upper, lower)]
    suite.check("uses that no line of the picture shows", missing, [])
    wrong = [(upper, lower) for upper, own in lines.items() for lower in own if lower not in crates[upper]]
    suite.check("lines of the picture that are no use", wrong, [])


def labels(picture):
    """The labels of a chart's bars and points, by what they are labels of."""
    found = re.findall(r'<g id="((?:peers|sizes)-[^"]*)">\s*<text [^>]*>([^<]*)</text>', picture)
    return {name: html.unescape(text).strip() for name, text in found}


def seconds(number):
    """Three digits, or whole milliseconds."""
    if number < 0.1:
        return "%.0f ms" % (number * 1000)
    return ("%.1f s" if number >= 10 else "%.2f s") % number


def charts(suite):
    """The charts of docs/speeds show the figures that stand beside them, each of them and no other."""
    folder = ROOT / "docs" / "speeds"
    told = json.loads((folder / "figures.json").read_text())
    wanted = {}
    for number, row in enumerate(told["peers"]["rows"]):
        for system, figures in row["systems"].items():
            for work in ["build", "query", "one", "decode"]:
                wanted[f"peers-{number}-{work}-{system}"] = seconds(figures[work]["seconds"])
            wanted[f"peers-{number}-disk-{system}"] = "%.0f %%" % (100 * figures["disk"] / row["bytes"])
    suite.check("the chart beside other systems (make bench)", labels((folder / "peers.svg").read_text()), wanted)
    wanted = {}
    for number, row in enumerate(told["sizes"]["rows"]):
        for tool in ["build", "decode"]:
            wanted[f"sizes-cost-{tool}-{number}"] = "%.0f" % (1000 * row[tool]["seconds"] / (row["bytes"] / 1e6))
        for tool in ["build", "decode", "query"]:
            wanted[f"sizes-peak-{tool}-{number}"] = "%.0f" % (row[tool]["peak"] / 1e6)
    suite.check("the chart of sizes (make bench)", labels((folder / "sizes.svg").read_text()), wanted)
    for name in ["peers", "sizes"]:
        seen = told[name]["seen"]
        suite.check(f"when {name}.svg was seen", f"{seen['date']}, {seen['machine']}, {seen['commit']}" in (folder / f"{name}.svg").read_text(), True)


PARTS = [layers, charts]
