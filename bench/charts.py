#!/usr/bin/python3
"""Charts of what the benches saw: mg beside other systems, and how its cost grows with the collection.

    python3 bench/charts.py docs/speeds/figures.json docs/speeds

Each bench of `make bench` writes its figures into that file; peers.svg and sizes.svg are drawn from it by matplotlib,
the same bytes for the same figures and the same matplotlib.
"""

import pathlib
import sys

import figures
import matplotlib

matplotlib.use("svg")
matplotlib.rcParams.update({"svg.fonttype": "none", "svg.hashsalt": "mg", "font.size": 9, "axes.spines.top": False, "axes.spines.right": False})

import matplotlib.pyplot as plt  # noqa: E402, the backend is chosen before

COLOURS = {"mg": "#1f5f99", "FTS5": "#b9c4cf", "Xapian": "#8f9dab"}
ROWS = [("build", "build"), ("query", "1,000 lines"), ("one", "one line"), ("decode", "decode")]


def seconds_label(seconds):
    return f"{1000 * seconds:.0f} ms" if seconds < 0.1 else f"{seconds:.2f} s" if seconds < 10 else f"{seconds:.1f} s"


def bars(axes, title, values, labels, gid):
    """A bar for each system, with what it stands for behind it."""
    names = list(values)
    axes.barh(names, list(values.values()), color=[COLOURS.get(name, "#777777") for name in names])
    axes.invert_yaxis()
    axes.set_title(title, fontsize=9, loc="left")
    axes.set_xticks([])
    axes.set_xlim(0, 1.45 * max(values.values()))
    axes.spines["bottom"].set_visible(False)
    axes.tick_params(axis="y", length=0)
    for place, name in enumerate(names):
        text = axes.text(values[name], place, f" {labels[name]}", va="center", fontsize=8)
        text.set_gid(f"{gid}-{name}")


def seen(told):
    return f"{told['seen']['date']}, {told['seen']['machine']}, {told['seen']['commit']}"


def peers(told, path):
    """A row of bars a collection: the seconds of the processor of each piece of work, and the bytes on disk."""
    rows = told["rows"]
    figure, grid = plt.subplots(len(rows), len(ROWS) + 1, figsize=(11, 0.9 + 1.5 * len(rows)), squeeze=False)
    for number, (row, line) in enumerate(zip(rows, grid)):
        systems = row["systems"]
        for (key, title), axes in zip(ROWS, line):
            values = {name: systems[name][key]["seconds"] for name in systems}
            bars(axes, title, values, {name: seconds_label(value) for name, value in values.items()}, f"peers-{number}-{key}")
        values = {name: 100 * systems[name]["disk"] / row["bytes"] for name in systems}
        bars(line[-1], "on disk", values, {name: f"{value:.0f} %" for name, value in values.items()}, f"peers-{number}-disk")
        line[0].set_ylabel(f"{row['documents']:,} documents\n{row['bytes'] / 1e6:.1f} MB", fontsize=8)
    figure.suptitle(f"Processor time, and bytes on disk beside those of the collection ({seen(told)})", fontsize=8)
    save(figure, path)


def sizes(told, path):
    """What a megabyte costs and the greatest memory, over the size of the collection."""
    rows = told["rows"]
    megabytes = [row["bytes"] / 1e6 for row in rows]
    figure, (cost, memory) = plt.subplots(1, 2, figsize=(9, 3.4))
    for tool, marker in (("build", "o"), ("decode", "s")):
        each = [1000 * row[tool]["seconds"] / size for row, size in zip(rows, megabytes)]
        lines(cost, megabytes, each, f"mg {tool}", marker, [f"{value:.0f}" for value in each], f"sizes-cost-{tool}")
    for tool, marker in (("build", "o"), ("decode", "s"), ("query", "^")):
        peaks = [row[tool]["peak"] / 1e6 for row in rows]
        lines(memory, megabytes, peaks, f"mg {tool}", marker, [f"{value:.0f}" for value in peaks], f"sizes-peak-{tool}")
    for axes, title in ((cost, "milliseconds of the processor a megabyte"), (memory, "greatest memory, megabytes")):
        axes.set_title(title, fontsize=9, loc="left")
        axes.set_xlabel("megabytes of the collection")
        axes.legend(fontsize=8, frameon=False)
    cost.set_ylim(bottom=0)
    memory.set_yscale("log")
    figure.suptitle(seen(told), fontsize=8)
    save(figure, path)


def lines(axes, across, up, name, marker, labels, gid):
    axes.plot(across, up, marker=marker, label=name, linewidth=1.2, markersize=4)
    axes.set_xscale("log")
    for number, (x, y, label) in enumerate(zip(across, up, labels)):
        text = axes.annotate(label, (x, y), textcoords="offset points", xytext=(0, 5), ha="center", fontsize=7)
        text.set_gid(f"{gid}-{number}")


def save(figure, path):
    figure.tight_layout()
    figure.savefig(path, metadata={"Date": None, "Creator": None})
    plt.close(figure)
    # matplotlib leaves blanks at the ends of lines.
    path.write_text("".join(line.rstrip() + "\n" for line in path.read_text().splitlines()))


def main():
    told = figures.read(sys.argv[1])
    folder = pathlib.Path(sys.argv[2])
    for name, draw in (("peers", peers), ("sizes", sizes)):
        if name in told:
            draw(told[name], folder / f"{name}.svg")


if __name__ == "__main__":
    main()
