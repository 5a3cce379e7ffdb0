#!/usr/bin/env python3
"""Draws docs/speed.svg from the tables of docs/BENCHMARKS.md: a bar for each row that has a ratio, and in it a line where the
limit program's time is, if the row has that too.

    python3 scripts/bench/draw_speed.py            writes docs/speed.svg
    python3 scripts/bench/draw_speed.py OTHER.svg  writes another file

It needs matplotlib, in Debian the package python3-matplotlib.
"""
import pathlib
import re
import sys

TOP = pathlib.Path(__file__).resolve().parent.parent.parent
BLUE, GREY, BLACK = "#3465a4", "#888888", "#000000"


def rows(text):
    """What was measured and its ratio to bedtools, with that of the limit or None, for each row of a table that has one."""
    found = []
    for line in text.splitlines():
        cells = [cell.strip().replace("`", "") for cell in line.strip("|").split("|")]
        if len(cells) == 7 and re.fullmatch(r"\d+\.\d+", cells[4]):
            what = re.sub(r", (4,000,000 records|70,000 records over 200 million bases, beside bedtools with its index)", "", cells[0])
            found.append((what, int(cells[1]), float(cells[4]), float(cells[5]) if cells[5] else None))
    return found


def labelled(found):
    """The rows as labels and ratios. `the same` is the row before it."""
    labels, before = [], ""
    for what, columns, *ratios in found:
        before = before if what == "the same" else what
        labels.append((f"{before}, {columns} columns", *ratios))
    return labels


def draw(bars, file):
    import matplotlib

    matplotlib.use("svg")
    matplotlib.rcParams["svg.hashsalt"] = "bedkeep"
    from matplotlib import pyplot

    figure, axes = pyplot.subplots(figsize=(8.5, 0.32 * len(bars) + 1.2))
    axes.barh([name for name, *_ in bars], [ratio for _, ratio, _ in bars], color=BLUE)
    for place, (_, ratio, limit) in enumerate(bars):
        axes.text(ratio + 0.01, place, f"{ratio:.2f}", va="center", fontsize=8)
        if limit is not None:
            axes.vlines(limit, place - 0.4, place + 0.4, color=BLACK, linewidth=2)
    axes.axvline(1, color=GREY, linestyle="--", linewidth=1)
    axes.invert_yaxis()
    axes.set_xlim(0, 1.08)
    axes.set_xlabel("bedkeep's time over bedtools' time; black lines: the limit", fontsize=9)
    axes.tick_params(labelsize=8)
    for side in ("top", "right"):
        axes.spines[side].set_visible(False)
    figure.tight_layout()
    figure.savefig(file, metadata={"Date": None, "Creator": None})


def main():
    try:
        import matplotlib  # noqa: F401
    except ImportError:
        sys.exit("draw_speed.py: it needs matplotlib (Debian: python3-matplotlib)")
    file = sys.argv[1] if len(sys.argv) > 1 else TOP / "docs" / "speed.svg"
    found = rows((TOP / "docs" / "BENCHMARKS.md").read_text(encoding="utf-8"))
    if not found:
        sys.exit("draw_speed.py: docs/BENCHMARKS.md has no table with a ratio")
    draw(labelled(found), file)


if __name__ == "__main__":
    main()
