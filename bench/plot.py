#!/usr/bin/env python3
"""Draws the pictures of docs/figures: an SVG for each file of recorded figures there, and the layers of crates.txt.

usage: bench/plot.py [--check]

With --check nothing is written; it ends with status 1 where a picture is not the one of its figures.

A file of figures is JSON: `title`, `command` (what made them), `machine`, and `panels`. A panel has a `title`, its `kind` (`bars` or
`lines`), the `unit` of its values, empty for a number alone, the names of its `series`, and `rows`: a label, or for lines a number, and
then a value of each series, or null. Bars lie; lines are drawn over `across`, what their numbers are. Pictures follow the reader's light
or dark theme, by a media query.
"""

import argparse
import glob
import html
import json
import os
import re
from typing import NamedTuple

TOP = os.path.dirname(os.path.dirname(os.path.abspath(__file__)))
FOLDER = os.path.join(TOP, "docs", "figures")
WIDTH = 720
MARGIN = 16
LINE = 18  # from one line of text to the next
BAR = 11
LABELS = 300  # width for the labels of bars
PANEL = 190  # height of the field of a panel of lines
COLOURS = ["a", "b", "c", "d"]  # classes of the series, in order
STYLE = """
.ground { fill: #ffffff }
text { font: 13px system-ui, sans-serif; fill: #24292f }
.title { font-weight: 600; font-size: 15px }
.quiet { fill: #57606a; font-size: 11px }
.axis { stroke: #8c959f; stroke-width: 1 }
.grid { stroke: #d0d7de; stroke-width: 0.5 }
.box { fill: #eaeef2; stroke: #8c959f; stroke-width: 0.5 }
.a { fill: #0969da; stroke: #0969da } .b { fill: #bc4c00; stroke: #bc4c00 }
.c { fill: #1a7f37; stroke: #1a7f37 } .d { fill: #8250df; stroke: #8250df }
.line { fill: none; stroke-width: 2 }
@media (prefers-color-scheme: dark) {
.ground { fill: #0d1117 }
text { fill: #e6edf3 } .quiet { fill: #8d96a0 } .axis { stroke: #6e7681 } .grid { stroke: #30363d }
.box { fill: #21262d; stroke: #6e7681 }
.a { fill: #58a6ff; stroke: #58a6ff } .b { fill: #f0883e; stroke: #f0883e }
.c { fill: #3fb950; stroke: #3fb950 } .d { fill: #bc8cff; stroke: #bc8cff }
}
"""


class Drawn(NamedTuple):
    """Marks of a picture, as SVG, and the height that they take."""

    marks: list
    height: float


# ---- marks


def text(x, y, words, style="", anchor="start"):
    return f'<text x="{x:.1f}" y="{y:.1f}" class="{style}" text-anchor="{anchor}">{html.escape(str(words))}</text>'


def rectangle(x, y, width, height, style):
    return f'<rect x="{x:.1f}" y="{y:.1f}" width="{width:.1f}" height="{height:.1f}" class="{style}"/>'


def stroke(x1, y1, x2, y2, style):
    return f'<line x1="{x1:.1f}" y1="{y1:.1f}" x2="{x2:.1f}" y2="{y2:.1f}" class="{style}"/>'


def short(value):
    """A number in three digits."""
    return f"{value:.0f}" if value >= 100 else f"{value:.3g}"


def legend(panel, top):
    """The names of the series that have a value in some row, each beside its colour, in as many lines as they take."""
    marks, x, y = [], MARGIN, top
    for place, (name, style) in enumerate(zip(panel["series"], COLOURS), 1):
        if all(row[place] is None for row in panel["rows"]):
            continue
        wide = 30 + 7.5 * len(name)
        if x + wide > WIDTH:
            x, y = MARGIN, y + LINE
        marks += [rectangle(x, y - 9, 10, 10, style), text(x + 15, y, name)]
        x += wide
    return Drawn(marks, y + LINE - top)


def steps_up_to(most):
    """Round values from 0 to the first that is no less than the greatest."""
    size = 10.0 ** (len(str(int(most))) - 1) if most >= 1 else 10.0 ** -len(re.match(r"0\.(0*)", f"{most:.9f}")[1]) / 10
    step = next(size * by for by in (0.2, 0.5, 1, 2, 5) if size * by * 5 >= most)
    count = 0
    while step * count < most:
        count += 1
    return [step * place for place in range(count + 1)]


# ---- panels


def bars(panel, top):
    """A row for each label, in it a bar for each series that has a value there."""
    marks, height = legend(panel, top)
    begin = y = top + height
    most = max(value for row in panel["rows"] for value in row[1:] if value is not None)
    left, wide = LABELS, WIDTH - LABELS - 90
    for label, *values in panel["rows"]:
        known = [(style, value) for style, value in zip(COLOURS, values) if value is not None]
        marks.append(text(left - 8, y + BAR * len(known) / 2 + 4, label, anchor="end"))
        for style, value in known:
            marks += [rectangle(left, y, max(1, wide * value / most), BAR - 2, style)]
            marks += [text(left + wide * value / most + 5, y + BAR - 2, f"{short(value)} {panel['unit']}", "quiet")]
            y += BAR
        y += 7
    marks.append(stroke(left, begin - 4, left, y, "axis"))
    return Drawn(marks, y - top)


def lines(panel, top):
    """A line for each series over the numbers of its rows."""
    marks, height = legend(panel, top)
    left, bottom = 60, top + height + PANEL
    wide, ups = WIDTH - left - 60, steps_up_to(max(value for row in panel["rows"] for value in row[1:] if value is not None))
    furthest = max(row[0] for row in panel["rows"])

    def at(across, up):
        return left + wide * across / furthest, bottom - PANEL * up / ups[-1]

    for up in ups:
        marks += [stroke(*at(0, up), *at(furthest, up), "grid"), text(left - 6, at(0, up)[1] + 4, short(up), "quiet", "end")]
    for row in panel["rows"]:
        marks.append(text(at(row[0], 0)[0], bottom + 14, short(row[0]), "quiet", "middle"))
    for place, style in zip(range(1, len(panel["series"]) + 1), COLOURS):
        points = [at(row[0], row[place]) for row in panel["rows"] if row[place] is not None]
        marks.append(f'<polyline class="{style} line" style="fill:none" points="' + " ".join(f"{x:.1f},{y:.1f}" for x, y in points) + '"/>')
        marks += [f'<circle cx="{x:.1f}" cy="{y:.1f}" r="3" class="{style}"/>' for x, y in points]
    marks += [stroke(*at(0, 0), *at(furthest, 0), "axis"), text(left + wide / 2, bottom + 30, panel["across"], "quiet", "middle")]
    return Drawn(marks, bottom + 34 - top)


KINDS = {"bars": bars, "lines": lines}


# ---- pictures


def picture(title, drawn, height):
    """A whole picture."""
    head = f'<svg xmlns="http://www.w3.org/2000/svg" viewBox="0 0 {WIDTH} {height:.0f}" width="{WIDTH}" height="{height:.0f}" role="img">'
    ground = rectangle(0, 0, WIDTH, height, "ground")
    return "\n".join([head, f"<title>{html.escape(title)}</title>", f"<style>{STYLE}</style>", ground, *drawn, "</svg>", ""])


def figures_drawn(figures):
    """The picture of a file of figures."""
    y = MARGIN + LINE
    marks = [text(MARGIN, y - 4, figures["title"], "title")]
    for panel in figures["panels"]:
        y += LINE
        marks.append(text(MARGIN, y, f"{panel['title']} ({panel['unit']})" if panel["unit"] else panel["title"]))
        drawn = KINDS[panel["kind"]](panel, y + LINE)
        marks += drawn.marks
        y += LINE + drawn.height + LINE
    for words in (figures["command"], figures["machine"]):
        marks.append(text(MARGIN, y, words, "quiet"))
        y += 15
    return picture(figures["title"], marks, y)


def layers_of(crates):
    """The layers of crates.txt with their crates, the lowest first: a comment line names a layer."""
    layers = {}
    for line in crates.splitlines():
        if heading := re.match(r"# (\w+)(?: \((.*)\))?$", line):
            layers[heading[1] + (f": {heading[2]}" if heading[2] else "")] = []
        elif name := re.match(r"(alta_\w+)\b.*:", line):
            layers[list(layers)[-1]].append(name[1])
    return {heading: names for heading, names in layers.items() if names}


def layer_drawn(heading, names, top):
    """A layer: its heading, and a box for each crate."""
    marks, x, y = [text(MARGIN + 8, top + LINE, heading, "quiet")], MARGIN + 8, top + LINE + 10
    for name in names:
        wide = 8 * len(name) + 12
        if x + wide > WIDTH - MARGIN - 8:
            x, y = MARGIN + 8, y + 30
        marks += [rectangle(x, y, wide, 24, "box"), text(x + wide / 2, y + 16, name, anchor="middle")]
        x += wide + 8
    height = y + 34 - top
    return Drawn([f'<rect x="{MARGIN}" y="{top:.0f}" width="{WIDTH - 2 * MARGIN}" height="{height - 4:.0f}" rx="4" fill="none" class="axis"/>', *marks], height)


def layers_drawn(crates):
    """The picture of the layers, the highest on top."""
    title, y = "The crates of the program: each stands on those below it", MARGIN + LINE
    marks = [text(MARGIN, y - 4, title, "title")]
    y += 8
    for heading, names in reversed(layers_of(crates).items()):
        drawn = layer_drawn(heading, names, y)
        marks += drawn.marks
        y += drawn.height + 4
    return picture(title, marks, y + 8)


def pictures():
    """The path of each picture, and what has to stand there."""
    found = {}
    for path in sorted(glob.glob(os.path.join(FOLDER, "*.json"))):
        with open(path, encoding="utf-8") as file:
            found[path[: -len("json")] + "svg"] = figures_drawn(json.load(file))
    with open(os.path.join(TOP, "crates.txt"), encoding="utf-8") as file:
        found[os.path.join(FOLDER, "layers.svg")] = layers_drawn(file.read())
    return found


def content(path):
    try:
        with open(path, encoding="utf-8") as file:
            return file.read()
    except FileNotFoundError:
        return ""


def main():
    parser = argparse.ArgumentParser(description=__doc__, formatter_class=argparse.RawDescriptionHelpFormatter)
    parser.add_argument("--check", action="store_true")
    options = parser.parse_args()
    wanted = pictures()
    other = [path for path, picture in wanted.items() if content(path) != picture]
    for path in other:
        print(f"plot: {os.path.relpath(path, TOP)} is {'not the picture of its figures' if options.check else 'drawn'}")
        if not options.check:
            with open(path, "w", encoding="utf-8") as file:
                file.write(wanted[path])
    print(f"plot: {len(wanted)} pictures")
    raise SystemExit(bool(options.check and other))


if __name__ == "__main__":
    main()
