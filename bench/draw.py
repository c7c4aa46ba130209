#!/usr/bin/env python3
"""Draws the pictures of docs/pictures from the tables of the benches' pages.

    bench/draw.py [--check]

Each picture is an SVG of the figures in one or two tables, legible on a light and on a dark page. With --check nothing is
written, and the status is 1 where a picture is not what its tables say.
"""

import math
import re
import sys
from pathlib import Path
from xml.sax.saxutils import escape

TOP = Path(__file__).resolve().parent.parent
PICTURES = TOP / "docs" / "pictures"
WIDTH, HEIGHT = 720, 400
LEFT, RIGHT, ABOVE, BELOW = 70, 170, 50, 55
# Of middle lightness, so that they stand out from white and from black.
TEXT, GRID, COLOURS = "#6e7781", "#8c959f", ["#2f81f7", "#d9730d", "#2da44e", "#8957e5", "#cf222e"]
NUMBER = re.compile(r"-?\d[\d,]*(?:\.\d+)?")


def table(page, first):
    """The rows of a page's table whose head begins with this cell, as dictionaries by the head's cells."""
    lines = (TOP / page).read_text(encoding="utf-8").splitlines()
    cells = [[it.strip() for it in line.strip().strip("|").split("|")] if line.startswith("|") else None for line in lines]
    at = next(at for at, row in enumerate(cells) if row and row[0] == first)
    rows = []
    for row in cells[at + 2 :]:
        if row is None:
            break
        rows.append(dict(zip(cells[at], row)))
    return rows


def numbers(cell):
    """The numbers of a cell as `3.4 (1.2 to 5.6)`: the figure, the least and the greatest."""
    found = [float(it.replace(",", "")) for it in NUMBER.findall(cell)]
    return (found[0], *found[1:3]) if len(found) >= 3 else (found[0], found[0], found[0])


class Axis:
    """Where values stand between two ends of a picture, by their size or by its logarithm."""

    def __init__(self, values, begin, end, is_log):
        values = [it for it in values if it > 0 or not is_log]
        self.is_log, self.begin, self.end = is_log, begin, end
        if is_log:
            self.least = 10 ** math.floor(math.log10(min(values)))
            self.most = 10 ** math.ceil(math.log10(max(values)))
        else:
            self.least = 0
            self.step = self.step_for(max(values) - self.least)
            if all(it == round(it) for it in values):
                self.step = max(1, self.step)
            self.most = self.least + self.step * math.ceil((max(values) - self.least) / self.step)

    @staticmethod
    def step_for(room):
        """A round number of which the room has five to ten."""
        size = 10 ** math.floor(math.log10(room / 5))
        return next(it * size for it in (1, 2, 5, 10) if room / (it * size) <= 6)

    def at(self, value):
        if self.is_log:
            share = math.log10(max(value, self.least) / self.least) / math.log10(self.most / self.least)
        else:
            share = (value - self.least) / (self.most - self.least)
        return self.begin + share * (self.end - self.begin)

    def marks(self):
        if self.is_log:
            tens = round(math.log10(self.most / self.least))
            return [self.least * 10**it for it in range(tens + 1)]
        return [self.least + self.step * it for it in range(round((self.most - self.least) / self.step) + 1)]


def text(x, y, words, anchor="middle", size=13, turn=""):
    return f'<text x="{x:.1f}" y="{y:.1f}" text-anchor="{anchor}" font-size="{size}"{turn}>{escape(words)}</text>'


def line(x, y, to_x, to_y, colour, width=1.0, dashes=""):
    ends = f'x1="{x:.1f}" y1="{y:.1f}" x2="{to_x:.1f}" y2="{to_y:.1f}"'
    return f'<line {ends} stroke="{colour}" stroke-width="{width}"{dashes}/>'


def spell(value):
    return f"{value:,.0f}" if value == round(value) else f"{value:g}"


def frame(title, across, up):
    """The title and the names of both axes."""
    middle = (ABOVE + HEIGHT - BELOW) / 2
    return [
        text(LEFT, 24, title, "start", 15),
        text((LEFT + WIDTH - RIGHT) / 2, HEIGHT - 14, across),
        text(18, middle, up, turn=f' transform="rotate(-90 18 {middle:.1f})"'),
        line(LEFT, HEIGHT - BELOW, WIDTH - RIGHT, HEIGHT - BELOW, GRID),
    ]


def heights(axis):
    """The lines across, each with its value."""
    drawn = []
    for value in axis.marks():
        y = axis.at(value)
        drawn.append(line(LEFT, y, WIDTH - RIGHT, y, GRID, 0.5, ' stroke-dasharray="2 4"'))
        drawn.append(text(LEFT - 8, y + 4, spell(value), "end", 12))
    return drawn


def mark(x, y, kind, colour):
    """A mark of a kind of its own, so that colour is not all that tells series apart."""
    shapes = ["M-4 0a4 4 0 1 0 8 0a4 4 0 1 0-8 0", "M-4-4h8v8h-8z", "M0-5L5 4H-5z", "M0-5L5 0L0 5L-5 0z", "M-5-1h10v2h-10z"]
    return f'<path transform="translate({x:.1f} {y:.1f})" d="{shapes[kind]}" fill="{colour}"/>'


def legend(names, kinds=None):
    drawn = []
    for at, name in enumerate(names):
        y = ABOVE + 14 + 22 * at
        drawn.append(mark(WIDTH - RIGHT + 20, y - 4, at if kinds is None else 1, COLOURS[at]))
        drawn.append(text(WIDTH - RIGHT + 32, y, name, "start", 12))
    return drawn


def curves(title, across, up, series, log_x=False, log_y=False):
    """Lines through points (x, y, least, most); a bar at a point shows the range."""
    points = [point for some in series.values() for point in some]
    x_axis = Axis([it[0] for it in points], LEFT, WIDTH - RIGHT, log_x)
    y_axis = Axis([value for it in points for value in it[1:]], HEIGHT - BELOW, ABOVE, log_y)
    drawn = frame(title, across, up) + heights(y_axis)
    drawn += [text(x_axis.at(it), HEIGHT - BELOW + 18, spell(it), size=12) for it in x_axis.marks()]
    for at, some in enumerate(series.values()):
        places = [(x_axis.at(x), y_axis.at(y)) for x, y, *_ in some]
        path = "M" + "L".join(f"{x:.1f} {y:.1f}" for x, y in places)
        drawn.append(f'<path d="{path}" fill="none" stroke="{COLOURS[at]}" stroke-width="1.8"/>')
        for (x, _, least, most), (place, height) in zip(some, places):
            if least != most:
                drawn.append(line(place, y_axis.at(least), place, y_axis.at(most), COLOURS[at], 1.2))
            drawn.append(mark(place, height, at, COLOURS[at]))
    return picture(title, drawn + legend(series))


def bars(title, across, up, groups, series):
    """Bars side by side: of each group one in each series."""
    y_axis = Axis([value for some in series.values() for value in some], HEIGHT - BELOW, ABOVE, False)
    drawn = frame(title, across, up) + heights(y_axis)
    room = (WIDTH - RIGHT - LEFT) / len(groups)
    width = room * 0.8 / len(series)
    for group, name in enumerate(groups):
        begin = LEFT + room * (group + 0.1)
        drawn.append(text(begin + room * 0.4, HEIGHT - BELOW + 18, name, size=12))
        for at, some in enumerate(series.values()):
            top = y_axis.at(some[group])
            drawn.append(f'<rect x="{begin + at * width:.1f}" y="{top:.1f}" width="{width - 2:.1f}" '
                         f'height="{HEIGHT - BELOW - top:.1f}" fill="{COLOURS[at]}"/>')
    return picture(title, drawn + legend(series, True))


def picture(title, drawn):
    head = (f'<svg xmlns="http://www.w3.org/2000/svg" viewBox="0 0 {WIDTH} {HEIGHT}" width="{WIDTH}" height="{HEIGHT}" '
            f'font-family="sans-serif" fill="{TEXT}" role="img" aria-label="{escape(title)}">')
    return "\n".join([head, *drawn, "</svg>"]) + "\n"


# What the colours of the next two pictures are.
ASKED = "by the number of names and the client; mixed: questions in mixed case"


def servers(place):
    """The servers of the table, and a series for each row: of each server the first or the second figure of its cell."""
    rows, heads = table("bench/serve/README.md", "Names, client"), " rate, CPU"
    names = [it.removesuffix(heads) for it in rows[0] if it.endswith(heads)]
    return names, {row["Names, client"].replace("`", ""): [float(NUMBER.findall(row[it + heads])[place]) for it in names]
                   for row in rows}


def draw_servers():
    return bars("Answers a second from the cache", ASKED, "share of a bare UDP echo's rate", *servers(0))


def draw_processor():
    names, shares = servers(1)
    series = {row: [1 / it for it in some] for row, some in shares.items()}
    return bars("Processor time of an answer from the cache", ASKED, "times that of a bare UDP echo", names, series)


def columns(rows, key):
    """A line for each other column of a table, through its filled cells over the column of the key."""
    series = {}
    for row in rows:
        for name, cell in row.items():
            if name != key and NUMBER.search(cell):
                series.setdefault(name, []).append((numbers(row[key])[0], *numbers(cell)))
    return series


def draw_news():
    rows = table("bench/fleet/README.md", "Hops")
    title = "Until news is at a site, by its hops from the one that learnt it"
    return curves(title, "hops", "seconds, median", columns(rows, "Hops"))


def draw_late():
    rows = table("bench/fleet/README.md", "Second")
    title = "What a site has that comes late"
    return curves(title, "seconds since its start", "share of the names, %", columns(rows, "Second"))


def draw_sweeps():
    """A line for each way to start and each figure, over the names."""
    series = {}
    for row in table("bench/fleet/README.md", "Sweeps, names"):
        way, _, names = row["Sweeps, names"].partition(", ")
        for figure in ("99.9 % ms", "Slowest ms"):
            point = numbers(names)[0], *numbers(row[figure])
            series.setdefault(f"{way}: {figure.removesuffix(' ms').lower()}", []).append(point)
    title = "How long answers take while a mesh of 17 sites sweeps"
    return curves(title, "names that each site holds", "milliseconds", series, True, True)


PICTURES_BY_NAME = {"servers": draw_servers, "processor": draw_processor, "news": draw_news, "late": draw_late,
                    "sweeps": draw_sweeps}


def main():
    stale = 0
    for name, draw in PICTURES_BY_NAME.items():
        path, drawn = PICTURES / f"{name}.svg", draw()
        if "--check" not in sys.argv[1:]:
            path.parent.mkdir(exist_ok=True)
            path.write_text(drawn, encoding="utf-8")
        elif not path.exists() or path.read_text(encoding="utf-8") != drawn:
            print(f"{path.relative_to(TOP)} is not what its tables say: run bench/draw.py")
            stale += 1
    print(f"{len(PICTURES_BY_NAME)} pictures: {stale} stale")
    return int(stale > 0)


if __name__ == "__main__":
    sys.exit(main())
