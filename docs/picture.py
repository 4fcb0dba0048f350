#!/usr/bin/env python3
"""Draws the way of a metric through a run, for README.md: docs/picture.py writes picture-light.svg and picture-dark.svg
beside itself, the same bytes each time. It needs Python 3.

A text that could be wider than its box (each character is counted as 0.6 of the size) ends the script with an error.
"""

import os
from xml.sax.saxutils import escape

HERE = os.path.dirname(os.path.realpath(__file__))
WIDTH, HEIGHT = 1034, 464
TITLE = ("The way of a metric: inputs, reader, input's filter, outputs' filters, lanes, outputs; "
         "the core, its journal and its account")
COLOURS = {
    "light": {"back": "#ffffff", "box": "#f3f5f8", "core": "#dfeaf7", "told": "#e6f2e6", "edge": "#5a6775",
              "text": "#17202a", "faint": "#4a5663"},
    "dark": {"back": "#0d1117", "box": "#1b222c", "core": "#18324f", "told": "#1b3a24", "edge": "#8b98a7",
             "text": "#e8edf2", "faint": "#b3beca"},
}
LARGE, SMALL, CHARACTER = 14, 12, 0.6


class Drawing:
    """The lines of a picture in some colours."""

    def __init__(self, colours):
        self.colours, self.lines = colours, []

    def text(self, middle, base, words, size=LARGE, colour="text", room=None, bold=False):
        """A text round a middle; it has to have room."""
        if room is not None and len(words) * size * CHARACTER > room:
            raise SystemExit(f"picture: no room for: {words}")
        weight = ' font-weight="600"' if bold else ""
        self.lines.append(
            f'<text x="{middle:g}" y="{base:g}" font-size="{size:g}"{weight} fill="{self.colours[colour]}" '
            f'text-anchor="middle">{escape(words)}</text>')

    def box(self, x, y, width, height, words, further=(), colour="box"):
        """A box with its name, and smaller lines beneath."""
        self.lines.append(f'<rect x="{x:g}" y="{y:g}" width="{width:g}" height="{height:g}" rx="6" '
                          f'fill="{self.colours[colour]}" stroke="{self.colours["edge"]}"/>')
        middle, step = x + width / 2, 17
        base = y + height / 2 - step * len(further) / 2 + 5
        self.text(middle, base, words, room=width - 6, bold=bool(further))
        for at, line in enumerate(further):
            self.text(middle, base + step * (at + 1), line, SMALL, "faint", width - 6)

    def arrow(self, *points, both=False):
        """A line through points with a head at its end, or at both."""
        path = " ".join(f"{x:g},{y:g}" for x, y in points)
        begin = ' marker-start="url(#head)"' if both else ""
        self.lines.append(
            f'<polyline points="{path}" fill="none" stroke="{self.colours["edge"]}" stroke-width="1.5"{begin} '
            'marker-end="url(#head)"/>')

    def svg(self):
        return "\n".join([
            f'<svg xmlns="http://www.w3.org/2000/svg" viewBox="0 0 {WIDTH} {HEIGHT}" width="{WIDTH}" height="{HEIGHT}" '
            'role="img" font-family="system-ui, -apple-system, \'Segoe UI\', Roboto, \'DejaVu Sans\', Arial, sans-serif">',
            f"<title>{escape(TITLE)}</title>",
            '<defs><marker id="head" viewBox="0 0 10 10" refX="9" refY="5" markerWidth="7" markerHeight="7" '
            f'orient="auto-start-reverse"><path d="M0,0 L10,5 L0,10 z" fill="{self.colours["edge"]}"/></marker></defs>',
            f'<rect width="{WIDTH}" height="{HEIGHT}" rx="10" fill="{self.colours["back"]}"/>',
            *self.lines, "</svg>", ""])


def draw(colours):
    """The picture: what is read at the left, what is written at the right, and the core beneath both."""
    it = Drawing(colours)
    for middle, words in [(85, "inputs"), (558, "outputs' filters"), (724, "lanes"), (926, "outputs")]:
        it.text(middle, 34, words, SMALL, "faint")
    for y, words in zip([52, 100, 148, 196], ["line protocol", "StatsD", "Graphite", "OpenMetrics"]):
        it.box(20, y, 130, 36, words)
        it.arrow((150, y + 18), (188, 142 + (y - 124) / 4))
    it.box(190, 98, 124, 88, "reader", ["of the format:", "metrics, or a", "refused piece"])
    it.arrow((314, 142), (342, 142))
    it.box(344, 98, 132, 88, "input's filter", ["global tags first"])
    for y, words in zip([52, 114, 176], ["line protocol", "Graphite", "OpenMetrics"]):
        middle = y + 28
        it.arrow((476, 142 + (middle - 142) / 3), (504, middle))
        it.box(506, y, 104, 56, "filter", ["makes a view"])
        it.arrow((610, middle), (652, middle))
        it.box(654, y, 140, 56, "lane", ["sent in batches"])
        it.arrow((794, middle), (836, middle))
        it.box(838, y, 176, 56, "writer", [words])
    it.box(190, 292, 604, 62, "core", ["each step is a call of it, and each call an entry of the journal"], "core")
    for x, top, words in [(410, 186, "gather"), (558, 232, "take, route"), (724, 232, "begin, done")]:
        it.arrow((x, top), (x, 290), both=words != "gather")
        it.text(x + 10 + 3.4 * len(words), 268, words, SMALL, "faint")
    it.box(240, 398, 220, 48, "journal", ["every event, in order"], "told")
    it.box(524, 398, 220, 48, "account", ["the totals"], "told")
    it.arrow((350, 354), (350, 396))
    it.arrow((634, 354), (634, 396))
    return it.svg()


for name, colours in COLOURS.items():
    with open(os.path.join(HERE, f"picture-{name}.svg"), "w", encoding="utf-8") as file:
        file.write(draw(colours))
