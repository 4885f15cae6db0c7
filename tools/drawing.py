"""Simple drawings as SVG: boxes, texts, lines and arrows. Sizes are in pixels."""
import textwrap
from xml.sax.saxutils import escape

LETTER = 0.6  # the width of a letter of the fixed font, in its size
NARROW = 0.6  # that of a usual letter of the other, with some room
STYLE = """\
text { font-family: "DejaVu Sans", Verdana, Arial, sans-serif; fill: #1b1f24; }
.fixed { font-family: "DejaVu Sans Mono", Menlo, Consolas, monospace; }
.strong { font-weight: bold; }
.faint { fill: #57606a; }
.box { fill: #f6f8fa; stroke: #57606a; }
.dark { fill: #dbe7f5; stroke: #3b6ea5; }
.green { fill: #e3f1e3; stroke: #4a7f4a; }
.frame { fill: none; stroke: #8c959f; stroke-dasharray: 5 4; }
.line { fill: none; stroke: #8c959f; }
.dashed { fill: none; stroke: #8c959f; stroke-dasharray: 3 4; }
.arrow { fill: none; stroke: #24292f; marker-end: url(#head); }
"""
HEAD = """\
<svg xmlns="http://www.w3.org/2000/svg" viewBox="0 0 {width} {height}" width="{width}" height="{height}" role="img">
<title>{title}</title>
<style>
{style}</style>
<defs>
<marker id="head" viewBox="0 0 8 8" refX="8" refY="4" markerWidth="8" markerHeight="8" orient="auto"><path d="M0 0L8 4L0 8z" fill="#24292f"/></marker>
</defs>
<rect width="{width}" height="{height}" fill="#ffffff"/>
"""


def wrapped(text, width, size):
    """The lines of a text of this size that fit so many pixels."""
    return textwrap.wrap(text, int(width / (NARROW * size)), break_long_words=False)


class Drawing:
    """A drawing's parts, in the order in which they are drawn."""

    def __init__(self, title):
        self.title, self.parts = title, []

    def box(self, x, y, width, height, kind="box", round_by=4):
        place = f'x="{x:g}" y="{y:g}" width="{width:g}" height="{height:g}"'
        self.parts.append(f'<rect class="{kind}" {place} rx="{round_by}"/>')

    def blank(self, x, y, width, height):
        """Nothing but the ground, where a text is to be read."""
        place = f'x="{x:g}" y="{y:g}" width="{width:g}" height="{height:g}"'
        self.parts.append(f'<rect {place} fill="#ffffff"/>')

    def text(self, x, y, said, size=12, kind="", anchor="middle"):
        place = f'x="{x:g}" y="{y:g}" font-size="{size}" text-anchor="{anchor}"'
        named = f' class="{kind}"' if kind else ""
        self.parts.append(f"<text{named} {place}>{escape(said)}</text>")

    def lines(self, x, y, texts, size=11, kind="", anchor="middle"):
        """Texts under one another, the first at y."""
        for number, said in enumerate(texts):
            self.text(x, y + number * (size + 3), said, size, kind, anchor)

    def path(self, points, kind="line"):
        """A line through these points."""
        first, *rest = (f"{x:g} {y:g}" for x, y in points)
        self.parts.append(f'<path class="{kind}" d="M{first}{"".join("L" + it for it in rest)}"/>')

    def curve(self, points, kind="line"):
        """A line from point to point that leaves and meets each upright."""
        steps = [f"M{points[0][0]:g} {points[0][1]:g}"]
        for (x, y), (to_x, to_y) in zip(points, points[1:]):
            middle = (y + to_y) / 2
            steps.append(f"C{x:g} {middle:g} {to_x:g} {middle:g} {to_x:g} {to_y:g}")
        self.parts.append(f'<path class="{kind}" d="{"".join(steps)}"/>')

    def svg(self, width, height):
        head = HEAD.format(width=width, height=height, title=escape(self.title), style=STYLE)
        return head + "\n".join(self.parts) + "\n</svg>\n"
