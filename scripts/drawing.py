"""Drawings as SVG: screens of terminals, and bars. Fonts are those of whoever looks; each run of text has a fixed width."""

import re
from html import escape

CELL, LINE, PAD = 8.4, 18, 10
FACE = "font-family:ui-monospace,Menlo,Consolas,'DejaVu Sans Mono',monospace;font-size:14px"
WORDS = "font-family:system-ui,-apple-system,'Segoe UI','DejaVu Sans',sans-serif;font-size:15px"
PAPER, SCREEN, TEXT, DIM = "#ffffff", "#16181d", "#e6e6e6", "#57606a"
# The colours of a terminal by their numbers: black, red, green, yellow, blue, magenta, cyan, white.
COLOURS = ("#16181d", "#ff7b72", "#56d364", "#e3b341", "#79c0ff", "#d2a8ff", "#56d4dd", "#e6e6e6")
SGR = re.compile(r"\x1b\[([\d;]*)m|(.)", re.S)


class Drawing:
    """A drawing of some size, to which shapes are added."""

    def __init__(self, width, height, title):
        self.size, self.title, self.shapes = (width, height), title, []
        self.box(0, 0, width, height, PAPER)

    def box(self, x, y, width, height, fill, corner=0):
        self.shapes.append(f'<rect x="{x:g}" y="{y:g}" width="{width:g}" height="{height:g}" rx="{corner}" fill="{fill}"/>')

    def words(self, x, y, text, fill=TEXT, style=WORDS, anchor="start", weight="normal"):
        shape = f'<text x="{x:g}" y="{y:g}" fill="{fill}" style="{style}" text-anchor="{anchor}" font-weight="{weight}">'
        self.shapes.append(f"{shape}{escape(text)}</text>")

    def line(self, *points, colour=DIM):
        way = " ".join(f"{x:g},{y:g}" for x, y in points)
        self.shapes.append(f'<polyline points="{way}" fill="none" stroke="{colour}" stroke-width="1.5"/>')

    def cells(self, x, y, text, fill):
        """Draws a text of a terminal, each character in a cell of its own."""
        length = f'textLength="{CELL * len(text):.1f}" lengthAdjust="spacingAndGlyphs"'
        self.shapes.append(f'<text x="{x:.1f}" y="{y:g}" fill="{fill}" style="{FACE}" {length} xml:space="preserve">{escape(text)}</text>')

    def svg(self):
        width, height = self.size
        head = f'<svg xmlns="http://www.w3.org/2000/svg" viewBox="0 0 {width:g} {height:g}" width="{width:g}" height="{height:g}" role="img">'
        return "\n".join([head, f"<title>{escape(self.title)}</title>", *self.shapes, "</svg>\n"])


def runs(row):
    """Yields the runs of one look in a row of a terminal: text, colour and ground."""
    colour, ground, is_reverse, text, look = None, None, False, "", (TEXT, None)
    for codes, sign in SGR.findall(row):
        if sign:
            text += sign
            continue
        for code in map(int, (codes or "0").split(";")):
            if code == 0:
                colour, ground, is_reverse = None, None, False
            elif code in (7, 27):
                is_reverse = code == 7
            elif 30 <= code <= 39:
                colour = COLOURS[code - 30] if code < 38 else None
            elif 40 <= code <= 49:
                ground = COLOURS[code - 40] if code < 48 else None
        new = (ground or SCREEN, colour or TEXT) if is_reverse else (colour or TEXT, ground)
        if new != look:
            yield text, *look
            text, look = "", new
    yield text, *look


def screen(drawing, x, y, rows, columns, cursor):
    """Draws the screen of a terminal, of rows as a terminal is sent them; returns the height."""
    height = LINE * len(rows) + 2 * PAD
    drawing.box(x, y, CELL * columns + 2 * PAD, height, SCREEN, 6)
    for number, row in enumerate(rows):
        at, top = x + PAD, y + PAD + LINE * number
        for text, colour, ground in runs(row):
            if ground:
                drawing.box(at, top, CELL * len(text), LINE, ground)
            if text.strip():
                drawing.cells(at, top + LINE - 5, text, colour)
            at += CELL * len(text)
    drawing.box(x + PAD + CELL * cursor[1], y + PAD + LINE * cursor[0] + LINE - 3, CELL, 2, TEXT)
    return height


def bars(drawing, x, y, width, groups, unit):
    """Draws groups of bars: each a name and its bars, of a name, a figure and a colour; returns where they end."""
    most = max(figure for _, members in groups for _, figure, _ in members)
    for group, members in groups:
        drawing.words(x, y + 14, group, "#1f2328", weight="bold")
        y += 24
        for name, figure, colour in members:
            drawing.words(x + 250, y + 13, name, "#1f2328", anchor="end")
            drawing.box(x + 258, y, width * figure / most, 17, colour, 2)
            drawing.words(x + 264 + width * figure / most, y + 13, f"{figure:{',.0f' if figure >= 100 else '.2g'}} {unit}", DIM)
            y += 22
        y += 10
    return y


def texts(svg):
    """Returns what stands in a drawing as text, in order."""
    return re.findall(r"<text[^>]*>([^<]*)</text>", svg)
