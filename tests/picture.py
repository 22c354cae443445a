"""Draws what a plain terminal shows as a picture in SVG: its cells, those in negative image, and its cursor.

A picture says how it was drawn, so that it can be drawn again, and its cells can be read back from it. Each piece of
text is as wide as its cells, whatever font is there.
"""
import re
import shlex
import xml.etree.ElementTree as tree
from xml.sax.saxutils import escape

from played import PlainTerminal

WIDTH, HEIGHT = 9, 18  # of a cell
MARGIN = 12  # around all cells
BASE = 13  # from a cell's top to the line of its letters
PAPER, INK, CURSOR = "#fffdf6", "#1f1f1c", "#e08a1e"
PIECE = re.compile(r"\S+(?: \S+)*")  # without two blanks in a row, of which pictures show one alone
NAMESPACE = "{http://www.w3.org/2000/svg}"


def left(col):
    return MARGIN + col * WIDTH


def top(row):
    return MARGIN + row * HEIGHT


def rect(row, col, cells):
    return f'<rect x="{left(col)}" y="{top(row)}" width="{cells * WIDTH}" height="{HEIGHT}"/>'


def stretches(cells, negative):
    """The longest stretches of a row that are in this image: from which cell on, and the text."""
    text = "".join(byte if it == negative else "\n" for byte, it in cells)
    return [(found.start(), found[0]) for found in re.finditer(r"[^\n]+", text)]


def texts(rows, negative):
    """The pieces of text that are in this image, from the top."""
    for row, cells in enumerate(rows):
        for begin, text in stretches(cells, negative):
            for piece in PIECE.finditer(text):
                width = len(piece[0]) * WIDTH
                place = f'x="{left(begin + piece.start())}" y="{top(row) + BASE}" textLength="{width}"'
                yield f'<text {place} lengthAdjust="spacingAndGlyphs">{escape(piece[0])}</text>'


def group(name, color, lines):
    return [f'<g id="{name}" fill="{color}">', *lines, "</g>"]


def drawn(terminal, words):
    """The picture of a terminal, which was drawn by bin/picture with these words."""
    rows, cols = len(terminal.cells), len(terminal.blank)
    width, height = cols * WIDTH + 2 * MARGIN, rows * HEIGHT + 2 * MARGIN
    cells = list(enumerate(terminal.cells))
    negative = [rect(row, col, len(text)) for row, line in cells for col, text in stretches(line, True)]
    lines = [
        f'<svg xmlns="http://www.w3.org/2000/svg" width="{width}" height="{height}" viewBox="0 0 {width} {height}" '
        f'font-family="monospace" font-size="15">',
        f"<title>A screen of {rows} rows and {cols} columns</title>",
        f"<desc>{escape(shlex.join(['bin/picture', *words]))}</desc>",
        f'<rect x="0.5" y="0.5" width="{width - 1}" height="{height - 1}" rx="6" fill="{PAPER}" stroke="{INK}"/>',
        *group("negative", INK, negative),
        *group("cursor", CURSOR, [rect(terminal.row - 1, terminal.col - 1, 1)]),
        *group("text", INK, texts(terminal.cells, False)),
        *group("negative-text", PAPER, texts(terminal.cells, True)),
        "</svg>",
    ]
    return "\n".join(lines) + "\n"


def words_of(picture):
    """The words of bin/picture by which a picture was drawn."""
    return shlex.split(tree.fromstring(picture).findtext(f"{NAMESPACE}desc"))[1:]


def shown(picture):
    """The terminal that a picture shows, read back from where its pieces stand."""
    root = tree.fromstring(picture)
    cells = lambda name: (int(root.get(name[0])) - 2 * MARGIN) // name[1]
    terminal = PlainTerminal(cells(("height", HEIGHT)), cells(("width", WIDTH)))
    groups = {it.get("id"): list(it) for it in root.findall(f"{NAMESPACE}g")}
    place = lambda it, down: ((int(it.get("y")) - MARGIN - down) // HEIGHT, (int(it.get("x")) - MARGIN) // WIDTH)
    for it in groups["negative"]:
        row, col = place(it, 0)
        for at in range(col, col + int(it.get("width")) // WIDTH):
            terminal.cells[row][at] = (" ", True)
    for it in [*groups["text"], *groups["negative-text"]]:
        row, col = place(it, BASE)
        for at, letter in enumerate(it.text, col):
            terminal.cells[row][at] = (letter, terminal.cells[row][at][1])
    (cursor,) = groups["cursor"]
    terminal.row, terminal.col = (it + 1 for it in place(cursor, 0))
    return terminal
