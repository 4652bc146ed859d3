"""The sheet that block36.py, joints.py and orders.py draw on: its sizes and colours, its pens, and how it is begun and written. Importing it draws nothing.
The sheet is A4 landscape, five units to a millimetre, and as wide as the cells of a block of thirty-six samples beside a column of words."""

N = 36
M = N // 2
CELL, LEFT = 35, 166
RIGHT = LEFT + N * CELL
WIDTH, HEIGHT = 1485, 1050
INK, GREY, PALE, RED = "#1a1a1a", "#666666", "#f3f3f3", "#b00020"
FIRST, SECOND, TAIL, SOUND = "#d6e6f5", "#fbe3c6", "#e4daf1", "#d9edd2"
DEEP_FIRST, DEEP_SECOND, DEEP_TAIL, DEEP_SOUND = "#1f5a8f", "#a85a00", "#5d3f92", "#2e6b1f"
DASHED = ' stroke-dasharray="7 5"'
ARROW = ' marker-end="url(#head)"'

# the lines of the file, as far as it is drawn
drawn = []


def begin(title, beside):
    """An empty sheet with its heading: a title, and words at the right."""
    drawn[:] = [
        f'<svg xmlns="http://www.w3.org/2000/svg" width="297mm" height="210mm" viewBox="0 0 {WIDTH} {HEIGHT}" '
        'font-family="DejaVu Sans, Verdana, Helvetica, Arial, sans-serif">',
        '<defs><marker id="head" viewBox="0 0 10 10" refX="9" refY="5" markerWidth="8" markerHeight="8" orient="auto">'
        f'<path d="M0,0 L10,5 L0,10 z" fill="{INK}"/></marker></defs>',
    ]
    rect(0, 0, WIDTH, HEIGHT, "white", "none")
    text(LEFT, 48, title, 29, "start", weight="bold")
    text(RIGHT, 48, beside, 18, "end")


def write(name):
    """What is drawn, as the file of that name."""
    with open(name, "w", encoding="utf-8", newline="\n") as file:
        file.write("\n".join([*drawn, "</svg>"]) + "\n")


def left(n):
    return LEFT + n * CELL


def middle(n):
    return left(n) + CELL / 2


def num(z):
    return f"{z:.1f}".removesuffix(".0")


def text(x, y, words, size=15, anchor="middle", fill=INK, weight="normal"):
    look = f'font-size="{size}" text-anchor="{anchor}" fill="{fill}" font-weight="{weight}"'
    # blanks in a row would be drawn as one
    wide = words if isinstance(words, int) else words.replace("   ", "\u00a0\u00a0 ")
    drawn.append(f'<text x="{num(x)}" y="{num(y)}" {look}>{wide}</text>')


def line(x1, y1, x2, y2, stroke=INK, width=1.2, more=""):
    drawn.append(f'<line x1="{num(x1)}" y1="{num(y1)}" x2="{num(x2)}" y2="{num(y2)}" stroke="{stroke}" stroke-width="{width}"{more}/>')


def rect(x, y, w, h, fill, stroke=INK, width=1, more=""):
    drawn.append(f'<rect x="{num(x)}" y="{num(y)}" width="{num(w)}" height="{num(h)}" fill="{fill}" stroke="{stroke}" stroke-width="{width}"{more}/>')


def path(points, stroke, width=1.4, more=""):
    d = "M" + " L".join(f"{num(x)},{num(y)}" for x, y in points)
    drawn.append(f'<path d="{d}" fill="none" stroke="{stroke}" stroke-width="{width}"{more}/>')


def dot(x, y, fill):
    drawn.append(f'<circle cx="{num(x)}" cy="{num(y)}" r="3.6" fill="{fill}"/>')


def label(y, *lines):
    """Words in the left column; the first line is the name."""
    for i, words in enumerate(lines):
        text(LEFT - 14, y + 19 * i, words, 15 if i == 0 else 13, "end", INK if i == 0 else GREY, "bold" if i == 0 else "normal")


def cells(y, h, places, words, fill, size=15):
    for n, w in zip(places, words):
        rect(left(n), y, CELL, h, fill)
        text(middle(n), y + h / 2 + size * 0.36, w, size)


def axis(top, base, right):
    """The lines of 0 and of 2²⁶, from the left column on, that a window is drawn between."""
    line(LEFT, base, right, base, GREY)
    for y, words in ((top, "2²⁶"), (base, "0")):
        line(LEFT - 6, y, LEFT, y, GREY)
        text(LEFT - 10, y + 5, words, 13, "end", GREY)
    line(LEFT, top, right, top, "#c8c8c8", 1, ' stroke-dasharray="2 5"')
