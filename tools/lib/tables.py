"""Tables for a terminal: columns as wide as their cells, and cells that are wrapped where a table would be wider than the terminal."""
import os, shutil, sys, textwrap

COLOUR = sys.stdout.isatty() and "NO_COLOR" not in os.environ
# How wide a table may be where no terminal says.
WIDTH = 120


def bold(text):
    return f"\033[1m{text}\033[0m" if COLOUR else text


def wrong(text):
    return f"\033[31m{text}\033[0m" if COLOUR else text


def terminal_width():
    return max(40, shutil.get_terminal_size((WIDTH, 24)).columns)


def longest_word(cells):
    return max((len(word) for cell in cells for word in cell.split()), default=0)


def widths_of(rows, width):
    """How wide each column is: as its widest cell, and where that is too wide in all, the widest ones less, down to their longest word."""
    columns = list(zip(*rows))
    widths = [max(len(cell) for cell in column) for column in columns]
    least = [longest_word(column) for column in columns]
    while sum(widths) + 2 * len(widths) > width:
        able = [at for at in range(len(widths)) if widths[at] > least[at]]
        if not able:
            break
        widths[max(able, key=lambda at: widths[at])] -= 1
    return widths


def table(rows, width=None):
    """Rows of cells as lines, the first row bold."""
    rows = [[str(cell) for cell in row] for row in rows]
    widths = widths_of(rows, width or terminal_width())
    for at, row in enumerate(rows):
        cells = [textwrap.wrap(cell, size) or [""] if len(cell) > size else [cell] for cell, size in zip(row, widths)]
        for line in range(max(map(len, cells))):
            text = "  ".join((cell[line] if line < len(cell) else "").ljust(size) for cell, size in zip(cells, widths)).rstrip()
            yield "  " + (bold(text) if at == 0 else text)
