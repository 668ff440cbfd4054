"""A run as a picture in SVG: the rows of the picture of text, wrapped into blocks of columns where the run is long.

Marks that follow each other in a row are one step of the row's path, whose class is the kind of the row; the lines of the
grid stand over them and part the instants.
"""
from html import escape

from showing.listings import WRONG
from showing.pictures import codes_in_words, is_ignored, name_of

CELL, LINE, CHARACTER, MARGIN = 24, 18, 7, 5
BLOCK_WIDTH = 960  # of the columns beside each other, or more where the picture would be too high
MAX_HEIGHT = 32000  # common viewers draw no picture of 32,768 points
STYLE = (".background{fill:#fff}.grid{fill:none;stroke:#ddd}.input{fill:#3b6ea5}.emitted{fill:#b5502c}.label{fill:#8a8a8a}"
         ".ignored{fill:none;stroke:#3b6ea5}.wrong{fill:#c00}.fault{fill:#fbd5d5}.name{text-anchor:start}.bay{font-weight:bold}")
LEGEND = {"input": "input", "ignored": "input ignored, since read back", "emitted": "emitted", "label": "label waited at"}


def runs_of(marks):
    """Yields, of marks that follow each other, where they begin and how many they are."""
    start = None
    for column, mark in enumerate([*marks, 0]):
        if mark and start is None:
            start = column
        elif not mark and start is not None:
            yield start, column - start
            start = None


class Drawing:
    """The lines of a picture, and the sizes that are the same throughout."""

    def __init__(self, rows, codes, numbers, names, read_back):
        self.rows, self.codes, self.numbers, self.columns, self.lines = rows, codes, numbers, len(numbers), []
        self.kinds = ["input ignored" if is_ignored(row, read_back) else row.kind for row in rows]
        self.heads = [" ".join(filter(None, [row.kind, str(row.number), name_of(row, names)])) for row in rows]
        self.left = max([90, *(2 * MARGIN + CHARACTER * len(head) for head in self.heads)])
        self.cell = max(CELL, 3 + CHARACTER * len(str(max([0, *numbers]))))
        blocks = max(1, (MAX_HEIGHT - 8 * LINE) // self.block_height())
        self.block = max(BLOCK_WIDTH // self.cell, -(-self.columns // blocks))

    def block_height(self):
        return LINE * (len(self.rows) + 3)

    def text(self, x, y, content, kind=None):
        style = f' class="{kind}"' if kind else ""
        self.lines.append(f'<text x="{x}" y="{y}"{style}>{escape(str(content))}</text>')

    def cells(self, y, head, part, contents):
        self.text(MARGIN, y, head, "name")
        for index, column in enumerate(part):
            wrong = "wrong" if self.codes and self.codes[column] == WRONG else None
            self.text(self.left + self.cell * index + self.cell // 2, y, contents[column], wrong)

    def add_fault(self, top, part):
        """A background of its own for a wrong instant: the last of a run, or any of a recording."""
        height = LINE * (len(self.rows) + 2)
        for index in [index for index, column in enumerate(part) if self.codes and self.codes[column] == WRONG]:
            x = self.left + self.cell * index
            self.lines.append(f'<rect class="fault" x="{x}" y="{top + MARGIN}" width="{self.cell}" height="{height}"/>')

    def add_grid(self, top, part):
        width, height = self.cell * len(part), LINE * len(self.rows)
        top += LINE + MARGIN
        steps = [f"M{self.left} {top + LINE * index}h{width}" for index in range(len(self.rows) + 1)]
        steps += [f"M{self.left + self.cell * index} {top}v{height}" for index in range(len(part) + 1)]
        self.lines.append(f'<path class="grid" d="{"".join(steps)}"/>')

    def add_block(self, top, part):
        """Some columns: the numbers of the instants, the rows with their marks, the codes."""
        self.add_fault(top, part)
        self.cells(top + LINE, "instant", part, self.numbers)
        for index, (row, head, kind) in enumerate(zip(self.rows, self.heads, self.kinds), 1):
            self.text(MARGIN, top + LINE * (index + 1), head, "name")
            y = top + LINE * index + 7
            steps = [f"M{self.left + self.cell * start + 1} {y}h{self.cell * count - 2}v13h{2 - self.cell * count}z"
                     for start, count in runs_of(row.marks[part[0] : part[-1] + 1])]
            if steps:
                self.lines.append(f'<path class="{kind}" d="{"".join(steps)}"/>')
        self.add_grid(top, part)
        if self.codes:
            self.cells(top + LINE * (len(self.rows) + 2), "code", part, self.codes)


def legend_of(kinds):
    """What the colours mean, of those that occur."""
    used = [name for name in LEGEND if any(kind.split()[-1] == name for kind in kinds)]
    return "colours: " + " ".join(f'<tspan class="{name}">■</tspan> {LEGEND[name]}' for name in used) if used else ""


def add_svg(drawing, name, told, out):
    """Adds the picture below the name of its bay; told are lines below it, whose first is the title as well."""
    top = LINE
    drawing.text(MARGIN, top, name, "name bay")
    for start in range(0, drawing.columns, drawing.block):
        drawing.add_block(top, range(start, min(start + drawing.block, drawing.columns)))
        top += drawing.block_height()
    top += LINE + MARGIN
    for index, line in enumerate(told):
        drawing.text(MARGIN, top, line, "name wrong" if index == 0 and drawing.codes[-1:] == [WRONG] else "name")
        top += LINE
    below = [codes_in_words(drawing.codes)] * (len(drawing.codes) > 0)
    for line in below:
        drawing.text(MARGIN, top, line, "name")
        top += LINE
    legend = legend_of(drawing.kinds)
    if legend:
        drawing.lines.append(f'<text x="{MARGIN}" y="{top}" class="name">{legend}</text>')
        top += LINE
    columns, lengths = min(drawing.block, drawing.columns), [80 * (legend != ""), len(name), *map(len, [*told, *below])]
    width = max([drawing.left + drawing.cell * columns + 10, *(2 * MARGIN + CHARACTER * length for length in lengths)])
    size = f'width="{width}" height="{top}" viewBox="0 0 {width} {top}"'
    out.append(f'<svg xmlns="http://www.w3.org/2000/svg" {size} role="img" font-family="monospace" font-size="11" '
               'text-anchor="middle">')
    out += [f"<title>{escape(f'{name}: {told[0]}')}</title>", f"<style>{STYLE}</style>"]
    out += [f'<rect class="background" width="{width}" height="{top}"/>', *drawing.lines, "</svg>"]
