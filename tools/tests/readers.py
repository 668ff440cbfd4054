"""Readers of what is drawn: each gives of a picture the marked instants of each row, the codes and the number of instants."""
import re
import xml.etree.ElementTree
from bisect import bisect, bisect_left

from tests.common import LABELS

SPACE = "{http://www.w3.org/2000/svg}"
KINDS = "input", "emitted", "label"


def picture_of(shown):
    """Of a text picture; rows are (kind, number), and a name is passed over."""
    rows, codes, instants = {}, [], 0
    for line in shown.splitlines():
        words = line.split()
        if re.fullmatch(r"instant( +\d+)+", line):
            instants, first = instants + len(words) - 1, instants + 1
            if words[1:] != [str(number) for number in range(first, instants + 1)]:
                return None
        elif words and words[0] == "code":
            codes += map(int, words[1:])
        elif words and words[0] in KINDS:
            marks = {first + column for column, mark in enumerate(words[first - instants - 1 :]) if mark in "#o"}
            rows.setdefault((words[0], int(words[1])), set()).update(marks)
    return rows, codes, instants


def picture_of_svg(text):
    """Of an SVG, from the marks and the texts by where they stand; None if it cannot be read."""
    try:
        return read_svg(xml.etree.ElementTree.fromstring(text))
    except (xml.etree.ElementTree.ParseError, AssertionError, LookupError, ValueError, TypeError):
        return None


def read_svg(root):
    width, height = int(root.get("width")), int(root.get("height"))
    assert root.get("viewBox") == f"0 0 {width} {height}" and root.find(SPACE + "title").text
    first = root.find(SPACE + "rect")
    assert [first.get(name) for name in ("class", "width", "height")] == ["background", str(width), str(height)]
    texts = [(int(t.get("x")), int(t.get("y")), t.text) for t in root.iter(SPACE + "text")]
    assert all(0 < x < width and 0 < y < height for x, y, _ in texts)
    names = {y: t.split()[:2] for x, y, t in texts if x == 5 and (t in ("instant", "code") or t.split()[0] in KINDS)}
    cells = {}  # for each line of cells: x to content
    for x, y, t in texts:
        if x > 5:
            cells.setdefault(y, {})[x] = int(t)
    heads = [y for y in sorted(names) if names[y] == ["instant"]]
    numbers = [cells[y][x] for y in heads for x in sorted(cells[y])]
    assert numbers == list(range(1, len(numbers) + 1))
    codes = [cells[y][x] for y in sorted(names) if names[y] == ["code"] for x in sorted(cells[y])]
    rows, lines = {}, [*sorted(names), height]
    columns = {y: sorted(cells[y]) for y in heads}
    for path in root.iter(SPACE + "path"):
        if path.get("class") != "grid":
            read_marks(path, names, lines, columns, cells, width, rows)
    return rows, codes, len(numbers)


def read_marks(path, names, lines, columns, cells, width, rows):
    """Each step of a path is a rectangle over the numbers of its instants, beside the name of its row."""
    steps = re.findall(r"M(\d+) (\d+)h(\d+)v(\d+)h-(\d+)z", path.get("d"))
    assert path.get("d") == "".join(f"M{x} {y}h{w}v{h}h-{back}z" for x, y, w, h, back in steps)
    heads = sorted(columns)
    for x, y, wide, high, back in (map(int, step) for step in steps):
        name_y, after = lines[bisect(lines, y) : bisect(lines, y) + 2]
        assert y < name_y <= y + high < after
        name, head = names[name_y], heads[bisect(heads, y) - 1]
        beside = columns[head]
        instants = {cells[head][at] for at in beside[bisect(beside, x) : bisect_left(beside, x + wide)]}
        assert wide == back and x + wide < width and path.get("class").split()[0] == name[0]
        marked = rows.setdefault((name[0], int(name[1])), set())
        assert instants and not instants & marked
        marked |= instants


def values_of_vcd(text):
    """Of a value change dump: scope and name of each wire to its values at 0 ms, 100 ms and so on, and the last time."""
    wires, values, time, scope, result = {}, {}, None, [], {}
    body = text.split("$enddefinitions $end\n")
    assert len(body) == 2 and re.search(r"\$timescale\s+1 ?ms\s+\$end\n", body[0])
    for line in body[0].splitlines():
        words = line.split() or [""]
        if words[0] == "$scope":
            scope.append(words[2])
        elif words[0] == "$upscope":
            scope.pop()
        elif words[0] == "$var":
            assert words[1] == "wire" and words[3] not in wires and words[-1] == "$end"
            wires[words[3]] = scope[-1], words[4], int(words[2])
    assert not scope and len(set(wires.values())) == len(wires)

    def keep(until):
        for code, (inside, name, _) in wires.items():
            result.setdefault((inside, name), []).extend([values[code]] * ((until - time) // 100))

    for line in body[1].splitlines():
        if line.startswith("#"):
            after = int(line[1:])
            assert after % 100 == 0 and (after == 0 if time is None else after > time)
            if time is not None:
                keep(after)
            time = after
        elif not line.startswith("$"):
            value, code = line[1:].split() if line[0] == "b" else (line[0], line[1:])
            assert len(value) <= wires[code][2] and (line[0] == "b") == (wires[code][2] > 1)
            values[code] = int(value, 2)
    return result, time


def picture_of_vcd(text):
    """Of a value change dump; None if it cannot be read."""
    try:
        values, time = values_of_vcd(text)
    except (AssertionError, LookupError, ValueError, TypeError):
        return None
    count, rows = time // 100, {}
    for (scope, name), by_instant in values.items():
        if scope in KINDS:
            rows[scope, int(name.rpartition("_")[2])] = {instant for instant, value in enumerate(by_instant, 1) if value}
    if values.get(("run", "instant"), []) != list(range(1, count + 1)):
        return None
    return rows, values.get(("run", "code"), []), count


def sets_of(data, listing):
    """What a picture must show: the members of all sets of a run file and its listing."""
    lines = [line.split() for line in listing.splitlines()[1:-1]]
    start = 2 + int.from_bytes(data[:2], "little") + 4
    inputs = [int.from_bytes(data[at : at + 4], "little") for at in range(start, len(data), 4)]
    rows = {}
    for instant, line in enumerate(lines, 1):
        for kind, members in ("input", inputs[instant - 1]), ("emitted", int(line[4], 16)), ("label", int(line[5], 16)):
            for number in range(LABELS):
                if members >> number & 1:
                    rows.setdefault((kind, number), set()).add(instant)
    return rows, [int(line[1]) for line in lines], len(lines)
