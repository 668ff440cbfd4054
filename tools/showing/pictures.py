"""A run as a picture of text: a row for each signal and label that occurs, a column for each instant, and the codes in words."""
from collections import namedtuple

from showing.listings import code_in_words
from showing.sequences import LABELS, SIGNALS

PICTURE_WIDTH = 100

Row = namedtuple("Row", "kind number marks")  # marks: for each column whether it has one


def rows_of(inputs, instants):
    """A row for each signal and each label that occurs; with no listing the inputs alone."""
    sets = [("input", SIGNALS, inputs if instants is None else inputs[: len(instants)])]
    if instants is not None:
        sets.append(("emitted", SIGNALS, [instant.emitted for instant in instants]))
        sets.append(("label", LABELS, [getattr(instant, "labels", 0) for instant in instants]))  # a panel sees none
    rows = [Row(kind, number, [members >> number & 1 for members in columns])
            for kind, width, columns in sets for number in range(width)]
    return [row for row in rows if any(row.marks)]


def name_of(row, names):
    """The name of a row's signal or label, empty where it has none."""
    return (names.label if row.kind == "label" else names.signal).get(row.number, "")


def is_ignored(row, read_back):
    """Whether nobody reads the inputs of a row: the status of a read-back signal is the sequence's own."""
    return row.kind == "input" and read_back >> row.number & 1 == 1


def codes_in_words(codes):
    """Such as 'codes: 1 waiting; 0 ended', in the order in which they come."""
    return "codes: " + "; ".join(f"{code} {code_in_words(code)}" for code in dict.fromkeys(codes))


def heads_of(rows, names):
    """What stands left of each row, all of one width."""
    digits = max([2, *(len(str(row.number)) for row in rows)])
    heads = [f"{row.kind:8}{row.number:{digits}} {name_of(row, names)}".rstrip() for row in rows]
    width = max([10, *map(len, heads)])
    return [f"{head:{width}}" for head in heads], width


def add_picture(rows, codes, numbers, names, read_back, out):
    """Adds the picture, in blocks that are narrow enough, and what its marks mean; the numbers are those of the instants."""
    heads, width = heads_of(rows, names)
    columns, cell = len(numbers), 1 + len(str(max([0, *numbers, *codes])))
    block = (PICTURE_WIDTH - width) // cell
    for start in range(0, columns, block):
        part = range(start, min(start + block, columns))
        out += ["", f"{'instant':{width}}" + "".join(f"{numbers[column]:{cell}}" for column in part)]
        for head, row in zip(heads, rows):
            marks = ".o" if is_ignored(row, read_back) else ".#"
            out.append(head + "".join(f"{marks[row.marks[column]]:>{cell}}" for column in part))
        if codes:
            out.append(f"{'code':{width}}" + "".join(f"{codes[column]:{cell}}" for column in part))
    ignored = any(is_ignored(row, read_back) for row in rows)
    out += [""] + [codes_in_words(codes)] * (len(codes) > 0)
    out += ["o: an input that is ignored, since the signal is read back"] * ignored
