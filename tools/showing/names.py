"""Names of signals and labels, from a text file.

A line names a signal or a label by its number, such as 'signal 9 pump' or 'label 0 ready'; # begins a comment, and empty
lines count for nothing. A name is one word of at most 24 letters, digits, - and _, and begins with a letter. A number has
one name at most, and no two signals and no two labels have the same.
"""
import re
from collections import namedtuple

from showing.damage import Damaged
from showing.sequences import OPERANDS
from showing.streams import read_bytes, text_in

MAX_NAMES_FILE = 65536
LINE = re.compile(r"(signal|label)\s+([0-9]{1,3})\s+([^\W\d_][\w-]{0,23})")


class Names(namedtuple("Names", "signal label")):
    """A dict from number to name for signals, and one for labels."""

    def of(self, kind, number):
        """The number, and its name where it has one."""
        name = getattr(self, kind).get(number) if kind in self._fields else None
        return f"{number} {name}" if name else str(number)

    def all_of(self, kind, numbers):
        return ", ".join(self.of(kind, number) for number in numbers)


def named_in(line, names):
    """The kind, the number and the name that a line of the file has."""
    fields = LINE.fullmatch(line)
    if not fields:
        raise Damaged("not 'signal', 'label' or a comment, a number and a name of at most 24 letters, digits, - and _")
    kind, number, name = fields[1], int(fields[2]), fields[3]
    if number > OPERANDS[kind][1]:
        raise Damaged(f"{kind}s are 0 to {OPERANDS[kind][1]}, this one {number}")
    known = getattr(names, kind)
    if number in known:
        raise Damaged(f"{kind} {number} has the name {known[number]} already")
    if name in known.values():
        raise Damaged(f"another {kind} has the name {name} already")
    return kind, number, name


def names_in(path):
    """The names of a file; none where no file is named."""
    names = Names({}, {})
    if path is None:
        return names
    data = read_bytes(path, MAX_NAMES_FILE)
    if len(data) > MAX_NAMES_FILE:
        raise Damaged(f"a file of names has at most {MAX_NAMES_FILE:,} bytes", path)
    for number, line in enumerate(text_in(data, path).split("\n"), 1):
        line = line.partition("#")[0].strip()
        try:
            if line:
                kind, place, name = named_in(line, names)
                getattr(names, kind)[place] = name
        except Damaged as error:
            raise Damaged(f"line {number}: {error}", path) from None
    return names
