"""Loops written out (02, item 13): the commands of a result beside the places of the original that they come from."""
from collections import namedtuple

from showing.damage import Damaged
from showing.sequences import LOOP, PAUSE, SEQUENCE, SETPAUSE, commands_of, own_line, width_of, words_of

# A command of the result: its own bytes, the place of the original that it comes from, and whether it is in a copy.
Unrolled = namedtuple("Unrolled", "bytes origin copied")


def copy_of(loop, behind):
    """The commands inside a loop as its copy has them, of those behind it: setpauses for pauses, and no loops."""
    for command in behind:
        if command.depth <= loop.depth:
            return
        if command.bytes[0] != LOOP:
            own = bytes([SETPAUSE]) + command.bytes[1:] if command.bytes[0] == PAUSE else command.bytes
            yield Unrolled(own, command.place, True)


def unrolled_of(commands):
    """The commands of the result: behind each loop a sequence, which is made of it, and the copy; its body follows by itself."""
    for index, command in enumerate(commands):
        yield Unrolled(command.bytes, command.place, False)
        if command.bytes[0] == LOOP:
            yield Unrolled(bytes([SEQUENCE]), command.place, False)
            yield from copy_of(command, commands[index + 1 :])


def add_unrolled(commands, result, read_back, names, out):
    """Adds the table of the result, once it is what the original becomes."""
    if any(command.bytes[0] == SETPAUSE for command in commands):
        raise Damaged("the sequence has a setpause, so its loops are not written out (row 20)")
    expected = list(unrolled_of(commands))
    if result != b"".join(command.bytes for command in expected):
        raise Damaged("the result is not the sequence with its loops written out")
    width = width_of(expected)
    out += ["", f"place   from        {'bytes':{width}}  command"]
    for command, (own, origin, copied) in zip(commands_of(result, read_back), expected):
        place = f"{command.place:5}  {origin:5}  {'copy' if copied else '':4}"
        out.append(own_line(place, own, width, command.depth, words_of(own, names)))
