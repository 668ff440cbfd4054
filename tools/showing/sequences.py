"""Sequences: their commands by place (rows 2 to 7 and 18), and the ceiling of an instant's reactions (02, item 6)."""
import struct
from collections import namedtuple

from showing.damage import Damaged, counted

LABELS = 128  # labels are 0 to one less; a listing has a digit for four of them
SIGNALS = 32

# Document 01, 'Commands', and 02, items 1 and 12: the words of each command, with … for a part; what its operands are; how
# many parts follow.
COMMANDS = [
    ("nothing", (), 0),
    ("pause, label {}", ("label",), 0),
    ("emit {}", ("signal",), 0),
    ("exit {}", ("exit",), 0),
    ("…; then …", (), 2),
    ("… in parallel with …", (), 2),
    ("loop …", (), 1),
    ("present {} then … else …", ("signal",), 2),
    ("signal {} in …", ("signal",), 1),
    ("try …", (), 1),
    ("setpause {}", ("label",), 0),
    ("suspend … when {}", ("signal",), 1),
    ("emit {} with {}", ("signal", "litres"), 0),
]
NOTHING, PAUSE, EMIT, EXIT, SEQUENCE, PARALLEL, LOOP, PRESENT, SIGNAL, TRY, SETPAUSE, SUSPEND, DELIVER = range(len(COMMANDS))
LITRES_BYTES, MAX_LITRES = 4, 16777216  # a single-precision number; an operand of another kind has one byte
OPERANDS = {"label": (0, LABELS - 1), "signal": (0, SIGNALS - 1), "exit": (1, 15), "litres": (0, MAX_LITRES)}  # their ranges
MAX_SEQUENCE, MAX_DEPTH, MAX_SIGNALS = 1024, 64, 6
READ_BACK_PLACE = 65535  # of an error of a read-back signal, which no command declares

Command = namedtuple("Command", "place depth bytes loops signals")  # so many loops and signals around it
Ceiling = namedtuple("Ceiling", "commands loops signals most")  # read-back declarations counted as commands and signals


def damaged(row, place, why):
    return Damaged(f"place {place}: {why} (row {row})")


def own_bytes(sequence, place):
    """The command byte at a place and its operands, once they are right (rows 3 to 5 and 18)."""
    byte = sequence[place]
    if byte >= len(COMMANDS):
        raise damaged(3, place, f"no command has the byte {byte:02X}")
    operands = COMMANDS[byte][1]
    count = sum(LITRES_BYTES if operand == "litres" else 1 for operand in operands)
    own = sequence[place : place + 1 + count]
    if len(own) < 1 + count:
        raise damaged(4, place, f"{'a byte of the operands' if count > 1 else 'the operand'} is missing at the end")
    if operands:
        least, most = OPERANDS[operands[0]]
        if not least <= own[1] <= most:
            raise damaged(5, place, f"operand {own[1]} is outside {least} to {most}")
    if "litres" in operands and litres_in(own) is None:
        number = struct.unpack("<f", own[2:])[0]
        raise damaged(18, place, f"litres {number:.9g} are no whole number from 0 to {MAX_LITRES:,}")
    return own


def litres_in(own):
    """The litres of a command with its own bytes: none of most commands; None for a number that is not allowed."""
    if own[0] != DELIVER:
        return 0
    number = struct.unpack("<f", own[2:])[0]
    return int(number) if own[5] < 0x80 and number <= MAX_LITRES and number == int(number) else None


def members_of(members):
    """The signals or labels of a set, the lowest first."""
    return [number for number in range(members.bit_length()) if members >> number & 1]


def commands_of(sequence, read_back):
    """Yields the commands from the left, up to the first fault (rows 2 to 7 and 18), which may be that of the read-back set."""
    if not 1 <= len(sequence) <= MAX_SEQUENCE:
        raise damaged(2, 0, f"a sequence has 1 to 1,024 bytes, this one {'more' if sequence else 'none'}")
    place = nesting = 0
    awaited = [(1, 0, 0)]  # for each statement still to come: its depth, and the loops and signals around it
    while awaited:
        depth, loops, signals = awaited.pop()
        if place == len(sequence):
            raise damaged(4, place, "a statement is missing at the end")
        own = own_bytes(sequence, place)
        if depth > MAX_DEPTH:
            raise damaged(6, place, f"depth {depth} is over {MAX_DEPTH}")
        if own[0] == SIGNAL and signals == MAX_SIGNALS:
            raise damaged(6, place, "a seventh signal inside six")
        nesting = max(nesting, signals)
        yield Command(place, depth, own, loops, signals)
        inside = depth + 1, loops + (own[0] == LOOP), signals + (own[0] == SIGNAL)
        awaited += [inside] * COMMANDS[own[0]][2]
        place += len(own)
    count = len(members_of(read_back))
    if count + nesting > MAX_SIGNALS:
        raise Damaged(f"read-back: {counted(count, 'signal')} and {nesting} inside each other are over {MAX_SIGNALS} (row 6)")
    if place < len(sequence):
        raise damaged(7, place, f"{counted(len(sequence) - place, 'byte')} after the statement")


def words_of(own, names):
    """A command in words, from its own bytes."""
    text, operands, _ = COMMANDS[own[0]]
    return text.format(*(counted(litres_in(own), "litre") if operand == "litres" else names.of(operand, own[1])
                         for operand in operands))


def ceiling_of(commands, read_back):
    """What an instant takes at most (docs/CEILING.md, 'The ceiling')."""
    declared = len(members_of(read_back))
    count = len(commands) + declared
    loops = max(command.loops for command in commands)
    signals = max(command.signals for command in commands) + declared
    return Ceiling(count, loops, signals, count * (1 + loops) * 2**signals)


def ceiling_line(commands, read_back):
    count, loops, signals, most = ceiling_of(commands, read_back)
    return (f"ceiling: {count:,} × {1 + loops} × {2**signals} = {counted(most, 'reaction')} "
            f"({counted(count, 'command')}; around one: {counted(loops, 'loop')}, {counted(signals, 'signal')})")


def width_of(commands):
    """How wide the bytes of a command are: those of one with litres take six, and one operand is the most otherwise."""
    return max([5, *(len(command.bytes.hex(" ")) for command in commands)])


def own_line(place, own, width, depth, words):
    """A line of a table, with the text of its place."""
    return f"{place}  {own.hex(' ').upper():{width}}  {'  ' * (depth - 1)}{words}"


def line_of(place, own, width, depth, words):
    """A line of the table; what rewriting made has no bytes of its own."""
    return own_line(f"{place:5}", own, width, depth, words)


def add_commands(sequence, read_back, names, out):
    """Adds the table as far as the sequence is right, below its read-back signals, then the ceiling of one that rows 2 to 7
    and 18 pass; returns the commands."""
    commands = []
    if read_back:
        out.append(f"reads back {names.all_of('signal', members_of(read_back))}")
    try:
        for command in commands_of(sequence, read_back):
            commands.append(command)
    finally:
        width = width_of(commands)
        out += [f"place  {'bytes':{width}}  command"] * (len(commands) > 0)
        out += [line_of(command.place, command.bytes, width, command.depth, words_of(command.bytes, names))
                for command in commands]
    out += ["", ceiling_line(commands, read_back)]
    return commands
