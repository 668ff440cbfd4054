"""Random sequences, and what rows 2 to 10 and 18 say of any bytes, by recursion, pair by pair and by fractions."""
from fractions import Fraction

from tests.common import LABELS, OPERANDS, PARTS, RANGES, rng


def generate(place, depth, signals, size):
    """A random statement: its bytes, and a line (place, depth, own bytes) for each command."""
    leaf = size <= 1 or depth == 64
    kind = rng.choice([0, 1, 2, 3, 10, 12] if leaf else [4, 4, 5, 5, 6, 7, 7, 8 if signals < 6 else 6, 9, 11])
    own = bytes([kind] + ([rng.choice(RANGES[kind])] if kind in RANGES else []))
    own += number_of(any_litres()) if kind == 12 else b""
    lines, data = [(place, depth, own)], own
    for part in range(PARTS.get(kind, 0)):
        share = size - 1 if PARTS[kind] == 1 else rng.randrange(1, size) if part == 0 else max(1, size - len(lines))
        inner, below = generate(place + len(data), depth + 1, signals + (kind == 8), share)
        data, lines = data + inner, lines + below
    return data, lines


def any_litres():
    return rng.choice([0, 1, 7, 16777215, 16777216, rng.randrange(100), rng.randrange(16777217), 1 << rng.randrange(25)])


def number_of(litres):
    """The four bytes of a whole number that has at most 24 binary digits."""
    if litres == 0:
        return bytes(4)
    exponent = litres.bit_length() - 1
    return (exponent + 127 << 23 | (litres << 23 >> exponent) - (1 << 23)).to_bytes(4, "little")


def litres_of(own):
    """The litres of a command's own bytes, as a fraction; None for what row 18 turns down."""
    if own[0] != 12:
        return 0
    bits = int.from_bytes(own[2:6], "little")
    exponent, digits = bits >> 23 & 255, bits & (1 << 23) - 1
    value = Fraction(digits + (1 << 23) * (exponent > 0)) * Fraction(2) ** (max(exponent, 1) - 150)
    return int(value) if bits >> 31 == 0 and exponent < 255 and value.denominator == 1 and value <= 1 << 24 else None


def nesting(lines, kind=8):
    """The most commands of a kind around a command: signals, if not told."""
    around, most = [], 0  # the depths of those around the last line
    for _, depth, own in lines:
        around = [outer for outer in around if outer < depth] + [depth] * (own[0] == kind)
        most = max(most, len(around))
    return most


def sequence():
    while True:
        data, lines = generate(0, 1, 0, rng.choice([1, 3, 10, 40, 200, 500]))
        if len(data) <= 1024:
            return data, lines


def verdict(data):
    """The row of 2 to 7 or 18 that turns a sequence down and the place where it is found; row 0 if none does."""

    def read(at, depth, signals):
        if at == len(data):
            raise LookupError(4, at)
        kind, end = data[at], at + 1
        if kind > 12:
            raise LookupError(3, at)
        if kind in RANGES:
            if end + OPERANDS[kind] > len(data):
                raise LookupError(4, at)
            if data[end] not in RANGES[kind]:
                raise LookupError(5, at)
            end += OPERANDS[kind]
            if litres_of(data[at:end]) is None:
                raise LookupError(18, at)
        if depth > 64 or (kind == 8 and signals == 6):
            raise LookupError(6, at)
        for _ in range(PARTS.get(kind, 0)):
            end = read(end, depth + 1, signals + (kind == 8))
        return end

    if not 1 <= len(data) <= 1024:
        return 2, 0
    try:
        end = read(0, 1, 0)
    except LookupError as fault:
        return fault.args
    return (0, end) if end == len(data) else (7, end)


def paths_of(lines):
    """Each place with the commands around it, as (place, byte, part): the part in which it lies."""
    around, paths = [], {}
    for place, depth, own in lines:
        del around[depth - 1 :]
        if around:
            around[-1][2] += 1
        paths[place] = [tuple(step) for step in around]
        around.append([place, own[0], 0])
    return paths


def exclusive(paths, place, other):
    """01, 'States and resuming', of two pauses or setpauses."""
    for one, two in zip(paths[place], paths[other]):
        if one != two:
            return one[1] in (4, 7)
    raise AssertionError("a pause and a setpause have no parts")


def clashes(lines):
    """Of a sequence whose pauses have labels of their own: each setpause with what makes it not well-formed."""
    paths, pauses = paths_of(lines), {own[1]: place for place, _, own in lines if own[0] == 1}
    jumps = [(own[1], place) for place, _, own in lines if own[0] == 10]
    return [((label, place), (label2, place2)) for label, place in jumps for label2, place2 in [*jumps, *pauses.items()]
            if label != label2 and exclusive(paths, pauses[label], pauses[label2]) and not exclusive(paths, place, place2)]


def lines_of(data):
    """The lines of bytes that rows 2 to 7 and 18 pass."""
    lines = []

    def read(at, depth):
        end = at + 1 + OPERANDS.get(data[at], 0)
        lines.append((at, depth, data[at:end]))
        for _ in range(PARTS.get(data[at], 0)):
            end = read(end, depth + 1)
        return end

    read(0, 1)
    return lines


def label_verdict(lines):
    """The row of 8 to 10 that turns down a sequence that rows 2 to 7 pass, or 0."""
    pauses = [own[1] for _, _, own in lines if own[0] == 1]
    if len(set(pauses)) < len(pauses):
        return 8
    if any(own[0] == 10 and own[1] not in pauses for _, _, own in lines):
        return 9
    return 10 if clashes(lines) else 0


def relabelled(lines):
    """The same commands with labels of their own for the pauses and some of these for the setpauses; an emit where there is
    none left."""
    free, result = rng.sample(range(LABELS), LABELS), []
    count = sum(own[0] == 1 for _, _, own in lines)
    used = free[: min(count, LABELS)]
    for place, depth, own in lines:
        if own[0] == 1:
            own = bytes([1, free.pop(0)] if free else [2, 0])
        elif own[0] == 10:
            own = bytes([10, rng.choice(used)] if used else [2, 0])
        result.append((place, depth, own))
    return result


def bytes_of(lines):
    return b"".join(own for _, _, own in lines)


def without_setpauses(lines):
    return [(place, depth, bytes([2, own[1] % 32]) if own[0] == 10 else own) for place, depth, own in lines]


def accepted_sequence():
    """One that rows 2 to 10 pass, with setpauses where they are well-formed."""
    lines = relabelled(sequence()[1])
    if label_verdict(lines):
        lines = without_setpauses(lines)
    return bytes_of(lines), lines


def waiting_statement(size, tries, signals):
    """The bytes of a statement that mostly waits: few signals, which it tests and emits, and loops that pause."""
    if size <= 1:
        emit, leave = [2, rng.randrange(4)], [3, rng.randint(1, tries + 1)]
        deliver = [12, rng.randrange(4), *number_of(any_litres())]
        return bytes(rng.choice([[1, 0], [1, 0], [1, 0], emit, deliver, [0], leave]))
    kind = rng.choice([4, 4, 4, 4, 5, 5, 5, 6, 6, 7, 7, 8 if signals < 3 else 4, 9, 11, 11])
    own = bytes([kind, rng.randrange(4)] if kind in (7, 8, 11) else [kind])
    inside = tries + (kind == 9), signals + (kind == 8)
    if kind == 6 and rng.random() < 0.8:
        body = waiting_statement(size - 3, *inside)
        return own + (b"\4\1\0" + body if rng.random() < 0.5 else b"\4" + body + b"\1\0")
    if PARTS[kind] == 1:
        return own + waiting_statement(size - 1, *inside)
    first = rng.randrange(1, size)
    return own + waiting_statement(first, *inside) + waiting_statement(size - first, *inside)


def waiting_sequence(size):
    """Such a sequence, accepted and without setpause, with a read-back set of its signals."""
    while True:
        lines = relabelled(lines_of(waiting_statement(size, 0, 0)))
        read_back = rng.choice([0, 0, rng.randrange(16)])
        depth, signals = max(line[1] for line in lines), bin(read_back).count("1") + nesting(lines)
        if len(bytes_of(lines)) <= 1024 and depth <= 64 and signals <= 6:
            return bytes_of(lines), lines, read_back
