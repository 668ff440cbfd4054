"""A run as a value change dump (IEEE 1364), which GTKWave shows: 100 ms an instant, the first from 0 to 100 ms.

The signals and labels that occur are wires of one bit in the scopes input, emitted and label, each with its number at the
end of its name; code, kind, place and the instant's number are wires of more bits. At the end of the last instant the
dump ends.
"""
from showing.pictures import name_of

INSTANT = 100  # in units of the time scale
FIRST, CODES = 33, 94  # the printable characters, of which short codes of wires are made


def code_of(index):
    """A wire's code: one printable character or more, another for each index."""
    return chr(FIRST + index % CODES) + (code_of(index // CODES - 1) if index >= CODES else "")


def wires_of(rows, instants, numbers, names):
    """Each wire: its scope, its name, its bits and its values by column. A panel sees a code with no kind and place."""
    wires = [("run", "instant", 16 if max([0, *numbers]) < 1 << 16 else 32, list(numbers))]
    if instants is not None:
        wires += [("run", name, bits, [getattr(instant, name) for instant in instants])
                  for name, bits in (("code", 8), ("kind", 2), ("place", 16))
                  if all(hasattr(instant, name) for instant in instants)]
    for row in rows:
        name = name_of(row, names) or ("label" if row.kind == "label" else "signal")
        wires.append((row.kind, f"{name}_{row.number}", 1, row.marks))
    return wires


def add_declarations(wires, out):
    scope = None
    for index, (inside, name, bits, _) in enumerate(wires):
        if inside != scope:
            out += ["$upscope $end"] * (scope is not None) + [f"$scope module {inside} $end"]
            scope = inside
        out.append(f"$var wire {bits} {code_of(index)} {name}{f' [{bits - 1}:0]' if bits > 1 else ''} $end")
    out += ["$upscope $end", "$enddefinitions $end"]


def change(bits, value, code):
    return f"{value}{code}" if bits == 1 else f"b{value:b} {code}"


def add_vcd(rows, instants, numbers, names, out):
    """Adds the dump: in each instant what is not as in the one before."""
    wires, columns = wires_of(rows, instants, numbers, names), len(numbers)
    out += ["$version tools/show $end", "$timescale 1 ms $end"]
    add_declarations(wires, out)
    for column in range(columns):
        out.append(f"#{INSTANT * column}")
        out += ["$dumpvars"] * (column == 0)
        out += [change(bits, values[column], code_of(index)) for index, (_, _, bits, values) in enumerate(wires)
                if column == 0 or values[column] != values[column - 1]]
        out += ["$end"] * (column == 0)
    out.append(f"#{INSTANT * columns}")
