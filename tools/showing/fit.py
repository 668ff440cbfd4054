"""The fit sheet of a sequence: what it takes of what a sequence, a bay and a box have (01, 'Commands'; 02, items 5 to 8)."""
from showing.damage import counted
from showing.reactions import share_of
from showing.sequences import (COMMANDS, LABELS, MAX_DEPTH, MAX_SEQUENCE, MAX_SIGNALS, PAUSE, SIGNALS, ceiling_of, members_of)

BAYS, SHARED_CEILING = 8, 65536  # of a box (02, item 8)
INSTANT, REACTION = 20, 10  # microseconds and nanoseconds, with which a planner counts (docs/CEILING.md)


def used_of(commands, operand):
    """The numbers of the signals that commands name, or of the exits."""
    return {command.bytes[1] for command in commands if COMMANDS[command.bytes[0]][1][:1] == (operand,)}


def fit_of(commands, read_back):
    """Each line of the sheet: what is counted, how much of it there is, and how much there may be."""
    most = ceiling_of(commands, read_back)
    signals = used_of(commands, "signal") | set(members_of(read_back))
    return [
        ("bytes", sum(len(command.bytes) for command in commands), MAX_SEQUENCE),
        ("depth", max(command.depth for command in commands), MAX_DEPTH),
        ("signals named", len(signals), SIGNALS),
        ("signals inside each other", most.signals, MAX_SIGNALS),
        ("labels", sum(command.bytes[0] == PAUSE for command in commands), LABELS),
        ("reactions, by the ceiling", most.most, SHARED_CEILING),
    ]


def add_fit(commands, read_back, out):
    """Adds the sheet; a share is rounded up, so that what passes a limit has over 100 %."""
    out += ["", f"{'takes':25}  {'':>9}  {'of':>6}  share"]
    lines = fit_of(commands, read_back)
    out += [f"{what:25}  {count:9,}  {most:6,}  {share_of(count, most):>5}" for what, count, most in lines]
    count = lines[-1][1]
    bays = min(BAYS, SHARED_CEILING // count)
    fits = f"a box takes {counted(bays, 'such bay')}" if bays else "no box takes such a bay (row 14)"
    part = ", each with its part of the shared ceiling" if bays else ": its ceiling is above the one that the bays of a box share"
    out += [fits + part]
    out += [f"plan {INSTANT + count * REACTION / 1000:,.1f} µs for an instant, with litres or without: {INSTANT} µs and {REACTION} ns a reaction;"
            " docs/CEILING.md names the processor"]
