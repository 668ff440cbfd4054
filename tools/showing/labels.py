"""The labels of a sequence whose commands are right: rows 8 to 10, each with its labels and places."""
from showing.damage import Damaged
from showing.sequences import COMMANDS, LABELS, PARALLEL, PAUSE, PRESENT, SEQUENCE, SETPAUSE, members_of


def labelled(commands, byte):
    """Gives, of the pauses or the setpauses, label to places."""
    places = {}
    for command in commands:
        if command.bytes[0] == byte:
            places.setdefault(command.bytes[1], []).append(command.place)
    return places


def masks_of(commands):
    """For each two-part command, from the innermost: its byte, and for either part the set of labels of its pauses and that of
    its setpauses."""
    done = []  # what the statements read so far from the right have inside, the leftmost last
    for command in reversed(commands):
        kind, parts = command.bytes[0], [done.pop() for _ in range(COMMANDS[command.bytes[0]][2])]
        if len(parts) == 2:
            yield kind, parts
        label = 1 << command.bytes[1] if kind in (PAUSE, SETPAUSE) else 0
        inside = label * (kind == PAUSE), label * (kind == SETPAUSE)
        for pauses, setpauses in parts:
            inside = inside[0] | pauses, inside[1] | setpauses
        done.append(inside)


def clash_of(commands):
    """Two labels whose pauses are exclusive, while a setpause of the first is compatible with a setpause or the pause of the
    second: the lowest such, or None."""
    exclusive, compatible = [0] * LABELS, [0] * LABELS
    for kind, ((pauses, setpauses), (pauses2, setpauses2)) in masks_of(commands):
        if kind in (SEQUENCE, PRESENT):
            for label in members_of(pauses):
                exclusive[label] |= pauses2
            for label in members_of(pauses2):
                exclusive[label] |= pauses
        elif kind == PARALLEL:
            for label in members_of(setpauses):
                compatible[label] |= pauses2 | setpauses2
            for label in members_of(setpauses2):
                compatible[label] |= pauses | setpauses
    both = [(label, members_of(exclusive[label] & compatible[label])) for label in range(LABELS)]
    return next(((label, others[0]) for label, others in both if others), None)


def paths_of(commands):
    """For each place the commands around it and its own, the outermost first."""
    around, paths = [], {}
    for command in commands:
        del around[command.depth - 1 :]
        around.append(command)
        paths[command.place] = list(around)
    return paths


def clashing_places(commands, first, second):
    """A setpause of the first label and what of the second is compatible with it: the place of the one, the other in words and
    its place."""
    paths = paths_of(commands)
    for place in labelled(commands, SETPAUSE)[first]:
        for byte, words in (SETPAUSE, "setpause"), (PAUSE, "pause"):
            for other in labelled(commands, byte).get(second, []):
                common = [one for one, two in zip(paths[place], paths[other]) if one == two]
                if common[-1].bytes[0] not in (SEQUENCE, PRESENT):
                    return place, words, other
    raise AssertionError("two labels that clash do so somewhere")


def check_labels(commands, names):
    """Raises what rows 8 to 10 turn down."""
    pauses, setpauses = labelled(commands, PAUSE), labelled(commands, SETPAUSE)
    for label, places in pauses.items():
        if len(places) > 1:
            raise Damaged(f"places {places[0]} and {places[1]}: two pauses with label {names.of('label', label)} (row 8)")
    for label, places in setpauses.items():
        if label not in pauses:
            raise Damaged(f"place {places[0]}: setpause {names.of('label', label)}, and no pause has that label (row 9)")
    clash = clash_of(commands)
    if clash:
        first, second = (names.of("label", label) for label in clash)
        place, words, other = clashing_places(commands, *clash)
        at, at2 = (pauses[label][0] for label in clash)
        raise Damaged(f"labels {first} and {second}: their pauses at {at} and {at2} are exclusive, but not setpause {first} at "
                      f"{place} and {words} {second} at {other}: not well-formed (row 10)")
