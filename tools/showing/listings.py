"""Listings of the run program (document 01, 'Bays to run'): their instants, and how a run stopped."""
import re
import subprocess
from collections import namedtuple
from pathlib import Path

from showing.damage import Damaged
from showing.files import INPUT_BYTES, MAX_FILE
from showing.sequences import DELIVER, EMIT, LABELS, LOOP, PAUSE, READ_BACK_PLACE, SIGNAL, words_of
from showing.streams import MARK, read_bytes

MAX_LISTING = 64 * (MAX_FILE // INPUT_BYTES)  # no line has 64 bytes
HEADER = "instant code kind place emitted labels"
LINE = re.compile(rf"([0-9]{{1,5}}) ([0-9]{{1,3}}) ([0-9]) ([0-9]{{1,5}}) ([0-9a-f]{{8}}) ([0-9a-f]{{{LABELS // 4}}})")

ENDED, WAITING, MAX_LEAVING, WRONG = 0, 1, 16, 255
KINDS = {
    1: (LOOP, "the loop's body ended in the instant in which it began"),
    2: (SIGNAL, "the signal is emitted only if absent"),
    3: (SIGNAL, "the signal is emitted only if present"),
}

Instant = namedtuple("Instant", "number code kind place emitted labels")


def listing_of(path, data):
    """The text of the listing, or None where there is none at hand."""
    if path is not None:
        text = read_bytes(path, MAX_LISTING)
    else:
        program = Path(__file__).resolve().parents[2] / "target" / "bin" / "run"
        if not program.exists():
            return None
        text = subprocess.run([program], input=data, stdout=subprocess.PIPE, check=False).stdout
    if len(text) > MAX_LISTING:
        raise Damaged("listing: longer than that of any run")
    return text.removeprefix(MARK).decode("ascii", "replace")


def cannot_be(number):
    return Damaged(f"listing: line {number + 1}: cannot be instant {number} of this run")


def instants_in(text):
    """The instants of a listing, by its lines alone."""
    lines = text.split("\n")
    refused = re.fullmatch(r"refused (8|9|10)", lines[0])
    if refused and lines[1:] == [""]:
        raise Damaged(f"listing: line 1: {lines[0]}, but row {refused[1]} does not turn this sequence down")
    if lines[0] != HEADER:
        raise Damaged("listing: line 1: not the first line of a listing of this run")
    if lines[-2:] != ["end", ""]:
        raise Damaged(f"listing: line {len(lines)}: the last line is not 'end'")
    instants = []
    for number, line in enumerate(lines[1:-2], 1):
        fields = LINE.fullmatch(line)
        if not fields or int(fields[1]) != number:
            raise cannot_be(number)
        instants.append(Instant(*map(int, fields.groups()[:4]), int(fields[5], 16), int(fields[6], 16)))
    return instants


def could_be(commands, read_back):
    """Gives a test whether some run of these commands could have an instant."""
    at = {command.place: command.bytes[0] for command in commands}
    emitted = labels = 0
    for command in commands:
        emitted |= 1 << command.bytes[1] if command.bytes[0] in (EMIT, DELIVER) else 0
        labels |= 1 << command.bytes[1] if command.bytes[0] == PAUSE else 0
    if emitted & read_back:
        at[READ_BACK_PLACE] = SIGNAL

    def test(instant):
        error = KINDS[instant.kind][0] == at.get(instant.place) if instant.kind in KINDS else False
        none = instant.kind == instant.place == 0
        return (
            (error and instant.emitted == 0 if instant.code == WRONG else none and instant.code <= MAX_LEAVING)
            and (instant.code == WAITING) == (instant.labels != 0)
            and instant.labels & ~labels == 0
            and instant.emitted & ~emitted == 0
        )

    return test


def check_instants(instants, commands, read_back, inputs):
    """Raises what cannot be of a run of these commands on these inputs."""
    test = could_be(commands, read_back)
    for before, instant in zip([None, *instants], instants):
        over = before is not None and before.code != WAITING
        if over or instant.number > len(inputs) or not test(instant):
            raise cannot_be(instant.number)
    if len(instants) < len(inputs) and (not instants or instants[-1].code == WAITING):
        raise Damaged(f"listing: line {len(instants) + 2}: 'end' before the inputs are used up")


def code_in_words(code):
    if code in (ENDED, WAITING):
        return "waiting" if code else "ended"
    return "wrong" if code == WRONG else f"left by exit {code - 1}, which no try catches"


def error_in_words(instant, commands, names):
    """Kind and place of a wrong instant, with what they mean."""
    at = [words_of(command.bytes, names) for command in commands if command.place == instant.place]
    return f"kind {instant.kind} ({KINDS[instant.kind][1]}), place {instant.place}: {(at or ['a read-back signal'])[0]}"


def outcome(instants, commands, inputs, names):
    """How the run stopped, in one line or two."""
    if not instants:
        return ["no instants"]
    last = instants[-1]
    how = code_in_words(last.code)
    if last.code == WAITING:
        how += "; the inputs are used up"
    elif last.code == WRONG:
        how += f", {error_in_words(last, commands, names)}"
    unused = len(inputs) - len(instants)
    return [f"instant {last.number}: {how}"] + ([f"inputs not used: {unused}"] if unused else [])
