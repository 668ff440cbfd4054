"""Recordings: by hand, of the runs of the examples, as a panel sees them, and damaged ones."""
import re

from tests.common import LABELS, ROOT, examples, expect, rng, show
from tests.readers import picture_of, picture_of_svg, picture_of_vcd, sets_of

RECORD, GARBAGE = 37, 150
LAST = (1 << 32) - 1
NAMES = "signal 0 hatch\nsignal 9 pump\nlabel 3 full\n"


def record(number, inputs, code, emitted=0, labels=0, kind=0, place=0, reactions=1, phase=None):
    """The bytes of a record by 02, item 10; the phase is that after the code."""
    phase = (1 if code == 1 else 2) if phase is None else phase
    answer = (code, 1), (kind, 1), (place, 2), (emitted, 4), (reactions, 4)
    sizes = (number, 4), (inputs, 4), *answer, (phase, 1), (labels, LABELS // 8)
    return b"".join(value.to_bytes(size, "little") for value, size in sizes)


BY_HAND = record(1, 1, 1, 0x200, 8) + record(2, 0x11, 1, 0x201, 8) + record(3, 0x10, 255, kind=1, place=17)
SHOWN = """\
instant           1   2   3
input    0 hatch  #   #   .
input    4        .   #   #
emitted  0 hatch  .   #   .
emitted  9 pump   #   #   .
label    3 full   #   #   .
code              1   1 255

codes: 1 waiting; 255 wrong
instant 3: wrong, kind 1 (the loop's body ended in the instant in which it began), place 17
"""
PANEL = """\
instant           1   2   3
input    4        .   #   #
emitted  9 pump   #   #   .
code              1   1 255

codes: 1 waiting; 255 wrong
instant 3: wrong
"""


def squeezed(text):
    """The words of each line: how far they stand apart is the picture's matter."""
    return [line.split() for line in text.splitlines()]


def recording_of(data, listing):
    """The records of a run that begins with an admission, from its run file and its listing."""
    lines = [line.split() for line in listing.splitlines()[1:-1]]
    start = 2 + int.from_bytes(data[:2], "little") + 4
    given = b""
    for at, (number, code, kind, place, emitted, labels) in enumerate(lines):
        inputs = int.from_bytes(data[start + 4 * at : start + 4 * at + 4], "little")
        given += record(int(number), inputs, int(code), int(emitted, 16), int(labels, 16), int(kind), int(place))
    return given


def test_by_hand():
    status, shown, message = show("--recording", data=BY_HAND, names=NAMES)
    expect((status, message) == (0, "") and squeezed(shown) == squeezed(SHOWN), f"by hand: {shown}{message}")
    for words in "0", "hatch", "0,0", " hatch , 31":
        status, shown, message = show("--recording", "--service-only", words, data=BY_HAND, names=NAMES)
        expect((status, message) == (0, "") and squeezed(shown) == squeezed(PANEL), f"panel, {words}: {shown}{message}")
    none = show("--recording", "--service-only", "-", data=BY_HAND, names=NAMES)[1]
    gone = [line for line in SHOWN.splitlines() if not line.startswith("label")]
    expect(squeezed(none) == squeezed("\n".join(gone).partition(", kind")[0]), f"a panel that hides nothing: {none}")
    expect(show("--recording", data=b"") == (0, "no instants\n", ""), "an empty recording")
    over = record(7, 0, 0) + record(8, 0, 1, labels=1)  # back from 'over' to a position
    expect(squeezed(show("--recording", data=over)[1])[0] == ["instant", "7", "8"], "numbers that begin later")
    last = record(LAST - 1, 0, 1, labels=1) + 2 * record(LAST, 0, 1, labels=1)
    status, shown, _ = show("--recording", data=last)
    expect(status == 0 and squeezed(shown)[0][1:] == [str(LAST - 1), str(LAST), str(LAST)], f"the greatest number: {shown}")
    for option in "--svg", "--vcd":
        expect(show("--recording", option, "-", data=last)[0] == 0, f"the greatest number: {option}")


def test_runs_of_examples():
    """A recording from the first instant on has the picture of its run; its panel has the rest of it."""
    for name, data, _, listing in examples():
        given, sets = recording_of(data, listing), sets_of(data, listing)
        service_only = rng.getrandbits(32)
        members = ",".join(str(signal) for signal in range(32) if service_only >> signal & 1) or "-"
        rows, codes, count = sets
        hidden = {(kind, number): marks for (kind, number), marks in rows.items()
                  if kind != "label" and not service_only >> number & 1}
        for words, expected in ([], sets), (["--service-only", members], (hidden, codes, count)):
            for form, reader in ([], picture_of), (["--svg", "-"], picture_of_svg), (["--vcd", "-"], picture_of_vcd):
                status, shown, message = show("--recording", *words, *form, data=given)
                expect((status, message) == (0, "") and reader(shown) == expected, f"{name} {words} {form}: {shown[:500]}")
        leaked = show("--recording", "--service-only", members, "--vcd", "-", data=given)[1]
        expect(" kind " not in leaked and " place " not in leaked, f"{name}: a panel's dump")


def test_damage():
    """Up to the damage the recording is shown, and then it is told; a drawing is not written."""
    good = record(1, 0, 1, labels=1) + record(2, 0, 1, labels=1)
    bad = {"a code": record(3, 0, 17, labels=0), "no number": record(0, 0, 1, labels=1), "a gap": record(4, 0, 1, labels=1),
           "the same number": record(2, 0, 1, labels=1), "kind 4": record(3, 0, 255, kind=4), "kind 0": record(3, 0, 255),
           "a kind without an error": record(3, 0, 0, kind=1), "a place without an error": record(3, 0, 0, place=1),
           "wrong and emitting": record(3, 0, 255, 1, kind=1), "labels after the end": record(3, 0, 0, labels=1),
           "waiting nowhere": record(3, 0, 1), "phase 0": record(3, 0, 1, labels=1, phase=0),
           "phase 2": record(3, 0, 1, labels=1, phase=2), "over and waiting": record(3, 0, 0, phase=1),
           "no reaction": record(3, 0, 1, labels=1, reactions=0)}
    bad |= {f"{count} bytes": good[:count] for count in (1, 36)}
    for what, more in bad.items():
        status, shown, message = show("--recording", data=good + more + good)
        told = re.fullmatch(r"show: \S+: byte 74: record 3: .*\n", message)
        expect(status == 1 and told and picture_of(shown)[2] == 2, f"{what}: {status} {shown}{message}")
        status, shown, message = show("--recording", "--svg", "-", data=good + more + good)
        expect(status == 1 and not shown and "record 3" in message, f"{what}, a drawing: {shown[:200]}{message}")
    for _ in range(GARBAGE):
        changed = bytearray(BY_HAND)
        changed[rng.randrange(len(changed))] ^= 1 << rng.randrange(8)
        for data in bytes(changed), rng.randbytes(rng.randrange(120)):
            status, _, message = show("--recording", *rng.choice([[], ["--service-only", "0"], ["--vcd", "-"]]), data=data)
            told = status == 0 and message == "" or status == 1 and message.startswith("show: ") and message.count("\n") == 1
            expect(told, f"damaged: {data.hex()}: {status} {message}")


def test_usage():
    for words in "--service-only 0", "--recording --sequence", "--recording --paper", "--recording --listing x":
        expect(show(*words.split(), data=BY_HAND)[0] == 2, f"usage: {words}")
    for words in "32", "pump", "0;1", "":
        status, shown, message = show("--recording", "--service-only", words, data=BY_HAND)
        expect(status == 1 and not shown and message.count("\n") == 1, f"no set: {words!r}: {shown}{message}")


def test_record_of_header():
    """The bytes of a record are those that the header names."""
    header = (ROOT / "include" / "intake.h").read_text(encoding="utf-8")
    known = dict(re.findall(r"^    INTAKE_RECORD_(\w+) = (\d+),?$", header, re.M))
    expect(known["LENGTH"] == str(RECORD) == str(len(record(1, 0, 1, labels=1))), f"the length of a record: {known}")
    expect([known[name] for name in ("NUMBER", "INPUTS", "ANSWER", "STATE")] == ["0", "4", "8", "20"], f"its fields: {known}")
