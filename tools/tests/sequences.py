"""Sequences: their tables, the rows that turn them down, and the ceiling.

What is expected is written by hand, or comes from generate.py: the generator, which knows each command's place, and the
reader by recursion.
"""
import re
from fractions import Fraction
from math import ceil

from tests.common import ROOT, expand, expect, expect_damage, listed, rng, run_file, show
from tests.generate import (accepted_sequence, bytes_of, exclusive, label_verdict, lines_of, litres_of, nesting, paths_of,
                            relabelled, sequence, verdict)

SEQUENCES, DAMAGED, GARBAGE = 120, 300, 100
WORDS = {0: "nothing", 1: "pause, label {}", 2: "emit {}", 3: "exit {}", 4: "…; then …", 5: "… in parallel with …",
         6: "loop …", 7: "present {} then … else …", 8: "signal {} in …", 9: "try …", 10: "setpause {}",
         11: "suspend … when {}", 12: "emit {} with {}"}


def ceiling(lines, declared=0):
    """The line on the ceiling (02, item 6), with so many signals read back."""
    commands, loops, signals = len(lines) + declared, nesting(lines, 6), nesting(lines) + declared
    counts = many(commands, "command"), many(loops, "loop"), many(signals, "signal")
    most = many(commands * (loops + 1) << signals, "reaction")
    return f"ceiling: {commands:,} × {loops + 1} × {1 << signals} = {most} ({counts[0]}; around one: {counts[1]}, {counts[2]})\n"


def many(count, noun):
    return f"{count:,} {noun}" if count == 1 else f"{count:,} {noun}s"


def fit(lines, declared=()):
    """The sheet below it: what there is of each, and what there may be."""
    most = (len(lines) + len(declared)) * (nesting(lines, 6) + 1) << nesting(lines) + len(declared)
    named = {own[1] for _, _, own in lines if own[0] in (2, 7, 8, 11, 12)} | set(declared)
    sheet = "\ntakes                                     of  share\n"
    for what, count, limit in [
        ("bytes", len(bytes_of(lines)), 1024), ("depth", max(line[1] for line in lines), 64), ("signals named", len(named), 32),
        ("signals inside each other", nesting(lines) + len(declared), 6), ("labels", sum(own[0] == 1 for _, _, own in lines), 128),
        ("reactions, by the ceiling", most, 65536),
    ]:
        sheet += f"{what:25}{count:11,}{limit:8,}{ceil(Fraction(100 * count, limit)):5,} %\n"
    bays = [bays for bays in range(1, 9) if bays * most <= 65536]
    if bays:
        sheet += f"a box takes {many(max(bays), 'such bay')}, each with its part of the shared ceiling\n"
    else:
        sheet += "no box takes such a bay (row 14): its ceiling is above the one that the bays of a box share\n"
    plan = Fraction(2000 + most, 100)
    return sheet + (f"plan {float(plan):,.1f} µs for an instant, with litres or without: 20 µs and 10 ns a reaction; "
                    "docs/CEILING.md names the processor\n")


def table(lines):
    """The table of a sequence; the bytes have a wider column where some command has litres."""
    space = " " * (12 * any(own[0] == 12 for _, _, own in lines))
    rows = (f"{place:5}  {own.hex(' ').upper():5}{space[3 * max(0, len(own) - 2):]}  {'  ' * (depth - 1)}{in_words(own)}\n"
            for place, depth, own in lines)
    return f"place  bytes{space}  command\n" + "".join(rows) + "\n" + ceiling(lines)


def in_words(own):
    return WORDS[own[0]].format(*own[1:2], many(litres_of(own), "litre"))


def bytes_shown(shown):
    """The bytes of the commands in a table, each at the place where the one before it ends."""
    data = b""
    for line in shown.partition("\n\n")[0].splitlines()[1:]:
        if int(line[:5]) != len(data):
            return None
        data += bytes.fromhex(re.match(r"[0-9A-F]{2}(?: [0-9A-F]{2})*(?=  )", line[7:])[0])
    return data


def expect_sequence(data, what):
    """What is shown of any bytes, accepted or not; returns the row that turns them down."""
    row, place = verdict(data)
    status, shown, message = answer = show("--sequence", data=data)
    expect(bytes_shown(shown) == data[:place], f"{what}: the commands shown of {data.hex()}: {answer}")
    if row:
        expect_damage(answer, rf": place {place}: .*\(row {row}\)\n", f"{what}: {data.hex()}")
        expect("ceiling" not in shown, f"{what}: no ceiling: {data.hex()}: {answer}")
        return row
    lines = lines_of(data)
    row = label_verdict(lines)
    expect(shown == table(lines) + ("" if row else fit(lines)), f"{what}: {data.hex()}: {answer}")
    expect(status == (row > 0) and (named(lines, message) == row if row else message == ""), f"{what}: {data.hex()}: {answer}")
    return row


def named(lines, message):
    """The row of 8 to 10 that a message tells, once what it says of labels and places is so; else None."""
    at = {place: tuple(own) for place, _, own in lines}
    found = re.search(r": places (\d+) and (\d+): two pauses with label (\d+) \(row 8\)\n$", message)
    if found:
        place, other, label = map(int, found.groups())
        return 8 if place < other and at[place] == at[other] == (1, label) else None
    found = re.search(r": place (\d+): setpause (\d+), and no pause has that label \(row 9\)\n$", message)
    if found:
        place, label = map(int, found.groups())
        return 9 if at[place] == (10, label) and (1, label) not in at.values() else None
    found = re.search(r": labels (\d+) and (\d+): their pauses at (\d+) and (\d+) are exclusive, but not setpause (\d+) at (\d+) "
                      r"and (set)?pause (\d+) at (\d+): not well-formed \(row 10\)\n$", message)
    if not found:
        return None
    label, label2, pause, pause2, again, place = map(int, found.groups()[:6])
    jump, again2, place2 = found[7], int(found[8]), int(found[9])
    holds = (label, label2) == (again, again2) and (at[pause], at[pause2]) == ((1, label), (1, label2))
    holds = holds and at[place] == (10, label) and at[place2] == (10 if jump else 1, label2)
    paths = paths_of(lines)
    return 10 if holds and exclusive(paths, pause, pause2) and not exclusive(paths, place, place2) else None


def test_sequences():
    for number in range(SEQUENCES):
        data, lines = accepted_sequence()
        answer = show("--sequence", data=data)
        expect(answer == (0, table(lines) + fit(lines), ""), f"sequence {number}: {data.hex()}: {answer}")
        expect(bytes_of(lines) == data == bytes_shown(answer[1]), f"bytes of sequence {number}")


def test_labels():
    """Rows 8 to 10, of random labels and of labels of their own, whose setpauses are random."""
    rows = [expect_sequence(bytes_of(relabelled(sequence()[1])), f"labels {number}") for number in range(SEQUENCES)]
    rows += [expect_sequence(sequence()[0], f"random labels {number}") for number in range(SEQUENCES)]
    for row in 0, 8, 9, 10:
        expect(rows.count(row) >= 20, f"sequences that row {row} turns down: {rows.count(row)}")


def damage(data):
    data = bytearray(data)
    at = rng.randrange(len(data))
    kind = rng.randrange(4)
    if kind == 0:
        del data[at:]
    elif kind == 1:
        data[at] = rng.randrange(256)
    elif kind == 2:
        data[at] = rng.randrange(13)
    else:
        data[at:at] = bytes([rng.choice([6, 8, 9, rng.randrange(256)])]) * rng.choice([1, 1, 8, 64, 1024])
    return bytes(data)


def test_damaged_sequences():
    rows = {expect_sequence(damage(accepted_sequence()[0]), f"damaged sequence {number}") for number in range(DAMAGED)}
    expect(rows >= {0, 2, 3, 4, 5, 6, 7, 18}, f"the rows met: {rows}")  # test_labels counts those of rows 8 to 10
    for number in range(GARBAGE):
        data = rng.randbytes(rng.randrange(40)) if number % 2 else bytes(rng.choices(range(14), k=rng.randrange(1100)))
        expect_sequence(data, f"random bytes {number}")


def test_rows():
    """The sequences of host/examples.txt, as bytes alone and, with their read-back set, in a run file without instants."""
    for line in (ROOT / "host" / "examples.txt").read_text(encoding="utf-8").splitlines():
        if line and not line.startswith("#"):
            number, _, text = line.partition(":")
            text, _, read_back = text.partition("&")
            expect_row(int(number), expand(text), int(read_back.strip() or "0", 16), line)


def expect_row(number, data, read_back, what):
    """A sequence that is accepted with a read-back set, or turned down by a row."""
    answer = show(data=run_file(data, (), read_back), listing=listed() if number == 0 else f"refused {number}\n")
    answers = [answer, show("--sequence", data=data)][: 1 if read_back else 2]
    for status, shown, message in answers:
        if number:
            expect_damage((status, shown, message), rf"\(row {number}\)", what)
            continue
        if read_back:
            head, _, shown = shown.partition("\n")
            signals = [str(signal) for signal in range(32) if read_back >> signal & 1]
            expect(head == "reads back " + ", ".join(signals), f"{what}: {head}")
        expect(status == 0 and message == "" and bytes_shown(shown) == data, f"{what}: {shown}{message}")


def test_ceilings():
    """By hand: loops and signals inside each other and beside, read-back signals, and the bytes of docs/CEILING.md."""
    page = (ROOT / "docs" / "CEILING.md").read_text(encoding="utf-8")
    dearest = re.search(r"```text\n(08 00 [0-9A-F \n]*)```", page)[1]
    intake = (ROOT / "examples" / "intake.bin").read_bytes()
    sheet = re.search(r"```text\n(takes .*?)```", page, re.S)[1]
    answer = show("--sequence", data=intake[2 : 2 + intake[0]])
    expect(answer[0] == 0 and answer[1].endswith("\n\n" + sheet), f"the sheet of docs/CEILING.md: {answer}")
    for text, read_back, factors, rest in [
        ("00", 0, "1 × 1 × 1 = 1", "1 command; around one: 0 loops, 0 signals"),
        ("06 01 00", 0, "2 × 2 × 1 = 4", "2 commands; around one: 1 loop, 0 signals"),
        ("06 0B 00 01 00", 0, "3 × 2 × 1 = 6", "3 commands; around one: 1 loop, 0 signals"),
        ("05 06 01 00 06 01 01", 0, "5 × 2 × 1 = 10", "5 commands; around one: 1 loop, 0 signals"),
        ("06 05 06 01 00 01 01", 0, "5 × 3 × 1 = 15", "5 commands; around one: 2 loops, 0 signals"),
        ("05 08 00 08 01 00 08 02 00", 0, "6 × 1 × 4 = 24", "6 commands; around one: 0 loops, 2 signals"),
        ("05 08 00 00 06 01 00", 0, "5 × 2 × 2 = 20", "5 commands; around one: 1 loop, 1 signal"),
        ("06 08 00 06 01 00", 0, "4 × 3 × 2 = 24", "4 commands; around one: 2 loops, 1 signal"),
        ("06 04 0C 00 06 08 06 4B 01 00", 0, "4 × 2 × 1 = 8", "4 commands; around one: 1 loop, 0 signals"),
        ("00", 0x80000000, "2 × 1 × 2 = 4", "2 commands; around one: 0 loops, 1 signal"),
        ("06 08 00 01 00", 0x101, "5 × 2 × 8 = 80", "5 commands; around one: 1 loop, 3 signals"),
        ("63(06) 00", 0x3F, "70 × 64 × 64 = 286,720", "70 commands; around one: 63 loops, 6 signals"),
        ("09 04 2(04 2(04 2(04 2(04 2(04 2(04 2(04 2(04 2(00)))))))))", 0x3F, "1,030 × 1 × 64 = 65,920",
         "1,030 commands; around one: 0 loops, 6 signals"),
        (dearest, 0, "100 × 1 × 64 = 6,400", "100 commands; around one: 0 loops, 6 signals"),
    ]:
        data = expand(text)
        line = f"\n\nceiling: {factors} reaction{'' if text == '00' and not read_back else 's'} ({rest})\n"
        status, shown, _ = answer = show(data=run_file(data, (), read_back), listing=listed())
        expect(status == 0 and line in shown and shown.count("ceiling") == 1, f"the ceiling of {text}: {answer}")
        answer = show("--sequence", data=data)
        expect(read_back or answer[0] == 0 and line in answer[1], f"the ceiling of {text}, alone: {answer}")
        lines, members = lines_of(data), [signal for signal in range(32) if read_back >> signal & 1]
        words = ["--read-back", ", ".join(map(str, members)) or "-"]
        answer = show("--sequence", *words, data=data)
        expect(answer[0] == 0 and answer[1].endswith(fit(lines, members)) and line in answer[1], f"the fit of {text}: {answer}")
