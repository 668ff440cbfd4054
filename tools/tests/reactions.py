"""The number of reactions of each instant: by hand (host/ticks.txt), on the examples, and on random sequences, with setpause too,
held to a count over the whole expansion, in which nothing is kept from one part to another; and never above the ceiling
(U3.3; I6.2, I6.5).
"""
import re

from tests.common import ROOT, examples, expand as bytes_of_text, expect, expect_damage, listed, rng, run_file, show
from tests.generate import accepted_sequence, lines_of, nesting, waiting_sequence
from tests.machine import HELD, expand, react, run, tree_of

RUNS = 120
LINE = re.compile(r" *(\d+) +([\d,]+)  +(\d+) %  (.*); (.*); (.*)")


def count(node, present):
    """The commands of a statement that react (docs/CEILING.md, 'What is counted')."""
    kind, parts = node.kind, node.parts
    if kind == 8:
        bit = 1 << node.operand
        return 1 + count(parts[0], present & ~bit) + count(parts[0], present | bit)
    if kind == 7:
        return 1 + count(parts[0] if present >> node.operand & 1 else parts[1], present)
    if kind == HELD and present >> node.operand[0] & 1:
        return 1
    if kind == 4:
        return 1 + count(parts[0], present) + (count(parts[1], present) if react(parts[0], present).code == 0 else 0)
    return 1 + sum(count(part, present) for part in parts)


def counts(lines, read_back, inputs, instants):
    """Of each instant of a run, by the labels of the one before it."""
    tree, labels, result = tree_of(lines, read_back), 0, []
    for given, (*_, after) in zip(inputs, instants):
        result.append(count(expand(tree, labels) if labels else tree, given))
        labels = after
    return result


def rows_in(shown):
    """Number, reactions and share of each line of the table, and the line below it."""
    head, _, table = shown.partition("\ninstant  reactions  of the ceiling  code; input; emitted\n")
    lines = table.splitlines()
    found = [LINE.fullmatch(line) for line in lines[:-2] if line]
    return [(int(row[1]), int(row[2].replace(",", "")), int(row[3])) for row in found], lines[-1] if lines else "", head


def expect_counts(lines, read_back, inputs, instants, what):
    data = run_file(b"".join(own for _, _, own in lines), inputs, read_back)
    status, shown, message = answer = show("--reactions", data=data, listing=listed(*instants))
    expected, declared = counts(lines, read_back, inputs, instants), bin(read_back).count("1")
    most = (len(lines) + declared) * (nesting(lines, 6) + 1) << nesting(lines) + declared
    rows = [(number, taken, -(-100 * taken // most)) for number, taken in enumerate(expected, 1)]
    given, last, head = rows_in(shown)
    expect(status == 0 and not message and given == rows and f" = {most:,} reaction" in head, f"{what}: {rows}: {answer}")
    expect(all(taken <= most for taken in expected), f"{what}: above the ceiling {most}: {expected}")
    if rows:
        dearest = max(expected)
        told = f"the dearest is instant {expected.index(dearest) + 1}: {dearest:,} reaction{'s' * (dearest != 1)} of at most {most:,}, "
        expect(last.startswith(told), f"{what}: {last}")


def test_reactions_by_hand():
    """The answers of host/ticks.txt have the number in their last four bytes; a line stands alone, with its state before it."""
    tried = 0
    for line in (ROOT / "host" / "ticks.txt").read_text(encoding="utf-8").splitlines():
        number, _, rest = line.partition(":")
        if number != "0":
            continue
        sequence, before, _, given, after, answer = rest.split("|")
        sequence, _, read_back = sequence.partition("&")
        lines, set_of = lines_of(bytes_of_text(sequence)), int(read_back.strip() or "0", 16)
        labels, answer = int.from_bytes(bytes_of_text(before)[1:], "little"), bytes_of_text(answer)
        tree = tree_of(lines, set_of)
        taken = count(expand(tree, labels) if labels else tree, int(given, 16))
        expect(taken == int.from_bytes(answer[8:12], "little"), f"the count of {line}: {taken}")
        if not any(bytes_of_text(before)):
            numbers = [int.from_bytes(part, "little") for part in (answer[2:4], answer[4:8], bytes_of_text(after)[1:])]
            expect_counts(lines, set_of, [int(given, 16)], [(answer[0], answer[1], *numbers)], line)
            tried += 1
    expect(tried > 100, f"lines of a fresh machine: {tried}")


def test_reactions_of_runs():
    for name, data, _, _ in examples():
        sequence = data[2 : 2 + int.from_bytes(data[:2], "little")]
        words = [int.from_bytes(data[at : at + 4], "little") for at in range(2 + len(sequence), len(data), 4)]
        lines = lines_of(sequence)
        expect_counts(lines, words[0], words[1:], run(lines, words[0], words[1:]), name)
    jumps = 0
    for number in range(RUNS):
        if number % 2:
            _, lines, read_back = waiting_sequence(rng.choice([5, 15, 30]))
        else:
            (_, lines), read_back = accepted_sequence(), 0
        inputs = [rng.getrandbits(32) & 15 for _ in range(6)]
        instants = run(lines, read_back, inputs)
        jumps += any(own[0] == 10 for _, _, own in lines) and len(instants) > 1
        expect_counts(lines, read_back, inputs, instants, f"random run {number}")
    expect(jumps > 0, "runs with setpause")


def test_damaged_reactions():
    data = run_file(bytes.fromhex("060100"), [0, 0])
    waits = [(1, 0, 1), (1, 0, 1)]
    expect(show("--reactions", data=data, listing=listed(*waits))[0] == 0, "two instants")
    expect_damage(show("--reactions", data=data, listing=listed(waits[0], (255, 1, 0, 0, 0))),
                  "instant 2: paper and listing part: code 1 on paper, 255 in the listing", "a listing that parts")
    status, shown, _ = show("--reactions", data=run_file(b"\0"), listing=listed())
    expect(status == 0 and "the dearest" not in shown, f"no instants: {shown}")


def test_reactions_of_recordings():
    """Those that the records have; no ceiling, since no sequence stands beside them."""
    records = b""
    for number, taken in enumerate([4, 1234567], 1):
        fields = (number, 4), (3, 4), (1, 1), (0, 1), (0, 2), (2, 4), (taken, 4), (1, 1), (1, 16)
        records += b"".join(value.to_bytes(size, "little") for value, size in fields)
    expected = """\
instant  reactions  code; input; emitted
      1          4  waiting; 0 hatch, 1; 1
      2  1,234,567  waiting; 0 hatch, 1; 1

the dearest is instant 2: 1,234,567 reactions
"""
    answer = show("--recording", "--reactions", data=records, names="signal 0 hatch")
    expect(answer == (0, expected, ""), f"a recording: {answer}")
    status, shown, message = show("--recording", "--reactions", data=records[:-1])
    expect(status == 1 and "record 2: 36 bytes over" in message and "1234567" not in shown, f"a cut recording: {shown}{message}")
