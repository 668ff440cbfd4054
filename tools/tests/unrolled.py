"""Loops written out: the result of the example, of random sequences and of wrong ones beside the places of the original.

What is expected is written by hand, or comes from a recursion over the bytes that gives each command of the result its place
and its place in the original."""
from tests.common import OPERANDS, PARTS, ROOT, expect, expect_damage, run_file, show, written
from tests.generate import accepted_sequence
from tests.sequences import in_words

SEQUENCES = 150
NESTED = bytes.fromhex("0609060100")  # a loop in a try in a loop
NESTED_RESULT = bytes.fromhex("060409 0A00 0906040A000100")
NESTED_SHOWN = """
place   from        bytes  command
    0      0        06     loop …
    1      0        04       …; then …
    2      1  copy  09         try …
    3      3  copy  0A 00        setpause 0
    5      1        09         try …
    6      2        06           loop …
    7      2        04             …; then …
    8      3  copy  0A 00            setpause 0
   10      3        01 00            pause, label 0
"""


def form(data, at, depth, copied):
    """The copy of the statement at an offset, or that worked through: its rows (own bytes, depth, origin, copied), and its end."""
    kind = data[at]
    behind = at + 1 + OPERANDS.get(kind, 0)
    if kind == 6 and copied:
        return form(data, behind, depth, True)
    own = data[at:behind]
    rows = [(b"\x0a" + own[1:] if kind == 1 and copied else own, depth, at, copied)]
    if kind == 6:
        copy, _ = form(data, behind, depth + 2, True)
        body, end = form(data, behind, depth + 2, False)
        return rows + [(b"\x04", depth + 1, at, False)] + copy + body, end
    for _ in range(PARTS.get(kind, 0)):
        part, behind = form(data, behind, depth + 1, copied)
        rows += part
    return rows, behind


def table(rows):
    place, lines, width = 0, [], max(5, *(3 * len(own) - 1 for own, *_ in rows))
    for own, depth, origin, copied in rows:
        mark = "copy" if copied else ""
        lines.append(f"{place:5}  {origin:5}  {mark:4}  {own.hex(' ').upper():{width}}  {'  ' * (depth - 1)}{in_words(own)}\n")
        place += len(own)
    return f"\nplace   from        {'bytes':{width}}  command\n" + "".join(lines)


def result_of(data, result, inputs=(), read_back=0):
    path = written("result", run_file(result, inputs, read_back))
    return show("--unrolled", path, data=run_file(data, inputs, read_back))


def test_unrolled():
    status, shown, message = answer = result_of(NESTED, NESTED_RESULT)
    expect(status == 0 and not message and shown.endswith("\n" + NESTED_SHOWN), f"a loop in a loop: {answer}")
    loops = 0
    for _ in range(SEQUENCES):
        data, _ = accepted_sequence()
        rows, _ = form(data, 0, 1, False)
        result = b"".join(own for own, *_ in rows)
        answer = result_of(data, result, [5], 0)
        if any(own[0] == 10 for own, _, _, copied in rows if not copied):
            expect_damage(answer, r"has a setpause.* \(row 20\)\n", f"a setpause: {data.hex()}")
        elif len(result) <= 1024 and max(depth for _, depth, *_ in rows) <= 64:
            loops += result != data
            expect(answer[0] == 0 and answer[1].endswith("\n" + table(rows)), f"{data.hex()}: {answer}")
    expect(loops >= SEQUENCES // 10, f"only {loops} sequences with loops")


def test_unrolled_example():
    """examples/cans.md shows what its command prints of the result."""
    folder = ROOT / "examples"
    text = (folder / "cans.md").read_text(encoding="utf-8")
    data, result = ((folder / name).read_bytes() for name in ("cans.bin", "cans-unrolled.bin"))
    status, shown, _ = show("--unrolled", folder / "cans-unrolled.bin", data=data)
    expect(status == 0 and shown.partition("\n\nplace ")[2] in text, "the page of cans")
    expect(result[-4 * 9 :] == data[-4 * 9 :], "the same read-back set and inputs")


def test_other_results():
    for wrong in NESTED, NESTED_RESULT[:-1] + b"\x01", NESTED_RESULT + b"\x00", b"":
        expect_damage(result_of(NESTED, wrong), r"not the sequence with its loops written out\n", f"another result: {wrong.hex()}")
    path = written("result", run_file(NESTED_RESULT, [1]))
    expect_damage(show("--unrolled", path, data=run_file(NESTED, [2])), r"another read-back set or other inputs\n", "other inputs")
    for said in "refused 21\n", "input cut\n":
        answer = show("--unrolled", written("said", said), data=run_file(NESTED))
        expect(answer[0] == 1, f"no result: {answer}")
    for words in ("--paper",), ("--sequence",), ("--svg", "-"), ("--recording",), ("--listing", "-"):
        expect(show("--unrolled", path, *words, data=run_file(NESTED))[0] == 2, f"bad usage: {words}")
