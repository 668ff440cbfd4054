#!/usr/bin/env python3
"""Compares listings: of the run program, which reads a run file on standard input, and of hosts that take its name.

  host/example_test.py RUN-PROGRAM HOST...

What is expected stands in examples/*.md, in document 01, or here, by hand; of damaged run files the run program's own
listing is expected of the hosts. The last line is 'N passed, M failed'.
"""
import random
import re
import subprocess
import sys
import tempfile
from pathlib import Path

ROOT = Path(__file__).resolve().parent.parent
HEADER = "instant code kind place emitted labels\n"
NONE = 32 * "0"  # of the labels
ZERO = 31 * "0" + "1"  # label 0 alone
WORKED = f"""\
instant code kind place emitted labels
1 1 0 0 00000000 00000000000000000000000000000002
2 0 0 0 00000002 {NONE}
end
"""
CUT = "input cut\n"
DAMAGED = 150

passed = failed = 0


def expect(holds, what):
    global passed, failed
    passed += holds
    failed += not holds
    if not holds:
        print(f"FAILED {what}")


def run_file(sequence, instants=0, length=None, read_back=0):
    """A run file on empty inputs, whose length field may lie."""
    length = len(sequence) if length is None else length
    return length.to_bytes(2, "little") + sequence + read_back.to_bytes(4, "little") + bytes(4 * instants)


def side_by_side(labels):
    """A pause for each label, in parallel."""
    if len(labels) == 1:
        return bytes([0x01, labels[0]])
    half = len(labels) // 2
    return b"\x05" + side_by_side(labels[:half]) + side_by_side(labels[half:])


def documented():
    """The run files of the examples with the listings that their pages show."""
    shown = {}
    for page in sorted((ROOT / "examples").glob("*.md")):
        for section in page.read_text(encoding="utf-8").split("\n## ")[1:]:
            name = re.match(r"Run `([\w-]+\.bin)`", section)
            if name:
                shown[name[1]] = re.search(f"```text\n({HEADER}.*?)```", section, re.S)[1]
    files = sorted((ROOT / "examples").glob("*.bin"))
    expect(bool(files) and sorted(shown) == [file.name for file in files], "every run file has a page")
    return [(file.name, file.read_bytes(), shown.get(file.name, "")) for file in files]


def edges():
    """Run files at the edges of document 01, 'Bays to run', and of 02, items 5 and 7."""
    worked = run_file(bytes.fromhex("08000402000401010201"), 2)
    sustain = bytes.fromhex("060402050100")  # loop (emit 5; pause, label 0)
    line = "{} 1 0 0 00000020 " + ZERO + "\n"
    yield "the worked example of 01", worked, WORKED
    yield "no byte", b"", CUT
    yield "one byte", b"\x01", CUT
    for count in range(2, 16):  # from 12 on in the read-back set
        yield f"cut to {count} bytes", worked[:count], CUT
    yield "cut to 16 bytes", worked[:16], HEADER + "end\n"
    for over in range(1, 4):
        yield f"{over} bytes over", worked + bytes(over), CUT
        yield f"{over} bytes over, and a bad sequence", run_file(b"\x0d") + bytes(over), CUT
        yield f"{over} bytes of a set, and a bad sequence", run_file(b"\x0d")[: 3 + over], CUT
    yield "no set, and a bad sequence", run_file(b"\x0d")[:3], CUT
    yield "no set, and no sequence", run_file(b"")[:2], CUT
    yield "one instant of two", worked[:-4], WORKED.replace(WORKED.splitlines(True)[2], "")
    yield "more instants than are used", worked + bytes(8), WORKED
    yield "no instants", run_file(sustain), HEADER + "end\n"
    full = "".join(line.format(number) for number in range(1, 16382))
    yield "65,536 bytes", run_file(sustain, 16381), HEADER + full + "end\n"
    yield "65,536 bytes, with a set", run_file(sustain, 16381, read_back=0x3F), HEADER + full + "end\n"
    yield "65,537 bytes", run_file(sustain, 16381) + b"\0", CUT
    yield "65,537 bytes, whole instants", run_file(bytes.fromhex("060100"), 16382), CUT
    yield "65,540 bytes, whole instants", run_file(sustain, 16382), CUT
    yield "length 0", run_file(b""), "refused 2\n"
    yield "length 0 and an instant", run_file(b"", 1), "refused 2\n"
    longest = bytes.fromhex("04" + "0400" * 15 + "0200") * 31 + b"\0"  # 31 sequences of nothing that end with emit 0
    yield "length 1,024", run_file(longest, 1), HEADER + f"1 0 0 0 00000001 {NONE}\nend\n"
    yield "length 1,024 and no instants", run_file(longest), HEADER + "end\n"
    yield "length 1,025", run_file(bytes(1025), 1), "refused 2\n"
    yield "length 65,530", run_file(bytes(65530)), "refused 2\n"
    yield "length 65,534 and no set", run_file(bytes(65534))[:-4], CUT
    yield "length 65,535", run_file(bytes(65530), length=65535), CUT
    yield "length over what is there", run_file(sustain, 0, 7), CUT
    yield "length over what is there, by the set", run_file(sustain, 0, 10), CUT
    for number, sequence in enumerate(["0d", "02", "0220", "06" * 64 + "00", "0000", "0501000100", "0a00",
                                       "04010104050a0201030102"], 3):
        yield f"row {number}", run_file(bytes.fromhex(sequence), 1), f"refused {number}\n"
    yield "row 18", run_file(bytes.fromhex("0c0000000080"), 1), "refused 18\n"
    yield "16,777,216 litres twice in an instant", run_file(bytes.fromhex("04 0c1f0000804b 0c1f0000804b"), 1), (
        HEADER + f"1 0 0 0 80000000 {NONE}\nend\n")
    yield "row 6 by the set", run_file(bytes.fromhex("080000"), 1, read_back=0x3F), "refused 6\n"
    yield "row 6 by the highest byte of the set", run_file(b"\0", 1, read_back=0xFE000000), "refused 6\n"
    yield "row 6 by the set before 7", run_file(b"\0\0", 1, read_back=0x7F), "refused 6\n"
    yield "row 3 before row 6 by the set", run_file(b"\x0d", 1, read_back=0x7F), "refused 3\n"
    opens = bytes.fromhex("060402080407080209000100")  # loop (emit 8; (present 8 then emit 9 else nothing); pause 0)
    for set_of, emitted in (0x100, "00000300"), (0, "00000100"), (0x300, "00000300"), (1, "00000100"):
        yield f"valve open, reads {set_of:x}", run_file(opens, 2, read_back=set_of), (
            HEADER + f"1 1 0 0 {emitted} {ZERO}\n2 1 0 0 {emitted} {ZERO}\nend\n")
    yield "wrong outside", run_file(bytes.fromhex("0401000708000208"), 2, read_back=0x100), (
        HEADER + f"1 1 0 0 00000000 {ZERO}\n2 255 2 65535 00000000 {NONE}\nend\n")
    given = run_file(bytes.fromhex("070802090200"), read_back=0x100) + b"\xff" * 4  # the host's 8 is ignored
    yield "every bit of the host's", given, HEADER + f"1 0 0 0 00000001 {NONE}\nend\n"
    yield "a wrong instant", run_file(bytes.fromhex("04010008000700000200"), 3), (
        HEADER + f"1 1 0 0 00000000 {ZERO}\n2 255 2 3 00000000 {NONE}\nend\n")
    yield "every bit", run_file(bytes.fromhex("0404021f017f071f0200020f")) + b"\xff" * 8, (
        HEADER + f"1 1 0 0 80000000 8{NONE[1:]}\n2 0 0 0 00000001 {NONE}\nend\n")
    for sequence, labels in [(bytes.fromhex("05017f0140"), "80000000000000010000000000000000"),
                             (bytes.fromhex("05013f0140"), "00000000000000018000000000000000"),
                             (side_by_side(range(128)), 32 * "f"), (side_by_side(range(0, 128, 4)), 32 * "1")]:
        yield f"labels {labels}", run_file(sequence, 2), (
            HEADER + f"1 1 0 0 00000000 {labels}\n2 0 0 0 00000000 {NONE}\nend\n")
    yield "label 128", run_file(b"\x01\x80", 1), "refused 5\n"


def damaged(files):
    """Examples with a few bytes changed, from a fixed seed: the hosts must say what the run program says."""
    rng = random.Random(1)
    for number in range(DAMAGED):
        data = bytearray(rng.choice(files)[1])
        for _ in range(rng.randrange(1, 4)):
            data[rng.randrange(len(data))] = rng.choice([rng.randrange(256), rng.randrange(12)])
        yield f"damaged run file {number}", bytes(data[: rng.choice([len(data)] * 3 + [rng.randrange(len(data))])])


def listing(program, data, name=None):
    """What a program prints on a run file: as standard input, or by its name."""
    words = [program] if name is None else [program, name]
    done = subprocess.run(words, input=data if name is None else b"", capture_output=True, check=False)
    return done.stdout.decode("ascii", "replace") if done.returncode == 0 and not done.stderr else f"failed: {done}"


def main(program, hosts):
    files = documented()
    with tempfile.TemporaryDirectory() as folder:
        name = Path(folder) / "bay.bin"
        for what, data, expected in [*files, *edges()]:
            name.write_bytes(data)
            expect(listing(program, data) == expected, f"run program, {what}")
            for host in hosts:
                expect(listing(host, data, name) == expected, f"{host}, {what}")
        for what, data in damaged(files):
            name.write_bytes(data)
            expected = listing(program, data)
            for host in hosts:
                expect(listing(host, data, name) == expected, f"{host}, {what}: {data.hex()}")
        for host in hosts:
            for words in [[], [folder], [Path(folder) / "none"], [name, name]]:
                done = subprocess.run([host, *words], capture_output=True, check=False)
                expect(done.returncode == 1 and not done.stdout and bool(done.stderr), f"{host} {words}: {done}")
    print(f"{passed} passed, {failed} failed")
    return failed != 0


if __name__ == "__main__":
    sys.exit(main(sys.argv[1], sys.argv[2:]))
