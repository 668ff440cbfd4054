#!/usr/bin/env python3
"""Runs the examples side by side in a box, and compares each bay's lines with the listing that its page shows; and what the
pages show of the host itself.

  host/example_box_test.py HOST...

The last line is 'N passed, M failed'.
"""
import random
import re
import subprocess
import sys
import tempfile
from pathlib import Path

sys.dont_write_bytecode = True
import example_test as examples  # pylint: disable=wrong-import-position

ROOT = Path(__file__).resolve().parent.parent
BAYS, LISTS = 8, 40
NO_ROOM = "tour-slip.bin"  # a year has no room for its litres: its page shows it in a box
RECORD = 37  # bytes; number, code, kind, place and emitted set of it stand here
FIELDS = (0, 4), (8, 9), (9, 10), (10, 12), (12, 16)


def lines(listing):
    """The lines of a bay by the listing of its run: the heading and the labels left out."""
    return [" ".join(line.split()[:5]) for line in listing.splitlines()[1:]]


def run(host, files, *more):
    words = [host, "--at-once", *(ROOT / "examples" / name for name, *_ in files), *more]
    return subprocess.run(words, capture_output=True, text=True, check=False)


def compare(host, files):
    """The lines of each bay, in their order, and the bays in turn."""
    done = run(host, files)
    given = [line.split(" ", 1) for line in done.stdout.splitlines()]
    expected = [lines(listing) for _, _, listing in files]
    names = [name for name, *_ in files]
    examples.expect(done.returncode == 0 and len(given) == sum(map(len, expected)), f"{names}: {done.stderr}")
    for bay, listing in enumerate(expected):
        examples.expect([line for number, line in given if number == str(bay)] == listing, f"bay {bay} of {names}")
    turns = [str(bay) for turn in range(max(map(len, expected))) for bay, listing in enumerate(expected) if turn < len(listing)]
    examples.expect([number for number, _ in given] == turns, f"the turns of {names}")


def refused(host, files):
    """A sequence that is turned down leaves the others, and so does one above the shared ceiling."""
    name, _, listing = files[0]
    for sequence, number in (b"\x0d", 3), (bytes.fromhex("080008010802080308040805") + 57 * b"\x06" + b"\0", 14):
        with tempfile.NamedTemporaryFile() as bad:
            bad.write(examples.run_file(sequence, 2))
            bad.flush()
            done = run(host, files[:1], bad.name)
            first, *rest = done.stdout.splitlines()
            examples.expect(first.startswith(f"1 refused {number}: "), f"{name} beside number {number}: {first}")
            examples.expect(rest == [f"0 {line}" for line in lines(listing)], f"{name} beside number {number}")
    ours = ROOT / "examples" / name
    for words in ([], [ours] * (BAYS + 1), [ROOT / "examples"], [ours, "8:record:x"], [ours, "0:record:/dev/full"],
                  [ours, "8:ledger"], [ours, "0:ledgers"]):
        examples.expect(run(host, [], *words).returncode == 1, f"{len(words)} words")


def shown():
    """The commands of the pages that run the host, their words, with what the page shows below each. Those with a store are of
    host/power_test.py."""
    found = []
    for page in sorted((ROOT / "examples").glob("*.md")):
        text = page.read_text(encoding="utf-8")
        found += re.findall(r"^    target/host/example-box ([^\n]*)\n\n```text\n(.*?)```", text, re.M | re.S)
    return [(words.split(), expected) for words, expected in found if " store:" not in words]


def recorded(recording, expected):
    """The records are those of the lines that the host printed: number, code, kind, place and emitted set."""
    lines = [line.split()[1:] for line in expected.splitlines() if line.count(" ") == 5]
    records = [recording[at : at + RECORD] for at in range(0, len(recording), RECORD)]
    fields = [[int.from_bytes(record[start:end], "little") for start, end in FIELDS] for record in records]
    given = [[str(number), str(code), str(kind), str(place), f"{emitted:08x}"] for number, code, kind, place, emitted in fields]
    examples.expect(bool(lines) and given == lines, f"the recording of {expected}: {given}")


def drawn(file):
    """What the pages show of a recording by tools/show: how often."""
    count = 0
    for page in sorted((ROOT / "examples").glob("*.md")):
        text = page.read_text(encoding="utf-8")
        for words, expected in re.findall(r"^    (tools/show [^\n]*--recording [^\n]*)\n\n```text\n(.*?)```", text, re.M | re.S):
            if ROOT / words.split()[-1] != file:
                continue
            count += 1
            done = subprocess.run(words.split(), capture_output=True, text=True, check=False, cwd=ROOT)
            examples.expect(done.returncode == 0 and done.stdout == expected, f"{words}: {done.stdout}{done.stderr}")
    return count


def positions(host, commands):
    """The commands of the pages, as they stand there, and their recording; and beside another bay, which they leave as it is."""
    for words, expected in commands:
        kept = [ROOT / word.partition(":record:")[2] for word in words if ":record:" in word]
        for file in kept:
            file.unlink(missing_ok=True)
        done = subprocess.run([host, "--at-once", *words], capture_output=True, text=True, check=False, cwd=ROOT)
        examples.expect(done.returncode == 0 and done.stdout == expected, f"{words}: {done.stdout}{done.stderr}")
        for file in kept:
            recorded(file.read_bytes(), expected)
            examples.expect(drawn(file) > 0, f"what the pages show of {file.name}")
        beside = subprocess.run([host, "--at-once", *words, words[0]], capture_output=True, text=True, check=False, cwd=ROOT)
        own = [line for line in beside.stdout.splitlines() if line.startswith("0 ")]
        other = [line[2:] for line in beside.stdout.splitlines() if line.startswith("1 ")]
        alone = subprocess.run([host, "--at-once", words[0]], capture_output=True, text=True, check=False, cwd=ROOT).stdout
        examples.expect(own == expected.splitlines(), f"{words} beside another bay: {own}")
        examples.expect(other == [line[2:] for line in alone.splitlines()], f"a bay beside {words}: {other}")


def main(hosts):
    files = [file for file in examples.documented() if file[0] != NO_ROOM]
    commands = shown()
    examples.expect(len(commands) == 5, f"{len(commands)} commands of pages")
    for host in hosts:
        rng = random.Random(1)
        for _ in range(LISTS):
            compare(host, [rng.choice(files) for _ in range(rng.randrange(1, BAYS + 1))])
        refused(host, files)
        positions(host, commands)
    print(f"{examples.passed} passed, {examples.failed} failed")
    return examples.failed != 0


if __name__ == "__main__":
    if len(sys.argv) < 2:
        print("usage: example_box_test.py HOST...", file=sys.stderr)
        sys.exit(2)
    sys.exit(main(sys.argv[1:]))
