#!/usr/bin/env python3
"""Holds the ceilings and the numbers of reactions that tools/show prints to those of the archive (U3.3, U3.4; I6.2, I6.5): of
every example and of random sequences, with setpause and with read-back sets.

  host/reactions_test.py PROGRAM    the program of host/reactions.c

The last line is 'N passed, M failed'.
"""
import re
import subprocess
import sys
from pathlib import Path

sys.dont_write_bytecode = True
ROOT = Path(__file__).resolve().parent.parent
sys.path.insert(0, str(ROOT / "tools"))

from tests import common  # pylint: disable=wrong-import-position
from tests.generate import accepted_sequence, nesting, waiting_sequence  # pylint: disable=wrong-import-position
from tests.reactions import rows_in  # pylint: disable=wrong-import-position

RANDOM, INSTANTS, SHARED_CEILING = 400, 8, 65536


def files():
    """The examples and random run files, by path."""
    for path in sorted((ROOT / "examples").glob("*.bin")):
        yield path, path.read_bytes()
    for number in range(RANDOM):
        if number % 2:
            data, _, read_back = waiting_sequence(common.rng.choice([5, 20, 60]))
        else:
            data, lines = accepted_sequence()
            read_back = sum(1 << signal for signal in common.rng.sample(range(32), common.rng.randrange(7 - nesting(lines))))
        inputs = [common.rng.getrandbits(32) & common.rng.choice([15, 0xFFFFFFFF]) for _ in range(INSTANTS)]
        path, content = common.folder / f"{number}.bin", common.run_file(data, inputs, read_back)
        path.write_bytes(content)
        yield path, content


def compare(data, ceiling, listing, what):
    """The table of tools/show against what the archive printed."""
    lines = [line.rpartition(" ") for line in listing.splitlines()[:-1]]
    plain = "".join(f"{line}\n" for line, _, _ in lines) + "end\n"
    taken = [int(count) for _, _, count in lines[1:]]
    status, shown, message = common.show("--reactions", data=data, listing=plain)
    rows, _, head = rows_in(shown)
    most = int(re.search(r"^ceiling: .* = ([\d,]+) reaction", head, re.M)[1].replace(",", ""))
    common.expect(status == 0 and [count for _, count, _ in rows] == taken, f"{what}: {taken}, not {shown}{message}")
    kept = f"ceiling {most}" if most <= SHARED_CEILING else "refused 14"
    common.expect(ceiling == kept, f"{what}: {ceiling} in a box, and {most} by tools/show")
    common.expect(max(taken, default=0) <= most, f"{what}: above its ceiling")
    return most > SHARED_CEILING


def main():
    known = list(files())
    done = subprocess.run([sys.argv[1], *(path for path, _ in known)], capture_output=True, text=True, check=False)
    answers = re.findall(r"^(ceiling \d+|refused \d+)\n(instant .*?^end\n)", done.stdout, re.M | re.S)
    common.expect(done.returncode == 0 and len(answers) == len(known), f"{len(answers)} answers: {done.stderr}")
    above = sum(compare(data, *answer, path.name) for (path, data), answer in zip(known, answers))
    common.expect(0 < above < len(known) // 2, f"sequences above the ceiling of a box: {above}")
    print(f"{common.passed} passed, {common.failed} failed")
    return common.failed != 0


if __name__ == "__main__":
    sys.exit(main())
