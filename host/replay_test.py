#!/usr/bin/env python3
"""Replays the recordings of the examples, which the example host of a box keeps, by the program for planners: whole, damaged
in a byte, cut, and with a position come back to; and holds what tools/show says of a damaged recording to it.

  host/replay_test.py PROGRAM HOST...

The last line is 'N passed, M failed'.
"""
import random
import subprocess
import sys
import tempfile
from pathlib import Path

sys.dont_write_bytecode = True
import example_test as examples  # pylint: disable=wrong-import-position

ROOT = Path(__file__).resolve().parent.parent
RECORD, INPUTS = 37, range(4, 8)  # the bytes of a record, and those of its inputs
MAX_FILE = 4194304
DAMAGES = 40  # of each recording
RETURNING = "clean.bin"


def replayed(program, data):
    done = subprocess.run([program], input=data, capture_output=True, check=False)
    return done.stdout.decode() if done.returncode == 0 else f"status {done.returncode}"


def expect(program, data, line, what):
    given = replayed(program, data)
    examples.expect(given == line + "\n", f"{what}: {given}, not {line}")


def head_of(data):
    """The head of a run file: length, sequence and read-back set."""
    return data[: 2 + int.from_bytes(data[:2], "little") + 4]


def recorded(host, name, *calls):
    """The records of an example's run, with calls on positions where they are asked for, and how many ticks found no room in
    the ledger: these are no instants."""
    with tempfile.TemporaryDirectory() as folder:
        kept = Path(folder) / "recording"
        words = [host, "--at-once", ROOT / "examples" / name, f"0:record:{kept}", *calls]
        done = subprocess.run(words, capture_output=True, text=True, check=False)
        examples.expect(done.returncode == 0, f"the recording of {name}")
        return kept.read_bytes(), done.stdout.count(" refused 19: ")


def shown(recording):
    """What tools/show says of a recording: the number of the record that it stops at, or 0."""
    with tempfile.NamedTemporaryFile() as kept:
        kept.write(recording)
        kept.flush()
        done = subprocess.run([ROOT / "tools/show", "--recording", kept.name], capture_output=True, text=True, check=False)
    return int(done.stderr.split(": record ")[1].split(":")[0]) if ": record " in done.stderr else 0


def damaged(program, rng, name, head, recording):
    """A byte changed in a record: the place is the record's, unless only its inputs changed; tools/show, which knows no
    sequence, sees some of it, there or, of a first number, in the next record."""
    seen = 0
    for byte in [rng.randrange(len(recording)) for _ in range(DAMAGES)]:
        data = bytearray(recording)
        data[byte] ^= 1 << rng.randrange(8)
        at, what = byte // RECORD + 1, f"{name} with byte {byte} changed"
        if byte % RECORD not in INPUTS:
            expect(program, head + data, f"differs at {at}", what)
        if rng.random() < 0.1:
            stop = shown(bytes(data))
            examples.expect(stop in (0, at) or (at == 1 and byte < 4 and stop == 2), f"{what}, by tools/show: {stop}")
            seen += stop != 0
    return seen


def whole(program, host, rng, name, data, listing):
    head, (recording, no_room) = head_of(data), recorded(host, name)
    records = len(recording) // RECORD
    examples.expect(records == len(listing.splitlines()) - 2 - no_room, f"{name}: {records} records")
    expect(program, head + recording, f"accepted {records}", name)
    expect(program, head, "accepted 0", f"{name} without a record")
    expect(program, head + recording[:-1], "refused 22", f"{name} cut")
    examples.expect(shown(recording[:-1]) == records and shown(recording) == 0, f"{name} cut, by tools/show")
    expect(program, head + recording[-RECORD:], "differs at 1" if records > 1 else "accepted 1", f"the last of {name}")
    expect(program, head + recording + recording[-RECORD:], f"differs at {records + 1}", f"{name} with its last record twice")
    return damaged(program, rng, name, head, recording)


def returned(program, host):
    """A bay that came back to a position: accepted up to there."""
    head = head_of((ROOT / "examples" / RETURNING).read_bytes())
    recording, _ = recorded(host, RETURNING, "0:4:save:1", "0:7:restore:1")
    expect(program, head + recording[: 6 * RECORD], "accepted 6", f"{RETURNING} up to its return")
    given = replayed(program, head + recording)
    examples.expect(given.startswith("differs at "), f"{RETURNING} with its return: {given}")


def cut(program, host):
    """A bay whose host was cut after each number of rounds, and started again: its recording is that of a run without a cut."""
    for name in "tour.bin", "intake.bin":
        whole, _ = recorded(host, name)
        head = head_of((ROOT / "examples" / name).read_bytes())
        for rounds in range(1, len(whole) // RECORD):
            with tempfile.TemporaryDirectory() as folder:
                kept = Path(folder) / "recording"
                words = [host, "--at-once", ROOT / "examples" / name, f"0:record:{kept}", f"store:{folder}/box"]
                for more in [f"cut:{rounds}"], []:
                    done = subprocess.run([*words, *more], capture_output=True, text=True, check=False)
                    examples.expect(done.returncode == 0, f"{name} {more}: {done.stderr}")
                    records = rounds if more else len(whole) // RECORD
                    expect(program, head + kept.read_bytes(), f"accepted {records}", f"{name}, {rounds} rounds, {more}")
                examples.expect(f"0 restored {rounds}\n" in done.stdout, f"{name} restored after {rounds} rounds")
                examples.expect(kept.read_bytes() == whole, f"{name} cut after {rounds} rounds")


def edges(program):
    sustain = bytes.fromhex("060402050100")  # loop (emit 5; pause, label 0)
    for count in range(2 + len(sustain) + 4):
        expect(program, examples.run_file(sustain)[:count], "input cut", f"a head of {count} bytes")
    expect(program, bytes(6), "refused 2", "no sequence")
    expect(program, examples.run_file(b"\x0d") + bytes(5), "refused 3", "a bad sequence and a cut record")
    expect(program, examples.run_file(sustain, read_back=0x7F), "refused 6", "a seventh read-back signal")
    room = MAX_FILE - len(examples.run_file(sustain))
    expect(program, examples.run_file(sustain) + bytes(room - room % RECORD), "differs at 1", "as many records as a file has")
    expect(program, examples.run_file(sustain) + bytes(room), "refused 22", "a file of 4,194,304 bytes")
    expect(program, examples.run_file(sustain) + bytes(room + 1), "input cut", "a file of 4,194,305 bytes")
    expect(program, b"\xff" * (MAX_FILE + 4096), "input cut", "a file that is much too long")


def main(program, hosts):
    for host in hosts:
        rng = random.Random(14)
        seen = sum(whole(program, host, rng, *file) for file in examples.documented())
        examples.expect(seen > 10, f"tools/show saw {seen} damages")
        returned(program, host)
        cut(program, host)
    edges(program)
    print(f"{examples.passed} passed, {examples.failed} failed")
    return examples.failed != 0


if __name__ == "__main__":
    if len(sys.argv) < 3:
        print("usage: replay_test.py PROGRAM HOST...", file=sys.stderr)
        sys.exit(2)
    sys.exit(main(sys.argv[1], sys.argv[2:]))
