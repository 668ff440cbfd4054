#!/usr/bin/env python3
"""The example host with several bays over power cuts: it keeps its box by include/intake_store.h, is cut, and started again.

  host/power_test.py HOST...

After each cut the year totals of the box that is found are those of the instants recorded up to there, to the litre: the copies
are read here, with a sum of zlib, and the litres are counted here, by rewriting, from the inputs in the recordings. Started
again, the host goes on as if nothing had happened. The last line is 'N passed, M failed'.
"""
import os
import random
import re
import signal
import struct
import subprocess
import sys
import tempfile
import time
import zlib
from pathlib import Path

sys.dont_write_bytecode = True
import example_test as examples  # pylint: disable=wrong-import-position

ROOT = Path(__file__).resolve().parent.parent
BOX, BAYS, STRETCH, NUMBER, LEDGER, FARMS = 12184, 8, 1523, 1055, 1395, 32  # docs/FORMAT.md, 'Box'
RECORD, HEAD, MARK = 37, 24, b"Int1"
WORD = 8  # bytes that the medium takes at once
INSTANTS = 26
NOTHING, PAUSE, EMIT, EXIT, SEQUENCE, LOOP, PRESENT, TRY, DELIVER = 0, 1, 2, 3, 4, 6, 7, 9, 12
PARTS = {SEQUENCE: 2, LOOP: 1, PRESENT: 2, TRY: 1}
OPERANDS = {PAUSE: 1, EMIT: 1, EXIT: 1, PRESENT: 1, DELIVER: 5}
expect = examples.expect


# Litres, counted by rewriting: what is left of a term after an instant reacts in the next one


def term(code, at=0):
    """The term at a place of a sequence, and the place behind it. The bays of this test have no other commands."""
    kind, end = code[at], at + 1 + OPERANDS.get(code[at], 0)
    operands, parts = code[at + 1 : end], []
    for _ in range(PARTS.get(kind, 0)):
        part, end = term(code, end)
        parts.append(part)
    return (kind, operands, *parts), end


def react(statement, given):
    """The code of a reaction, what is left of the statement, and the deliveries."""
    kind, operands, *parts = statement
    if kind in (NOTHING, EMIT, DELIVER):
        return 0, None, [(operands[0], int(struct.unpack("<f", operands[1:])[0]))] if kind == DELIVER else []
    if kind == PAUSE:
        return 1, (NOTHING, b""), []
    if kind == EXIT:
        return operands[0] + 1, None, []
    if kind == PRESENT:
        return react(parts[0 if given >> operands[0] & 1 else 1], given)
    code, left, litres = react(parts[0], given)
    if kind == SEQUENCE and code == 0:
        code, left, more = react(parts[1], given)
        return code, left, litres + more
    if kind == SEQUENCE:
        return code, (kind, operands, left, parts[1]), litres
    if kind == LOOP:
        return code, (SEQUENCE, b"", left, statement), litres
    return {0: 0, 1: 1, 2: 0}.get(code, code - 1), (kind, operands, left), litres  # TRY


def counted(code, recording, requests):
    """The totals of the farms after the instants of a recording, with the calls before them: (instant, call, name)."""
    totals, left, positions = [0] * FARMS, term(code)[0], {}
    for instant, at in enumerate(range(0, len(recording), RECORD), 1):
        for before, call, name in requests:
            if before == instant and call == "save":
                positions[name] = left
            elif before == instant and call == "restore":
                left = positions[name]
            elif before == instant and call == "newyear":
                totals = [0] * FARMS
        if left is None:  # more records than instants
            return []
        _, left, litres = react(left, int.from_bytes(recording[at + 4 : at + 8], "little"))
        for farm, amount in litres:
            totals[farm] += amount
    return totals


# The store, read here


def payload(copy):
    """The number and the payload of a whole copy, or None."""
    sum_, size = int.from_bytes(copy[:4], "little"), int.from_bytes(copy[16:24], "little")
    if len(copy) < HEAD or copy[4:8] != MARK or size != len(copy) - HEAD or zlib.crc32(copy[4:]) != sum_:
        return None
    return int.from_bytes(copy[8:12], "little"), copy[HEAD:]


def box_in(copies):
    """The box of the newer whole copy, or None."""
    whole = [found for found in map(payload, copies) if found]
    if len(whole) == 2:
        expect(abs(whole[0][0] - whole[1][0]) == 1, "the numbers follow each other")
    return max(whole)[1][:BOX] if whole else None


def bay_in(box, bay):
    """The number of instants of a bay, 0 if it is empty, and the totals of its ledger."""
    stretch = box[bay * STRETCH : (bay + 1) * STRETCH]
    floats = struct.unpack(f"<{FARMS}f", stretch[LEDGER : LEDGER + 4 * FARMS])
    return int.from_bytes(stretch[NUMBER : NUMBER + 4], "little"), [int(total) for total in floats]


# A plant: two bays, their words, and a folder with the files that outlive a cut


class Plant:
    def __init__(self, folder, host, names, words):
        self.folder, self.host, self.sequences, self.words = Path(folder), host, [], []
        rng = random.Random(35)
        for bay, name in enumerate(names):
            data = (ROOT / "examples" / name).read_bytes()
            length = int.from_bytes(data[:2], "little")
            self.sequences.append(data[2 : 2 + length])
            inputs = [rng.choice([0, 1, 1]) if "tour" in name else int(instant == 3) for instant in range(1, INSTANTS + 1)]
            for instant in INSTANTS // 2 - bay, INSTANTS - 2 * bay:  # a bay goes on to its next step there
                inputs[instant - 1] = 2 + bay
            self.path(f"{bay}.bin").write_bytes(data[: 6 + length] + b"".join(given.to_bytes(4, "little") for given in inputs))
            self.words += [self.path(f"{bay}.bin"), f"{bay}:record:{self.path(f'{bay}.rec')}", f"{bay}:replay", f"{bay}:ledger"]
        self.words += [*words, f"store:{self.path('box')}"]
        asked = [re.fullmatch(r"(\d+):(\d+):([a-z]+):(\d+)", word) for word in words]
        self.requests = [[(int(found[2]), found[3], found[4]) for found in asked if int(found[1]) == bay] for bay in range(2)]

    def path(self, name):
        return self.folder / name

    def files(self):
        """The bytes that a cut leaves: both copies, and the recordings."""
        names = "box.0", "box.1", "0.rec", "1.rec"
        return [self.path(name).read_bytes() if self.path(name).exists() else b"" for name in names]

    def put(self, files):
        for name, data in zip(("box.0", "box.1", "0.rec", "1.rec"), files):
            self.path(name).write_bytes(data)

    def run(self, *words, status=0):
        done = subprocess.run([self.host, *self.words, *words], capture_output=True, text=True, check=False)
        expect(done.returncode == status, f"{words}: status {done.returncode}, {done.stderr}")
        return done.stdout.splitlines()

    def totals(self, bay, recording):
        return counted(self.sequences[bay], recording, self.requests[bay])

    def ledger(self, bay, recording):
        """The lines of a ledger, by the litres that are counted here."""
        totals = self.totals(bay, recording)
        return [f"{bay} farm {farm} {total}" for farm, total in enumerate(totals) if total] + [f"{bay} total {sum(totals)}"]


def agrees(plant, files, what):
    """The box that is found has the totals of the instants that are recorded up to there; how many these are of each bay."""
    box, instants = box_in(files[:2]), [0, 0]
    for bay in range(2) if box else []:
        number, totals = bay_in(box, bay)
        recording = files[2 + bay]
        if number == 0:  # the bay is empty: all its instants are over
            number = len(recording) // RECORD
        expect(len(recording) >= number * RECORD, f"{what}: bay {bay} has {number} records")
        expect(totals == plant.totals(bay, recording[: number * RECORD]), f"{what}: bay {bay}, {totals}")
        instants[bay] = number
    return box is not None, instants


def restarted(plant, files, uncut, what, to_the_end):
    """What a host says that is started on what a cut left: it is restored, tells the ledger by the litre, and goes on."""
    plant.put(files)
    found, instants = agrees(plant, files, what)
    lines = plant.run("--at-once") if to_the_end else plant.run("--at-once", "cut:1")
    recordings = [files[2 + bay][: instants[bay] * RECORD] for bay in range(2)]
    if found:
        expect(lines[:2] == [f"{bay} restored {instants[bay]}" for bay in range(2)], f"{what}: {lines[:2]}")
        ledgers = plant.ledger(0, recordings[0]) + plant.ledger(1, recordings[1])
        expect(lines[2 : 2 + len(ledgers)] == ledgers, f"{what}: {lines[2 : 2 + len(ledgers)]}, not {ledgers}")
        replays = lines[2 + len(ledgers) : 4 + len(ledgers)]
        expect(replays[1:] == [f"1 replay accepted {instants[1]}"], f"{what}: {replays}")
    else:
        expect(not any("restored" in line for line in lines), f"{what}: nothing is found")
    if to_the_end:
        told, written = uncut
        own = lines[4 + len(ledgers) :] if found else lines
        expect(own == told[len(told) - len(own) :], f"{what}: goes on as if there had been no cut")
        expect(plant.files()[2:] == written[2:], f"{what}: the recordings are those of a run without a cut")
        agrees(plant, plant.files(), f"{what}, in the end")


def torn(rng, old, new):
    """A copy half written: each word old, erased or new, or new up to some byte."""
    base = old if rng.random() < 0.5 else b"\xff" * len(new)
    if rng.random() < 0.4:
        at = rng.randrange(len(new))
        return new[:at] + base[at:]
    words = [rng.choice([old, new, base])[at : at + WORD] for at in range(0, len(new), WORD)]
    return b"".join(words)


def cuts(plant):
    """A cut after each round, and within each: in the recordings, and in the copy that is written after them."""
    rng = random.Random(36)
    uncut = plant.run("--at-once"), plant.files()
    expect(agrees(plant, uncut[1], "without a cut")[0] and plant.totals(1, uncut[1][3])[3] > 0, "litres without a cut")
    expect(uncut[0][-1] == f"1 replay accepted {len(uncut[1][3]) // RECORD}", f"without a cut: {uncut[0][-1]}")
    states = []
    for round_ in range(INSTANTS + 3):
        plant.put([b""] * 4)
        plant.run("--at-once", f"cut:{round_}")
        states.append(plant.files())
    for round_, (before, after) in enumerate(zip(states, states[1:])):
        what = f"cut after {round_} rounds"
        restarted(plant, before, uncut, what, round_ % 3 == 0)
        changed = [copy for copy in range(2) if before[copy] != after[copy]]
        expect(len(changed) <= 1, f"{what}: one copy is written")
        for _ in range(3):  # in the recordings, each as far as it may be
            more = [new[: rng.randint(len(old), len(new))] for old, new in zip(before[2:], after[2:])]
            restarted(plant, before[:2] + more, uncut, f"{what}, within the records", rng.random() < 0.1)
        for copy in changed:
            for _ in range(4):
                files = list(after)
                files[copy] = torn(rng, before[copy].ljust(len(after[copy]), b"\0"), after[copy])
                restarted(plant, files, uncut, f"{what}, within copy {copy}", rng.random() < 0.1)
    return states, uncut


def twice(plant, states, uncut):
    """A cut, a start, and a cut again in the next write: the copy that is found is not the one that is written."""
    rng = random.Random(37)
    for round_ in rng.sample(range(2, INSTANTS), 8):
        files = list(states[round_])
        newer = max(range(2), key=lambda copy: int.from_bytes(files[copy][8:12], "little"))
        files[newer] = torn(rng, b"\xff" * len(files[newer]), files[newer])
        plant.put(files)
        plant.run("--at-once", "cut:1")
        after = plant.files()
        expect(after[1 - newer] == files[1 - newer] and after[newer] != files[newer], "the write goes to the torn copy")
        after[newer] = torn(rng, files[newer], after[newer])
        restarted(plant, after, uncut, f"cut twice, at {round_}", True)


def mistakes(plant, states, uncut):
    """What is not to be gone on from: damage in both copies, other requests, and recordings that are too short."""
    damaged = [bytes(copy[:-1]) + bytes([copy[-1] ^ 1]) for copy in states[9][:2]]
    restarted(plant, damaged + states[9][2:], uncut, "both copies damaged", True)
    plant.put(states[9])
    expect(not any("restored" in line for line in plant.run("--at-once", "0:20:save:9")), "other requests begin anew")
    plant.put(states[9][:3] + [states[9][3][:-1]])
    plant.run("--at-once", status=1)
    plant.run("--at-once", f"store:{plant.path('other')}", status=1)
    plant.run("--at-once", "store:/no/folder/box", status=1)


def killed(plant, uncut):
    """Ten rounds a second, for some seconds; killed, and started again until it ends."""
    plant.put([b""] * 4)
    began, starts = time.monotonic(), 0
    for stop in (7, 11, None):
        with subprocess.Popen([plant.host, *plant.words], stdout=subprocess.PIPE, text=True) as host:
            lines = []
            for line in host.stdout:
                lines.append(line.rstrip("\n"))
                if stop is not None and sum(line.count(" ") == 5 for line in lines) == 2 * stop:
                    os.kill(host.pid, signal.SIGKILL)
        starts += 1
        expect(host.returncode == (0 if stop is None else -signal.SIGKILL), f"start {starts}: status {host.returncode}")
        agrees(plant, plant.files(), f"killed {starts} times")
    took = time.monotonic() - began
    expect(took > 0.1 * (INSTANTS - 4), f"ten rounds a second: {took:.1f} s")
    expect(plant.files()[2:] == uncut[1][2:], "killed twice: the recordings are those of a run without a cut")
    expect(lines[-1] == uncut[0][-1], f"killed twice: {lines[-1]}")
    print(f"{INSTANTS} rounds and two kills took {took:.1f} s")


def shown(host):
    """The commands of the pages that have a store, one after the other, with what the page shows below each."""
    count = 0
    for page in sorted((ROOT / "examples").glob("*.md")):
        text = page.read_text(encoding="utf-8")
        for old in (ROOT / "target/host").glob("*.kept.*"):
            old.unlink()
        form = r"^    target/host/example-box ([^\n]* store:[^\n]*)\n\n```text\n(.*?)```"
        for words, expected in re.findall(form, text, re.M | re.S):
            done = subprocess.run([host, "--at-once", *words.split()], capture_output=True, text=True, check=False, cwd=ROOT)
            expect(done.returncode == 0 and done.stdout == expected, f"{words}: {done.stdout}{done.stderr}")
            count += 1
    expect(count == 2, f"{count} commands of pages")


def main(hosts):
    rooms = "/dev/shm" if os.access("/dev/shm", os.W_OK) else None  # where a file is soon on the disk
    for host in hosts:
        with tempfile.TemporaryDirectory(dir=rooms) as folder:
            words = ["0:5:save:1", "0:6:preview:4", "0:16:restore:1", "1:9:preview:3"]
            plant = Plant(folder, host, ["clean.bin", "tour.bin"], words)
            states, uncut = cuts(plant)
            twice(plant, states, uncut)
            mistakes(plant, states, uncut)
            killed(plant, uncut)
        with tempfile.TemporaryDirectory(dir=rooms) as folder:
            words = ["0:5:save:1", "0:8:restore:1", "0:15:save:2", "0:20:restore:2", "0:11:newyear:0", "1:6:preview:1"]
            cuts(Plant(folder, host, ["tour.bin", "tour.bin"], words))
        shown(host)
    print(f"{examples.passed} passed, {examples.failed} failed")
    return examples.failed != 0


if __name__ == "__main__":
    if len(sys.argv) < 2:
        print("usage: power_test.py HOST...", file=sys.stderr)
        sys.exit(2)
    sys.exit(main(sys.argv[1:]))
