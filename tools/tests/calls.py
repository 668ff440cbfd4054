"""The program as it is called: its options, its streams, and the run program beside it."""
import os
import shutil
import subprocess

from tests.common import SHOW, call, expect, folder, written
from tests.generate import lines_of
from tests.readers import picture_of, sets_of
from tests.runs import WORKED, WORKED_LISTING, WORKED_SHOWN
from tests.sequences import fit


def test_calls():
    worked = written("worked.bin", WORKED)
    status, shown, _ = call("--help")
    expect(status == 0 and "--sequence" in shown, "--help")
    for words in ([], ["--nonsense"], ["--sequence", "--svg", "-", worked], ["--sequence", "--listing", "-", worked],
                  ["--sequence", "--paper", worked], ["--sequence", "--vcd", "-", worked], ["--paper", "--svg", "-", worked],
                  ["--vcd", "-", "--svg", "-", worked], ["--whole", worked], ["--listing", "-", "-"], ["--names", "-", "-"]):
        expect(call(*words)[0] == 2, f"bad usage: {words}")
    at = str(folder)
    for words in ([at], [at + "/none"], ["\udcff\n"], ["--sequence", at], ["--listing", at, worked], ["--svg", at, worked],
                  ["--svg", "", worked], ["--listing", "", worked], ["--vcd", at, worked], ["--names", at, worked]):
        status, _, message = answer = call(*words)
        expect(status == 1 and message.startswith("show: ") and message.count("\n") == 1, f"{words}: {answer}")
    listed = WORKED_LISTING.encode()
    for setting in {}, {"LC_ALL": "C"}, {"PYTHONIOENCODING": "ascii"}:
        answer = call("--listing", "-", worked, input=listed, env={**os.environ, **setting})
        expect(answer == (0, WORKED_SHOWN, ""), f"a listing on standard input, {setting}: {answer}")
    listing = written("listing", WORKED_LISTING)
    answer = call("--listing", listing, "-", input=WORKED)
    expect(answer == (0, WORKED_SHOWN, ""), f"a run file on standard input: {answer}")
    answer = call("--sequence", "-", input=WORKED[2:12])
    expected = WORKED_SHOWN.partition("\n\ninstant")[0] + "\n" + fit(lines_of(WORKED[2:12]))
    expect(answer == (0, expected, ""), f"a sequence on standard input: {answer}")
    answer = call("--sequence", "-", input=b"\x0d")
    expect(answer[0] == 1 and answer[2] == "show: -: place 0: no command has the byte 0D (row 3)\n", f"a bad one: {answer}")
    with open("/dev/full", "wb") as full:
        done = subprocess.run([SHOW, worked], stdout=full, stderr=subprocess.PIPE, check=False)
    expect(done.returncode == 1 and done.stderr.startswith(b"show: standard output: "), f"no space: {done}")
    done = subprocess.run(["sh", "-c", f"'{SHOW}' '{worked}' | true"], capture_output=True, check=False)
    expect(done.stderr == b"", f"a reader that goes away: {done}")


def test_run_program():
    """Beside a target/bin/run the listing is its own; with none the inputs are shown alone."""
    (folder / "clone" / "tools").mkdir(parents=True)
    copy = shutil.copy(SHOW, folder / "clone" / "tools")
    shutil.copytree(SHOW.parent / "showing", folder / "clone" / "tools" / "showing")
    data = WORKED[:-4] + b"\x01\x00\x00\x80"
    written("data", data)
    status, shown, _ = call(str(folder / "data"), program=copy)
    expect(status == 0 and shown.endswith("no listing: target/bin/run is not built\n"), f"no run program: {shown}")
    expect(picture_of(shown) == ({("input", 0): {2}, ("input", 31): {2}}, [], 2), f"inputs alone: {shown}")
    status, shown, message = call("--paper", str(folder / "data"), program=copy)
    expect(status == 1 and message.endswith("is not built, so the paper is held to nothing\n") and "agree" not in shown,
           f"a paper with no run program: {message}")
    expect(shown.count("\ninstant ") == 2 and shown.count("\nremains\n") == 1, f"a paper with no listing: {shown}")
    run = folder / "clone" / "target" / "bin" / "run"
    run.parent.mkdir(parents=True)
    run.write_text(f"#!/bin/sh\ncmp -s - '{folder / 'data'}' && printf '{WORKED_LISTING}'\n", encoding="utf-8")
    status, _, message = call(str(folder / "data"), program=copy)
    expect(status == 1 and "run: Permission denied" in message, f"a run program that may not run: {message}")
    run.chmod(0o755)
    status, shown, _ = call(str(folder / "data"), program=copy)
    expect(status == 0 and picture_of(shown) == sets_of(data, WORKED_LISTING), f"with a run program: {shown}")
    run.write_text("#!/bin/sh\nexit 3\n", encoding="utf-8")
    status, _, message = call(str(folder / "data"), program=copy)
    expect(status == 1 and ": listing: line 1: " in message, f"a run program that fails: {message}")
