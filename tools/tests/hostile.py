"""Every tool on what nobody should give it (U2.14, U2.15): closed and full streams, readers that go away, damaged files of every
kind, byte order marks, and names with umlauts, in every locale. The answer is one line and a status other than 0, and never a
traceback.
"""
import os
import subprocess

from showing.files import run_file_of
from tests.common import ROOT, RUNFILE, SHOW, expect, folder, listed, make_runfile, rng, run_file, show, written
from tests.runs import WORKED, WORKED_LISTING

ROUNDS = 100
CERTIFICATE = ROOT / "tools" / "certificate"
UMLAUTS = "signal 1 Rührwerk\nsignal 0 Füllstand\nlabel 1 Spülen\n"
LOCALES = {}, {"LC_ALL": "C"}, {"LC_ALL": "POSIX", "PYTHONUTF8": "0", "PYTHONCOERCECLOCALE": "0"}, {"PYTHONIOENCODING": "latin-1"}


def in_shell(line, **setting):
    """Status, standard output and standard error of a line of the shell."""
    done = subprocess.run(["bash", "-c", line], capture_output=True, check=False, env={**os.environ, **setting}, timeout=60)
    return done.returncode, done.stdout.decode("utf-8", "replace"), done.stderr.decode("utf-8", "replace")


def one_line(answer, said, what):
    status, shown, message = answer
    told = message.count("\n") == 1 and message.endswith("\n") and "Traceback" not in message and said in message
    expect(status not in (0, None) and told and "Traceback" not in shown, f"{what}: {answer}")


def tools():
    """A call of each tool that writes, as a line of the shell, and the name that it tells messages under."""
    worked, listing = written("worked.bin", WORKED), written("listing", WORKED_LISTING)
    recording = bytes([1, 0, 0, 0, *[0] * 4, 0, *[0] * 7, 1, 0, 0, 0, 2, *[0] * 16])
    text, sequence, kept = written("text", "sequence 00"), written("sequence", WORKED[2:12]), written("kept", recording)
    for words in ("", "--paper", "--reactions", "--html -", "--svg -", "--vcd -"):
        yield "show", f"'{SHOW}' {words} --listing '{listing}' '{worked}'"
    for words in f"--sequence '{sequence}'", f"--recording '{kept}'", f"--recording --reactions '{kept}'", "--help":
        yield "show", f"'{SHOW}' {words}"
    for words in f"'{text}'", f"--back '{worked}'", "--help":
        yield "runfile", f"'{RUNFILE}' {words}"
    yield "certificate", f"'{CERTIFICATE}' --help"


def test_streams():
    """Closed, full, and with a reader that goes away, which is no fault."""
    for name, line in tools():
        one_line(in_shell(f"{line} >&-"), f"{name}: standard output: ", f"{line} >&-")
        one_line(in_shell(f"{line} > /dev/full"), f"{name}: standard output: ", f"{line} > /dev/full")
        if "--svg" not in line and "--vcd" not in line and "--recording" not in line:
            status, _, message = answer = in_shell(f"set -o pipefail; {line} | head -c 1 > /dev/null")
            expect(status == 0 and message == "", f"{line} | head: {answer}")
    worked, listing = written("worked.bin", WORKED), written("listing", WORKED_LISTING)
    for option in "--svg", "--vcd", "--html":
        answer = in_shell(f"'{SHOW}' --listing '{listing}' {option} /dev/full '{worked}'")
        one_line(answer, "show: /dev/full: ", f"{option} /dev/full")
    text = written("text", "sequence 00")
    one_line(in_shell(f"'{RUNFILE}' --output /dev/full '{text}'"), "runfile: /dev/full: ", "--output /dev/full")
    for words in [f"'{SHOW}' - <&-", f"'{RUNFILE}' - <&-", f"'{SHOW}' --listing - '{worked}' <&-",
                  f"'{SHOW}' --names - '{worked}' <&-"]:
        one_line(in_shell(words), "standard input: closed", words)
    for words in [f"'{SHOW}' /none 2>&-", f"'{RUNFILE}' /none 2>&-", f"'{SHOW}' --nonsense 2>&-",
                  f"'{CERTIFICATE}' --nonsense 2>&-"]:
        status, shown, message = answer = in_shell(words)
        expect(status not in (0, None) and shown == message == "", f"{words}: {answer}")
    for words in [f"'{SHOW}'", f"'{SHOW}' --nonsense", f"'{SHOW}' $'--a\\nb'", f"'{RUNFILE}'", f"'{RUNFILE}' --nonsense",
                  f"'{CERTIFICATE}' a b"]:
        one_line(in_shell(words), "", words)


def test_marks():
    """A byte order mark is taken before names, a text and a listing; a file in UTF-16 is told."""
    mark = b"\xef\xbb\xbf"
    plain = show(data=WORKED, listing=WORKED_LISTING, names=UMLAUTS)
    marked = show(data=WORKED, listing=mark + WORKED_LISTING.encode(), names=mark + UMLAUTS.encode())
    expect(plain[0] == 0 and marked == plain, f"marks: {marked}")
    expect(make_runfile(written("text", mark + b"sequence 00")) == (0, run_file(b"\0"), ""), "a mark before a text")
    status, _, message = make_runfile(written("text", "sequence 00".encode("utf-16")))
    expect(status == 1 and message.endswith("/text: byte 0: not UTF-8, but UTF-16\n"), f"UTF-16: {message}")
    status, _, message = show(data=WORKED, listing=WORKED_LISTING, names=mark + b"signal 1 \xff")
    expect(status == 1 and message.endswith("/names: byte 12: not UTF-8\n"), f"the byte behind a mark: {message}")


def test_umlauts():
    """Shown as they are written, whatever the locale, in what is shown and in what is told of it."""
    names, worked = written("Bezeichnungen-für-Bucht.names", UMLAUTS), written("Bucht-Süd.bin", WORKED)
    listing, bad = written("listing", WORKED_LISTING), written("Wörter.txt", "sequence 00\ninputs\nKühlung")
    for setting in LOCALES:
        for words in ("", "--paper", "--reactions", "--svg -", "--html -") if not setting else ("", "--html -"):
            status, shown, message = in_shell(f"'{SHOW}' {words} --names '{names}' --listing '{listing}' '{worked}'", **setting)
            expect(status == 0 and message == "" and "Rührwerk" in shown, f"{words} {setting}: {shown}{message}")
            expect("<" not in shown or "Bucht-Süd.bin" in shown, f"the name of the bay: {words} {setting}")
        one_line(in_shell(f"'{RUNFILE}' --names '{names}' '{bad}'", **setting),
                 "Wörter.txt: line 3: 'Kühlung' is neither the number nor the name of a signal\n", f"{setting}")
        one_line(in_shell(f"'{RUNFILE}' '{bad}'", **setting), "signal; names come from a file, --names FILE\n", f"no names {setting}")
        one_line(in_shell(f"'{SHOW}' '{folder}/Bucht-Nörd.bin'", **setting), "/Bucht-Nörd.bin: No such file", f"no file {setting}")
    text = f"sequence 00\ninputs\nRu\u0308hrwerk"
    answer = make_runfile("--names", names, written("text", text))
    expect(answer == (0, run_file(b"\0", [2]), ""), f"two dots of their own: {answer}")


def broken(data):
    """Bytes with some of them changed, left out, doubled or made random."""
    data = bytearray(data)
    for _ in range(rng.choice([1, 1, 3, 20])):
        at = rng.randrange(len(data) + 1)
        kind = rng.randrange(4)
        if kind == 0:
            del data[at : at + rng.choice([1, 4, 1000])]
        elif kind == 1:
            data[at:at] = rng.randbytes(rng.choice([1, 4, 40]))
        elif kind == 2:
            data[at : at + 1] = rng.choice([b"\0", b"\xff", b"\n", b"\xef\xbb\xbf", "ü".encode(), b"9" * 30])
        else:
            data[at:at] = data[at // 2 : at]
    return bytes(data)


def test_random_damage():
    """Every file of every call, damaged: an answer, or one line and status 1."""
    text = "sequence 06 04\n02 08 01 00\nreads back Rührwerk\ninputs\n-\n0, Füllstand\n"
    made = run_file_of(bytes.fromhex("060402080100"), 2, [0, 1])
    record = b"".join(bytes([number, 0, 0, 0, *[0] * 4, 1, *[0] * 7, 4, 0, 0, 0, 1, 1, *[0] * 15]) for number in range(1, 4))
    for number in range(ROUNDS):
        given = {"data": made, "listing": listed((1, 0x100, 1), (1, 0x100, 1)).encode(), "names": UMLAUTS.encode()}
        given[rng.choice(list(given))] = broken(rng.choice(list(given.values())))
        words = rng.choice([[], ["--paper"], ["--reactions"], ["--svg", "-"], ["--vcd", "-"], ["--html", "-"], ["--paper", "--whole"]])
        told(show(*words, **given), "show", f"{words} {given}")
        words = rng.choice([["--sequence"], ["--sequence", "--read-back", "1, Rührwerk"], ["--recording"],
                            ["--recording", "--reactions"], ["--recording", "--service-only", "Füllstand"]])
        data = made[2:-12] if words[0] == "--sequence" else record
        told(show(*words, data=broken(data), names=UMLAUTS), "show", f"{words} {number}")
        told(show("--unrolled", written("result", broken(made)), data=rng.choice([made, broken(made)])), "show", f"unrolled {number}")
        names = ["--names", written("names", rng.choice([UMLAUTS.encode(), broken(UMLAUTS.encode())]))]
        told(make_runfile(*names, written("text", broken(text.encode()))), "runfile", f"text {number}")
        told(make_runfile("--back", *names, written("run", broken(made))), "runfile", f"back {number}")


def told(answer, name, what):
    status, _, message = answer
    one = message.startswith(f"{name}: ") and message.count("\n") == 1 and message.endswith("\n") and message.strip().isprintable()
    expect(status == 0 and message == "" or status == 1 and one, f"{what}: {answer}")
