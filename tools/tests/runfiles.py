"""tools/runfile: texts by hand, both ways on the examples and on random run files, and damaged texts and files."""
import re
import sys

from showing import runfile
from tests.common import ROOT, RUNFILE, call, expect, folder, make_runfile, rng, run_file, written

RUNS, DAMAGED = 80, 300
NAMES = "signal 0 start\nsignal 3 air\nsignal 8 valve\nsignal 31 inputs\nlabel 2 start\n"
TEXT = """\
# a bay
sequence 06 04   # on this line
0208 0100        # and below it
reads back valve, 24
inputs
-
air,0
31, start

"""
MADE = run_file(bytes.fromhex("060402080100"), [0, 9, 0x80000001], 0x01000100)
BACK = """\
sequence
06 04 02 08 01 00
reads back valve, 24
inputs
-
start, air
start, inputs
"""


def test_texts():
    names = ["--names", written("names", NAMES)]
    answer = make_runfile(*names, written("text", TEXT))
    expect(answer == (0, MADE, ""), f"a text: {answer}")
    answer = make_runfile(*names, "--back", written("run", MADE))
    expect(answer == (0, BACK.encode(), ""), f"and back: {answer}")
    expect(make_runfile(*names, written("text", BACK)) == (0, MADE, ""), "and there again")
    shown = re.search(r"  sequence .*?\n\n", runfile.__doc__, re.S)[0]
    answer = make_runfile("--names", written("others", "signal 1 hatch\nsignal 2 pulse"), written("text", shown))
    expect(answer == (0, run_file(bytes.fromhex("060402090100"), [0, 9, 6], 0x200), ""), f"the text of --help: {answer}")
    target = folder / "made.bin"
    answer = make_runfile(*names, "--output", target, written("text", TEXT))
    expect(answer == (0, b"", "") and target.read_bytes() == MADE, f"--output: {answer}")
    for text, made in [
        ("sequence", run_file(b"")), ("sequence 00", run_file(b"\0")), ("sequence\n00\ninputs", run_file(b"\0")),
        ("sequence 00\nreads back -\ninputs\n-\n-", run_file(b"\0", [0, 0])), ("sequence 00\nreads back\n", run_file(b"\0")),
        ("sequence 00\nreads back 31,0", run_file(b"\0", [], 0x80000001)),
        ("sequence fF\r\ninputs\r\n 1 , 1 \r\n", run_file(b"\xff", [2])),
    ]:
        answer = make_runfile(written("text", text))
        expect(answer == (0, made, ""), f"the text {text!r}: {answer}")


def test_white_space():
    """Whatever is white space to Python may stand between bytes and signals, such as 1C; between two digits none may."""
    blanks = [chr(code) for code in range(sys.maxunicode + 1) if chr(code).isspace() and chr(code) != "\n"]
    expect("\x1c" in blanks and "\xa0" in blanks, f"white space: {blanks}")
    for blank in blanks:
        text = "sequence_06_04\n0208_0100_\nreads back_24_,_8\ninputs\n_-_\n0_,_3\n31,0".replace("_", blank)
        answer = make_runfile(written("text", text))
        expect(answer == (0, MADE, ""), f"white space {ord(blank):04X}: {answer}")
        expect_refused(make_runfile(written("text", f"sequence 0{blank}6")), "line 1: ", f"{ord(blank):04X} between digits")


def test_there_and_back():
    """Every example, and random bytes: a run file is that of its text, whatever its sequence is."""
    files = [path.read_bytes() for path in sorted((ROOT / "examples").glob("*.bin"))]
    for _ in range(RUNS):
        inputs = [rng.getrandbits(32) & rng.getrandbits(32) for _ in range(rng.choice([0, 1, 30]))]
        files.append(run_file(rng.randbytes(rng.choice([0, 1, 16, 17, 300, 1100])), inputs, rng.choice([0, rng.getrandbits(32)])))
    files += [run_file(b"\0", [0xFFFFFFFF] * 99 + [1 << 31] * 16283), run_file(bytes(65530))]
    for data in files:
        for names in [], ["--names", written("names", NAMES)]:
            status, text, message = make_runfile("--back", *names, written("run", data))
            again = make_runfile(*names, written("text", text))
            expect(status == 0 and message == "" and again == (0, data, ""), f"there and back: {data[:40].hex()}: {text[:200]}")


def expect_refused(answer, said, what):
    status, made, message = answer
    one_line = message.startswith("runfile: ") and message.count("\n") == 1 and message.endswith("\n")
    expect(status == 1 and made == b"" and one_line and said in message, f"{what}: {answer}")


def test_damaged_texts():
    for text, said in [
        ("", "no line 'sequence'"), ("# 00\n", "no line 'sequence'"), ("00", "line 1: "), ("inputs\n0", "line 1: "),
        ("reads back 0", "line 1: "), ("sequence 0", "line 1: "), ("sequence 0 0", "line 1: "), ("sequence\n0g", "line 2: "),
        ("sequence 00\nsequence 00", "line 2: "), ("sequence 00\ninputs\nstart", "line 3: 'start' is neither"),
        ("sequence 00\nreads back 0\nreads back 1", "line 3: "), ("sequence 00\nreads back 0\n00", "line 3: "),
        ("sequence 00\nreads back 32", "line 2: signals are 0 to 31, this one 32"), ("sequence 00\ninputs 0", "line 2: "),
        ("sequence 00\ninputs\n32", "line 3: "), ("sequence 00\ninputs\n0 1", "line 3: "),
        ("sequence 00\ninputs\n0,", "line 3: "),
        ("sequence 00\ninputs\n-,0", "line 3: "), ("sequence 00\ninputs\n\n٣", "line 4: "),
        ("sequence 00\ninputs\ninputs", "line 3: "), ("sequence 00\ninputs\n0x1", "line 3: "), ("emit 8", "line 1: "),
        ("sequence\nnothing", "line 2: "), ("sequence\n" + "00 " * 65531, "at most 65,536 bytes, and this one would have 65,537"),
        ("sequence 00\ninputs\n" + "0\n" * 16383, "at most 65,536 bytes"), (b"sequence \xff", "byte 9: not UTF-8"),
    ]:
        expect_refused(make_runfile(written("text", text)), said, f"the text {text[:60]!r}")
    with open(folder / "long", "wb") as file:
        file.truncate(runfile.MAX_TEXT + 1)
    expect_refused(make_runfile(folder / "long"), "longer than the text of any run file", "a long text")
    longest = [f"signal {number} {chr(0x10400 + number) * 24}" for number in range(32)]
    line = ", ".join(name.split()[2] for name in longest)
    expect(len(f"{line}\n".encode()) * 16382 < runfile.MAX_TEXT, "the longest text of a run file is shorter")
    for data in b"", b"\1", MADE[:5], MADE[:10], MADE[:-1], bytes(65537):
        expect_refused(make_runfile("--back", written("run", data)), "(input cut)", f"the run file {data[:20].hex()}")
    expect_refused(make_runfile("--names", written("names", "x"), written("text", TEXT)), "names: line 1: ", "bad names")
    for number in range(DAMAGED):
        changed = bytearray(rng.choice([TEXT, BACK]).encode())
        for _ in range(rng.randrange(1, 4)):
            changed[rng.randrange(len(changed))] = rng.choice([rng.randrange(256), rng.choice(b"0123456789abcdef \n,-#")])
        answer = make_runfile("--names", written("names", NAMES), written("text", bytes(changed)))
        told = answer[0] == 0 and answer[2] == "" or answer[0] == 1 and answer[1] == b""
        expect(told, f"changed text {number}: {changed}: {answer}")
        cut = rng.randbytes(rng.randrange(40))
        answer = make_runfile("--back", written("run", cut))
        expect(answer[0] in (0, 1) and (answer[0] == 0) == (answer[2] == ""), f"random run file {number}: {cut.hex()}: {answer}")


def test_runfile_calls():
    at, text = str(folder), written("text", "sequence 06 04 02 08 01 00")
    status, shown, _ = call("--help", program=RUNFILE)
    expect(status == 0 and "makes none from source text" in " ".join(shown.split()), f"--help: {shown}")
    for words in [], ["--nonsense"], [text, text], ["--names", "-", "-"]:
        expect(call(*words, program=RUNFILE)[0] == 2, f"bad usage: {words}")
    for words in [at], [at + "/none"], ["--back", at], ["--names", at, text], ["--output", at, text], ["--output", "", text]:
        status, shown, message = answer = call(*words, program=RUNFILE)
        expect(status == 1 and shown == "" and message.startswith("runfile: ") and message.count("\n") == 1, f"{words}: {answer}")
    answer = call("--back", "--names", written("names", NAMES), "-", program=RUNFILE, input=MADE)
    expect(answer == (0, BACK, ""), f"a run file on standard input: {answer}")
    answer = call("-", program=RUNFILE, input=b"sequence 00")
    expect(answer == (0, "\1" + "\0" * 6, ""), f"a text on standard input: {answer}")
