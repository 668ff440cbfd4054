"""What the tests share: counting, calling the two programs, and what document 01 says of bytes and listings."""
import io
import random
import re
import subprocess
import sys
import tempfile
import traceback
from pathlib import Path

from showing import program, runfile
from showing.sequences import LABELS

ROOT = Path(__file__).resolve().parents[2]
SHOW, RUNFILE = ROOT / "tools" / "show", ROOT / "tools" / "runfile"
HEADER = "instant code kind place emitted labels\n"
RANGES = {1: range(LABELS), 2: range(32), 3: range(1, 16), 7: range(32), 8: range(32), 10: range(LABELS), 11: range(32),
          12: range(32)}  # of the first operand
OPERANDS = {kind: 5 if kind == 12 else 1 for kind in RANGES}  # their bytes
PARTS = {4: 2, 5: 2, 6: 1, 7: 2, 8: 1, 9: 1, 11: 1}

rng = random.Random(1)
scratch = tempfile.TemporaryDirectory()  # gone when the tests end
folder = Path(scratch.name)
contents = {}  # of the files there, by name
passed = failed = 0


def expect(holds, what):
    global passed, failed
    passed += bool(holds)
    failed += not holds
    if not holds:
        print(f"FAILED {what}")


def listed(*instants):
    """A listing; an instant is code, kind, place, emitted set and labels, or code, emitted set and labels."""
    lines = HEADER
    for number, fields in enumerate(instants, 1):
        code, kind, place, emitted, labels = fields if len(fields) == 5 else (fields[0], 0, 0, *fields[1:])
        lines += f"{number} {code} {kind} {place} {emitted:08x} {labels:0{LABELS // 4}x}\n"
    return lines + "end\n"


def run_file(sequence, inputs=(), read_back=0):
    words = b"".join(word.to_bytes(4, "little") for word in [read_back, *inputs])
    return len(sequence).to_bytes(2, "little") + sequence + words


def written(name, data):
    """A file with these bytes or this text, which no one else writes."""
    data = data if isinstance(data, bytes) else data.encode()
    if contents.get(name) != data:
        contents[name] = data
        (folder / name).write_bytes(data)
    return str(folder / name)


def answer_of(main, words):
    """Exit status, standard output and standard error of a program; a traceback is status None."""
    streams = sys.stdout, sys.stderr
    sys.stdout, sys.stderr = io.TextIOWrapper(io.BytesIO(), "utf-8"), io.StringIO()
    try:
        status = main([str(word) for word in words])
    except Exception:
        status = None
        traceback.print_exc()
    except SystemExit as left:  # argparse, on bad usage
        status = left.code
    shown, sys.stdout, said, sys.stderr = sys.stdout, streams[0], sys.stderr, streams[1]
    return status, shown.buffer.getvalue(), said.getvalue()


def show(*words, data=None, listing=None, names=None):
    """The answer of tools/show; data, listing and names go into files."""
    words = list(words)
    for option, content in ("listing", listing), ("names", names):
        if content is not None:
            words += [f"--{option}", written(option, content)]
    if data is not None:
        words.append(written("data", data))
    status, shown, said = answer_of(program.main, words)
    return status, shown.decode(), said


def make_runfile(*words):
    return answer_of(runfile.main, words)


def call(*words, program=SHOW, **settings):
    done = subprocess.run([sys.executable, program, *words], capture_output=True, check=False, **settings)
    return done.returncode, done.stdout.decode(), done.stderr.decode()


def expect_damage(answer, said, what):
    """Status 1, one line on standard error, and nothing on standard output that tells of a run."""
    status, shown, message = answer
    one_line = message.startswith("show: ") and message.count("\n") == 1 and message.endswith("\n")
    quiet = "instant" not in shown and "<svg" not in shown and "$" not in shown
    expect(status == 1 and one_line and quiet and re.search(said, message), f"{what}: {answer}")


def expand(text):
    """The bytes of a text such as 64(06) 00, the notation of host/examples.txt."""
    group = re.compile(r"(\d+)\(([^()]*)\)")
    while group.search(text):
        text = group.sub(lambda found: f"{found[2]} " * int(found[1]), text)
    return bytes.fromhex(text)


def examples():
    """Each run file of the examples: its name, its bytes, and the table and the listing of its page."""
    for page in sorted((ROOT / "examples").glob("*.md")):
        text = page.read_text(encoding="utf-8")
        for run in re.finditer(r"\n## Run `([\w-]+\.bin)`", text):
            section = text[run.end() :].partition("\n## ")[0]
            table_in = re.compile(r"```text\n((?:reads back [\d, ]+\n)?place .*?)```", re.S)
            own, data = table_in.search(section), (ROOT / "examples" / run[1]).read_bytes()
            commands = re.sub(r" +# .*", "", (own or table_in.search(text))[1])
            if own is None and not any(data[2 + int.from_bytes(data[:2], "little") :][:4]):
                commands = re.sub(r"^reads back .*\n", "", commands)  # a table of several runs, this one with an empty set
            listing = re.search(f"({HEADER}.*?)```", section, re.S)[1]
            yield run[1], data, commands, listing
