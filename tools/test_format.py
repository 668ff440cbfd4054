#!/usr/bin/env python3
"""Holds the tables of docs/FORMAT.md, FILES.md and GLOSSARY.md to what they repeat: the definitions, the header, tools/show and
the hosts' tables; and what CONTRIBUTING.md quotes to the repository: an edit, a vector, targets, crates and links.

Each check is a function of the pages' text, read as one page, that gives its faults. The page itself must have none, and a page
with one cell or quotation changed must have some: each that is checked is changed once. The last line is 'N passed, M failed'.
"""
import functools
import importlib.machinery
import importlib.util
import re
import sys
from pathlib import Path

sys.dont_write_bytecode = True

from showing import files, listings, sequences

ROOT = Path(__file__).resolve().parent.parent
PAGES = ["docs/FORMAT.md", "docs/FILES.md", "docs/GLOSSARY.md"]
OPERANDS = {"label l": "l", "signal s": "s", "exit n": "n", "signal s, litres v": "sv", "–": ""}

passed = failed = 0


def expect(holds, what):
    global passed, failed
    passed += bool(holds)
    failed += not holds
    if not holds:
        print(f"FAILED {what}")


@functools.cache
def text_of(path):
    return (ROOT / path).read_text(encoding="utf-8")


@functools.cache
def load(path):
    loader = importlib.machinery.SourceFileLoader(Path(path).stem, str(ROOT / path))
    module = importlib.util.module_from_spec(importlib.util.spec_from_loader(loader.name, loader))
    loader.exec_module(module)
    return module


# The page


def rows(page, first):
    """The rows of the table whose first heading this is, each a list of cells."""
    found = re.search(rf"^\| {re.escape(first)} \|.*\n\|[-|]+\n((?:\|.*\n)+)", page, re.M)
    return [[cell.strip() for cell in line.strip("|").split("|")] for line in found[1].splitlines()] if found else []


def number(cell):
    return int(cell.replace(",", ""))


# What the page repeats


def limits():
    """The numbers of crates/spec_base/specs/Limits, by name."""
    return {name: int(value) for name, value in re.findall(r"^(\w+) = (\d+)$", text_of("crates/spec_base/specs/Limits.antt"), re.M)}


def printed():
    """The letters of each command byte, as commands/specs/Printed has them: operands, then parts."""
    found = re.findall(r"row 0x([0-9A-F]{2}) (?:\[\]|\(([lsnvpq ∷]*)\[\]\))", text_of("crates/commands/specs/Printed.antt"))
    return {byte: letters.replace("∷", "").split() for byte, letters in found}


def header(enum):
    """The enumerators of an enum of include/intake.h: their values, and the comments behind them."""
    body = re.search(rf"enum intake_{enum} \{{\n(.*?)\}};", text_of("include/intake.h"), re.S)[1]
    found = re.findall(r"^ *INTAKE_(\w+) = (\d+),? *(?:/\* (.*?) \*/)?$", body, re.M)
    return {name: (int(value), comment) for name, value, comment in found}


def values(enum):
    return {name: value for name, (value, _) in header(enum).items()}


@functools.cache
def worked():
    """01's example as the test of the example host has it: the run file and its listing."""
    tested = {what: rest for what, *rest in load("host/example_test.py").edges()}
    return tested["the worked example of 01"]


# Checks: each gives what is wrong with the page


def commands(page):
    table = rows(page, "Byte")
    given = {row[0]: [*OPERANDS.get(row[1], "?"), *re.findall(r"\w+", row[2])] for row in table}
    if given != printed() or [row[0] for row in table] != sorted(given):
        yield "the commands, their operands and parts"
    names = re.search(r"^ +some Command\.nothing.*?\[\]$", text_of("crates/spec_sequence/specs/Commands.antt"), re.M | re.S)[0]
    short = {"p; then q": "seq", "p in parallel with q": "par", "emit s with v litres": "deliver"}
    if [short.get(row[3], row[3].split()[0]) for row in table] != re.findall(r"Command\.(\w+)", names):
        yield "the names of the commands"


def ranges(page):
    known = limits()
    most = {"label": (0, known["label_count"] - 1), "signal": (0, known["signal_count"] - 1), "exit": (1, known["max_exit"]),
            "litres, a whole number": (0, known["litres_limit"]), "bytes of a sequence": (1, known["max_bytes"]),
            "depth, the outermost command being 1": (1, known["max_depth"]),
            "signal commands around a command, read-back signals counted": (0, known["max_signals"])}
    given = {row[0]: (number(row[1]), number(row[2])) for row in rows(page, "Limit")}
    if given != most:
        yield f"the limits: {given}, not {most}"
    spans = {"l": given.get("label"), "s": given.get("signal"), "n": given.get("exit"), "v": given.get("litres, a whole number")}
    for row, (_, operands, parts) in zip(rows(page, "Byte"), sequences.COMMANDS):
        own = [spans[letter] for letter in OPERANDS.get(row[1], "")]
        if own != [sequences.OPERANDS[operand] for operand in operands] or len(row[2].replace("–", "").split()) != parts:
            yield f"command {row[0]}, as tools/show has it"


def record(page, first, enum):
    """A record's fields against the enumerators of its enum."""
    known, given = values(enum), {}
    for name, at, size, *_ in rows(page, first):
        field = f"{enum}_{name}".upper()
        if name != "length":
            given[field] = number(at)
        if name == "length":
            given[field] = number(size)
        elif size != "1":
            given[field + "_LENGTH"] = number(size)
    if given != known:
        yield f"{first}: {given}, not {known}"


def records(page):
    yield from record(page, "State record", "state")
    yield from record(page, "Answer record", "answer")
    yield from record(page, "Record", "record")
    yield from record(page, "Panel", "panel")
    yield from record(page, "Preview", "preview")
    yield from record(page, "Ledger", "ledger")
    if not any(row[3].endswith(f", else {values('code')['OPEN']}") for row in rows(page, "Preview")):
        yield "the code of a preview whose fillings differ"
    phases = values("phase")
    words = "{PHASE_FRESH} fresh, {PHASE_WAITING} waiting, {PHASE_OVER} over".format(**phases)
    if rows(page, "State record")[0][3] != words:
        yield "the phases"
    place = values("place")["PLACE_READ_BACK"]
    if not any(f" {place} for a read-back signal" in row[3] for row in rows(page, "Answer record")):
        yield "the place of a read-back signal"


def codes(page):
    known, phase = values("code"), values("phase")
    most = limits()["max_exit"] + 1  # an exit n that no try catches has the code n + 1
    given = [[row[0], row[1].split()[0], number(row[2])] for row in rows(page, "Code")]
    over, waiting = phase["PHASE_OVER"], phase["PHASE_WAITING"]
    if given != [[str(known["ENDED"]), "ended", over], [str(known["WAITING"]), "waiting", waiting],
                 [f"2 to {most}", "left", over], [str(known["WRONG"]), "wrong", over]]:
        yield f"the codes: {given}"


def kinds(page):
    known = values("kind")
    at = {sequences.LOOP: "loop", sequences.SIGNAL: "signal"}
    words = {known["INSTANTANEOUS_LOOP"]: "ended", known["NOT_REACTIVE"]: "absent",
             known["NOT_STRONGLY_DETERMINISTIC"]: "present"}
    table = rows(page, "Kind")
    if {number(row[0]): row[1] for row in table} != {kind: at[byte] for kind, (byte, _) in listings.KINDS.items()}:
        yield "the kinds, as tools/show has them"
    if {number(row[0]) for row in table} != set(words) or any(words.get(number(row[0]), "?") not in row[2] for row in table):
        yield "the kinds, as the header has them"


def numbers(page):
    known = {str(value): [f"INTAKE_{name}", comment] for name, (value, comment) in header("number").items()}
    given = {row[0]: row[1:3] for row in rows(page, "No.")}
    if given != known or list(given) != [str(n) for n in range(len(given))]:
        yield f"the numbers: {[row for row in given.items() if row not in known.items()]}"
    examples = text_of("host/examples.txt").splitlines() + [line.partition(" |")[0] for line in text_of("host/unrolls.txt").splitlines()]
    for row in rows(page, "No."):
        if row[3] and f"{row[0]}: {row[3].strip('`')}" not in examples:
            yield f"the example of number {row[0]} in host/examples.txt or host/unrolls.txt"
        if not row[3] and row[0] not in ("1", "11", "12", "13", "14", "15", "16", "17", "19", "22"):  # what these need is no sequence, or more than one
            yield f"number {row[0]} has no example"


def defines():
    """The numbers that include/intake.h defines, by name."""
    return {name: int(value) for name, value in re.findall(r"^#define INTAKE_(\w+) (\d+)$", text_of("include/intake.h"), re.M)}


def box(page):
    """A slot's fields follow each other, and begin where the test of a box has them."""
    table, at, given = rows(page, "Slot"), 0, {}
    for name, begins, size, *_ in table[:-1]:
        if number(begins) != at:
            yield f"{name} of a slot begins at {at}"
        given[name.upper().replace("-", "_")] = at
        at += number(size)
    given["STRETCH"] = at
    if table[-1][0] != "whole" or number(table[-1][2]) != at:
        yield f"a slot has {at} bytes"
    tested = re.findall(r"^(?:pub )?const (\w+): usize = (\d+);$", text_of("host/box/src/layout.rs"), re.M)
    if given != {name: int(value) for name, value in tested}:
        yield f"the fields of a slot: {given}"
    known, sizes = limits(), {row[0]: number(row[2]) for row in table}
    fields = {"sequence": known["max_bytes"], "read-back": known["signal_bytes"], "state": values("state")["STATE_LENGTH"]}
    if any(sizes.get(name) != size for name, size in fields.items()):
        yield f"the bytes of a slot: {sizes}"
    yield from positions(page, sizes.get("positions"))


def positions(page, space):
    """The entry of a position, which the table has as often as the header says."""
    count, name, state = limits()["max_positions"], limits()["name_bytes"], values("state")["STATE_LENGTH"]
    given = [[row[0], number(row[1] or "0"), number(row[2])] for row in rows(page, "Entry")]
    if given != [["name", 0, name], ["state", name, state], ["whole", 0, name + state]]:
        yield f"an entry of a position: {given}"
    if space != count * (name + state) or count != defines()["POSITION_COUNT"]:
        yield f"the bytes of {count} positions: {space}"


def calls(page):
    """The calls on a box, and the lengths and the ceiling that the page and the header's comments name."""
    declared = re.findall(r"^uint8_t (intake_box_\w+)\(", text_of("include/intake.h"), re.M)
    if [row[0].strip("`") for row in rows(page, "Call")] != declared:
        yield f"the calls on a box: {declared}"
    known, told = defines(), header("number")
    count, length = known["BAY_COUNT"], known["BOX_LENGTH"]
    if length != count * number(rows(page, "Slot")[-1][2]) or f"up to {count} bays in {length:,} bytes" not in page:
        yield "the length of a box"
    lengths = ", ".join(f"{name} {values(name)[f'{name}_LENGTH'.upper()]}" for name in ("state", "answer", "record", "panel", "preview", "ledger"))
    lengths += f", result {known['RESULT_LENGTH']:,}"
    if told["BUFFER_LENGTH"][1] != f"buffer not of its length: {lengths}, box {length:,}" or f"above {count - 1}," not in told["NO_SUCH_BAY"][1]:
        yield "the length and the bays of a box in the header's comments"
    if not told["ABOVE_CEILING"][1].endswith(f"more than {known['SHARED_CEILING']:,}"):
        yield "the shared ceiling in the header's comment"
    limit, ledger = known["FARM_LIMIT"], values("ledger")
    if limit != limits()["litres_limit"] or any(not told[name][1].endswith(f" {limit:,}") for name in ("BAD_LITRES", "ABOVE_FARM_LIMIT")):
        yield "the limit of litres in the header's comments"
    space = {row[0]: row[2] for row in rows(page, "Slot")}["ledger"]
    if known["FARM_COUNT"] != limits()["signal_count"] or number(space) != ledger["LEDGER_FARMS_LENGTH"] != 4 * known["FARM_COUNT"]:
        yield "the farms of a ledger"


def unrolled(page):
    """The examples of loops written out are those of the hosts' table, and a result may be as long as a sequence."""
    own = text_of("host/unrolls.txt").partition("# the examples of docs/FORMAT.md")[2].partition("\n\n")[0]
    given = [f"0: {original.strip('`')} | {result.strip('`')}" for original, result in rows(page, "Original")]
    if given != [line for line in own.splitlines() if line.startswith("0: ")]:
        yield f"the examples of loops written out: {given}"
    if defines()["RESULT_LENGTH"] != limits()["max_bytes"] or f"lent buffer of {limits()['max_bytes']:,} bytes" not in page:
        yield "the length of a result"


def run_file(page):
    known = limits()
    given = [row[1] for row in rows(page, "Part")]
    if given != [str(files.LENGTH_BYTES), "as many", str(files.READ_BACK_BYTES), str(files.INPUT_BYTES)]:
        yield f"the run file: {given}"
    most = int(re.search(r"^max_file = (\d+)$", text_of("crates/spec_programs/specs/File.antt"), re.M)[1])
    if f"at most {most:,} bytes" not in page or most != files.MAX_FILE:
        yield "the length of a run file"
    fields = rows(page, "Field")
    if " ".join(row[0] for row in fields) != listings.HEADER:
        yield "the heading of a listing"
    digits = {"emitted": 2 * known["signal_bytes"], "labels": 2 * known["label_bytes"]}
    if any(row[1] != (f"{digits[row[0]]} digits" if row[0] in digits else "decimal") for row in fields):
        yield f"the digits of a listing: {digits}"


def recording(page):
    """What the replay program prints, and how much it reads."""
    words = {"accepted": "acceptance", "differs at": "difference", "refused": "refusal", "input cut": "input_cut"}
    if [row[0].split("`")[1] for row in rows(page, "Line")] != list(words):
        yield "the lines of the replay program"
    spelled = text_of("crates/spec_programs/specs/Verdict.antt") + text_of("crates/spec_programs/specs/Text.antt")
    for word, name in words.items():
        spelling = re.search(rf"^{name}(?: \w+)? =\s+\(?((?:0x\w\w|space|[∷\s])+)", spelled, re.M)[1].replace("space", "0x20")
        if bytes(int(byte, 16) for byte in re.findall(r"0x(\w\w)", spelling)).decode().rstrip() != word:
            yield f"the spelling of {word}"
    most = int(re.search(r"^max_file = (\d+)$", text_of("crates/spec_programs/specs/Verdict.antt"), re.M)[1])
    if f"at most {most:,} bytes in all" not in page:
        yield "the length of a file with a recording"


def example(page):
    """01's example: its bytes and its listing are those that the test of the example host holds the run program to."""
    data, listing = worked()
    blocks = re.findall(r"```text\n(.*?)```", page, re.S)
    if blocks != [data.hex(" ").upper() + "\n", listing]:
        yield "the example"


def glossary(page):
    """Each definition that is named: a file of spec_language/specs, or of the specs that its path names, that declares it."""
    table = rows(page, "Term")
    for row in table:
        for name in re.findall(r"`([\w/]+\.\w+)`", row[3]):
            file, _, declared = name.partition(".")
            path = f"crates/{file}.antt" if "/" in file else f"crates/spec_language/specs/{file}.antt"
            line = rf"^(abbrev |unfoldable )?pub (data |record )?{declared}\b"
            if not (ROOT / path).exists() or not re.search(line, text_of(path), re.M):
                yield f"{name} of the glossary"
    if sum(bool(row[3]) for row in table) < 20 or any(not row[2] for row in table):
        yield "a glossary with places"


def quotations(page):
    """What CONTRIBUTING quotes: a must-fail edit and a vector, and targets and crates by name."""
    blocks = re.findall(r"```text\n(.*?)```", page, re.S)
    edits = [path.read_text("utf-8") for path in (ROOT / "crates").glob("*/must-fail/*.edit")]
    if len(blocks) != 2 or blocks[0] not in edits:
        yield "the must-fail edit"
    if not blocks or blocks[-1].split("\n", 1)[1] not in text_of("crates/vectors/stdin"):
        yield "the vector"
    targets = re.findall(r"^([a-z-]+):", text_of("Makefile"), re.M)
    crates = re.findall(r"^(\w+)(?: staticlib)?:", text_of("crates.txt"), re.M)
    named = re.findall(r"`rt (?:ci|must-fail) ([a-z_ ]+)`|(?<= `crates/)([a-z_]+)`", page)
    yield from (f"make {target}" for target in re.findall(r"`make ([a-z-]+)`", page) if target not in targets)
    yield from (f"crate {crate}" for words in named for crate in "".join(words).split() if crate not in crates)
    yield from links("CONTRIBUTING.md", page)


def links(path, page):
    """The links of a page that lead nowhere."""
    for link in re.findall(r"\]\(([^)#:]+)\)", page):
        if not (ROOT / path).parent.joinpath(link).exists():
            yield f"{path}: the link to {link}"


def page_links(page):
    yield from links(PAGES[0], page)


CHECKS = [commands, ranges, records, codes, kinds, numbers, box, calls, unrolled, run_file, recording, example, glossary, page_links]


def faults(page):
    return [fault for check in CHECKS for fault in check(page)]


# Pages with one cell changed


CHECKED = {"Byte": [0, 1, 2, 3], "Limit": [0, 1, 2], "State record": [0, 1, 2], "Answer record": [0, 1, 2],
           "Record": [0, 1, 2], "Panel": [0, 1, 2], "Preview": [0, 1, 2], "Ledger": [0, 1, 2], "Code": [0, 2],
           "Kind": [0, 1], "No.": [0, 1, 2, 3], "Slot": [0, 1, 2], "Entry": [0, 1, 2], "Call": [0],
           "Original": [0, 1], "Line": [0], "Part": [1], "Field": [0, 1], "Term": [3],
           "Word": []}  # tools/test_pages.py has the words of the glossary


def other(cell):
    """Another cell than this one: its first letter or digit is another."""
    return re.sub(r"\w", lambda found: "8" if found[0] == "7" else "7", cell, count=1) if re.search(r"\w", cell) else " p "


def changed(page):
    """Yields the page with one cell changed that is checked, or with one row left out, and the row."""
    lines, heading = page.splitlines(True), None
    for at, line in enumerate(lines):
        cells = line.split("|")
        if not line.startswith("|"):
            heading = None
        elif heading is None:
            heading = cells[1].strip()
        elif not line.startswith("|-"):
            if heading not in ("Term", "Word"):
                yield "".join([*lines[:at], *lines[at + 1 :]]), f"left out: {line}"
            for column in CHECKED[heading]:
                if cells[column + 1].strip():
                    row = "|".join([*cells[: column + 1], other(cells[column + 1]), *cells[column + 2 :]])
                    yield "".join([*lines[:at], row, *lines[at + 1 :]]), row


def misquoted(page):
    """Yields CONTRIBUTING with one quotation changed, and the quotation."""
    quoted = r"`make ([a-z-]+)`|`rt (?:ci|must-fail) ([a-z_]+)| `crates/([a-z_]+)`|\]\(([^)]+)\)|^(?:file|old|new|  bytes|  run)(.*)$"
    for found in re.finditer(quoted, page, re.M):
        at = found.end(found.lastindex) - 1
        yield page[:at] + ("x" if page[at] != "x" else "y") + page[at + 1 :], found[0]


def noticed(page):
    try:
        return bool(faults(page))
    except (ValueError, KeyError, IndexError):  # a cell that is no number, or a row that is not there
        return True


def main():
    page = "\n".join(text_of(path) for path in PAGES)
    for check in CHECKS:
        found = list(check(page))
        expect(not found, f"{check.__name__} of {', '.join(PAGES)}: {found}")
    for damaged, row in changed(page):
        expect(noticed(damaged), f"not noticed: {row.strip()}")
    guide = text_of("CONTRIBUTING.md")
    found = list(quotations(guide))
    expect(not found, f"CONTRIBUTING.md: {found}")
    for damaged, quotation in misquoted(guide):
        expect(list(quotations(damaged)), f"not noticed: {quotation}")
    print(f"{passed} passed, {failed} failed")
    return failed != 0


if __name__ == "__main__":
    sys.exit(main())
