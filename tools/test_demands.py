#!/usr/bin/env python3
"""Holds the names of the rows of docs/DEMANDS.md and docs/demands together: each row has one, in the order of its table and by
the rule that the page gives, and a name that is cited anywhere in the repository is a row's. What the rows name is there too:
must-fail edits, each of which is named, targets of make, files and links. CHANGELOG.md has the header's version and each landing.

Each check is a function of the pages' texts that gives their faults. The pages must have none, and pages with one name changed,
exchanged, doubled or left away must have some. The last line is 'N passed, M failed'.
"""
import re
import subprocess
import sys
from pathlib import Path

ROOT = Path(__file__).resolve().parent.parent
FIRST, FOLDER = "docs/DEMANDS.md", "docs/demands"
NAME = r"(?:D[1-3]|I(?:1[0-4]|[1-9])|U[1-4]|[RFCSPBN])\.\d+"
CITED = re.compile(rf"(?<![\w.]){NAME}(?![\w.]*\w)")
LETTERS = {  # how a heading begins, and the letter and number of its rows
    "Demand 1": "D1", "Demand 2": "D2", "Demand 3": "D3", "The rows of 'Turned down'": "R", "The language forms": "F",
    "01's checklist": "C", "The box on paper": "B", "The numbers that a call can give": "N", "Second runs": "S", "The run program": "P", "In the users' hands": "U1", "The fitter": "U2",
    "The planner": "U3", "Who carries on": "U4", **{f"02, item {number}:": f"I{number}" for number in range(1, 15)},
}
ROWS = [1, 2, 3, 4, 5, 18, 6, 7, 8, 9, 10, 11, 12]  # of 'Turned down', in the order in which they are checked
MAX_LINES = 300

passed = failed = 0


def expect(holds, what):
    global passed, failed
    passed += bool(holds)
    failed += not holds
    if not holds:
        print(f"FAILED {what}")


def pages():
    """The texts of the pages, by path, in their order."""
    paths = [FIRST, *(str(path.relative_to(ROOT)) for path in sorted((ROOT / FOLDER).glob("*.md")))]
    return {path: (ROOT / path).read_text("utf-8") for path in paths}


def sections(texts):
    """Each heading of the pages, and the lines below it up to the next one."""
    for path, text in texts.items():
        for part in re.split(r"^##+ ", text, flags=re.M)[1:]:
            heading, *lines = part.splitlines()
            yield path, heading, lines


def rows_in(lines):
    """The first cell of each row of the tables, which is a name; of one without a cell there, its line."""
    rows = []
    for line, after in zip(lines, [*lines[1:], ""]):
        if line.startswith("|") and not re.match(r"\|[-|]+$", line) and not re.match(r"\|[-|]+$", after):
            rows.append(line.split("|")[1].strip())
    return rows


def names(texts):
    """The names of each heading are those that the rule gives, in order."""
    for path, heading, lines in sections(texts):
        letter = next((letter for begins, letter in LETTERS.items() if heading.startswith(begins)), None)
        rows = rows_in(lines)
        if rows and letter is None:
            yield f"{path}: {heading}: no letter for its rows"
        numbers = ROWS if letter == "R" else range(1, len(rows) + 1)
        if rows != [f"{letter}.{number}" for number in numbers] and rows:
            yield f"{path}: {heading}: {rows}"
    given = [heading for _, heading, _ in sections(texts)]
    for begins in LETTERS:
        if sum(heading.startswith(begins) for heading in given) != 1:
            yield f"the heading {begins}"


def known(texts):
    return [name for _, _, lines in sections(texts) for name in rows_in(lines)]


def unique(texts):
    every = known(texts)
    yield from (f"{name} twice" for name in set(every) if every.count(name) > 1)


def cited_in(text):
    return set(CITED.findall(text))


def citations(texts):
    """The pages cite no name that is none; what others cite is found once."""
    every = set(known(texts))
    yield from (f"{name} is cited and is no row" for name in sorted(CITATIONS - every))


def references(texts):
    """Targets, files and links that the rows name."""
    targets = set(re.findall(r"^([a-z-]+):", (ROOT / "Makefile").read_text("utf-8"), re.M))
    for path, text in texts.items():
        yield from (f"{path}: make {target}" for target in re.findall(r"`make ([a-z-]+)`", text) if target not in targets)
        for name in re.findall(r"`((?:host|tools|examples|include)/[\w./-]+)`", text):
            if not (ROOT / name).exists():
                yield f"{path}: {name}"
        for link in re.findall(r"\]\(([^)#:]+)\)", text):
            if not (ROOT / path).parent.joinpath(link).exists():
                yield f"{path}: the link to {link}"
        if len(text.splitlines()) > MAX_LINES:
            yield f"{path}: {len(text.splitlines())} lines"


def edits_there():
    """The must-fail edits of the crates, by name: the crates that have one of that name."""
    found = {}
    for path in ROOT.glob("crates/*/must-fail/*.edit"):
        found.setdefault(path.stem, set()).add(path.parts[-3])
    return found


def edits_named(texts):
    """Each must-fail edit that a row names in its column, with the crate that stands before it, or None where none does."""
    for path, heading, lines in sections(texts):
        column = None
        for line, after in zip(lines, [*lines[1:], ""]):
            cells = [cell.strip() for cell in line.strip("|").split("|")] if line.startswith("|") else []
            if re.match(r"\|[-|]+$", after):
                column = next((at for at, cell in enumerate(cells) if cell.startswith("Must-fail edit")), None)
            elif column is not None and len(cells) > column and not re.match(r"\|[-|]+$", line):
                cell = re.sub(r"\([^()]*\)|refuted:.*?(?:;|$)", "", cells[column])
                crate = None
                for word in re.findall(r"`[a-z0-9_]+`|[\w.]+|;", cell):
                    if word.startswith("`"):
                        yield f"{path}: {cells[0]}", crate, word.strip("`")
                    elif word == ";" or (ROOT / "crates" / word).is_dir():
                        crate = None if word == ";" else word


def edits(texts):
    """An edit that is named is there, in its crate, and each that is there is named."""
    there, every = edits_there(), "\n".join(texts.values())
    for where, crate, name in edits_named(texts):
        if name not in there or crate is not None and crate not in there[name]:
            yield f"{where}: no edit {name}{f' of {crate}' if crate else ''}"
    yield from (f"the edit {name} of {', '.join(crates)} is named nowhere" for name, crates in there.items() if f"`{name}`" not in every)


def changelog(text, header, notes):
    """The newest version is the header's, versions and landings fall, and each note has its entry."""
    versions = [tuple(map(int, found)) for found in re.findall(r"^## (\d+)\.(\d+)\.(\d+), ", text, re.M)]
    own = tuple(map(int, re.findall(r"^#define INTAKE_VERSION_[A-Z]+ (\d+)$", header, re.M)))
    if versions[:1] != [own] or versions != sorted(set(versions), reverse=True):
        yield f"the versions {versions}, and the header's {own}"
    told = re.findall(r"^## .*?landing (\d+)|^## Landing (\d+)|^\| \[(\d+)\]", text, re.M)
    landings = [int(found) for kinds in told for found in kinds if found]
    if landings != sorted(set(landings), reverse=True) or set(landings) != set(notes):
        yield f"the landings {landings}, and the notes {notes}"
    yield from (f"CHANGELOG.md: the link to {link}" for link in re.findall(r"\]\(([^)#:]+)\)", text) if not (ROOT / link).exists())


CHECKS = [names, unique, citations, references, edits]


def tracked():
    """The files of the repository that may cite a row, by path: all that git knows as text, the pages aside."""
    listed = subprocess.run(["git", "ls-files", "-z"], cwd=ROOT, capture_output=True, check=True).stdout.decode().split("\0")
    for path in listed:
        if re.search(r"\.(md|py|rs|c|h|antt|rt|txt)$", path) and path != FIRST and not path.startswith(f"{FOLDER}/") \
                and path not in ("tools/tests/gatelog.py", "tools/test_demands.py") and (ROOT / path).exists():
            yield path, (ROOT / path).read_text("utf-8")


CITATIONS = {name for _, text in tracked() for name in cited_in(text)}


def changed(texts):
    """Yields the pages with one row's name changed, and what was done."""
    for path, text in texts.items():
        lines = text.splitlines(True)
        for at, line in enumerate(lines):
            found = re.match(rf"\| ({NAME}) \|", line)
            if not found:
                continue
            others = [line.replace(found[1], found[1] + "1", 1), line.replace(found[1], found[1].lower(), 1),
                      line.replace(f" {found[1]} |", "", 1), line * 2]
            for other in others if at % 7 == 0 else others[:1]:
                yield {**texts, path: "".join([*lines[:at], other, *lines[at + 1 :]])}, f"{path}: {found[1]}: {other[:20]}"


def main():
    texts = pages()
    for check in CHECKS:
        found = list(check(texts))
        expect(not found, f"{check.__name__}: {found}")
    log, header = (ROOT / "CHANGELOG.md").read_text("utf-8"), (ROOT / "include/intake.h").read_text("utf-8")
    notes = [int(path.name[:2]) for path in (ROOT / "docs/landings").glob("*.md")]
    found = list(changelog(log, header, notes))
    expect(not found, f"CHANGELOG.md: {found}")
    for old, new in ("## 2.3.0", "## 2.5.0"), ("landing 20,", "landing 22,"), ("| [12](", "| [13]("), ("05-suspend.md", "05-other.md"):
        expect(old in log and list(changelog(log.replace(old, new), header, notes)), f"CHANGELOG.md with {new} is noticed")
    readme = (ROOT / "README.md").read_text("utf-8")
    versions = re.findall(r"`(rattle-kit-\S+ logic [0-9a-f]{16})`", readme)  # the kit's, and where it differs the certificate's
    certified = re.search(r"^\| toolchain .* `(.*)` \|$", (ROOT / "docs/CERTIFICATE.md").read_text("utf-8"), re.M)
    expect(certified and versions and versions[-1] == certified[1], "README names the certificate's version of the toolchain last")
    for damaged, what in changed(texts):
        expect(list(names(damaged)), f"not noticed: {what}")
    named = list(edits_named(texts))
    for where, _, name in named[::25]:
        damaged = {path: text.replace(f"`{name}`", f"`{name}_not`") for path, text in texts.items()}
        expect(list(edits(damaged)), f"not noticed: {where}: {name}_not")
    expect(len(named) > 300, f"edits named in rows: {len(named)}")
    for wrong in "D1.99", "I14.0", "U4.77":
        expect(cited_in(f"as {wrong} has it") == {wrong} and wrong not in known(texts), f"a citation of {wrong} would be noticed")
    expect(cited_in("C90 to C23, 1.2.3, D1.1.2, aD1.1, Σ.3") == set(), "what is no citation")
    expect(len(known(texts)) > 200 and len(CITATIONS) >= 10, f"{len(known(texts))} rows, {len(CITATIONS)} cited")
    print(f"{passed} passed, {failed} failed")
    return failed != 0


if __name__ == "__main__":
    sys.exit(main())
