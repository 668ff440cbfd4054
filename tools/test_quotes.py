#!/usr/bin/env python3
"""Holds what the repository quotes to the papers that are the law (docs/papers.txt).

  tools/test_quotes.py           tests
  tools/test_quotes.py --write   writes docs/quotations.txt anew, for which the papers must be at hand

A quotation is what stands between single quotation marks and has four words or more: in comments of the crates' specs, proofs and src,
in comments of the headers, and in pages. It must be words of one paper, '..' standing for words of the same paragraph that are left out,
or else the title of a section or a decision of a page.

The papers are no part of the repository. They are taken from the folder that PAPERS names, or from the one beside the repository, and
must have the sums of docs/papers.txt. docs/quotations.txt has the sum of each quotation that was found in a paper: the quotations of the
repository must be those of the list, with the papers at hand or without. Without them that is all that is compared, and the test says so.
Each quotation is changed by a word once, and must then be noticed. The last line is 'N passed, M failed'.
"""
import hashlib
import os
import re
import sys
from pathlib import Path

sys.dont_write_bytecode = True

from certifying.papers import BESIDE, LIST, papers_in, state_of

ROOT = Path(__file__).resolve().parent.parent
SUMS = "docs/quotations.txt"
HEAD = """# The quotations of the repository: the sha256 of each, in lower case and with one space between two words, and the paper that has its words.
# Written by tools/test_quotes.py --write, which looks each up in the paper; make quotes-test holds the repository to this list.
"""
CODE = ["crates/*/specs/**/*.antt", "crates/*/proofs/**/*.antt", "crates/*/src/**/*.rt"]
PAGES = ["docs/**/*.md", "README.md", "CONTRIBUTING.md", "CHANGELOG.md"]
WORDS = 4
OPENING = re.compile(r"(?<![\w'`])'(?=[\w\"(.])")
CLOSING = re.compile(r"(?<=[\w.,;:!?)\"`])'(?!\w)")
POSSESSIVE = re.compile(r"s'(?= \w)")  # as in the fitters' paper: the quotation may go on
SAMPLE = """A test 'reads the set as it stands', the fitters' paper 'isn't' read, and 'the fitters' paper holds a term' ('only two'
words); 'so
  are .. those parted'."""
FOUND = ["reads the set as it stands", "the fitters' paper holds a term", "so are .. those parted"]

passed = failed = 0


def expect(holds, what):
    global passed, failed
    passed += bool(holds)
    failed += not holds
    if not holds:
        print(f"FAILED {what}")


# Quotations


def plain(text):
    """Text in lower case, without marks of a page and with one space between two words."""
    text = text.replace("\u2019", "'").replace("\u2018", "'")
    return re.sub(r"\s+", " ", re.sub(r'[*`"]', "", text)).strip().lower()


def quotations(text):
    """What stands between single quotation marks. A mark behind an s and before a word ends a quotation, unless a later one does."""
    text = re.sub(r"\s+", " ", text)
    at = 0
    while found := OPENING.search(text, at):
        begin = at = found.end()
        for closing in CLOSING.finditer(text, begin):
            quoted = text[begin : closing.start()]
            if OPENING.search(quoted):
                break
            if at == begin or len(quoted.split()) >= WORDS:
                at = closing.end()
            if not POSSESSIVE.match(text, closing.start() - 1):
                break
        if at > begin:
            yield text[begin : at - 1]


def long_ones(text):
    return [quoted for quoted in quotations(text) if len(quoted.split()) >= WORDS]


def comments(text, mark):
    """The comments of code, each with the number of its first line; lines that are comments and nothing else belong together."""
    block, first = [], 0
    for number, line in enumerate([*text.split("\n"), ""], 1):
        whole = re.match(rf"\s*{mark}\s?(.*)", line)
        if whole:
            first = first if block else number
            block.append(whole[1])
            continue
        if block:
            yield first, "\n".join(block)
            block = []
        behind = re.search(rf"\s{mark}\s(.*)", line)
        if behind:
            yield number, behind[1]


def pieces(path, text):
    """What is read of a file, piece by piece, with the number of the line in which it begins."""
    if path.endswith(".antt"):
        yield from comments(text, "--")
    elif path.endswith(".rt"):
        yield from comments(text, "//")
    elif path.endswith(".h"):
        for found in re.finditer(r"/\*(.*?)\*/", text, re.S):
            yield text[: found.start()].count("\n") + 1, re.sub(r"\n\s*\*", "\n", found[1])
    else:
        text = re.sub(r"^```.*?^```", lambda found: re.sub(r"[^\n]", "", found[0]), text, flags=re.M | re.S)
        for found in re.finditer(r"(?:^.+\n?)+", text, re.M):
            lines = found[0].split("\n") if found[0].startswith("|") else [found[0]]
            number = text[: found.start()].count("\n") + 1
            yield from ((number + row, line) for row, line in enumerate(lines))


def texts():
    """The files that are read, by path."""
    paths = {path for pattern in [*CODE, "include/*.h", *PAGES] for path in ROOT.glob(pattern)}
    return {str(path.relative_to(ROOT)): path.read_text("utf-8") for path in sorted(paths)}


def titles(files):
    """The titles of the sections and decisions of the pages."""
    found = set()
    for path, text in files.items():
        if path.endswith(".md"):
            found.update(plain(title) for title in re.findall(r"^#+ (.*)", text, re.M))
            found.update(plain(title) for title in re.findall(r"^\*\*[\d-]{10}[^.]*\. (.*?)(?: \([^()]*\))?\.\*\*", text, re.M))
    return found


# The papers


def paragraphs(text):
    """The paragraphs of a paper: a line, or lines up to an empty one."""
    return [plain(part) for part in re.split(r"\n\s*\n", text)]


def is_in(quoted, paper):
    """Whether a paragraph has the words, those between '..' one after the other."""
    parts = [re.escape(part.strip(" .,;:")) for part in plain(quoted).split("..")]
    wanted = re.compile(r"(?!\w).*?(?<!\w)".join(part for part in parts if part))
    return any(re.search(rf"(?<!\w){wanted.pattern}(?!\w)", part) for part in paper)


def folder():
    """The folder of the papers, or None: the one that PAPERS names, no one if it is empty."""
    named = os.environ.get("PAPERS")
    places = [ROOT / place for place in BESIDE] if named is None else [Path(named)] if named else []
    place = next((place for place in places if place.is_dir()), None)
    expect(place or not named, f"PAPERS={named} is no folder")
    return place


def law(place):
    """The paragraphs of each paper that is there, by its name; one that differs from its sum is a failure."""
    papers = {}
    for paper in papers_in((ROOT / LIST).read_text("utf-8")):
        state = state_of(paper, place)
        expect(state == "here", f"paper {paper.name}, {paper.file}: {state}")
        if state == "here":
            papers[paper.name] = paragraphs((place / paper.file).read_text("utf-8"))
    return papers


# The list


def sum_of(quoted):
    return hashlib.sha256(plain(quoted).encode()).hexdigest()


def listed(text):
    """The sums of the list with the names of their papers; None where a line is no such thing."""
    lines = [line for line in text.splitlines() if not line.startswith("#")]
    if not all(re.fullmatch(r"[0-9a-f]{64} \w+", line) for line in lines) or lines != sorted(set(lines)):
        return None
    return dict(line.split() for line in lines)


def written(quoted, papers):
    """The list for these quotations."""
    names = {sum_of(one): next((name for name, paper in papers.items() if is_in(one, paper)), None) for one in quoted}
    return HEAD + "".join(f"{known} {name}\n" for known, name in sorted(names.items()) if name)


def faults(files, own, known, papers):
    """The quotations that are neither titles nor, where there are papers, their words, nor on the list."""
    for path, text in files.items():
        for number, piece in pieces(path, text):
            for quoted in long_ones(piece):
                if plain(quoted) in own:
                    continue
                if papers and not any(is_in(quoted, paper) for paper in papers.values()):
                    yield f"{path}:{number}: '{quoted}' is in no paper, and is the title of no section or decision"
                elif sum_of(quoted) not in known:
                    yield f"{path}:{number}: '{quoted}' is not on {SUMS}; tools/test_quotes.py --write, with the papers"


def changed(quoted):
    """The quotation with one word changed, the last before any '..'."""
    words = quoted.split("..")[0].split()
    return quoted.replace(words[-1], "signalNesting" if words[-1].strip(".,;:").lower() != "signalnesting" else "nesting", 1)


def each_noticed(files, own, known, papers):
    """Each quotation, changed by a word in a copy of its piece, is noticed there."""
    for path, text in files.items():
        for number, piece in pieces(path, text):
            flat = re.sub(r"\s+", " ", piece)
            for quoted in long_ones(piece):
                copy = flat.replace(f"'{quoted}'", f"'{changed(quoted)}'", 1)
                wrong = [one for one in long_ones(copy) if plain(one) not in own and (
                    sum_of(one) not in known or papers and not any(is_in(one, paper) for paper in papers.values()))]
                expect(copy != flat and wrong, f"{path}:{number}: a word of '{quoted}' changed is not noticed")


def main(words):
    files = texts()
    own, place = titles(files), folder()
    papers = law(place) if place else {}
    quoted = [one for path, text in files.items() for _, piece in pieces(path, text) for one in long_ones(piece) if plain(one) not in own]
    if words == ["--write"] and papers:
        (ROOT / SUMS).write_text(written(quoted, papers), "utf-8")
    elif words:
        sys.exit("tools/test_quotes.py [--write]; to write, the papers must be at hand")
    expect(long_ones(SAMPLE) == FOUND, f"the finder: {long_ones(SAMPLE)}")
    known = listed((ROOT / SUMS).read_text("utf-8"))
    expect(known is not None, f"{SUMS} has a line that is no sum with a paper, or is not in order")
    known = known or {}
    found = list(faults(files, own, known, papers))
    for fault in found:
        expect(False, fault)
    expect(set(known) == {sum_of(one) for one in quoted}, f"{SUMS} is not the list of the quotations; tools/test_quotes.py --write, with the papers")
    if not found:
        each_noticed(files, own, known, papers)
    told = f"held to {', '.join(papers)} and to {SUMS}" if papers else f"held to {SUMS} alone, since the papers are not at hand"
    print(f"{len(quoted)} quotations, {len(known)} of them different, {told}")
    print(f"{passed} passed, {failed} failed")
    return 1 if failed else 0


if __name__ == "__main__":
    sys.exit(main(sys.argv[1:]))
