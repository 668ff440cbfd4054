#!/usr/bin/env python3
"""Holds the pages to the crates: the picture and the tables of docs/ARCHITECTURE.md to crates.txt and to the crates' first comments,
the predicates and steps of docs/TRAVERSALS.md and the functions of docs/requires.txt to the contracts, the words of docs/GLOSSARY.md to the definitions; every page to its length, its links, and the crates, files and functions that
it names; and the crates to the rules of CONTRIBUTING.md: layers, number and size, an edit for each.

Each check is a function of the text of every page and of crates.txt by path, and gives its faults. The repository must have none, and the
pages with one line, name or link changed must have some. The last line is 'N passed, M failed'.

With --requires: prints by crate the functions of docs/requires.txt, what each asks for or supposes, and why; and tests nothing.
"""
import functools
import importlib.machinery
import importlib.util
import re
import sys
from pathlib import Path

sys.dont_write_bytecode = True

ROOT = Path(__file__).resolve().parent.parent
LIST, CRATES, TRAVERSALS, WORDS = "crates.txt", "docs/ARCHITECTURE.md", "docs/TRAVERSALS.md", "docs/GLOSSARY.md"
DECISIONS, READING = "docs/DECISIONS.md", "docs/READING.md"
DEMANDS, ASKING = "docs/DEMANDS.md", "docs/requires.txt"
SENTENCES = (DEMANDS, "docs/demands/")  # the pages with a row for each sentence of the papers
PROSE = {"edits", "edit"}  # words that stand before an edit and name no crate
FOLDERS = ["", "docs", "docs/decisions", "docs/demands", "docs/landings", "examples"]
MOST_LINES = 300
MOST_CRATES, MOST_CODE, MOST_WORDS = 65, 250, 10  # crates; lines of code of a crate without modules; words that name two things
NO_EDIT = {"vectors"}  # a test, of which nothing is promised
EXAMPLES = re.compile(r"Examples$|^Worked|Bays$|^FirstErrors$|^Suspended$")  # files of definitions worked by hand
LIBRARIES = {"std", "check", "libc", "io", "os", "bytes"}  # of the toolchain
SIGNATURE = r"^pub (?:extern \"C\" )?fn (\w+)((?:\([^\n]*|\((?:\n    [^\n]*)+\n\)[^\n]*) \{$|.*?^\{)"  # up to a body
CLAUSE = r"^ +(requires|ensures)(?: \w+)? \{(.*?)\}(?=\n +(?:requires|ensures)\b|\s*\{?\s*\Z)"  # of what stands before a body
BINDER = r"[({][^(){}:]+ : "
DECLARED = r"^\s*(?:abbrev |unfoldable )?pub (?:data |record )?{}(?=[\s:(])"

FIGURES = re.compile(r"\b(?:house|wing|floor|door|walk|stretch)(?:s|es)?\b")  # of speech; the words are crate, layer, level, traversal, slot

passed = failed = 0


def expect(holds, what):
    global passed, failed
    passed += bool(holds)
    failed += not holds
    if not holds:
        print(f"FAILED {what}")


@functools.cache
def text_of(path):
    return (ROOT / path).read_text(encoding="utf-8")


def load(path):
    loader = importlib.machinery.SourceFileLoader(Path(path).stem, str(ROOT / path))
    module = importlib.util.module_from_spec(importlib.util.spec_from_loader(loader.name, loader))
    loader.exec_module(module)
    return module


listing = load("tools/crates")


def repository():
    pages = [path for folder in FOLDERS for path in sorted((ROOT / folder).glob("*.md"))]
    edits = sorted((ROOT / "crates").glob("*/must-fail/*.edit"))
    return {path: text_of(path) for path in [LIST, ASKING, *(str(file.relative_to(ROOT)) for file in [*pages, *edits])]}


def pages(texts, old=True):
    """The pages; without the notes of landings, of the port and of the design pass, which tell of an older tree, and the certificate, which is made."""
    for path, text in texts.items():
        if path.endswith(".md") and (old or not path.startswith(("docs/landings/", "docs/CERTIFICATE", "docs/PORT", "docs/DESIGN-PASS"))):
            yield path, text


def section(page, heading):
    """What stands below a heading, up to the next one of its kind."""
    return page.partition(f"\n## {heading}\n")[2].partition("\n## ")[0]


def rows(text, first):
    """The rows of the first table whose first heading this is, each a list of cells."""
    found = re.search(rf"^\| {first} \|.*\n\|[-|]+\n((?:\|.*\n?)+)", text, re.M)
    return [[cell.strip() for cell in line.strip("|").split("|")] for line in found[1].splitlines()] if found else []


def quoted(text):
    return re.findall(r"`([^`]+)`", text)


# What the crates have


@functools.cache
def crates():
    return {path.parent.name for path in (ROOT / "crates").glob("*/src")}


@functools.cache
def sources(crate):
    """The code of a crate, by file."""
    return {path.stem: path.read_text(encoding="utf-8") for path in (ROOT / "crates" / crate / "src").glob("*.rt")}


@functools.cache
def modules():
    """The files of code that are not the first of their crate."""
    return {file for crate in crates() for file in sources(crate) if file not in ("lib", "main")}


@functools.cache
def contract(name):
    """What a function requires, and what it ensures; nothing if there is no such function."""
    crate, *file, function = name.split("::")
    texts = sources(crate) if crate in crates() else {}
    text = texts.get(file[0] if file else "lib" if "lib" in texts else "main", "")
    found = re.search(rf"^(?:pub )?(?:extern \"C\" )?fn {function}\b(.*?)^\{{", text, re.M | re.S)
    clauses = re.findall(CLAUSE, found[1], re.M | re.S) if found else []
    return found and {kind: " ".join(text for word, text in clauses if word == kind) for kind in ("requires", "ensures")}


def declares(path, name):
    """Does a file below crates/ declare a name?"""
    file = ROOT / "crates" / f"{path}.antt"
    return file.exists() and re.search(DECLARED.format(re.escape(name)), text_of(f"crates/{path}.antt"), re.M)


@functools.cache
def code_lines(crate):
    """The lines of a crate's code, without blanks and comments."""
    lines = (line.strip() for text in sources(crate).values() for line in text.splitlines())
    return sum(bool(line) and not line.startswith("//") for line in lines)


@functools.cache
def words_of_two():
    """The names that more than one of the crates to be believed declares, examples worked by hand aside."""
    found = {}
    for path in (ROOT / "crates").glob("spec_*/specs/*.antt"):
        if not EXAMPLES.search(path.stem):
            for name in re.findall(r"^(?:abbrev |unfoldable )?pub (?!mod|use)(?:data |record )?([^\s:(]+)", path.read_text("utf-8"), re.M):
                found.setdefault(name, set()).add(path.parts[-3])
    return {name for name, where in found.items() if len(where) > 1}


# Checks: each gives what is wrong with the pages, or with the crates


def layers(texts):
    """Every crate stands in one layer of crates.txt and on crates of its own layer or of one before it; one to be believed on such alone."""
    listed = listing.layers(texts[LIST])
    order, home = list(listed), {name: layer for layer, names in listed.items() for name in names}
    if sorted(name for names in listed.values() for name in names) != sorted(crates()):
        yield f"{LIST} and crates/: {set(home) ^ crates()}"
    for name, below in listing.arrows(texts[LIST]).items():
        if name.startswith("spec_") != (home[name] == "spec"):
            yield f"{name} in layer {home[name]}"
        for other in below:
            if order.index(home[other]) > order.index(home[name]):
                yield f"{name} of layer {home[name]} stands on {other} of layer {home[other]}"
            if name.startswith("spec_") and not other.startswith("spec_"):
                yield f"{name} must be believed and stands on {other}"


def sizes(texts, most=MOST_CODE):
    """There are not too many crates, and a long one has modules."""
    count = sum(map(len, listing.layers(texts[LIST]).values()))
    if count > MOST_CRATES:
        yield f"{count} crates, more than {MOST_CRATES}"
    for crate in sorted(crates()):
        if code_lines(crate) > most and len(sources(crate)) == 1:
            yield f"{crate} has {code_lines(crate)} lines of code and no modules"


def tables(texts):
    """The picture of the layers and their tables are those that the crates give, and each row is a comment of one to three lines."""
    if listing.with_made(texts[CRATES], texts[LIST]) != texts[CRATES]:
        yield f"{CRATES}: tools/crates --write"
    if [row[0] for row in rows(texts[CRATES], "Layer")] != list(listing.layers(texts[LIST])):
        yield f"the layers in {CRATES}"
    for crate in sorted(crates()):
        if not 1 <= len(listing.first_comment(crate)) <= 3:
            yield f"the first comment of {crate} has {len(listing.first_comment(crate))} lines"


def lengths(texts):
    for path, text in pages(texts):
        if text.count("\n") > MOST_LINES:
            yield f"{path} has {text.count(chr(10))} lines"


def links(texts):
    for path, text in pages(texts):
        for link in re.findall(r"\]\(([^)#:\s]+)\)", text):
            if not (ROOT / path).parent.joinpath(link).exists():
                yield f"{path}: the link to {link}"


def functions(texts):
    """The functions, types and constants that are named with their crate."""
    for path, text in pages(texts, old=False):
        for name in re.findall(r"`((?:\w+::)+\w+)(?=[`(])", text):
            first, *middle, last = name.split("::")
            line = rf"^\s*(?:pub )?(?:extern \"C\" )?(?:fn|enum|struct|type|const|mod) {last}\b|^    {last}\b"
            there = [text for file, text in sources(first).items() if not middle or file in middle] if first in crates() else []
            if first not in crates() | modules() | LIBRARIES or first in crates() and not any(re.search(line, x, re.M) for x in there):
                yield f"{path}: {name}"


def files(texts):
    """The files of specs and proofs that are named with their crate."""
    for path, text in pages(texts, old=False):
        for crate, kind, file in re.findall(r"(?<![\w/.*-])(?:crates/)?(\w+)/(specs|proofs|src)\b(?:/(\w+))?", text):
            folder = ROOT / "crates" / crate / kind
            if not folder.exists() or file and not any(folder.joinpath(file + end).exists() for end in ("", ".antt", ".rt")):
                yield f"{path}: {crate}/{kind}/{file}"


@functools.cache
def proof_text(name):
    """What the files of specs and proofs of this name have, or all of them if none has it: then it is a type."""
    paths = list((ROOT / "crates").glob(f"*/*/{name}.antt")) or list((ROOT / "crates").glob("*/specs/*.antt"))
    return "\n".join(path.read_text(encoding="utf-8") for path in paths)


def cited(texts):
    """The declarations that are named behind their file, or behind their type."""
    for path, text in pages(texts, old=False):
        for where, file, name in re.findall(r"`((?:\w+/(?:specs|proofs)/)?([A-Z]\w+))\.([\w-]+)", text):
            source = ROOT / "crates" / f"{where}.antt"
            there = source.read_text(encoding="utf-8") if "/" in where and source.exists() else "" if "/" in where else proof_text(file)
            if not re.search(rf"(?<![\w-]){re.escape(name)}(?![\w-])", there):
                yield f"{path}: {where}.{name}"


@functools.cache
def edits():
    """The must-fail edits by name, each with the crates that have it."""
    found = {}
    for path in (ROOT / "crates").glob("*/must-fail/*.edit"):
        found.setdefault(path.stem, set()).add(path.parts[-3])
    return found


def edits_of(texts):
    """The must-fail edits by path, with the crate of each."""
    return {path: path.split("/")[1] for path in texts if path.endswith(".edit")}


def refused(texts):
    """Every crate with a contract has a must-fail edit, and what an edit changes stands once in its file."""
    of = edits_of(texts)
    for crate in sorted(crates() - set(of.values()) - NO_EDIT):
        if any("ensures {" in text for text in sources(crate).values()):
            yield f"{crate} has contracts and no must-fail edit"
    for path, crate in of.items():
        file, old = re.search(r"^file: (\S+)\nold: (.*?)\n(?=new:)", texts[path], re.M | re.S).groups()
        count = text_of(f"crates/{crate}/{file}").count(old)
        if count != 1:
            yield f"what {path} changes stands {count} times in {file}"


def edited(texts):
    """A must-fail edit that is named behind a crate is one of that crate."""
    for path, text in pages(texts, old=False):
        for crate, named in re.findall(r"(?<![\w`])(\w+) ((?:`\w+`(?: \([^)|]*\))?(?:, )?)+)", text):
            for edit in quoted(re.sub(r"\([^)]*\)", "", named)):
                if edit in edits() and crate not in edits()[edit] and (crate in crates() or path.startswith(SENTENCES) and crate not in PROSE):
                    yield f"{path}: {crate} has no must-fail edit {edit}"


def plain(texts):
    """No page and no comment of a crate has a figure of speech where the field has a word."""
    for path, text in pages(texts, old=False):
        if path != "CHANGELOG.md":
            for found in FIGURES.findall(re.sub(r"`[^`\n]*`|\]\([^)]*\)", "", text)):
                yield f"{path}: {found}"
    yield from figures_of_comments()


@functools.cache
def figures_of_comments():
    """The files of crates with such a word in a comment."""
    found = []
    for path in [*(ROOT / "crates").glob("*/*/**/*.antt"), *(ROOT / "crates").glob("*/src/*.rt")]:
        comments = re.findall(r"^ *(?:--|//) (.*)$", path.read_text(encoding="utf-8"), re.M)
        found += [f"{path.relative_to(ROOT)}: {line}" for line in comments if FIGURES.search(re.sub(r"`[^`]*`", "", line))]
    return found


def predicates(texts):
    """A predicate is declared where the page says, ensured by what gives it and required by what asks for it."""
    for name, where, _, given, asked in rows(texts[TRAVERSALS], "Predicate"):
        word = quoted(name)[0]
        if not declares(where, word):
            yield f"{word} in {where}"
        for cell, clause in ((given, "ensures"), (asked, "requires")):
            for inside, function in re.findall(r"(in )?`(\w+(?:::\w+)+)`", cell):
                text = contract(function)
                if not text or not inside and not re.search(rf"\b{word}\b", text[clause]):
                    yield f"{word}: {function} {clause}"
            for law, file in re.findall(r"`([\w-]+)` \((\w+/proofs/\w+)\)", cell):
                if not declares(file, law):
                    yield f"{word}: the law {law} of {file}"
            for other in re.findall(r"part of `(\w+)`", cell):
                if not re.search(rf"^\| `{other}` \|", texts[TRAVERSALS], re.M):
                    yield f"{word}: part of {other}"


def steps(texts):
    """The functions of a step stand in its file, and a call of the box has its functions."""
    table = rows(texts[TRAVERSALS], "Step")
    if [row[0] for row in table] != [str(n + 1) for n in range(len(table))] or not table:
        yield "the steps of a call to a box"
    for _, names, where, _ in table:
        for name in quoted(names):
            if not contract(name) or not where.startswith(f"crates/{name.split('::')[0]}/src") or not (ROOT / where).exists():
                yield f"the step {name} in {where}"
    exported = set(re.findall(r"fn (intake_box_\w+)", sources("intake")["lib"])) - {"intake_box_tick"}
    if {row[0].strip("`").partition("::")[2] for row in rows(texts[TRAVERSALS], "Call")} != exported:
        yield "the calls of a box"


@functools.cache
def signatures():
    """The functions marked pub, by name: what stands before the body, and whether the file is open to other crates."""
    found = {}
    for crate in crates():
        closed = set(re.findall(r"^mod (\w+);", "\n".join(sources(crate).values()), re.M))  # files of the crate alone
        for file, text in sources(crate).items():
            for name, head in re.findall(SIGNATURE, text, re.M | re.S):
                whole = "::".join([crate, *([file] if file not in ("lib", "main") else []), name])
                found[whole] = (head, file not in closed)
    return found


def listed(texts, title):
    """The functions that a decision names."""
    entry = re.search(rf"{re.escape(title)}\*\*(.*?)\n\n", texts[DECISIONS], re.S)
    return set(re.findall(r"`(\w+(?:::\w+)+)`", entry[1] if entry else ""))


def reasons(texts, kind):
    """The functions that docs/requires.txt has below a reason of a kind, each with the reason."""
    found = re.findall(rf"^{kind}: (.*)\n((?: +.*\n?)+)", texts[ASKING], re.M)
    return {name: reason for reason, names in found for name in names.split()}


def asking():
    """The functions open to other crates that require something."""
    return {name for name, (head, is_open) in signatures().items() if is_open and re.search(r"\brequires(?: \w+)? \{", head)}


def requirements(texts):
    """The functions open to other crates that require something are those that are listed."""
    named = set(reasons(texts, "requires"))
    if named != asking():
        yield f"functions with a requires: {sorted(named ^ asking())}"


def has_premise(text):
    """Whether a proposition has an arrow with more on its left than what it is said of, as '(u : Statement)' is."""
    starts, groups = [0], [""]  # of what stands left of an arrow, and how each bracket that is open goes on
    for at, sign in enumerate(text):
        if sign in "({":
            starts.append(at + 1)
            groups.append(text[at:])
        elif sign in ")}":
            starts.pop()
            groups.pop()
        elif sign == "×":
            starts[-1] = at + 1
        elif sign == "→":
            left = re.sub(rf"{BINDER}[^(){{}}]*[)}}]", "", text[starts[-1] : at])
            starts[-1] = at + 1
            if left.strip() and not re.match(BINDER, groups[-1]):
                return True
    return False


def supposing():
    """The functions open to other crates whose ensures has a premise, of its own or of FromOne and FromTwo."""
    for name, (head, is_open) in signatures().items():
        told = [text for kind, text in re.findall(CLAUSE, head, re.M | re.S) if kind == "ensures"]
        if is_open and any(has_premise(text) or re.search(r"\bFrom(One|Two)\b", text) for text in told):
            yield name


def premises(texts):
    """The functions open to other crates whose ensures has a premise are those that are listed."""
    named = set(reasons(texts, "premise"))
    if named != set(supposing()):
        yield f"functions with a premise in their ensures: {sorted(named ^ set(supposing()))}"


def print_asking(texts):
    """By crate, the functions that are listed, with the clauses and the reason."""
    for kind, clause in (("requires", "requires"), ("premise", "ensures")):
        told = reasons(texts, kind)
        for crate in sorted({name.split("::")[0] for name in told}):
            print(f"{crate}: {kind}")
            for name in sorted(name for name in told if name.split("::")[0] == crate):
                clauses = (contract(name) or {}).get(clause, "")
                print(f"    {name}: {told[name]}\n        {' '.join(clauses.split())}")


def silent(texts):
    """The functions marked pub without an ensures are those that the decision about them names."""
    named = listed(texts, "What only prints states no result.")
    there = {name for name, (head, _) in signatures().items() if "ensures" not in head}
    if named != there:
        yield f"functions without an ensures: {sorted(named ^ there)}"


def words(texts):
    """A word that two crates to be believed declare is in the glossary, and the files beside it have it; there are few of them."""
    table = rows(section(texts[WORDS], "Words that name two things"), "Word")
    told = {word for row in table for word in quoted(row[0])}
    if len(table) > MOST_WORDS:
        yield f"{len(table)} words that name two things, more than {MOST_WORDS}"
    listed = set(quoted(section(texts[WORDS], "One thing in several crates").partition("The standing of")[0]))
    for word in sorted(words_of_two() - told - listed):
        yield f"{word} is declared in two crates: give one of them another name, or say in {WORDS} why it stays"
    yield from (f"{word} is declared in one crate only" for word in sorted(listed - words_of_two()))
    for row in table:
        for crate, kind, file in re.findall(r"(\w+)/(specs|proofs|src)/(\w+)", row[1] + " " + row[2]):
            path = f"crates/{crate}/{kind}/{file}.{'rt' if kind == 'src' else 'antt'}"
            own = quoted(row[0]) or quoted(row[1] + row[2]) + row[0].split(", ")
            if not (ROOT / path).exists() or not any(re.search(rf"(?<![\w-]){word}(?![\w-])", text_of(path), re.I) for word in own):
                yield f"{row[0]} in {path}"


CHECKS = [layers, sizes, tables, lengths, links, functions, files, cited, refused, edited, plain, predicates, steps, requirements, premises,
          silent, words]


# Pages with one thing changed


def other(texts, path, found, new):
    """The pages that are needed, with something new in the place of what was found in one of them."""
    start, end = found.span(1)
    needed = (LIST, ASKING, CRATES, TRAVERSALS, WORDS, DECISIONS, READING)
    return {name: texts[name] for name in needed} | {path: texts[path][:start] + new + texts[path][end:]}


def changed(texts):
    """Yields pages with one line, name or link changed, with the check that must notice it and what was changed."""
    changes = [
        (LIST, layers, r"^(\w+:.*\n)", ""),  # a crate that is left out
        (LIST, layers, r"^spec_\w+:()", " limits"),
        (LIST, sizes, r"\A()", "# more\n" + "".join(f"crate_{n}:\n" for n in range(MOST_CRATES))),
        (LIST, tables, r"^(# \w+\n)", ""),  # a layer's crates in the one before it
        (CRATES, tables, r"^( +\w+ +\d+ crates .*\n)", ""),
        (CRATES, tables, r"^\| `\w+` \| (.*) \|\n", "nothing"),
        (CRATES, plain, r"\A()", "a walk\n"),
        (CRATES, lengths, r"\A()", "\n" * MOST_LINES),
        (CRATES, links, r"\]\(([^)#:\s]+)\)", "nowhere.md"),
        (TRAVERSALS, functions, r"`\w+::([\w:]+)`", "nobody"),
        (TRAVERSALS, files, r"\w+/(?:specs|proofs)/(\w+)", "Nobody"),
        (TRAVERSALS, predicates, r"^\| (`[A-Z]\w+`) \| \w+/specs", "`Unit`"),
        (TRAVERSALS, predicates, r"^\| `[A-Z]\w+` \|.*(?<!in )(`\w+::[\w:]+`).*\n", "`numbers::put_le`"),
        (TRAVERSALS, predicates, r"^\| `[A-Z]\w+` \|.*?laws? `([\w-]+)`.*\n", "nobody"),
        (TRAVERSALS, steps, r"^\| \d+ \| `\w+::([\w:]+)`.*\n", "nobody"),
        (TRAVERSALS, steps, r"^\| (`intake::intake_box_\w+`) \| `\w+::", "`intake::intake_tick`"),
        (ASKING, requirements, r"\b(\w+::put_\w+)", ""),
        (ASKING, premises, r"\b(rules\w*::in_\w+)", ""),
        (DECISIONS, silent, r"(`vectors\w*::\w+::(?:text|all)`)", "nothing"),
        (DEMANDS, edited, r"\b(reading|spec_language) `\w+`", "limits"),
        (WORDS, cited, r"`[A-Z]\w+\.(\w+)`", "nonesuch"),
        (READING, files, r"(?<![\w/])\w+/specs/(\w+)", "Nobody"),
        *((WORDS, words, rf"`({word})`", "nobody") for word in sorted(words_of_two())),
    ]
    of = edits_of(texts)
    for path, crate in of.items():  # the only edit of a crate left out, and the first of each without its text
        if list(of.values()).count(crate) == 1 and any("ensures {" in text for text in sources(crate).values()):
            yield {other: text for other, text in texts.items() if other != path}, refused, f"{path} left out"
        if path == next(other for other in of if of[other] == crate):
            yield texts | {path: texts[path].replace("\nold: ", "\nold: nothing of ", 1)}, refused, f"{path}: what it changes"
    for path, check, pattern, new in changes:
        places = list(re.finditer(pattern, texts[path], re.M))
        expect(places, f"nothing to change: {pattern}")
        for found in places[: 1 if check is words else None]:
            yield other(texts, path, found, new), check, f"{path}: {found[0].strip()}"


def noticed(texts, check):
    try:
        return bool(list(check(texts)))
    except (ValueError, KeyError, IndexError):  # a crate that is nowhere, or in no layer
        return True


def main():
    texts = repository()
    if sys.argv[1:] == ["--requires"]:
        try:
            return print_asking(texts)
        except BrokenPipeError:  # whoever reads has seen enough
            return sys.stderr.close()
    for check in CHECKS:
        found = list(check(texts))
        expect(not found, f"{check.__name__}: " + "\n  ".join(found))
    expect(list(sizes(texts, most=100)), "a long crate without modules is not noticed")
    for damaged, check, what in changed(texts):
        expect(noticed(damaged, check), f"not noticed: {what}")
    print(f"{passed} passed, {failed} failed")
    return failed != 0


if __name__ == "__main__":
    sys.exit(main())
