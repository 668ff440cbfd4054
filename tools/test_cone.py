#!/usr/bin/env python3
"""Tests tools/cone and tools/spec_book.

The cones of small made-up crates must have exactly the definitions that they have by hand, and must be noticed to differ where one is left
out. Of the repository every export and every theorem that a row of the demands cites must be found, docs/READING.md must be what the tree
gives, and the book must be HTML whose links lead somewhere in it. The last line is 'N passed, M failed'.
"""
import re
import subprocess
import sys
import tempfile
from html.parser import HTMLParser
from pathlib import Path

sys.dont_write_bytecode = True

from meaning.book import Book, anchor
from meaning.claims import READING, Claims, pages, whole
from meaning.cones import Cones, is_theorem, lines_of
from meaning.names import Unknown
from meaning.reading import page
from meaning.texts import Unread, tokens_of
from meaning.tree import Missing, Tree

ROOT = Path(__file__).resolve().parent.parent

passed = failed = 0


def expect(holds, what):
    global passed, failed
    passed += bool(holds)
    failed += not holds
    if not holds:
        print(f"FAILED {what}")


# Crates that are made up: what stands in them, and what each name means

MADE = {
    "crates.txt": "# first\nbase:\nuser: base\n\n# second\nexport: base user\n",
    "crates/base/specs/Lib.antt": "pub mod Shapes\npub mod Turns\n",
    "crates/base/specs/Shapes.antt": """-- Shapes. A text in a comment, size and all, is no use of a name.
use Rattle.std.specs.Prelude.{ℕ, zero, suc, ◌+◌}
use Rattle.std.specs.Prelude.{◌≡◌}

abbrev pub size : ℕ
size = 3

abbrev pub other : ℕ
other = 4

-- a type with constructors, of which one has the name of a type's below
pub data Shape : Type 0 where
  round : Shape
  -- with its size
  edged : (corners : ℕ) → Shape

abbrev pub early : Shape
early = round

pub data Mark : Type 0 where
  round : Mark
  none : Mark

-- a record whose second field uses the first, which hides size
pub record Box (wide : ℕ) : Type 0 where
  pub size : ℕ
  pub fits : size ≡ wide

abbrev pub ◌⊕◌ : ℕ → ℕ → ℕ
◌⊕◌ a b = a + b

-- bound names hide declared ones: in a pattern, a λ, a let and a binder
abbrev pub hidden : (size : ℕ) → ℕ
hidden size = size ⊕ size

abbrev pub lambda : ℕ → ℕ
lambda = λ other. other

abbrev pub bound : ℕ
bound = let other = other in other

abbrev pub letted : ℕ
letted = let size = other in size

abbrev pub whole : (n : ℕ) (b : Box n) → ℕ
whole n b = b.size

abbrev pub drawn : Shape → ℕ
drawn Shape.round = size
drawn (edged other) = other

abbrev pub marked : Mark
marked = Mark.round

-- a theorem: its proof uses what its statement does not mean
sized : size ≡ 3
unfolding hidden
sized = lambda
  where
    inner : other ≡ 4
    inner = inner
""",
    "crates/base/specs/Turns.antt": """use Rattle.std.specs.Prelude.{ℕ, zero, suc}
use Rattle.std.specs.Prelude.{Bool, true, false}
use Rattle.base.specs.Shapes as Shapes

unfoldable mutual
  pub even : ℕ → Bool
  pub odd : ℕ → Bool
  even zero = true
  even (suc n) = odd n
  odd zero = false
  odd (suc n) = even n

module _ (start : Shapes.Shape) where
  abbrev pub begun : ℕ
  begun = Shapes.drawn start

  abbrev pub again : ℕ
  again = begun

abbrev pub either : Bool → ℕ
either true = Shapes.other
either false = 0
""",
    "crates/user/specs/Lib.antt": "pub mod Claim\n",
    "crates/user/specs/Claim.antt": """use Rattle.std.specs.Prelude.{ℕ}
use Rattle.std.specs.Prelude.{◌≡◌}
use Rattle.base.specs.Shapes.{size, Shape, edged, hidden as veiled}
use Rattle.base.specs.Turns.{even}
use Rattle.user.specs.declared.Pair.{Pair}

pub record Claim (f : ℕ → ℕ) : Type 0 where
  pub small : f size ≡ size
  pub same : (n : ℕ) → f n ≡ veiled n

abbrev pub shape : Shape
shape = edged 5

abbrev pub first : Pair → ℕ
first p = p.left

abbrev pub idle : ℕ
idle = 0
""",
    "crates/user/src/lib.rt": "pub struct Pair {\n    pub left: u32,\n    // in lower case\n    pub right: u32,\n}\n",
    "crates/user/proofs/Lib.antt": "pub mod Theorems\n",
    "crates/user/proofs/Theorems.antt": """use Rattle.std.specs.Prelude.{ℕ}
use Rattle.base.specs.Shapes.{hidden, lambda}
use Rattle.user.specs.Claim.{Claim, idle}

pub claimed : Claim hidden
claimed = lambda idle
""",
    "crates/export/src/lib.rt": """ghost use Rattle.std.specs.Prelude.{◌≡◌};
ghost use Rattle.base.specs.Shapes.{
    size, drawn,
};
ghost use Rattle.base.specs.Turns as Turns;
use limits::MAX;

// What a host calls.
#[unsafe(no_mangle)]
pub extern "C" fn made_call(size: u32, at: &[u8]) -> u8
    requires { Turns.even size ≡ Turns.even size }
    ensures { result ≡ drawn at.now }
{
    drawn(size)
}

pub fn inner(x: u32) -> u8
    ensures { result ≡ size }
{
    x
}
""",
    "docs/DEMANDS.md": """# Demands

| Name | Definition | Theorem |
|---|---|---|
| D1.1 | `idle` | `claimed` (`small`); `user::inner` |
""",
}
EXPECTED = {
    "size": "size",
    "hidden": "hidden ◌⊕◌",
    "lambda": "lambda",
    "bound": "bound other",
    "letted": "letted other",
    "early": "early Shape",
    "whole": "whole Box",
    "drawn": "drawn Shape size",
    "marked": "marked Mark",
    "sized": "size",
    "even": "even odd",
    "begun": "begun module-_ Shape drawn size",
    "again": "again begun module-_ Shape drawn size",
    "either": "either other",
    "Claim": "Claim size hidden ◌⊕◌",
    "shape": "shape Shape",
    "first": "first Pair",
    "claimed": "Claim size hidden ◌⊕◌",
    "made_call": "drawn Shape size even odd",
}
LINES = {"size": 2, "drawn": 5 + 2 - 2 + 3, "Claim": 3 + 2 + 2 + 2, "even": 3 + 3, "first": 2 + 4}


def made(folder, texts):
    for path, text in texts.items():
        (Path(folder) / path).parent.mkdir(parents=True, exist_ok=True)
        (Path(folder) / path).write_text(text, encoding="utf-8")
    return Cones(Tree(folder))


def names_in(cones, name):
    return sorted(item.name.replace(" ", "-") for item in cones.cone([cones.root(name)]).items)


def made_cones():
    with tempfile.TemporaryDirectory() as folder:
        cones = made(folder, MADE)
        for name, wanted in EXPECTED.items():
            expect(names_in(cones, name) == sorted(wanted.split()), f"the cone of {name}: {names_in(cones, name)}")
        for name, wanted in LINES.items():
            found = lines_of(cones.cone([cones.root(name)]).items)
            expect(found == wanted, f"the lines of {name}: {found}, not {wanted}")
        kit = cones.cone([cones.root("drawn")]).kit
        expect(kit == {("Rattle.std.specs.Prelude", "ℕ")}, f"the names of libraries of drawn: {kit}")
        exports, claims = whole(cones, pages(folder), "")
        expect([root.name for root in exports] == ["made_call"] and [root.name for root in claims] == ["claimed"], "the exports and claims")
        apart = "\n## Cited, and not to be read\n\n| Theorem | Why |\n|---|---|\n| `claimed` | by hand |\n"
        expect(whole(cones, pages(folder), apart)[1] == [], "a theorem that is set apart")
        expect(refused(lambda: whole(cones, pages(folder), apart.replace("claimed", "not-cited"))), "what is set apart and not cited")
        ordered = [item.name for _, items in cones.in_order(cones.cone([*exports, *claims]).items) for item in items]
        expect(ordered == ["size", "Shape", "◌⊕◌", "hidden", "drawn", "even", "odd", "Claim"], f"the order: {ordered}")
        fields = [token.text for token in cones.walk(cones.declared["whole"][0]).fields]
        expect(fields == ["size"], f"the fields of whole: {fields}")


def refused(action):
    """Whether something says that a name is not there."""
    try:
        action()
    except (Missing, Unknown, Unread) as fault:
        return str(fault)
    return ""


def left_out():
    """A cone differs, or a name is missed, where a definition that it has is left out."""
    for name, wanted in EXPECTED.items():
        for gone in wanted.split():
            texts = {path: without(text, gone) if "/specs/" in path else text for path, text in MADE.items()}
            if texts == MADE:
                continue  # of code, or a section
            with tempfile.TemporaryDirectory() as folder:
                cones = made(folder, texts)
                fault = refused(lambda: names_in(cones, name))
                expect(fault or names_in(cones, name) != sorted(wanted.split()), f"{name} without {gone} is noticed")


def without(text, name):
    """A file without the declaration of a name."""
    own = re.escape(name)
    entry = rf"^ *(?:(?:abbrev |unfoldable )?pub |)(?:data |record |){own}(?: \([^)]*\))? :.*\n(?:^ *{own}\b.*\n|^  .*\n)*"
    return re.sub(entry, "", text, flags=re.M)


def wrong_names():
    """Names that mean nothing, or more than one thing."""
    cases = [("use Rattle.std.specs.Prelude.{ℕ}\nabbrev pub bad : ℕ\nbad = nowhere\n", "bad", "'nowhere' means nothing there"),
             ("use Rattle.base.specs.Shapes.{nowhere}\nabbrev pub bad : nowhere\nbad = bad\n", "bad", "declares no 'nowhere'"),
             ("use Rattle.base.specs.Nowhere.{a}\nabbrev pub bad : a\nbad = bad\n", "bad", "there is no crates/base/specs/Nowhere.antt"),
             ("abbrev pub size : Type 0\nsize = size\n", "size", "is declared more than once"),
             ("pub data A : Type 0 where\n  one : A\n\npub data B : Type 0 where\n  one : B\n\nabbrev pub bad : B\nbad = one\n", "bad",
              "'one' is a constructor of several types"),
             ("bad = 1\n", "even", "belongs to no declaration")]
    for text, name, wanted in cases:
        with tempfile.TemporaryDirectory() as folder:
            cones = made(folder, MADE | {"crates/user/specs/Bad.antt": text})
            fault = refused(lambda: names_in(cones, name))
            expect(wanted in fault, f"{wanted!r} of {text!r}: {fault!r}")
    words = [token.text for token in tokens_of('f {- no -} «in» "a -- b" x.y -- rest\n(λ z. z′) 0x1F')]
    expect(words == ["f", "in", '"a -- b"', "x", ".", "y", "(", "λ", "z", ".", "z′", ")", "0x1F"], f"the tokens: {words}")


# The repository


def program(*words):
    return subprocess.run([ROOT / "tools/cone", *words], capture_output=True, text=True)


def repository():
    cones = Cones(Tree(ROOT))
    texts, reading = pages(ROOT), (ROOT / READING).read_text("utf-8")
    for name in cones.tree.exports():
        expect(cones.cone([cones.root(name)]).items, f"the export {name} means something")
    expect(cones.tree.exports(), "there are exports")
    asking = [name for name, export in cones.tree.exports().items() if "requires" in export.text]
    expect(not asking, f"exports with a requires, of which {READING} knows none: {asking}")
    claims = Claims(cones, texts, reading)
    expect(not claims.unknown and not claims.idle(), f"claims that are not found: {claims.unknown} {claims.idle()}")
    for item in claims.items():
        expect(cones.cone([cones.statement(item)]).items, f"the theorem {item.name} means something")
    exports, roots = whole(cones, texts, reading)
    cone = cones.cone([*exports, *roots])
    whole_set(cones, cone)
    expect(page(cones, reading, exports, roots, cone) == reading, f"{READING}: tools/cone --write")
    damaged_pages(cones, texts, reading, claims, exports, roots, cone)
    printed(cones, cone, reading)


def whole_set(cones, cone):
    """What is printed is read from above: each definition stands behind those that it uses; and every field is one of a record there."""
    order = [item for _, items in cones.in_order(cone.items) for item in items]
    place = {item: at for at, item in enumerate(order)}
    late = [(item.name, target.item.name) for item in order for target in cones.used(item)
            if target.item in place and place[target.item] > place[item] and target.item.path != item.path]
    expect(not late, f"used before they are defined: {late}")
    known = {name for item in cone.items for name in item.member_names()}
    strange = {(item.path, token.line, token.text) for item in cone.items for token in cones.walk(item).fields if token.text not in known}
    expect(not strange, f"fields of no record in the set: {strange}")
    closed = [f"{item.path}: {item.name}" for item in cone.items if is_theorem(item)]
    expect(not closed, f"a statement means what nothing can unfold: {closed}")


def damaged_pages(cones, texts, reading, claims, exports, roots, cone):
    """A theorem's name that is changed in a row, and a row that is changed in the page of reading, are noticed."""
    for item in claims.items()[::10]:
        if re.search(r"[-_]", item.name):
            damaged = {path: text.replace(f"{item.name}`", f"{item.name}-not`") for path, text in texts.items()}
            expect(Claims(cones, damaged, reading).unknown, f"{item.name}-not is noticed")
    changes = (r"^\| \[.*\n", ""), (r"^\| all .*\n", ""), (r"(?<=\| )\d+(?= \|)", "7777"), (r"^Crates: `\w+`", "Crates: `nobody`")
    for old, new in changes:
        changed = re.sub(old, new, reading, count=1, flags=re.M)
        fault = refused(lambda: page(cones, changed, exports, roots, cone))
        noticed = fault or page(cones, changed, exports, roots, cone) != changed
        expect(changed != reading and noticed, f"{READING} without {old!r} is noticed")
    some = next(item for item in cone.items if item.kind == "record")
    less = cone._replace(items=cone.items - {some})
    expect(page(cones, reading, exports, roots, less) != reading, f"a set without {some.name} is noticed")


def printed(cones, cone, reading):
    """What the program prints, its counts, and how it turns words down."""
    every = program("--all")
    told = re.search(r"^ +(\d+)  in all: ([\d,]+) definitions in (\d+) files", every.stdout, re.M)
    row = re.search(r"^\| those and the \d+ theorems \| (\d+) \| (\d+) \| ([\d,]+) \|$", reading, re.M)
    expect(every.returncode == 0 and told and row, "the whole set is printed")
    same = told and row and [told[1], told[2], told[3]] == [row[3].replace(",", ""), row[1], row[2]]
    expect(same, f"the counts of {READING} are those that are printed")
    expect(told and int(told[1]) == lines_of(cone.items), "the lines that are printed are those of the set")
    files = program("--files")
    sums = [tuple(map(int, found)) for found in re.findall(r"^ *(\d+) of +(\d+)  crates/", files.stdout, re.M)]
    inside = lines_of(item for item in cone.items if "/specs/" in item.path)
    every_file = len(sums) == len(cones.tree.files("specs"))
    expect(files.returncode == 0 and every_file and sum(own for own, _ in sums) == inside, "the files of specs")
    for words, status, wanted in ((["no_such_name"], 2, "there is no export, theorem or definition 'no_such_name'\n"),
                                  (["no/such name"], 2, "there is no export"), ([], 2, "tools/cone NAME"), (["--none"], 2, "tools/cone NAME"),
                                  (["--all", "x"], 2, "tools/cone NAME"), (["--check"], 0, "")):
        found = program(*words)
        right = found.returncode == status and wanted in found.stderr and not found.stdout
        expect(right, f"tools/cone {' '.join(words)}: {found.stderr[:200]}")
    expect(program("no_such_name").stderr.count("\n") == 1, "one line says that a name is not there")
    one = program(next(iter(cones.tree.exports())))
    expect(one.returncode == 0 and "in all" in one.stdout and "Of the toolchain" in one.stdout, "one export is printed")


# The book


class Reader(HTMLParser):
    """Collects what a page opens, closes, names and links to."""
    VOID = {"meta", "br", "hr", "img", "link"}

    def __init__(self):
        super().__init__()
        self.open, self.faults, self.ids, self.links, self.tags = [], [], [], [], set()

    def handle_starttag(self, tag, attrs):
        attrs = dict(attrs)
        self.tags.add(tag)
        self.ids += [attrs["id"]] if "id" in attrs else []
        self.links += [attrs[name] for name in ("href", "src") if name in attrs]
        if tag not in self.VOID:
            self.open.append(tag)

    def handle_endtag(self, tag):
        if not self.open or self.open.pop() != tag:
            self.faults.append(f"</{tag}> at {self.getpos()}")


def faults_of(text):
    reader = Reader()
    reader.feed(text)
    reader.close()
    yield from reader.faults[:3]
    yield from (f"<{tag}> is not closed" for tag in reader.open)
    known = set(reader.ids)
    yield from [f"{len(reader.ids) - len(known)} names twice"] if len(known) < len(reader.ids) else []
    yield from sorted({f"the link {link}" for link in reader.links if not link.startswith("#") or link[1:] not in known})
    yield from (f"<{tag}>" for tag in reader.tags & {"script", "link", "img", "iframe"})


def book():
    made_book = Book(ROOT)
    text = made_book.page()
    found = list(faults_of(text))
    expect(not found, f"the book: {found[:5]}")
    expect(not re.search(r"url\(|@import|https?:", text.partition("</style>")[0]), "the book loads nothing")
    expect("@media print" in text and "break-before: page" in text, "the book has a form for print")
    ids = set(re.findall(r'id="([^"]+)"', text))
    missing = [item.name for item in made_book.cone.items if anchor(item.path, item.first) not in ids]
    expect(not missing, f"definitions that are not in the book: {missing[:5]}")
    expect(text.count("<q>") > 50, "the papers' words stand beside the definitions")
    link = re.search(r'<a href="(#[^"]+)" title', text)
    elsewhere = text.replace("</body>", '<img src="https://x">\n</body>')
    for damaged in (text.replace("</section>", "", 1), text.replace(link[1], "#nowhere", 1), elsewhere):
        expect(list(faults_of(damaged)), "a damaged book is noticed")


def main():
    made_cones()
    left_out()
    wrong_names()
    repository()
    book()
    print(f"{passed} passed, {failed} failed")
    return failed != 0


if __name__ == "__main__":
    sys.exit(main())
