"""Prints the definitions that contracts and theorems mean.

  tools/cone NAME..    what each name means: an export (intake_tick), a theorem (box_on_paper) or a definition (Certificate);
                       a name that several files declare stands behind its file (Machines.run, crates/esterel/specs/Machines.run)
  tools/cone --all     all exports, and all theorems that the rows of docs/DEMANDS.md and docs/demands cite: the whole set
  tools/cone --files   each file of specs: how many of its lines are in the whole set, and which definitions are not
  tools/cone --check   whether docs/READING.md is what the tree gives
  tools/cone --write   writes the tables of docs/READING.md anew

A definition stands behind those that it uses. Lines are counted without blanks, comments and imports; of the toolchain's libraries the
names are counted. Status 2 means that a name is not there.
"""
import sys
from pathlib import Path

from meaning.claims import READING, pages, whole
from meaning.cones import Cones, by_crate, by_module, lines_of
from meaning.names import Unknown
from meaning.reading import page
from meaning.texts import Unread
from meaning.tree import Missing, Tree
from showing.streams import write_bytes

ROOT = Path(__file__).resolve().parent.parent.parent


def counted(number, word):
    return f"{number:,} {word}{'' if number == 1 else 's'}"


def told(cones, cone):
    """A cone as text: its roots, its definitions by file, sums by crate, and the names of libraries."""
    for root in cone.roots:
        yield f"{root.name}  {root.path}:{root.first}"
    order = cones.in_order(cone.items)
    for path, items in order:
        yield f"\n{path}  {counted(lines_of(items), 'line')}"
        for item in items:
            yield f"  {item.first:>5} {len(item.lines):>4}  {', '.join(item.names)}"
    yield "\nLines by crate"
    for crate, lines in by_crate(order).items():
        yield f"  {lines:>5}  {crate}"
    definitions = counted(len([item for item in cone.items if item.kind != "section"]), "definition")
    crates = counted(len(by_crate(order)), "crate")
    yield f"  {lines_of(cone.items):>5}  in all: {definitions} in {counted(len(order), 'file')} of {crates}"
    yield f"\nOf the toolchain: {counted(len(cone.kit), 'name')}"
    for module, names in by_module(cone.kit).items():
        yield f"  {module}: {', '.join(names)}"


def files(tree, items):
    """Each file of specs with the lines of it that are in a set, and the definitions that are not."""
    for path in tree.files("specs"):
        own = [item for item in tree.source(path).items]
        inside, left = [item for item in own if item in items], [item for item in own if item not in items]
        names = ", ".join(item.name for item in left if item.kind != "section")
        yield f"{lines_of(inside):>4} of {lines_of(own):>4}  {path}" + (f"  not: {names}" if inside and names else "")


def whole_set(cones):
    reading = ROOT / READING
    exports, claims = whole(cones, pages(ROOT), reading.read_text("utf-8") if reading.is_file() else "")
    return exports, claims, cones.cone([*exports, *claims])


def run(words):
    cones = Cones(Tree(ROOT))
    if words == ["--all"]:
        exports, claims, cone = whole_set(cones)
        yield from told(cones, cone)
        lines = sum(len(root.lines) for root in [*exports, *claims])
        yield f"\n{counted(len(exports), 'contract')} and {counted(len(claims), 'theorem')}, whose statements have {counted(lines, 'line')}"
    elif words == ["--files"]:
        yield from files(cones.tree, whole_set(cones)[2].items)
    elif words in (["--check"], ["--write"]):
        exports, claims, cone = whole_set(cones)
        old = (ROOT / READING).read_text("utf-8")
        new = page(cones, old, exports, claims, cone)
        if words == ["--write"]:
            (ROOT / READING).write_text(new, encoding="utf-8")
        elif old != new:
            raise Missing(f"{READING} is not what the tree gives: tools/cone --write")
    else:
        yield from told(cones, cones.cone([cones.root(word) for word in words]))


def main():
    words = sys.argv[1:]
    known = ["--all"], ["--files"], ["--check"], ["--write"]
    if not words or any(word.startswith("-") for word in words) and words not in known:
        print(__doc__.strip(), file=sys.stderr)
        return 2
    try:
        write_bytes(None, "".join(f"{line}\n" for line in run(words)).encode())
    except (Missing, Unknown, Unread) as fault:
        print(f"tools/cone: {fault}", file=sys.stderr)
        return 2
    return 0
