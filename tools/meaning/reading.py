"""The page docs/READING.md: its tables are made from the tree, the rest is written by hand.

A section with a line 'Crates: `a`, `b`.' has a table of the files of these crates that are in the whole set. Three more have made tables:
how much there is to read, the contracts and theorems, and what the toolchain adds. A table is made where one stands.
"""
import re
from pathlib import Path

from meaning.cones import by_module, crate_of, lines_of
from meaning.tree import Missing

TABLE = re.compile(r"(?:^\|.*\n)+", re.M)
CRATES = re.compile(r"^Crates: (.*)\.$", re.M)
FEW = 16  # a file with fewer statements stands in a row with others
AMOUNT, STATED, TOOLCHAIN = "How much there is to read", "The contracts and the theorems", "What the toolchain adds"


def beginning(text):
    """The first sentence of the comment at the top of a file."""
    comment = re.match(r"(?:(?:--|//) .*\n)+", text)
    words = " ".join(line[3:] for line in comment[0].splitlines()) if comment else ""
    return re.match(r".*?(?:\.(?= [A-Z`]|$)|$)", words)[0].rstrip(".").replace("|", "\\|")


def table(head, rows):
    lines = [head, ["---"] * len(head), *rows]
    return "".join("| " + " | ".join(map(str, line)) + " |\n" for line in lines).replace("| --- ", "|---").replace("|--- |", "|---|")


def link(path):
    name = path.split("/", 3)[3].removesuffix(".antt")
    return f"[`{name}`](../{path})"


def size(items):
    return len([item for item in items if item.kind != "section"])


def amounts(cones, exports, claims, cone):
    """Three sets: the check and the tick, all exports, all of it."""
    machine = [root for root in exports if re.fullmatch(r"\w+_(?:check|tick)", root.name) and "_box_" not in root.name]
    rows = []
    for what, roots in (("the check and the tick", machine), (f"all {len(exports)} exports", exports),
                        (f"those and the {len(claims)} theorems", [*exports, *claims])):
        items = cones.cone(roots).items
        rows.append([what, size(items), len({item.path for item in items}), f"{lines_of(items):,}"])
    return table(["What is meant", "Definitions", "Files", "Lines"], rows)


def files_of(cones, cone, crates):
    """The files of some crates: lines that are in the set, and what the file begins by saying."""
    rows = []
    for path, items in cones.in_order(cone.items):
        if crate_of(path) in crates and "/proofs/" not in path:
            whole = lines_of(cones.tree.source(path).items) if path.endswith(".antt") else lines_of(items)
            count = lines_of(items) if lines_of(items) == whole else f"{lines_of(items)} of {whole}"
            rows.append([link(path), f"`{crate_of(path)}`", count, beginning(cones.tree.text(path))])
    return table(["File", "Crate", "Lines", "It begins"], rows)


def statements(roots, cone):
    """The files of contracts and theorems, those with many statements first."""
    rows = []
    for path in dict.fromkeys(root.path for root in roots):
        own = [root for root in roots if root.path == path]
        lines = sum(len(root.lines) for root in own) + lines_of(item for item in cone.items if item.path == path)
        rows.append((len(own), lines, f"[`{path.removeprefix('crates/').removesuffix('.antt')}`](../{path})"))
    rows.sort(key=lambda row: -row[0])
    few = [row for row in rows if row[0] < FEW]
    others = [[", ".join(row[2] for row in few), sum(row[0] for row in few), sum(row[1] for row in few)]] if few else []
    return table(["File", "Statements", "Lines"], [[row[2], row[0], row[1]] for row in rows if row[0] >= FEW] + others)


def toolchain(cone):
    """The names of libraries, by library."""
    rows = {}
    for module, names in by_module(cone.kit).items():
        told = ", ".join(f"`{name}`" for name in names).replace("|", "\\|")
        rows.setdefault(module.partition(".")[0], []).append(f"{module.rpartition('.')[2]}: {told}")
    return table(["Library", "Names by module"], [[f"`{library}`", "; ".join(parts)] for library, parts in rows.items()])


def page(cones, old, exports, claims, cone):
    """The page with its tables as the tree gives them."""
    told, named = [], []
    for part in re.split(r"(?=^## )", old, flags=re.M):
        title = part.splitlines()[0].removeprefix("## ") if part.startswith("## ") else ""
        crates = CRATES.search(part)
        made = None
        if crates:
            own = re.findall(r"`(\w+)`", crates[1])
            named += own
            made = files_of(cones, cone, own)
        elif title == AMOUNT:
            made = amounts(cones, exports, claims, cone)
        elif title == STATED:
            made = statements([*exports, *claims], cone)
        elif title == TOOLCHAIN:
            made = toolchain(cone)
        if made is not None and len(TABLE.findall(part)) != 1:
            raise Missing(f"docs/READING.md: the section '{title}' has {len(TABLE.findall(part))} tables")
        told.append(part if made is None else TABLE.sub(lambda _: made, part))
    there = {crate_of(item.path) for item in cone.items if "/proofs/" not in item.path}
    if there != set(named) or len(set(named)) < len(named):
        wrong = ", ".join(sorted(there ^ set(named))) or "one twice"
        raise Missing(f"docs/READING.md: the crates of its sections are not those of the set: {wrong}")
    for needed in (AMOUNT, STATED, TOOLCHAIN):
        if f"\n## {needed}\n" not in old:
            raise Missing(f"docs/READING.md has no section '{needed}'")
    return "".join(told)
