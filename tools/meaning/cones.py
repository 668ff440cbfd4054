"""Cones: the definitions that a contract or a statement means, through types and bodies; of a theorem, through its statement alone."""
import re
from collections import namedtuple
from functools import cached_property

from meaning.names import Target, Walk
from meaning.tree import Missing

LOGIC = {"result"}  # words of a contract that Rattle's logic defines; now, old and new stand behind a dot
CITED = re.compile(r"(?:(?:crates/)?(\w+)/(specs|proofs)/)?(?:([\w/]+)\.)?([^\s.:/`]+)")
LEMMA = re.compile(r"^\s*(?:(?:abbrev|unfoldable|pub|data|record) )*(\S+) (?:[({].*)?:(?=\s)", re.M)
STATED = "/proofs/Theorems.antt"  # where a crate states its theorems

Root = namedtuple("Root", "name path first lines targets")  # what a cone begins at: a contract, a statement or a definition
Cone = namedtuple("Cone", "roots items kit")


def is_theorem(item):
    """Nothing outside its module can unfold it: a declaration with neither abbrev nor unfoldable is a theorem, and its body a proof."""
    return item.kind == "function" and not item.marks & {"abbrev", "unfoldable"}


def statement_lines(item):
    """The lines of a declaration that are read: of a theorem its statement alone."""
    return {token.line for token in item.head} if is_theorem(item) else item.lines


class Cones:
    """The cones of a tree; what a declaration uses is found once."""

    def __init__(self, tree):
        self.tree, self.known = tree, {}

    def walk(self, item):
        """The names of a declaration with what they mean, and the fields that it projects."""
        if item not in self.known:
            walk = Walk(self.tree.scope(item.path) if item.kind != "code" else self.tree.ghost_scope(item.path))
            self.known[item] = walk.signature(item) if is_theorem(item) else walk.item(item)
        return self.known[item]

    def used(self, item):
        """What a declaration uses itself: the section around it, and what its names mean."""
        around = [Target(item.section)] if item.section is not None else []
        return around + [target for _, target in self.walk(item).found]

    def cone(self, roots):
        """Everything that the roots mean: declarations, and names of libraries by module."""
        items, kit, left = set(), set(), [target for root in roots for target in root.targets]
        while left:
            target = left.pop()
            if target.item is None:
                kit.add((target.module, target.name))
            elif target.item not in items:
                items.add(target.item)
                left += self.used(target.item)
        return Cone(roots, items, kit)

    # ---- roots

    @cached_property
    def declared(self):
        """Every declaration of specs, and of the files in which theorems are stated, by name."""
        found = {}
        for path in [*self.tree.files("specs"), *(path for path in self.tree.files("proofs") if path.endswith(STATED))]:
            for item in self.tree.source(path).items:
                for name in item.names if item.kind != "section" else []:
                    found.setdefault(name, []).append(item)
        return found

    @cached_property
    def elsewhere(self):
        """The other files of proofs that may declare a name, by name: those with a line that begins with it as a signature does."""
        found = {}
        for path in self.tree.files("proofs"):
            if not path.endswith(STATED):
                for name in set(LEMMA.findall(self.tree.text(path))):
                    found.setdefault(name, []).append(path)
        return found

    def lemmas(self, name):
        """The declarations of this name in those files."""
        paths = self.elsewhere.get(name, [])
        return [item for path in paths for item in self.tree.source(path).items if name in item.names]

    def contract_walk(self, export):
        """The names of an export's contract with what they mean."""
        walk = Walk(self.tree.ghost_scope(export.path))
        for clause in export.clauses():
            walk.run(clause, export.arguments() | LOGIC)
        return walk

    def contract(self, export):
        lines = set(range(export.first, export.last + 1))
        return Root(export.name, export.path, export.first, lines, [target for _, target in self.contract_walk(export).found])

    def statement(self, item):
        """The root of a theorem, which is not itself a part of its cone; or of a definition, which is."""
        targets = self.used(item) if is_theorem(item) else [Target(item)]
        return Root(item.name, item.path, item.first, statement_lines(item) if is_theorem(item) else set(), targets)

    def candidates(self, name):
        """The declarations that a name, or a name behind its file, may mean: theorems that are stated first, then definitions."""
        found = CITED.fullmatch(name)
        if not found:
            return []
        crate, kind, file, last = found.groups()
        items = self.declared.get(last, [])
        items = items if items and not file else items + self.lemmas(last)
        if crate:
            items = [item for item in items if item.path.startswith(f"crates/{crate}/{kind}/")]
        if file:
            return [item for item in items if item.path.endswith(f"/{file}.antt")]
        for fits in (lambda path: path.endswith(STATED), lambda path: "/specs/" in path, lambda path: True):
            if any(fits(item.path) for item in items):
                return [item for item in items if fits(item.path)]
        return []

    def root(self, name):
        """The root of this name: an export, a theorem or a definition."""
        exports = self.tree.exports()
        if name in exports:
            return self.contract(exports[name])
        items = self.candidates(name)
        if not items:
            raise Missing(f"there is no export, theorem or definition '{name}'")
        if len(items) > 1:
            places = ", ".join(item.path.removeprefix("crates/").removesuffix(".antt") + "." + item.name for item in items)
            raise Missing(f"'{name}' is declared more than once; one of: {places}")
        return self.statement(items[0])

    # ---- orders and counts

    def in_order(self, items):
        """The declarations of a cone by file: a file after those that it uses, and in a file by line."""
        by_path, below = {}, {}
        for item in sorted(items, key=lambda item: item.first):
            by_path.setdefault(item.path, []).append(item)
            others = {target.item.path for target in self.used(item) if target.item in items}
            below.setdefault(item.path, set()).update(others - {item.path})
        rank = {path: at for at, path in enumerate([*self.tree.files("specs"), *self.tree.files("proofs")])}
        order = []

        def visit(paths):
            for path in sorted(paths, key=lambda path: (rank.get(path, len(rank)), path)):
                if path not in order:
                    visit(below[path])
                    order.append(path)

        visit(by_path)
        return [(path, by_path[path]) for path in order]


def crate_of(path):
    return path.split("/")[1]


def lines_of(items):
    return sum(len(item.lines) for item in items)


def by_crate(order):
    """Lines by crate, in the order of the files."""
    found = {}
    for path, items in order:
        found[crate_of(path)] = found.get(crate_of(path), 0) + lines_of(items)
    return found


def by_module(kit):
    """The names of libraries, by module."""
    found = {}
    for module, name in sorted(kit):
        found.setdefault(module, []).append(name)
    return found
