"""The files of a repository by module, and what the paths of names in them mean.

Crates are those of crates.txt. The module Rattle.c.specs.X is crates/c/specs/X.antt; every other library is of the toolchain, and of it
only the names are known.
"""
import re
from functools import lru_cache
from pathlib import Path

from meaning.names import Scope, Target
from meaning.texts import Item, read, tokens_of

LIST = "crates.txt"
MODULE = re.compile(r"Rattle\.(\w+)\.(specs|proofs)\.(.+)")
EXPORT = re.compile(r"^#\[unsafe\(no_mangle\)\]\n(pub extern \"C\" fn (\w+)\(.*?)^\{$", re.M | re.S)
DECLARED = re.compile(r"crates/(\w+)/specs/declared/(\w+)(?:/TheVariants)?\.antt")
CLAUSE = re.compile(r"^    (?:requires|ensures)\b(?: \w+)? \{(.*?)\}(?=\n    (?:requires|ensures)\b|\n*\Z)", re.M | re.S)


class Missing(Exception):
    """A name or a file that the tree does not have."""


class Tree:
    def __init__(self, root):
        self.root = Path(root)
        listed = (self.root / LIST).read_text(encoding="utf-8")
        self.crates = re.findall(r"^(\w+)(?: staticlib)?:", listed, re.M)
        self.sources, self.scopes = {}, {}

    # ---- files

    @lru_cache(maxsize=None)
    def text(self, path):
        return (self.root / path).read_text(encoding="utf-8")

    def source(self, path):
        if path not in self.sources:
            if not (self.root / path).is_file():
                raise Missing(f"there is no {path}")
            self.sources[path] = read(path, self.text(path))
        return self.sources[path]

    def scope(self, path):
        if path not in self.scopes:
            self.scopes[path] = Scope(self.source(path), self)
        return self.scopes[path]

    @lru_cache(maxsize=None)
    def files(self, kind):
        """The files of specs or of proofs, crate by crate, in the order of their Lib. Below proofs, folders have proofs of functions."""
        found = []
        for crate in self.crates:
            folder = self.root / "crates" / crate / kind
            order = re.findall(r"\bmod (\S+)", (folder / "Lib.antt").read_text("utf-8")) if (folder / "Lib.antt").is_file() else []
            paths = [path for path in folder.glob("**/*.antt" if kind == "specs" else "*.antt") if path.name != "Lib.antt"]
            rank = {name: at for at, name in enumerate(order)}
            paths.sort(key=lambda path: (rank.get(path.relative_to(folder).parts[0].removesuffix(".antt"), len(rank)), str(path)))
            found += [str(path.relative_to(self.root)) for path in paths]
        return found

    def path_of(self, module):
        """The file of a module, or None if it is a library's."""
        found = MODULE.fullmatch(module)
        ours = found and found[1] in self.crates
        return f"crates/{found[1]}/{found[2]}/{found[3].replace('.', '/')}.antt" if ours else None

    # ---- names

    def brought(self, path, tokens, modules):
        """What a use line brings: names with their targets; and into modules the modules that it names."""
        words = [token.text for token in tokens]
        brace = words.index("{") if "{" in words else len(words)
        alias = words.index("as") if "as" in words[:brace] else brace
        module = "".join(words[:alias]).rstrip(".")
        if brace == len(words):
            name = words[alias + 1] if alias < brace else words[alias - 1]
            modules[name] = module
            return
        for part in " ".join(words[brace + 1 : -1] if words[-1] == "}" else words[brace + 1 :]).split(" , "):
            original, _, name = part.replace(" . ", ".").strip().partition(" as ")
            original = original.strip(" ,}")
            if original:
                inner, _, leaf = original.rpartition(".")
                yield name.strip() or leaf, self.target(f"{module}.{inner}" if inner else module, leaf)

    def target(self, module, name):
        """What a module has under a name."""
        path = self.path_of(module)
        if path is None:
            return Target(module=module, name=name)
        if DECLARED.fullmatch(path):
            return Target(self.type_of_code(*DECLARED.fullmatch(path).groups()), None, None, name)
        found = [Target(item, member, None, name) for own, item, member in self.source(path).declared() if own == name]
        if not found:
            raise Missing(f"{path} declares no '{name}'")
        return found[0]

    def path_target(self, scope, words, line):
        """What words joined by dots mean, and how many of them; the rest are fields."""
        own = scope.look(words[0], line)
        if len(words) == 1:
            return own, 1
        if own is not None and own.item is not None and own.member is None and words[1] in own.item.member_names():
            return Target(own.item, words[1], None, words[1]), 2
        if words[0] in scope.modules:
            target = self.target(scope.modules[words[0]], words[1])
            if target.item is not None and target.item.kind == "data" and len(words) > 2 and words[2] in target.item.member_names():
                return Target(target.item, words[2], None, words[2]), 3
            return target, 2
        if own is not None:
            return own, 1
        for used in range(len(words) - 1, 1, -1):  # a whole path, library first
            path = self.path_of(".".join(words[:used]))
            if path and (self.root / path).is_file():
                return self.target(".".join(words[:used]), words[used]), used + 1
        return (Target(module=".".join(words[:-1]), name=words[-1]), len(words)) if words[0] in ("Prim", "package") else (None, 1)

    # ---- code

    @lru_cache(maxsize=None)
    def type_of_code(self, crate, name):
        """A struct or an enum of the code, which definitions may use as a type."""
        for file in sorted((self.root / "crates" / crate / "src").glob("**/*.rt")):
            text = file.read_text(encoding="utf-8")
            found = re.search(rf"^pub (?:struct|enum) {name}\b.*?(?:;|^\}})$", text, re.M | re.S)
            if found:
                line = text[: found.start()].count("\n") + 1
                lines = {line + at for at, row in enumerate(found[0].splitlines()) if row.strip() and not row.strip().startswith("//")}
                fields = [([field], []) for field in re.findall(r"^    (?:pub )?(\w+)", found[0], re.M)]
                return Item(str(file.relative_to(self.root)), [name], "code", line, max(lines), lines=lines, members=fields)
        raise Missing(f"the code of {crate} has no type {name}")

    @lru_cache(maxsize=None)
    def exports(self):
        """The functions marked #[no_mangle]: name, file, line, signature with contract, and the file's ghost uses."""
        found = {}
        for crate in self.crates:
            for file in sorted((self.root / "crates" / crate / "src").glob("**/*.rt")):
                text = file.read_text(encoding="utf-8")
                for piece in EXPORT.finditer(text):
                    line = text[: piece.start()].count("\n") + 2
                    found[piece[2]] = Export(piece[2], str(file.relative_to(self.root)), line, piece[1])
        return found

    @lru_cache(maxsize=None)
    def functions(self):
        """The names of the functions of the code."""
        files = [file for crate in self.crates for file in (self.root / "crates" / crate / "src").glob("**/*.rt")]
        return {name for file in files for name in re.findall(r"\bfn (\w+)", file.read_text(encoding="utf-8"))}

    @lru_cache(maxsize=None)
    def ghost_scope(self, path):
        """The names that a file of code brings for its contracts."""
        uses = re.findall(r"^ghost use (.*?);", self.text(path), re.M | re.S)
        source = read(path, "")
        source.uses = [tokens_of(use) for use in uses]
        return Scope(source, self)


class Export:
    """An exported function: its contract is the text of its signature up to its body."""

    def __init__(self, name, path, line, text):
        self.name, self.path, self.first, self.text = name, path, line, text
        self.last = line + text.rstrip("\n").count("\n")

    def clauses(self):
        """The tokens of its requires and ensures, each where it stands in the file."""
        above = "\n" * (self.first - 1)
        return [tokens_of(above + re.sub(r"[^\n]", " ", self.text[: clause.start(1)]) + clause[1]) for clause in CLAUSE.finditer(self.text)]

    def arguments(self):
        return set(re.findall(r"(\w+):", self.text.partition("ensures")[0]))
