"""The claims: the theorems that the rows of docs/DEMANDS.md and docs/demands cite, less those that docs/READING.md sets apart.

A row cites in a column headed 'Theorem' or 'Contract or theorem'. Cited is a theorem of a crate's proofs/Theorems by its name, or any
theorem of proofs behind the name of its file. What else stands there in the marks of code is a field, a definition, a lemma or a function.
"""
import re
from pathlib import Path

from meaning.cones import STATED, is_theorem
from meaning.tree import Missing

FIRST, FOLDER, READING = "docs/DEMANDS.md", "docs/demands", "docs/READING.md"
APART = "Cited, and not to be read"
COLUMN = re.compile(r"(?:Contract or t|T)heorem")


def pages(root):
    """The pages of the demands by path."""
    paths = [FIRST, *sorted(str(path.relative_to(root)) for path in (Path(root) / FOLDER).glob("*.md"))]
    return {path: (Path(root) / path).read_text("utf-8") for path in paths if (Path(root) / path).is_file()}


def cited(text):
    """What the columns of theorems have in the marks of code: the name of the row, and the text."""
    columns, lines = [], text.splitlines()
    for line, after in zip(lines, [*lines[1:], ""]):
        cells = [cell.strip() for cell in line.strip().strip("|").split("|")] if line.startswith("|") else []
        if re.fullmatch(r"\|[-|]+", after):
            columns = [at for at, cell in enumerate(cells) if COLUMN.match(cell)]
        elif not re.fullmatch(r"\|[-|]+", line):
            for at in columns:
                for word in re.findall(r"`([^`]+)`", cells[at]) if at < len(cells) else []:
                    yield cells[0], word


def set_apart(text):
    """The names of theorems that the page of reading sets apart."""
    section = text.partition(f"\n## {APART}\n")[2].partition("\n## ")[0]
    rows = re.findall(r"^\| ([^|]*`[^|]*) \|", section, re.M)
    return {name for row in rows for name in re.findall(r"`([^`]+)`", row)}


class Claims:
    def __init__(self, cones, texts, reading=""):
        self.cones = cones
        self.apart = {word: self.theorems(word) for word in set_apart(reading)}
        self.rows = {}  # each theorem with the rows that cite it
        self.unknown = []  # what looks like a theorem and is none
        members = {name for items in cones.declared.values() for item in items for name in item.member_names()}
        functions = cones.tree.functions()
        for path, text in texts.items():
            for row, word in cited(text):
                for item in self.theorems(word):
                    self.rows.setdefault(item, []).append(row)
                last = re.split(r"[./]", word)[-1]
                if re.search(r"[-_]", word) and not re.search(r"[\s:]", word) and last not in members | functions and not cones.candidates(last):
                    self.unknown.append(f"{path}: {row}: '{word}' is no theorem")

    def theorems(self, word):
        found = self.cones.candidates(word)
        return [item for item in found if "/proofs/" in item.path and is_theorem(item) and ("." in word or item.path.endswith(STATED))]

    def items(self):
        """The theorems that are claims, in the order of their files."""
        apart = {item for items in self.apart.values() for item in items}
        left = [item for item in self.rows if item not in apart]
        rank = {path: at for at, path in enumerate(self.cones.tree.files("proofs"))}
        return sorted(left, key=lambda item: (rank[item.path], item.first))

    def idle(self):
        """What is set apart and not cited."""
        return sorted(word for word, items in self.apart.items() if not set(items) & set(self.rows))


def whole(cones, texts, reading):
    """The roots of the whole set: every export, and every claim."""
    claims = Claims(cones, texts, reading)
    faults = [*claims.unknown, *(f"{READING}: '{word}' is set apart, and no row cites it" for word in claims.idle())]
    if faults:
        raise Missing("\n".join(faults))
    exports = [cones.contract(export) for export in cones.tree.exports().values()]
    return exports, [cones.statement(item) for item in claims.items()]
