"""The declarations of a file of antt: tokens, and what is declared with its signature, its clauses and its lines.

Nothing is looked up here. A name is any run of characters other than spaces and punctuation; layout is by indentation: what stands
further to the right than a declaration belongs to it.
"""
import re
from dataclasses import dataclass, field

MARKS = {"pub", "abbrev", "unfoldable", "axiom"}
HEADER = {"use", "mod"}
LAYOUT = {"infix", "infixl", "infixr", "open", "ruleset"}
TOKEN = re.compile(r'--[^\n]*|\{-.*?-\}|"(?:\\.|[^"\\])*"|«[^»]*»|[(){}.;,@]|\n|[^\S\n]+|[^\s(){}.;,@"«»]+', re.S)
OPENING, CLOSING = {"(", "{"}, {")", "}"}


class Unread(Exception):
    """A text that is not read as antt."""


@dataclass(frozen=True)
class Token:
    text: str
    line: int
    column: int
    before: bool  # a space stands before it
    after: bool  # a space stands behind it


@dataclass(eq=False)
class Item:
    """A declaration, or the head of a section ('module _ (..) where'), which those inside rest on."""
    path: str
    names: list
    kind: str  # function, data, record, section
    first: int
    last: int = 0
    marks: set = field(default_factory=set)
    head: list = field(default_factory=list)  # tokens of the signature; of data and records up to 'where'
    clauses: list = field(default_factory=list)  # of a function, each a list of tokens
    members: list = field(default_factory=list)  # of data and records: names and the tokens of their type
    section: object = None
    lines: set = field(default_factory=set)  # the numbers of its lines that have a token

    @property
    def name(self):
        return self.names[0]

    def member_names(self):
        return [name for names, _ in self.members for name in names]

    def add(self, tokens):
        self.lines.update(token.line for token in tokens)
        self.last = max(self.lines)


def tokens_of(text):
    """The tokens of a text without its comments."""
    line, start, spaced, found = 1, 0, True, []
    for piece in TOKEN.finditer(text):
        word = piece[0]
        if word.startswith("--") or word.startswith("{-") or word.isspace():
            spaced = True
            if "\n" in word:
                line, start = line + word.count("\n"), piece.start() + word.rindex("\n") + 1
            continue
        after = piece.end() >= len(text) or text[piece.end()].isspace()
        name = word[1:-1] if word.startswith("«") else word
        found.append(Token(name, line, piece.start() - start, spaced, after))
        spaced = False
    return found


def entries(tokens):
    """The tokens in entries: each begins at the indentation of the first, and has what stands further to the right."""
    found, depth = [], 0
    for at, token in enumerate(tokens):
        begins = at == 0 or token.line != tokens[at - 1].line
        if begins and depth == 0 and token.column <= tokens[0].column:
            found.append([])
        found[-1].append(token)
        depth += (token.text in OPENING) - (token.text in CLOSING)
    return found


def upto(tokens, *words):
    """The place of the first of some words outside brackets, or the length."""
    depth = 0
    for at, token in enumerate(tokens):
        if depth == 0 and token.text in words:
            return at
        depth += (token.text in OPENING) - (token.text in CLOSING)
    return len(tokens)


def plain_names(tokens):
    """The names before a colon, without levels in braces."""
    depth, names = 0, []
    for token in tokens:
        depth += token.text in OPENING
        if depth == 0:
            names.append(token.text)
        depth -= token.text in CLOSING
    return names


@dataclass
class Source:
    """A file of antt, read."""
    path: str
    items: list
    uses: list  # the tokens of each use line, without marks

    def declared(self):
        """Every name with what declares it, in the order of the file; constructors too."""
        for item in self.items:
            for name in item.names:
                yield name, item, None
            if item.kind == "data":
                for member in item.member_names():
                    yield member, item, member


def read(path, text):
    source = Source(path, [], [])
    _read_block(source, entries(tokens_of(text)), None, set())
    return source


def _read_block(source, block, section, common):
    """The declarations of a block with marks in common; a clause goes to the declaration of its name, or to the last one."""
    last, own = None, []
    for entry in block:
        at = next((n for n, token in enumerate(entry) if token.text not in MARKS), 0)
        marks, word, rest = common | {token.text for token in entry[:at]}, entry[at].text, entry[at:]
        if word in HEADER:
            source.uses += [rest[1:]] if word == "use" else []
        elif word in LAYOUT:
            continue
        elif word in ("module", "mutual"):
            _read_nested(source, entry, rest, section, marks)
        elif word == "unfolding":
            if last:
                last.add(entry)
        elif word in ("data", "record"):
            last = _read_type(source, entry, marks, rest, section)
            own.append(last)
        elif upto(rest, ":") < upto(rest, "="):
            names = plain_names(rest[: upto(rest, ":")])
            last = Item(source.path, names, "function", entry[0].line, marks=marks, head=rest, section=section)
            last.add(entry)
            own.append(last)
            source.items.append(last)
        else:
            owner = owner_of(entry, own) or last
            if owner is None:
                raise Unread(f"{source.path}:{entry[0].line}: '{entry[0].text} ..' belongs to no declaration")
            owner.clauses.append(entry)
            owner.add(entry)


def owner_of(clause, items):
    """The declaration whose name stands on the left of a clause: in front, or as an operator between its arguments."""
    left = [token.text for token in clause[: upto(clause, "=")]]
    for item in reversed(items):
        if left[:1] == [item.name] or "◌" in item.name and set(item.name.split("◌")) - {""} <= set(left):
            return item
    return None


def _read_nested(source, entry, rest, section, marks):
    """A section with parameters, or declarations that call one another."""
    at = upto(rest, "where") if rest[0].text == "module" else 0
    inner = rest[at + 1 :]
    if rest[0].text == "module":
        head = rest[2:at]
        section = Item(source.path, ["module _"], "section", entry[0].line, head=head, section=section)
        section.add(entry[: len(entry) - len(inner)])
        source.items.append(section)
    _read_block(source, entries(inner), section, marks if rest[0].text == "mutual" else set())


def _read_type(source, entry, marks, rest, section):
    at = upto(rest, "where")
    item = Item(source.path, [rest[1].text], rest[0].text, entry[0].line, marks=marks, head=rest[1:at], section=section)
    item.add(entry)
    for member in entries(rest[at + 1 :]) if at < len(rest) else []:
        start = next(n for n, token in enumerate(member) if token.text not in MARKS)
        colon = upto(member, ":")
        item.members.append((plain_names(member[start:colon]), member[colon + 1 :]))
    source.items.append(item)
    return item
