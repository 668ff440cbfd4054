"""The book of definitions: one page of HTML with all that the exports and the claims mean, in the order of reading.

Each definition has its text with line numbers, links from the names it uses to their definitions, and beside it its comment, with what that
quotes of the papers. The front page is docs/READING.md. Nothing is loaded from elsewhere.
"""
import html
import re
from pathlib import Path

from meaning.claims import READING, Claims, pages, whole
from meaning.cones import Cones, Root, crate_of, lines_of, statement_lines
from meaning.markdown import rendered
from meaning.quotes import known, quoted
from meaning.reading import CRATES, STATED
from meaning.tree import Tree

CSS = Path(__file__).with_name("book.css")
HEADING = re.compile(r"-+ (.*)")
LONG = 110
DECLARES = {"pub", "abbrev", "unfoldable", "data", "record", "fn"}  # a name behind one of these is declared there
WORDS = DECLARES | {"where", "module", "let", "in", "λ", "Type", "mutual", "unfolding", "extern", "ensures", "requires"}


def escape(text):
    return html.escape(text, quote=True)


def anchor(path, what):
    """The name of a line, a definition or a file in the page."""
    return re.sub(r"[^\w·′-]", "-", f"{path.removeprefix('crates/').removesuffix('.antt')}-{what}")


def short(path):
    """The name of a file below its folder; of code with its crate."""
    name = path.split("/", 3)[3].removesuffix(".antt")
    return name if path.endswith(".antt") else f"{crate_of(path)}, {name}"


class Book:
    def __init__(self, root):
        self.root = Path(root)
        self.cones = Cones(Tree(root))
        self.tree = self.cones.tree
        self.reading = (self.root / READING).read_text("utf-8")
        texts = pages(root)
        self.exports, self.claims = whole(self.cones, texts, self.reading)
        self.rows = {(item.path, item.name): rows for item, rows in Claims(self.cones, texts, self.reading).rows.items()}
        self.cone = self.cones.cone([*self.exports, *self.claims])
        self.order = self.cones.in_order(self.cone.items)
        self.papers = known(root)
        self.fields = {}
        for item in self.cone.items:
            if item.kind in ("record", "code"):
                for name in item.member_names():
                    self.fields.setdefault(name, set()).add(item)
        self.lines = {}

    # ---- text

    def line(self, path, number):
        if path not in self.lines:
            self.lines[path] = self.tree.text(path).splitlines()
        return self.lines[path][number - 1]

    def comment(self, path, first):
        """The heading and the prose of the comment right above a line, or above the headings before it."""
        above, number = [], first - 1
        while number > 0 and re.match(r"\s*(--|//) ", self.line(path, number)):
            above.insert(0, re.sub(r"^\s*(--|//) ", "", self.line(path, number)))
            number -= 1
        at = next((at for at, line in enumerate(above) if HEADING.fullmatch(line)), None)
        if at is None:
            return "", " ".join(above)
        whole = 2 if len(above[at]) > LONG and at + 1 < len(above) else 1  # a long heading goes on in the next line
        heading = " ".join([HEADING.fullmatch(above[at])[1], *above[at + 1 : at + whole]])
        return heading, " ".join(above[:at] + above[at + whole :])

    def prose(self, text):
        """A comment, with what it quotes set as the paper's words."""
        found = re.sub(r"`([^`]+)`", r"<code>\1</code>", html.escape(text, quote=False))
        for words, paper in quoted(text, self.papers):
            shown = re.sub(r"`([^`]+)`", r"<code>\1</code>", html.escape(words, quote=False))
            found = found.replace(f"'{shown}'", f'<q>{shown}</q><sup class="paper" title="the words of {paper}">{paper}</sup>')
        return found

    def inner_quotes(self, item):
        """What comments inside a definition quote."""
        inside = " ".join(re.sub(r"^\s*-- ", "", self.line(item.path, number)) for number in range(item.first, item.last + 1)
                          if self.line(item.path, number).lstrip().startswith("-- "))
        return list(quoted(inside, self.papers))

    # ---- links

    def address(self, target):
        """Where in the page a name is defined, or None."""
        item = target.item
        if item is None or item not in self.cone.items:
            return None
        if target.member:
            line = next((tokens[0].line for names, tokens in item.members if target.member in names and tokens), item.first)
            return "#" + anchor(item.path, line)
        return "#" + anchor(item.path, item.first)

    def linked(self, walk):
        """The addresses of the names of a walk by line and column, and the modules of libraries' names."""
        found = {}
        for token, target in walk.found:
            if target.item is None:
                found[token.line, token.column] = "", f"{target.module}.{target.name}", token.text
            elif self.address(target):
                told = f"{target.item.path.removeprefix('crates/')}: {target.name or target.item.name}"
                found[token.line, token.column] = self.address(target), told, token.text
        for token in walk.fields:
            owners = self.fields.get(token.text, set())
            if len(owners) > 1:  # of a record that these names reach
                owners = owners & self.cones.cone([Root("", "", 0, set(), [target for _, target in walk.found])]).items
            if len(owners) == 1:
                item = next(iter(owners))
                found[token.line, token.column] = "#" + anchor(item.path, item.first), f"a field of {item.name}", token.text
        return found

    def code(self, path, number, links, names=()):
        """One line with its number, its links and its comment."""
        text = self.line(path, number)
        body, _, remark = text.partition("-- ") if path.endswith(".antt") else (text, "", "")
        remark = f"-- {remark}" if _ else ""
        indent = len(body) - len(body.lstrip()) if body.strip() else len(text) - len(text.lstrip())
        at, parts, last = indent, [], ""
        for piece in re.finditer(r"[^\s(){}.;,@\"«»]+", body):
            word, place = piece[0], links.get((number, piece.start())) or links.get((number, piece.start() - 1))
            parts.append(escape(body[at : piece.start()]))
            if place and place[2] == word:
                parts.append(f'<a href="{escape(place[0])}" title="{escape(place[1])}">{escape(word)}</a>' if place[0]
                             else f'<span class="kit" title="{escape(place[1])}">{escape(word)}</span>')
            elif word in names and (piece.start() == indent or last in DECLARES):
                parts.append(f"<b>{escape(word)}</b>")
            else:
                parts.append(f'<span class="word">{escape(word)}</span>' if word in WORDS else escape(word))
            at, last = piece.end(), word
        parts.append(escape(body[max(at, indent) :].rstrip() + (" " if remark and body.strip() else "")))
        if remark:
            parts.append(f'<span class="remark">{self.prose(remark)}</span>')
        name, shown = anchor(path, number), "".join(parts)
        return f'<div class="l" id="{name}"><a class="n" href="#{name}">{number}</a><code style="--i:{indent}">{shown}</code></div>'

    def entry(self, path, numbers, links, names, beside, title=""):
        """A definition: its text, and what stands beside it."""
        lines = "\n".join(self.code(path, number, links, names) for number in numbers)
        heading = f"<h4>{self.prose(title)}</h4>\n" if title else ""
        aside = f'<div class="beside">{beside}</div>' if beside else ""
        kind = "entry" if beside else "entry alone"
        return f'{heading}<section class="{kind}"><div class="code">\n{lines}\n</div>{aside}</section>'

    # ---- chapters

    def definition(self, item):
        title, text = self.comment(item.path, item.first)
        quotes = "".join(f'<blockquote>{html.escape(words, quote=False)}<sup class="paper">{paper}</sup></blockquote>'
                         for words, paper in self.inner_quotes(item))
        beside = (f"<p>{self.prose(text)}</p>" if text else "") + quotes
        numbers = [number for number in range(item.first, item.last + 1) if item.kind != "section" or number in item.lines]
        while numbers and item.kind == "function" and not self.line(item.path, numbers[-1]).strip():
            numbers.pop()
        return self.entry(item.path, numbers, self.linked(self.cones.walk(item)), item.names, beside, title)

    def file(self, path, items):
        """A file: what it says at its top, then its definitions; what is left out is named."""
        first = next((number for number in range(1, 40) if not re.match(r"(--|//) ", self.line(path, number))), 1)
        top = self.comment(path, first)[1]
        parts = [f'<h3 id="{anchor(path, "file")}">{escape(short(path))} <small>{escape(path)}, {lines_of(items)} lines</small></h3>']
        parts += [f'<p class="top">{self.prose(top)}</p>'] if top else []
        left = []
        for item in self.tree.source(path).items if path.endswith(".antt") else items:
            if item in items:
                parts += self.left_out(left)
                left = []
                parts.append(self.definition(item))
            elif item.kind != "section":
                left.append(item)
        return "\n".join(parts + self.left_out(left))

    @staticmethod
    def left_out(items):
        if not items:
            return []
        names = ", ".join(item.name for item in items)
        return [f'<p class="left">Lines {items[0].first} to {items[-1].last} are no part of the set: {escape(names)}.</p>']

    def chapters(self):
        """The sections of the front page that have crates, with their files."""
        for part in re.split(r"^## ", self.reading, flags=re.M)[1:]:
            crates = CRATES.search(part)
            if crates:
                own = re.findall(r"`(\w+)`", crates[1])
                files = [(path, items) for path, items in self.order if crate_of(path) in own and "/proofs/" not in path]
                yield part.splitlines()[0], files

    def contracts(self):
        for root in self.exports:
            text = self.comment(root.path, root.first - 1)[1]
            export = self.tree.exports()[root.name]
            numbers = range(root.first, export.last + 1)
            yield self.entry(root.path, numbers, self.linked(self.cones.contract_walk(export)), [root.name], f"<p>{self.prose(text)}</p>")

    def theorems(self):
        """The statements of the claims, by file, with the rows that cite them."""
        for path in dict.fromkeys(root.path for root in self.claims):
            own = [root for root in self.claims if root.path == path]
            yield f'<h3 id="{anchor(path, "file")}">Theorems of {escape(crate_of(path))} <small>{escape(path)}</small></h3>'
            local = [item for item in self.cone.items if item.path == path]
            items = [item for item in self.tree.source(path).items if item in local or any(item.first == root.first for root in own)]
            for item in items:
                if item in local:
                    yield self.definition(item)
                    continue
                title, text = self.comment(path, item.first)
                rows = ", ".join(dict.fromkeys(self.rows.get((path, item.name), [])))
                beside = (f"<p>{self.prose(text)}</p>" if text else "") + (f'<p class="rows">{escape(rows)}</p>' if rows else "")
                yield self.entry(path, sorted(statement_lines(item)), self.linked(self.cones.walk(item)), item.names, beside, title)

    def link(self, target):
        """Where a link of the front page goes: into the page, or nowhere."""
        path = target.removeprefix("../")
        there = {path for path, _ in self.order} | {root.path for root in [*self.exports, *self.claims]}
        return "#" + anchor(path, "file") if path in there else None

    def page(self):
        front = rendered(self.reading, self.link)
        contents, body = [], []
        for title, files in self.chapters():
            name = anchor("chapter", title)
            entries = "".join(f'<li><a href="#{anchor(path, "file")}" title="{escape(path)}">{escape(short(path))}</a></li>\n'
                              for path, _ in files)
            contents.append(f'<li><a href="#{name}">{escape(title)}</a><ul>{entries}</ul></li>')
            body += [f'<h2 id="{name}">{escape(title)}</h2>', *(self.file(path, items) for path, items in files)]
        name, path = anchor("chapter", STATED), self.exports[0].path if self.exports else ""
        contents.append(f'<li><a href="#{name}">{STATED}</a></li>')
        body += [f'<h2 id="{name}">{STATED}</h2>']
        body += [f'<h3 id="{anchor(path, "file")}">Contracts <small>{escape(path)}</small></h3>', *self.contracts()] if path else []
        body += self.theorems()
        return PAGE.format(css=CSS.read_text("utf-8"), front=front, contents="\n".join(contents), body="\n".join(body))


PAGE = """<!DOCTYPE html>
<html lang="en">
<head>
<meta charset="utf-8">
<meta name="viewport" content="width=device-width, initial-scale=1">
<title>What must be believed</title>
<style>
{css}</style>
</head>
<body>
<nav aria-label="Contents">
<p><a href="#top">What must be believed</a></p>
<ol>
{contents}
</ol>
</nav>
<main id="top">
<header class="front">
{front}
</header>
{body}
</main>
</body>
</html>
"""
