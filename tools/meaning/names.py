"""The names that a declaration uses, each with what it means: by scope, as antt reads them.

A name is, in this order, one that is bound around it (by a binder, a λ, a let, a pattern, a parameter or an earlier field), one that the
file declares, one that a use line brings, or one of the prelude. In a pattern a constructor in scope is that constructor, and any other
name is bound. Behind a dot stands a constructor of the type before it, a declaration of the module before it, or a field.
"""
import re
from dataclasses import dataclass

from meaning.texts import CLOSING, MARKS, OPENING, entries, plain_names, upto

WORDS = {"data", "record", "deriving", "module", "where", "use", "mod", "pub", "package", "using", "open", "as", "unfoldable", "abbrev",
         "axiom", "unfold", "unfolding", "ruleset", "mutual", "infix", "infixl", "infixr", "elim", "let", "in", "do", "λ", "∀", "Type",
         "→", "=", ":", "↦", "←", "_", "×", "⊔", "[", "]", "@", ";", ","}
PRELUDE = {"Unit", "tt", "⊥", "absurd", "¬◌", "Dec", "yes", "no", "Id", "J", "Path", "refl", "IsProp", "IsSet", "Discrete", "omega",
           "arith", "search", "simp", "rw", "cc"}
NUMERAL = re.compile(r"\d[\d_]*|0x[\da-fA-F_]+|0b[01_]+|0o[0-7_]+")


class Unknown(Exception):
    """A name that means nothing where it stands."""


@dataclass(frozen=True)
class Target:
    """What a name means: a declaration of the tree (and a constructor or a field of it), or a name of a library."""
    item: object = None
    member: str = None
    module: str = None
    name: str = None


def parts_of(name):
    """The words of an operator, as they stand between its arguments."""
    return [part for part in name.split("◌") if part] if "◌" in name and name != "◌" else []


class Scope:
    """The names of a file outside its declarations: its own, and those that its use lines bring."""

    def __init__(self, source, tree):
        self.source, self.tree = source, tree
        self.own, self.brought, self.modules = {}, {}, {}
        for name, item, member in source.declared():
            self.own.setdefault(name, []).append(Target(item, member, None, name))
        for tokens in source.uses:
            for name, target in tree.brought(source.path, tokens, self.modules):
                self.brought[name] = target
        self.operators = {part: name for table in (self.brought, self.own) for name in table for part in parts_of(name)}
        self.prelude = {part: name for name in PRELUDE for part in parts_of(name)}

    def whole(self, word):
        """The name that a word stands for: itself, or the operator that it is a part of."""
        bare = word.replace("◌", "") if "◌" in word else word
        for name in (word, self.operators.get(word), self.operators.get(bare), self.prelude.get(bare)):
            if name in self.own or name in self.brought or name in PRELUDE:
                return name
        return word

    def look(self, word, line):
        """What a word means at a line, or None. Of two declarations of one spelling the last above it is meant."""
        name = self.whole(word)
        own = self.own.get(name, [])
        above = [target for target in own if target.item.first <= line]
        if own:
            return (above or own)[-1]
        if name in self.brought:
            return self.brought[name]
        return Target(module="Prim", name=name) if name in PRELUDE else None

    def several(self, word, line):
        """The types of the file that have a constructor of this spelling above a line, where there are more than one."""
        found = {target.item for target in self.own.get(word, []) if target.member and target.item.first <= line}
        return found if len(found) > 1 else set()

    def is_constructor(self, word, line):
        """Whether a word in a pattern is a constructor; a library's name in a pattern is taken for one."""
        target = self.look(word, line)
        return target is not None and (target.item is None or target.item.kind == "data" and target.member is not None)


class Walk:
    """A walk over the tokens of one declaration, which keeps each name with what it means."""

    def __init__(self, scope):
        self.scope, self.tree = scope, scope.tree
        self.found = []  # (token, target)
        self.fields = []  # (token), names behind a dot whose record is not looked up
        self.tokens, self.at = [], 0

    # ---- declarations

    def item(self, item):
        bound = self.section(item.section)
        if item.kind == "code":
            return self
        if item.kind == "section":
            self.run(item.head, bound)
        elif item.kind == "function":
            colon = upto(item.head, ":")
            levels = {token.text for token in item.head[:colon]} - set(item.names)
            self.run(item.head[colon + 1 :], bound | levels)
            for clause in item.clauses:
                self.clause(clause, bound, item)
        else:
            inner = self.run(item.head[1:], bound)
            for names, tokens in item.members:
                self.run(tokens, inner)
                inner = inner | set(names) if item.kind == "record" else inner
        return self

    def signature(self, item):
        """The statement alone."""
        bound = self.section(item.section)
        colon = upto(item.head, ":")
        self.run(item.head[colon + 1 :], bound | {token.text for token in item.head[:colon]} - set(item.names))
        return self

    def section(self, section):
        """The parameters of the sections around a declaration; their types belong to the section."""
        return Walk(self.scope).run(section.head, self.section(section.section)) if section is not None else set()

    def clause(self, tokens, bound, item):
        """A clause: what its left side binds stands for its right side, and so do the declarations behind its where."""
        left, bound = upto(tokens, "="), set(bound)
        names = {*item.names, *(part for name in item.names for part in parts_of(name))}
        operator = bool(parts_of(item.name))
        self.pattern([token for n, token in enumerate(tokens[:left]) if token.text not in names or n > 0 and not operator], bound)
        right = tokens[left + 1 :]
        at = upto(right, "where")
        local = entries(right[at + 1 :]) if at < len(right) else []
        heads = [entry for entry in local if upto(entry, ":") < upto(entry, "=")]
        for entry in heads:
            bound |= set(plain_names(entry[: upto(entry, ":")])) - MARKS
        self.run(right[:at], bound)
        for entry in local:
            if entry in heads:
                self.run(entry[upto(entry, ":") + 1 :], bound)
            elif entry[0].text != "unfolding":
                inner = set(bound)
                self.pattern(entry[1 : upto(entry, "=")], inner)
                self.run(entry[upto(entry, "=") + 1 :], inner)

    # ---- patterns and binders

    def pattern(self, tokens, bound):
        """Adds what a pattern binds; constructors are names that are used."""
        at = 0
        while at < len(tokens):
            token, end = tokens[at], self.path_end(tokens, at)
            label = token.text != "_" and at + 1 < len(tokens) and tokens[at + 1].text == "=" and tokens[at - 1].text in ("{", ";")
            if end > at + 1:
                self.path(tokens[at:end], bound, in_pattern=True)
            elif token.text in OPENING | CLOSING | WORDS or NUMERAL.fullmatch(token.text) or label:
                pass
            elif self.scope.is_constructor(token.text, token.line):
                self.path([token], set())
            else:
                bound.add(token.text)
            at = end

    @staticmethod
    def path_end(tokens, at):
        """The end of a name with what is written behind its dots, tight."""
        end = at + 1
        if tokens[at].text in OPENING | CLOSING | {".", ";", ","}:
            return end
        while end + 1 < len(tokens) and tokens[end].text == "." and not tokens[end].before and not tokens[end].after \
                and tokens[end + 1].text not in OPENING | CLOSING:
            end += 2
        return end

    def binder(self, tokens, at):
        """The names of a group '(x y : A)' or '{x : A}' and the place of its colon, or None."""
        end = at + 1
        while end < len(tokens) and tokens[end].text not in OPENING | CLOSING | WORDS - {"_"} | {".", ";", ","}:
            end += 1
        if end > at + 1 and end < len(tokens) and tokens[end].text == ":":
            return {token.text for token in tokens[at + 1 : end]}, end
        return None

    # ---- terms and types

    def run(self, tokens, bound):
        """Walks over all tokens, and gives what is bound at their end."""
        kept = self.tokens, self.at
        self.tokens, self.at = tokens, 0
        bound = self.group(set(bound), None)
        self.tokens, self.at = kept
        return bound

    def group(self, bound, closer):
        """Walks up to the closing bracket, or the 'in', of a group: what is bound in it is bound up to its end."""
        labels = closer == "}" and self.at >= 2 and self.tokens[self.at - 2].text == "record"
        begins = closer == "}"
        while self.at < len(self.tokens):
            token = self.tokens[self.at]
            word, begins_here = token.text, begins
            begins = labels and word == ";"
            if word == closer or word in CLOSING:
                self.at += 1
                return bound
            if begins_here and self.label(bound):
                continue
            if word in OPENING:
                self.bracket(bound)
            elif word in ("λ", "∀"):
                self.abstraction(bound)
            elif word == "let":
                self.let(bound)
            elif word == "unfold":
                self.at += upto(self.tokens[self.at :], "in") + 1
            elif word == ".":
                self.projection()
            elif word == "elim" and self.at + 1 < len(self.tokens) and self.tokens[self.at + 1].text == "[":
                self.cases(bound)
            else:
                self.name(bound)
        return bound

    def cases(self, bound):
        """The cases 'elim [ constructor x ↦ term | .. ]': the names of a pattern are bound in its term."""
        start = self.at + 2
        end = start + upto(self.tokens[start:], "]")
        while start < end:
            stop = start + upto(self.tokens[start:end], "|")
            arrow = start + upto(self.tokens[start:stop], "↦")
            inner = set(bound)
            self.pattern(self.tokens[start:arrow], inner)
            self.run(self.tokens[arrow + 1 : stop], inner)
            start = stop + 1
        self.at = end + 1

    def label(self, bound):
        """The label of a field, or of an argument that is given by its name."""
        following = self.tokens[self.at + 1].text if self.at + 1 < len(self.tokens) else ""
        if following not in ("=", ":"):
            return False
        if following == ":":
            bound.add(self.tokens[self.at].text)
        else:
            self.fields.append(self.tokens[self.at])
        self.at += 2
        return True

    def bracket(self, bound):
        closer = ")" if self.tokens[self.at].text == "(" else "}"
        record = self.at > 0 and self.tokens[self.at - 1].text == "record"
        found = None if record else self.binder(self.tokens, self.at)
        self.at = found[1] + 1 if found else self.at + 1
        self.group(set(bound), closer if not found else ")" if closer == ")" else "} ")
        bound |= found[0] if found else set()

    def abstraction(self, bound):
        start = self.at + 1
        end = start + upto(self.tokens[start:], ".")
        at, inner = start, set(bound)
        while at < end:
            found = self.binder(self.tokens, at) if self.tokens[at].text in OPENING else None
            if found:
                stop = at + 1 + upto(self.tokens[at + 1 :], ")", "}")
                self.run(self.tokens[found[1] + 1 : stop], inner)
                bound |= found[0]
                at = stop + 1
            else:
                stop = at + 1
                if self.tokens[at].text in OPENING:
                    stop = at + 2 + upto(self.tokens[at + 1 :], ")", "}")
                self.pattern_of_binder(self.tokens[at:stop], bound)
                at = stop
        self.at = end + 1

    def pattern_of_binder(self, tokens, bound):
        """A plain binder may have any name; a component of a tuple is a pattern."""
        if len(tokens) == 1:
            bound.add(tokens[0].text)
        else:
            self.pattern(tokens, bound)

    def let(self, bound):
        start = self.at + 1
        end = start + upto(self.tokens[start:], ":", "=")
        names = set()
        self.pattern_of_binder(self.tokens[start:end], names)
        self.at = end
        self.group(set(bound), "in")
        bound |= names

    def projection(self):
        """A field behind a dot; its record is in the type of what stands before it."""
        self.at += 1
        if self.at < len(self.tokens) and not NUMERAL.fullmatch(self.tokens[self.at].text) and not self.tokens[self.at - 1].after:
            self.fields.append(self.tokens[self.at])
            self.at += 1

    def name(self, bound):
        end = self.path_end(self.tokens, self.at)
        self.path(self.tokens[self.at : end], bound)
        self.at = end

    def path(self, tokens, bound, in_pattern=False):
        """A name, or names joined by dots."""
        first = tokens[0]
        words = [token.text for token in tokens[::2]]
        if first.text in WORDS or NUMERAL.fullmatch(first.text) or first.text.startswith('"'):
            return
        if first.text in bound and not in_pattern:
            self.fields += tokens[2::2]
            return
        target, used = self.tree.path_target(self.scope, words, first.line)
        if len(words) == 1 and self.scope.several(words[0], first.line):
            raise Unknown(f"{self.scope.source.path}:{first.line}: '{words[0]}' is a constructor of several types, and none is named")
        if target is None:
            raise Unknown(f"{self.scope.source.path}:{first.line}: '{'.'.join(words)}' means nothing there")
        self.found.append((tokens[2 * used - 2], target))
        if used > 1:
            owner = self.scope.look(words[0], first.line)
            if owner is not None and owner.item is not None:
                self.found.append((first, owner))
        self.fields += tokens[2 * used :: 2]
