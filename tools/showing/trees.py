"""Statements as a fitter reads them: a line for each command by place, indented, with the steps of a sequence beside each other.

A chain of '; then' is one line with its steps below it, numbered, and so are the sides of parallels; the places of all its
commands stand on that line. The branches of a present are marked then and else, and an exit tells which try it leaves.
"""
from collections import namedtuple

from showing.damage import counted
from showing.sequences import COMMANDS, EXIT, LOOP, PARALLEL, PAUSE, PRESENT, SEQUENCE, SIGNAL, SUSPEND, TRY, litres_in
from showing.terms import HELD

# Places of one command or of a chain; own bytes, none of what rewriting made; mark such as 'then' or '2'; label of a pause or None;
# last is the place of the last command where the line stands for all of a statement, as it is in the sequence.
Line = namedtuple("Line", "places own depth mark words label last")

WORDS = {SEQUENCE: "in sequence", PARALLEL: "in parallel", LOOP: "loop", PRESENT: "present {}", SIGNAL: "signal {} in", TRY: "try",
         SUSPEND: "suspend when {}", HELD: "held suspend when {}"}


def words_of(term, tries, names):
    """A command without its parts; an exit alone, outside of the tries that it would leave, has None for them."""
    kind = SUSPEND if term.kind == HELD else term.kind
    operands = [counted(litres_in(term.own), "litre") if operand == "litres" else names.of(operand, term.operand)
                for operand in COMMANDS[kind][1]]
    if kind == EXIT and tries is not None:
        left = f"leaves the try at {tries[-term.operand]}" if term.operand <= len(tries) else "no try is left: the sequence is over"
        return f"exit {term.operand}: {left}"
    return WORDS.get(term.kind, COMMANDS[kind][0]).format(*operands)


def is_folded(term, whole):
    """Whether one line stands for a statement that is as in the sequence."""
    return not whole and term.last is not None and len(term.parts) > 0


def chain_of(term, whole):
    """The commands of a chain of one kind, and its steps or sides."""
    commands, steps = [term], []
    for part in term.parts:
        if part.kind == term.kind and not is_folded(part, whole):
            inner, below = chain_of(part, whole)
            commands, steps = commands + inner, steps + below
        else:
            steps.append(part)
    return commands, steps


def line_of(term, names, depth, mark, tries, places, last):
    label = term.operand if term.kind == PAUSE else None
    return Line(places, b"" if term.made else term.own, depth, mark, words_of(term, tries, names), label, last)


def struck_lines(term, names, depth, whole):
    """Yields the lines of what is struck out, each command of the sequence by itself: alone, or with its parts where all are gone."""
    if not term.made:
        yield line_of(term, names, depth, "", None, [term.place], term.last if whole and is_folded(term, False) else None)
    if whole and not is_folded(term, False):
        for part in term.parts:
            yield from struck_lines(part, names, depth + 1, True)


def lines_of(term, names, whole, depth=1, mark="", tries=()):
    """Yields the lines of a statement; whole folds none that is as in the sequence."""
    folded, chained = is_folded(term, whole), term.kind in (SEQUENCE, PARALLEL)
    commands, parts = ([term], list(term.parts)) if folded or not chained else chain_of(term, whole)
    places = sorted({command.place for command in commands})
    yield line_of(term, names, depth, mark, tries, places, term.last if folded else None)
    if folded:
        return
    inside = (*tries, term.place) if term.kind == TRY else tries
    for number, part in enumerate(parts, 1):
        below = str(number) if chained else {1: "then", 2: "else"}[number] if term.kind == PRESENT else ""
        yield from lines_of(part, names, whole, depth + 1, below, inside)
