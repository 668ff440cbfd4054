"""Terms and how they react by rewriting: 01, 'One reaction' and 'The fitters' paper', with 02's suspend (item 1), first
error (3), order of the signal rules (4), read-back declarations (5), number of reactions (6) and litres (12). No rule reads or
gives labels; a sequence with setpause, which has no rest on paper, is expanded from the labels that a listing has.
"""
from collections import namedtuple

from showing.damage import Damaged
from showing.listings import ENDED, WAITING, WRONG
from showing.sequences import (COMMANDS, DELIVER, EMIT, EXIT, LOOP, NOTHING, PARALLEL, PAUSE, PRESENT, READ_BACK_PLACE, SEQUENCE,
                               SETPAUSE, SIGNAL, SUSPEND, TRY, litres_in, members_of)

HELD = 0x100  # what remains of a suspend; no byte stands for it

# Codes are those of a listing, so that the greater of two is their maximum. The residual is what remains after code 1, else
# None; error the first one's kind and place, or None. Premises are the reactions of the parts, None for a part that did not
# react; of a signal that of the run that was chosen. Deliveries are pairs of a farm and its litres. Count is the number of
# reactions in the tree, both runs of each signal counted.
Reaction = namedtuple("Reaction", "emitted code residual error premises count deliveries", defaults=[()])


class Term:
    """A command with its parts, and its own bytes. Last is the place of its last command where all of it stands as in the
    sequence, else None; a term that is made, and no command of the sequence, has the place of that for which it was made."""

    __slots__ = ("kind", "operand", "own", "place", "parts", "made", "last", "tested", "labels")

    def __init__(self, kind, own, place, parts=(), made=False, last=None):
        operand = own[1] if len(own) > 1 else None
        self.kind, self.operand, self.own, self.place, self.parts, self.made = kind, operand, own, place, parts, made
        self.last = last
        self.tested = 1 << operand if kind in (PRESENT, SUSPEND, HELD) else 0  # the signals on which a reaction depends
        self.labels = 1 << operand if kind == PAUSE else 0  # of the pauses inside
        for part in parts:
            self.tested |= part.tested
            self.labels |= part.labels
        if kind == SIGNAL:
            self.tested &= ~(1 << operand)


def term_of(commands, read_back, jumps=False):
    """The term of an accepted sequence, in the declarations of its read-back signals, the lowest outermost; one with setpause,
    a jump, where it is to be expanded and not rewritten."""
    commands = iter(commands)

    def build():
        command = next(commands)
        own, kind = command.bytes, command.bytes[0]
        if kind == SETPAUSE and not jumps:
            raise Damaged(f"place {command.place}: setpause {own[1]}: rewriting has no rule for a jump to another pause, so "
                          "there is no paper of this sequence")
        parts = tuple(build() for _ in range(COMMANDS[kind][2]))
        return Term(kind, own, command.place, parts, last=parts[-1].last if parts else command.place)

    term = build()
    for signal in reversed(members_of(read_back)):
        term = Term(SIGNAL, bytes([SIGNAL, signal]), READ_BACK_PLACE, (term,), made=True)
    return term


def nothing_for(term):
    return Term(NOTHING, bytes([NOTHING]), term.place, made=True)


def rewritten(term, parts):
    """The same command around other parts."""
    return Term(term.kind, term.own, term.place, parts, term.made)


def react(term, present, known):
    """The reaction of a term with these signals present; what is known of an instant's parts is not found again."""
    key = id(term), present & term.tested
    if key not in known:
        known[key] = RULES[term.kind](term, present, known)
    return known[key]


def leaf(term, present, known):
    """nothing, pause, exit, and emit with litres or without; setpause, of which nothing remains here"""
    if term.kind in (PAUSE, SETPAUSE):
        return Reaction(0, WAITING, nothing_for(term), None, (), 1)
    emitted = 1 << term.operand if term.kind in (EMIT, DELIVER) else 0
    deliveries = ((term.operand, litres_in(term.own)),) if term.kind == DELIVER else ()
    return Reaction(emitted, term.operand + 1 if term.kind == EXIT else ENDED, None, None, (), 1, deliveries)


def sequence(term, present, known):
    first = react(term.parts[0], present, known)
    if first.code != ENDED:
        residual = rewritten(term, (first.residual, term.parts[1])) if first.code == WAITING else None
        return Reaction(first.emitted, first.code, residual, first.error, (first, None), 1 + first.count, first.deliveries)
    second = react(term.parts[1], present, known)
    return Reaction(first.emitted | second.emitted, second.code, second.residual, first.error or second.error, (first, second),
                    1 + first.count + second.count, first.deliveries + second.deliveries)


def parallel(term, present, known):
    first, second = sides = [react(part, present, known) for part in term.parts]
    code = max(first.code, second.code)
    rest = [side.residual or nothing_for(part) for side, part in zip(sides, term.parts)]
    residual = rewritten(term, tuple(rest)) if code == WAITING else None
    return Reaction(first.emitted | second.emitted, code, residual, first.error or second.error, tuple(sides),
                    1 + first.count + second.count, first.deliveries + second.deliveries)


def loop(term, present, known):
    body = react(term.parts[0], present, known)
    if body.code == ENDED:
        return Reaction(0, WRONG, None, body.error or (1, term.place), (body,), 1 + body.count)
    again = bytes([SEQUENCE])
    residual = Term(SEQUENCE, again, term.place, (body.residual, term), made=True) if body.code == WAITING else None
    return Reaction(body.emitted, body.code, residual, body.error, (body,), 1 + body.count, body.deliveries)


def present_rule(term, present, known):
    there = present >> term.operand & 1
    branch = react(term.parts[0 if there else 1], present, known)
    return branch._replace(premises=(branch, None) if there else (None, branch), count=1 + branch.count)


def signal(term, present, known):
    """Both runs; a wrong one is inherited before the other four rules are tried (02, item 4)."""
    bit = 1 << term.operand
    without, with_it = (react(term.parts[0], status, known) for status in (present & ~bit, present | bit))
    error, count = without.error or with_it.error, 1 + without.count + with_it.count
    if WRONG in (without.code, with_it.code):
        return Reaction(0, WRONG, None, error, (), count)
    emits = without.emitted & bit, with_it.emitted & bit
    if bool(emits[0]) != bool(emits[1]):
        return Reaction(0, WRONG, None, error or (2 if emits[0] else 3, term.place), (), count)
    chosen = with_it if emits[0] else without
    emitted, deliveries = chosen.emitted, chosen.deliveries
    if term.place != READ_BACK_PLACE:
        emitted, deliveries = emitted & ~bit, tuple(delivery for delivery in deliveries if delivery[0] != term.operand)
    residual = rewritten(term, (chosen.residual,)) if chosen.code == WAITING else None
    return Reaction(emitted, chosen.code, residual, error, (chosen,), count, deliveries)


def try_rule(term, present, known):
    body = react(term.parts[0], present, known)
    code = {ENDED: ENDED, WAITING: WAITING, 2: ENDED, WRONG: WRONG}.get(body.code, body.code - 1)
    residual = rewritten(term, (body.residual,)) if code == WAITING else None
    return Reaction(body.emitted, code, residual, body.error, (body,), 1 + body.count, body.deliveries)


def suspend(term, present, known):
    """A suspend begins as its part does; a held one tests its signal first, and with it stays as it is."""
    if term.kind == HELD and present >> term.operand & 1:
        return Reaction(0, WAITING, term, None, (None,), 1)
    body = react(term.parts[0], present, known)
    residual = Term(HELD, term.own, term.place, (body.residual,)) if body.code == WAITING else None
    return Reaction(body.emitted, body.code, residual, body.error, (body,), 1 + body.count, body.deliveries)


RULES = {NOTHING: leaf, PAUSE: leaf, SETPAUSE: leaf, EMIT: leaf, DELIVER: leaf, EXIT: leaf, SEQUENCE: sequence,
         PARALLEL: parallel, LOOP: loop, PRESENT: present_rule, SIGNAL: signal, TRY: try_rule, SUSPEND: suspend, HELD: suspend}


def expanded(term, labels):
    """The expansion of a term by the labels of a waiting machine, one of which is inside it (01, 'States and resuming')."""
    parts, active = term.parts, [part.labels & labels != 0 for part in term.parts]
    if term.kind == PAUSE:
        return nothing_for(term)
    if term.kind == SEQUENCE and active[0]:
        return rewritten(term, (expanded(parts[0], labels), parts[1]))
    if term.kind in (SEQUENCE, PRESENT):
        return expanded(parts[active.index(True)], labels)
    inside = tuple(expanded(part, labels) if within else nothing_for(part) for part, within in zip(parts, active))
    if term.kind == LOOP:
        return Term(SEQUENCE, bytes([SEQUENCE]), term.place, (inside[0], term), made=True)
    return Term(HELD, term.own, term.place, inside) if term.kind == SUSPEND else rewritten(term, inside)


def struck_out(term, reaction, depth):
    """Yields what of a term is gone from its residual after code 1: the depth of a command, its term, and whether all its
    parts are gone too."""
    if reaction is None or reaction.code == ENDED:
        yield depth, term, True
    elif term.kind == PAUSE:
        yield depth, term, False
    elif reaction.residual is not term:
        gone = term.kind == PRESENT or term.kind == SEQUENCE and reaction.premises[1] is not None
        if gone:
            yield depth, term, False
        for part, premise in zip(term.parts, reaction.premises):
            if premise is not None or term.kind == PRESENT:
                yield from struck_out(part, premise, depth + 1)
