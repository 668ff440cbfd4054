"""The number of reactions of each instant of a run (02, item 6), and what share of the ceiling that is.

A run is followed by rewriting or, where the sequence has a setpause, by the expansion of the labels that the listing has; both
react by the rules of terms.py, which share nothing with the engine. What the listing says of an instant must be what they give.
"""
from collections import namedtuple

from showing.damage import Damaged, counted
from showing.listings import WAITING, WRONG, Instant, code_in_words
from showing.sequences import SETPAUSE, ceiling_of, members_of
from showing.terms import expanded, react, term_of

# An instant as the rules give it: as in a listing, without labels; what reacted, and how.
Step = namedtuple("Step", "instant term reaction")


def compare(instant, listed):
    """Raises where paper and listing part in an instant."""
    pairs = [(field, getattr(instant, field), getattr(listed, field)) for field in ("code", "kind", "place", "emitted")]
    apart = [(field, *(f"{value:08x}" if field == "emitted" else value for value in values))
             for field, *values in pairs if values[0] != values[1]]
    if apart:
        each = "; ".join(f"{field} {ours} on paper, {theirs} in the listing" for field, ours, theirs in apart)
        raise Damaged(f"instant {instant.number}: paper and listing part: {each}")


def step_of(number, term, given):
    """One instant of a term."""
    reaction = react(term, given, {})
    kind, place = reaction.error if reaction.code == WRONG else (0, 0)
    emitted = 0 if reaction.code == WRONG else reaction.emitted
    return Step(Instant(number, reaction.code, kind, place, emitted, None), term, reaction)


def has_jumps(commands):
    return any(command.bytes[0] == SETPAUSE for command in commands)


def steps_of(commands, read_back, inputs, instants):
    """Yields each instant of a run, up to where it parts from the listing; None for the instants of a listing compares nothing."""
    jumps = has_jumps(commands) and instants is not None
    whole = term = term_of(commands, read_back, jumps)
    number = 0
    for number, given in enumerate(inputs, 1):
        step = step_of(number, term, given)
        yield step
        if instants is not None:
            if number > len(instants):
                raise Damaged(f"instant {number}: paper and listing part: the listing ends before it")
            compare(step.instant, instants[number - 1])
        if step.instant.code != WAITING:
            break
        term = expanded(whole, instants[number - 1].labels) if jumps else step.reaction.residual
    if instants is not None and len(instants) > number:
        raise Damaged(f"instant {number + 1}: paper and listing part: on paper there is none")


def share_of(count, most):
    """Such as '3 %': of what there is at most, rounded up, so that no share looks smaller than it is."""
    return f"{-(-100 * count // most):,} %"


def table_of(rows, most, names, out):
    """Adds a line for each instant: number, inputs, emitted set, code, reactions."""
    out += ["", f"instant  reactions{'' if most is None else '  of the ceiling'}  code; input; emitted"]
    for number, count, code, given, emitted in rows:
        share = "" if most is None else f"  {share_of(count, most):>14}"
        sets = [names.all_of("signal", members_of(members)) or "none" for members in (given, emitted)]
        out.append(f"{number:7}  {count:9,}{share}  {code_in_words(code)}; {sets[0]}; {sets[1]}")
    if rows:
        number, count = max(((number, count) for number, count, *_ in rows), key=lambda pair: pair[1])
        known = f" of at most {most:,}, {share_of(count, most)}" if most is not None else ""
        out += ["", f"the dearest is instant {number}: {counted(count, 'reaction')}{known}"]


def add_reactions(commands, read_back, inputs, instants, names, out):
    """Adds the table of a run."""
    steps = list(steps_of(commands, read_back, inputs, instants))
    rows = [(step.instant.number, step.reaction.count, step.instant.code, given, step.instant.emitted)
            for step, given in zip(steps, inputs)]
    table_of(rows, ceiling_of(commands, read_back).most, names, out)


def add_recorded(records, names, out):
    """Adds that of a recording, whose records have the numbers; which sequence it was of, they do not say."""
    table_of([(record.number, record.reactions, record.code, record.inputs, record.emitted) for record in records], None, names, out)
