"""The fitters' paper of a run: after each instant the term that remains, and what was struck out, held to the listing.

Both are tables as that of the sequence, whose indentation and places they have. What rewriting made (a nothing for a pause
or for a side that ended, a sequence that begins a loop again) has no bytes, and the place of the command for which it was
made; it is not told when it goes. A statement that stands as in the sequence takes one line, with its first and last place.
"""
from showing.damage import counted
from showing.listings import WAITING, WRONG, code_in_words, error_in_words
from showing.reactions import steps_of
from showing.sequences import READ_BACK_PLACE, line_of, members_of, width_of, words_of
from showing.terms import HELD, struck_out, term_of


def words_and_bytes(term, names):
    words = words_of(term.own, names)
    return f"held {words}" if term.kind == HELD else words, b"" if term.made else term.own


class Paper:
    """The lines to which each instant adds what is told of it; whole folds no statement."""

    def __init__(self, commands, read_back, names, whole, out):
        term_of(commands, read_back)  # a setpause is refused, whatever the inputs are
        self.commands, self.read_back, self.names = commands, read_back, names
        self.whole, self.width, self.lines = whole, width_of(commands), out

    def add_term(self, term, depth, mark):
        """Adds a term; of one that is struck out, and so has a mark, only the commands of the sequence."""
        words, own = words_and_bytes(term, self.names)
        folded = not self.whole and term.last is not None and len(term.parts) > 0
        if own or not mark:
            line = line_of(term.place, own, self.width, depth, words) + (f"  ({term.place} to {term.last})" if folded else "")
            self.lines.append(mark + line[len(mark) :])
        if not folded:
            for part in term.parts:
                self.add_term(part, depth + 1, mark)

    def add_struck(self, term, reaction):
        before = len(self.lines)
        for depth, gone, whole in struck_out(term, reaction, 1):
            if whole:
                self.add_term(gone, depth, "-")
            elif not gone.made:
                words, own = words_and_bytes(gone, self.names)
                self.lines.append("-" + line_of(gone.place, own, self.width, depth, words)[1:])
        self.lines.insert(before, "struck out" if len(self.lines) > before else "nothing is struck out")

    def add_step(self, step, inputs):
        """Adds what is told of an instant."""
        self.lines += ["", told(step.instant, step.reaction.deliveries, inputs, self.commands, self.names)]
        if step.instant.code == WAITING:
            self.add_rest(step.term, step.reaction)
        else:
            self.lines.append("nothing remains")

    def add_rest(self, term, reaction):
        """Adds both tables; the read-back declarations, which are never struck out, stand at the head of the page alone."""
        while term.place == READ_BACK_PLACE:
            term, reaction = term.parts[0], reaction.premises[0]
        self.add_struck(term, reaction)
        self.lines.append("remains")
        self.add_term(reaction.residual, 1, "")


def told(instant, deliveries, inputs, commands, names):
    """An instant in a line; a wrong one delivers nothing."""
    given, emitted = (names.all_of("signal", members_of(signals)) or "none" for signals in (inputs, instant.emitted))
    if instant.code == WRONG:
        return f"instant {instant.number}: input {given}; wrong, {error_in_words(instant, commands, names)}"
    return (f"instant {instant.number}: input {given}; emitted {emitted}{litres_in_words(deliveries, names)}; "
            f"code {instant.code}, {code_in_words(instant.code)}")


def litres_in_words(deliveries, names):
    """The litres of each farm that delivers, the lowest first."""
    sums = {}
    for farm, litres in deliveries:
        sums[farm] = sums.get(farm, 0) + litres
    return "".join(f"; {counted(sums[farm], 'litre')} of {names.of('signal', farm)}" for farm in sorted(sums))


def add_paper(paper, inputs, instants):
    """Adds the paper of a run, up to where it parts from the listing; None for the instants of a listing compares nothing."""
    number = 0
    for step in steps_of(paper.commands, paper.read_back, inputs, instants):
        number = step.instant.number
        paper.add_step(step, inputs[number - 1])
    unused = len(inputs) - number
    paper.lines += [""] + [f"inputs not used: {unused}"] * (unused > 0)
    if instants is not None:
        paper.lines.append(f"paper and listing agree: {counted(number, 'instant')}")
