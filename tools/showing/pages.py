"""A bay as one page of HTML: its commands, its run as a picture, and a slider that steps through the instants and shows what
remains on paper. The page needs no network and no other file; what it tells of a run is data that its script shows as text.
"""
import json
from html import escape
from itertools import groupby
from pathlib import Path

from showing.damage import Damaged, counted
from showing.listings import WAITING, WRONG, code_in_words, error_in_words
from showing.paper import litres_in_words
from showing.pictures import is_ignored, name_of, rows_of
from showing.reactions import has_jumps, share_of, steps_of
from showing.sequences import READ_BACK_PLACE, ceiling_line, ceiling_of, members_of
from showing.svg import runs_of
from showing.terms import expanded, struck_out, term_of
from showing.trees import lines_of, struck_lines

MAX_INSTANTS = 4096  # of a page: more are not looked at one by one
CELL, ROW, AFTER = 26, 20, 150  # of the picture; the word of the last code stands beyond its column
POLICY = "default-src 'none'; style-src 'unsafe-inline'; script-src 'unsafe-inline'"  # the page itself asks for nothing
LEGEND = {"input": "input, given by the host", "ignored": "input that is ignored, since the signal is read back",
          "emitted": "emitted by the sequence", "label": "label at which the bay then waits"}
FOLDER = Path(__file__).resolve().parent


def as_data(value):
    """JSON inside a page: no character of it can end the script that holds it."""
    text = json.dumps(value, ensure_ascii=False, separators=(",", ":"))
    for character in "<>&\u2028\u2029":
        text = text.replace(character, f"\\u{ord(character):04x}")
    return text.encode("utf-8", "replace").decode()


def inner(term):
    """A term without the declarations of its read-back signals, which stand at the head of the page."""
    while term.place == READ_BACK_PLACE:
        term = term.parts[0]
    return term


def line_data(line):
    """A line for the script: its places, bytes, depth, mark, words, and whether rewriting made it."""
    words = line.words + (f", as it is written from {line.places[0]} to {line.last}" if line.last is not None else "")
    return [line.places, line.own.hex(" ").upper(), line.depth, line.mark, words, int(not line.own)]


def in_short(places):
    """The places of a line, those of a long chain not all; the script has the same."""
    return ", ".join(map(str, places if len(places) < 4 else [*places[:2], f"… {places[-1]}"]))


class Rests:
    """What remains after each instant, each rest once: most runs come back to few."""

    def __init__(self, names):
        self.names, self.rests, self.known = names, [], {}

    def index_of(self, struck, remains):
        rest = {"struck": [line_data(line) for line in struck], "remains": [line_data(line) for line in remains]}
        key = json.dumps(rest)
        if key not in self.known:
            self.known[key] = len(self.rests)
            self.rests.append(rest)
        return self.known[key]

    def of_step(self, step):
        """What is struck out and what remains of a step by rewriting."""
        term, reaction = step.term, step.reaction
        while term.place == READ_BACK_PLACE:
            term, reaction = term.parts[0], reaction.premises[0]
        struck = []
        for depth, gone, whole in struck_out(term, reaction, 1):
            struck += struck_lines(gone, self.names, depth, whole)
        return self.index_of(struck, lines_of(reaction.residual, self.names, False))

    def of_labels(self, whole, labels):
        """What the next instant reacts with, by its labels, where the sequence has a setpause."""
        return self.index_of([], lines_of(inner(expanded(whole, labels)), self.names, False))


def instants_of(steps, inputs, instants, commands, read_back, names, rests):
    """The data of each instant."""
    jumps, most = has_jumps(commands), ceiling_of(commands, read_back).most
    whole = term_of(commands, read_back, jumps)
    for step, given in zip(steps, inputs):
        instant, listed = step.instant, instants and instants[step.instant.number - 1]
        error = error_in_words(instant, commands, names) if instant.code == WRONG else ""
        rest = None
        if instant.code == WAITING:
            rest = rests.of_labels(whole, listed.labels) if jumps else rests.of_step(step)
        yield {"number": instant.number, "code": code_in_words(instant.code), "error": error,
               "place": instant.place if instant.code == WRONG else None,
               "input": [names.of("signal", number) + (" (ignored: read back)" if read_back >> number & 1 else "")
                         for number in members_of(given)],
               "emitted": [names.of("signal", number) for number in members_of(instant.emitted)],
               "litres": "" if error else litres_in_words(step.reaction.deliveries, names).removeprefix("; "),
               "labels": members_of(listed.labels) if listed else None,
               "waits": [names.of("label", label) for label in members_of(listed.labels)] if listed else None,
               "reactions": f"{counted(step.reaction.count, 'reaction')}, {share_of(step.reaction.count, most)} of the ceiling",
               "rest": rest}


def cell_of(codes):
    """How wide a column is: in a short run wide enough for a code in words, in a long one for the number of an instant."""
    return 60 if len(codes) < 10 else CELL if len(codes) < 1000 else 36


def picture_of(rows, codes, read_back, names):
    """The run as SVG: heads, which stay at the left, and a column for each instant."""
    count, height, cell = len(codes), ROW * (len(rows) + 2), cell_of(codes)
    heads = [f'<svg class="heads" width="HEADS" height="{height}" role="presentation">', text_at(4, 0, "instant")]
    width = cell * count + AFTER
    lines = [f'<svg id="picture" width="{width}" height="{height}" viewBox="0 0 {width} {height}" role="img" '
             'aria-label="the run: a row for each signal and label, a column for each instant">',
             f'<rect id="cursor" x="0" y="0" width="{cell}" height="{height}"/>']
    lines += [text_at(cell * column + cell // 2, 0, column + 1, "number") for column in range(count)]
    for index, row in enumerate(rows, 1):
        ignored = is_ignored(row, read_back)
        words = " ".join(filter(None, [row.kind, str(row.number), name_of(row, names), "(ignored)" if ignored else ""]))
        heads.append(text_at(4, index, words))
        steps = [f"M{cell * start + 1} {ROW * index + 4}h{cell * length - 2}v12h{2 - cell * length}z"
                 for start, length in runs_of(row.marks)]
        lines.append(f'<path class="{row.kind}{" ignored" if ignored else ""}" d="{"".join(steps)}"/>')
    heads += [text_at(4, len(rows) + 1, "code"), "</svg>"]
    lines += codes_of(codes, cell, ROW * (len(rows) + 1))
    grid = [f"M0 {ROW * index}h{cell * count}" for index in range(1, len(rows) + 2)]
    grid += [f"M{cell * column} {ROW}v{ROW * len(rows)}" for column in range(count + 1)]
    lines += [f'<path class="grid" d="{"".join(grid)}"/>', "</svg>"]
    longest = max([7, *(len(line) - line.index(">") - 8 for line in heads[1:-1])])
    return "".join(heads).replace("HEADS", str(8 + 8 * longest)), "".join(lines)


def legend_of(rows, read_back):
    """What the colours mean, of those that occur."""
    kinds = {"ignored" if is_ignored(row, read_back) else row.kind for row in rows}
    return " ".join(f'<span><span class="key {kind}"></span>{words}</span>' for kind, words in LEGEND.items() if kind in kinds)


def text_at(x, row, content, kind="name"):
    return f'<text class="{kind}" x="{x}" y="{ROW * row + 14}">{escape(str(content))}</text>'


def codes_of(codes, cell, top):
    """The codes in words, one for all instants that share it; only the last instant of a run has another than its own."""
    at = 0
    for code, same in groupby(codes):
        length = len(list(same))
        kind = "code wrong" if code == WRONG else "code"
        yield f'<path class="bar {kind}" d="M{cell * at + 1} {top + 3}h{cell * length - 2}v14h{2 - cell * length}z"/>'
        yield f'<text class="{kind}" x="{cell * at + 4}" y="{top + 14}">{escape(code_in_words(code).partition(",")[0])}</text>'
        at += length


def table_of(lines):
    """The commands of the sequence; a row carries its places and, of a pause, its label, for the script."""
    rows = []
    for line in lines:
        places, own, depth, mark, words, _ = line_data(line)
        label = f' data-label="{line.label}"' if line.label is not None else ""
        each = " ".join(map(str, places))
        rows.append(f'<tr data-places="{each}"{label}><td class="place" title="{each}">{in_short(places)}</td><td class="own">{own}</td>'
                    f'<td class="words" style="--depth:{depth - 1}">{mark_of(mark)}{escape(words)}</td></tr>')
    return "".join(rows)


def mark_of(mark):
    return f'<span class="mark{"" if mark.isdigit() else f" {mark}"}">{mark}</span> ' if mark else ""


def page_of(name, commands, read_back, inputs, instants, told, names):
    """The page; its words on the run are held to the listing, where there is one."""
    shown = inputs[:MAX_INSTANTS]
    listed = instants if instants is None else instants[:MAX_INSTANTS]
    if has_jumps(commands) and instants is None:
        raise Damaged("no listing: target/bin/run is not built, and a sequence with setpause has no paper to show instead")
    steps, rests = list(steps_of(commands, read_back, shown, listed)), Rests(names)
    whole = inner(term_of(commands, read_back, True))
    data = {"instants": list(instants_of(steps, shown, listed, commands, read_back, names, rests)), "rests": rests.rests,
            "fresh": [line_data(line) for line in lines_of(whole, names, False)], "cell": cell_of(steps),
            "how": "reacts" if has_jumps(commands) else "remains"}
    rows = rows_of(shown[: len(steps)], [step.instant._replace(labels=listed[index].labels if listed else 0)
                                         for index, step in enumerate(steps)])
    notes = [*told, ceiling_line(commands, read_back)]
    if read_back:
        notes.insert(0, f"reads back {names.all_of('signal', members_of(read_back))}: the host's status of such a signal is ignored")
    if max(len(inputs), len(instants or [])) > MAX_INSTANTS:
        notes.append(f"this page shows the first {MAX_INSTANTS:,} instants of the run")
    if instants is not None:
        notes.append(f"held to the listing of the run: {counted(len(steps), 'instant')}")
    heads, picture = picture_of(rows, [step.instant.code for step in steps], read_back, names)
    fields = {"TITLE": escape(name), "POLICY": POLICY, "STYLE": (FOLDER / "page.css").read_text("utf-8"),
              "NOTES": "".join(f"<li>{escape(note)}</li>" for note in notes), "LEGEND": legend_of(rows, read_back),
              "HEADS": heads, "PICTURE": picture,
              "COMMANDS": table_of(lines_of(whole, names, True)), "COUNT": str(len(steps)), "DATA": as_data(data),
              "SCRIPT": (FOLDER / "page.js").read_text("utf-8")}
    page = (FOLDER / "page.html").read_text("utf-8")
    pieces = page.split("@")
    return "".join(fields[piece] if index % 2 else piece for index, piece in enumerate(pieces))
