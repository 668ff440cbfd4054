"""The paper of a run (U2.1 to U2.3): on the examples and on random sequences, held to listings of the machine by labels, and by hand."""
import re
from collections import Counter

from tests.common import ROOT, examples, expand as bytes_of_text, expect, expect_damage, listed, rng, run_file, show
from tests.generate import accepted_sequence, bytes_of, lines_of, waiting_sequence, without_setpauses
from tests.machine import deliveries, expand, run, table_of, tree_of

PAPERS = 200
HEAD = re.compile(r"^place  (bytes *)  command$", re.M)


def instants_on(shown):
    """Of each instant of a paper its first line, and what is struck out and what remains: lines of depth, place, bytes, the first
    and the last place of a folded statement, and the mark."""
    width, pages = len(HEAD.search(shown)[1]), []
    table_line = re.compile(rf"([ -][ \d]{{3}}\d)  ([0-9A-F ]{{{width}}})  ( *)\S.*")
    for line in shown.splitlines():
        if line.startswith("instant "):
            pages.append((line, [], []))
            tables = iter(pages[-1][1:])
        elif line in ("struck out", "nothing is struck out", "remains"):
            table = next(tables)
        elif pages and (found := table_line.fullmatch(line)):
            own, depth = bytes.fromhex(found[2]), len(found[3]) // 2 + 1
            folded = re.search(r"  \((\d+) to (\d+)\)$", line)
            table.append((depth, int(line[1:5]), own, tuple(map(int, folded.groups())) if folded else None, line[0]))
    return pages


def unfolded(table, lines):
    """Depth, place and bytes of each line, a folded one being that of the sequence from its first to its last place."""
    result = []
    for depth, place, own, folded, _ in table:
        inside = [line for line in lines if folded and folded[0] <= line[0] <= folded[1]]
        shift = depth - inside[0][1] if inside else 0
        result += [(line[1] + shift, line[0], line[2]) for line in inside] or [(depth, place, own)]
    return result


def placed(table):
    """A table without the places of what was made: a side that ended has that of its last rest on paper."""
    return [(depth, place if own else None, own) for depth, place, own in table]


def expect_paper(lines, read_back, instants, shown, what):
    """What remains is the expansion of the next state; what is struck out was there, or in a loop that began again."""
    tree, before = tree_of(lines, read_back), Counter(place for place, _, _ in lines)
    looped = places_in_loops(lines)
    pages = instants_on(shown)
    expect(len(pages) == len(instants), f"{what}: instants on paper: {shown}")
    for (_, struck, remains), (code, *_, labels) in zip(pages, instants):
        if code != 1:
            expect(not struck and not remains, f"{what}: nothing remains: {shown}")
            break
        expect(placed(unfolded(remains, lines)) == placed(table_of(expand(tree, labels))), f"{what}: what remains: {shown}")
        expect(all(mark == "-" for *_, mark in struck), f"{what}: marks: {shown}")
        gone = Counter(place for _, place, own in unfolded(struck, lines) if own)
        after = Counter(place for _, place, own in unfolded(remains, lines) if own)
        new = {place: after[place] + gone[place] - before[place] for place in before | after | gone}
        expect(all(count == 0 or count > 0 and place in looped for place, count in new.items()), f"{what}: struck out: {shown}")
        before = after


def expect_litres(lines, read_back, inputs, shown, what):
    """What is told of each instant's litres is what the machine by labels delivers."""
    for (head, _, _), delivered in zip(instants_on(shown), deliveries(lines, read_back, inputs)):
        told = {int(farm): int(litres.replace(",", "")) for litres, farm in re.findall(r"; ([\d,]+) litres? of (\d+)", head)}
        expect(told == delivered, f"{what}: the litres of {head}, not {delivered}")


def places_in_loops(lines):
    path, places = [], set()
    for place, depth, own in lines:
        del path[depth - 1 :]
        if 6 in path:
            places.add(place)
        path.append(own[0])
    return places


def test_examples_on_paper():
    for name, data, _, listing in examples():
        sequence = data[2 : 2 + int.from_bytes(data[:2], "little")]
        words = [int.from_bytes(data[at : at + 4], "little") for at in range(2 + len(sequence), len(data), 4)]
        lines, jumps = lines_of(sequence), any(own[0] == 10 for _, _, own in lines_of(sequence))
        instants = run(lines, words[0], words[1:])
        expect(listed(*instants) == listing, f"{name}: the machine by labels: {instants}")
        status, shown, message = answer = show("--paper", data=data, listing=listing)
        if jumps:
            said = r": place \d+: setpause \d+: rewriting has no rule for a jump to another pause"
            expect_damage(answer, said, f"{name}: setpause on paper")
            continue
        end = f"\npaper and listing agree: {len(instants)} instant{'s' * (len(instants) != 1)}\n"
        expect(status == 0 and message == "" and shown.endswith(end), f"{name}: on paper: {answer}")
        expect_paper(lines, words[0], instants, shown, name)


def runs_by_hand():
    """The runs of host/ticks.txt that begin with a fresh machine: sequence, read-back set, inputs and instants."""
    runs, state = [], None  # the record that the last line of the last run has left
    for line in (ROOT / "host" / "ticks.txt").read_text(encoding="utf-8").splitlines():
        number, _, rest = line.partition(":")
        if number != "0":
            continue
        sequence, before, _, given, after, answer = rest.split("|")
        sequence, _, read_back = sequence.partition("&")
        program = bytes_of_text(sequence), int(read_back.strip() or "0", 16)
        if not any(bytes_of_text(before)):
            runs.append((*program, [], []))
        elif not runs or bytes_of_text(before) != state or runs[-1][:2] != program:
            continue
        state, answer = bytes_of_text(after), bytes_of_text(answer)
        runs[-1][2].append(int(given, 16))
        numbers = [int.from_bytes(part, "little") for part in (answer[2:4], answer[4:8], state[1:])]
        runs[-1][3].append((answer[0], answer[1], *numbers))
    return runs


def test_runs_by_hand():
    """What host/ticks.txt expects of the archive, of the machine by labels and of the paper."""
    runs = runs_by_hand()
    expect(len(runs) > 100 and sum(len(inputs) for _, _, inputs, _ in runs) > 150, f"{len(runs)} runs")
    for sequence, read_back, inputs, instants in runs:
        lines, what = lines_of(sequence), f"by hand: {sequence.hex()} & {read_back:x}"
        expect(run(lines, read_back, inputs) == instants, f"{what}: the machine by labels")
        data = run_file(sequence, inputs, read_back)
        status, shown, message = show("--paper", data=data, listing=listed(*instants))
        if any(own[0] == 10 for _, _, own in lines):
            expect(status == 1 and "rewriting has no rule" in message, f"{what}: setpause on paper: {message}")
        else:
            expect(status == 0 and message == "", f"{what}: {shown}{message}")
            expect_paper(lines, read_back, instants, shown, what)
            expect_litres(lines, read_back, inputs, shown, what)


def random_run():
    """One that mostly waits, or, now and then, any sequence without setpause."""
    data, lines, read_back = waiting_sequence(rng.choice([2, 4, 8, 8, 16, 16, 16, 30, 60, 120]))
    if rng.random() < 0.2:
        lines, read_back = without_setpauses(accepted_sequence()[1]), 0
        data = bytes_of(lines)
    inputs = [rng.randrange(16) for _ in range(rng.choice([1, 3, 8]))]
    return run_file(data, inputs, read_back), lines, read_back, inputs


def test_random_papers():
    met = Counter()
    for number in range(PAPERS):
        data, lines, read_back, inputs = random_run()
        instants = run(lines, read_back, inputs)
        words = ["--whole"] * (number % 2)
        status, shown, message = show("--paper", *words, data=data, listing=listed(*instants))
        what = f"paper {number}, {data.hex()}"
        expect(status == 0 and message == "" and "agree" in shown, f"{what}: {shown}{message}")
        expect(not words or not re.search(r"\(\d+ to \d+\)\n", shown), f"{what}: whole: {shown}")
        expect_paper(lines, read_back, instants, shown, what)
        expect_litres(lines, read_back, inputs, shown, what)
        met["litres"] += len(re.findall(r"^instant .* litres? of ", shown, re.M))
        for code, kind, place, *_ in instants:
            met.update([("code", min(code, 2) if code < 255 else code), ("kind", kind), ("outside", place == 65535)])
        met.update({"stopped": shown.count("nothing is struck out"), "held": shown.count("held suspend")})
        met["read back"] += read_back > 0
        expect_parted(data, instants, what)
    for what in [("code", 0), ("code", 1), ("code", 2), ("code", 255), ("kind", 1), ("kind", 2), ("kind", 3), ("outside", True),
                 "stopped", "held", "read back", "litres"]:
        expect(met[what] >= 2, f"met {what} {met[what]} times")


def expect_parted(data, instants, what):
    """A listing with one field changed, with an instant left out at the end, or with one too many."""
    at, field = rng.randrange(len(instants)), rng.randrange(4)
    old = instants[at][field]
    values = (0, 1, 2, 16, 255), (0, 1, 2, 3), (0, 1, 9, 65535), [old ^ 1 << rng.randrange(32)]
    new = rng.choice([value for value in values[field] if value != old])
    changed = [*instants[:at], (*instants[at][:field], new, *instants[at][field + 1 :]), *instants[at + 1 :]]
    ours, theirs = (f"{value:08x}" if field == 3 else value for value in (old, new))
    name = "code kind place emitted".split()[field]
    for listing, said in [
        (changed, f"instant {at + 1}: paper and listing part: {name} {ours} on paper, {theirs} in the listing\n"),
        (instants[:-1], f"instant {len(instants)}: paper and listing part: the listing ends before it\n"),
        ([*instants, (0, 0, 0)], f"instant {len(instants) + 1}: paper and listing part: on paper there is none\n"),
    ]:
        status, shown, message = show("--paper", data=data, listing=listed(*listing))
        expect(status == 1 and message.endswith(f": {said}") and "agree" not in shown, f"{what}: {said}: {shown}{message}")


def test_paper_by_hand():
    """Labels are not read; a page of a held suspend and one of litres; no listing; no instants."""
    frozen = run_file(bytes.fromhex("0b0004 0100 0201"), [1, 1, 0])
    listing = listed((1, 0, 1), (1, 0, 1), (0, 2, 0))
    answer = show("--paper", data=frozen, listing=listing)
    expect(answer == (0, FROZEN, ""), f"by hand: {answer}")
    delivering = run_file(bytes.fromhex("04 0c03 8096984a 04 0105 08 03 04 0c03 00008040 04 0c0b 0000803f 0c0b 00000040"), [0, 0])
    answer = show("--paper", data=delivering, listing=listed((1, 8, 32), (0, 0x800, 0)), names="signal 3 north\n")
    expect(answer == (0, DELIVERED, ""), f"litres by hand: {answer}")
    blind = listed((1, 0, 2), (1, 0, 4), (0, 2, 0))
    expect(show("--paper", data=frozen, listing=blind)[0] == 0, "the paper reads no labels")
    empty = show("--paper", data=run_file(b"\0"), listing=listed())
    expect(empty[0] == 0 and empty[1].endswith("\n\npaper and listing agree: 0 instants\n"), f"no instants: {empty}")
    one = show("--paper", data=run_file(b"\0", [0, 0]), listing=listed((0, 0, 0)))
    expect(one[0] == 0 and one[1].endswith("\n\ninputs not used: 1\npaper and listing agree: 1 instant\n"), f"one instant: {one}")
    for listing in "refused 8\n", "", listed((1, 0, 1))[:-4], listed((1, 0, 1)).replace("1 1", "2 1"):
        expect_damage(show("--paper", data=frozen, listing=listing), "listing: line ", f"a listing that is none: {listing!r}")
    expect(show("--whole", data=frozen, listing=blind)[0] == 2, "--whole without --paper")


FROZEN = """\
place  bytes  command
    0  0B 00  suspend … when 0
    2  04       …; then …
    3  01 00      pause, label 0
    5  02 01      emit 1

ceiling: 4 × 1 × 1 = 4 reactions (4 commands; around one: 0 loops, 0 signals)

instant 1: input 0; emitted none; code 1, waiting
struck out
-   3  01 00      pause, label 0
remains
    0  0B 00  held suspend … when 0
    2  04       …; then …
    3             nothing
    5  02 01      emit 1

instant 2: input 0; emitted none; code 1, waiting
nothing is struck out
remains
    0  0B 00  held suspend … when 0
    2  04       …; then …
    3             nothing
    5  02 01      emit 1

instant 3: input none; emitted 1; code 0, ended
nothing remains

paper and listing agree: 3 instants
"""


DELIVERED = """\
place  bytes              command
    0  04                 …; then …
    1  0C 03 80 96 98 4A    emit 3 north with 5,000,000 litres
    7  04                   …; then …
    8  01 05                  pause, label 5
   10  08 03                  signal 3 north in …
   12  04                       …; then …
   13  0C 03 00 00 80 40          emit 3 north with 4 litres
   19  04                         …; then …
   20  0C 0B 00 00 80 3F            emit 11 with 1 litre
   26  0C 0B 00 00 00 40            emit 11 with 2 litres

ceiling: 10 × 1 × 2 = 20 reactions (10 commands; around one: 0 loops, 1 signal)

instant 1: input none; emitted 3 north; 5,000,000 litres of 3 north; code 1, waiting
struck out
-   0  04                 …; then …
-   1  0C 03 80 96 98 4A    emit 3 north with 5,000,000 litres
-   8  01 05                  pause, label 5
remains
    7  04                 …; then …
    8                       nothing
   10  08 03                signal 3 north in …  (10 to 26)

instant 2: input none; emitted 11; 3 litres of 11; code 0, ended
nothing remains

paper and listing agree: 2 instants
"""


def test_page():
    """examples/paper.md shows what its command prints, in parts, and what is said where paper and listing part."""
    text = (ROOT / "examples" / "paper.md").read_text(encoding="utf-8")
    *words, run_name = re.search(r"\n    tools/show (--paper .*)\n", text)[1].split()
    blocks = re.findall(r"```text\n(.*?)```\n", text, re.S)
    listing = {f"examples/{name}": listing for name, _, _, listing in examples()}[run_name]
    words = [ROOT / word if "/" in word else word for word in words]
    data = (ROOT / run_name).read_bytes()
    answer = show(*words, data=data, listing=listing)
    expect(answer == (0, "\n".join(blocks[:-1]), ""), f"the page of {run_name}: {answer}")
    status, shown, message = show(*words, data=data, listing=listing.replace("\n3 1 0 0 00000800", "\n3 1 0 0 00000900"))
    parted = shown.endswith(blocks[3]) and message.partition(": instant")[1:] == blocks[-1].partition(": instant")[1:]
    expect(status == 1 and parted and len(blocks) == 7, f"where they part: {message}")
