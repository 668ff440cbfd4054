"""Runs: the picture of text and the drawing of the examples, of random runs and of damaged ones."""
import re

from tests.common import LABELS, ROOT, examples, expect, expect_damage, folder, listed, rng, run_file, show
from tests.generate import accepted_sequence, nesting
from tests.readers import picture_of, picture_of_svg, picture_of_vcd, sets_of
from tests.sequences import bytes_shown, damage

RUNS, GARBAGE = 50, 120

WORKED = bytes.fromhex("0a00 08000402000401010201 00000000 0000000000000000")
WORKED_LISTING = listed((1, 0, 2), (0, 2, 0))
WORKED_SHOWN = """\
place  bytes  command
    0  08 00  signal 0 in …
    2  04       …; then …
    3  02 00      emit 0
    5  04         …; then …
    6  01 01        pause, label 1
    8  02 01        emit 1

ceiling: 6 × 1 × 2 = 12 reactions (6 commands; around one: 0 loops, 1 signal)

instant    1 2
emitted  1 . #
label    1 # .
code       1 0

codes: 1 waiting; 0 ended
instant 2: ended
"""
VALVE = bytes.fromhex("0800 0402080708020900 00010001 00000000")  # with 24, which is in no command, the highest of the set
VALVE_LISTING = listed((0, 0x300, 0))
VALVE_SHOWN = """\
reads back 8, 24
place  bytes  command
    0  04     …; then …
    1  02 08    emit 8
    3  07 08    present 8 then … else …
    5  02 09      emit 9
    7  00         nothing

ceiling: 7 × 1 × 4 = 28 reactions (7 commands; around one: 0 loops, 2 signals)

instant    1
emitted  8 #
emitted  9 #
code       0

codes: 0 ended
instant 1: ended
"""
TOPPING_SHOWN = """
ceiling: 18 × 2 × 1 = 36 reactions (18 commands; around one: 1 loop, 0 signals)

instant      1   2   3   4
input    0   #   #   #   .
emitted  8   #   #   #   .
emitted  9   #   .   #   .
label    0   #   .   #   .
label    1   .   #   .   .
label    2   #   #   #   .
code         1   1   1 255

codes: 1 waiting; 255 wrong
instant 4: wrong, kind 1 (the loop's body ended in the instant in which it began), place 17: loop …
inputs not used: 1
"""

KNOT_SHOWN = """
instant 3: wrong, kind 2 (the signal is emitted only if absent), place 65535: a read-back signal
inputs not used: 1
"""


def expect_pictures(data, listing, what, names=None):
    """The same run as a picture of text, as a drawing and as a dump."""
    sets = sets_of(data, listing)
    status, shown, message = show(data=data, listing=listing, names=names)
    picture = shown[shown.index("\n\n") :] if "\n\n" in shown else ""
    expect(status == 0 and not message and picture_of(picture) == sets, f"{what}: picture: {shown}")
    told = re.compile(r"instant \d+: |codes: ")
    expect(all(len(line) <= 100 or told.match(line) for line in picture.splitlines()), f"{what}: width: {shown}")
    for option, reader in ("--svg", picture_of_svg), ("--vcd", picture_of_vcd):
        status, shown, message = show(option, "-", data=data, listing=listing, names=names)
        expect(status == 0 and not message and reader(shown) == sets, f"{what}: {option}: {shown[:2000]}")
        drawn = folder / "drawn"
        drawn.write_bytes(b"")
        answer = show(option, drawn, data=data, listing=listing, names=names)
        expect(answer == (0, "", "") and drawn.read_text("utf-8") == shown, f"{what}: {option} in a file")


def test_examples():
    names = set()
    for name, data, commands, listing in examples():
        names.add(name)
        status, shown, message = show(data=data, listing=listing)
        expect(status == 0 and shown.startswith(commands + "\n") and not message, f"{name}: {shown}")
        expect(name != "topping.bin" or shown == commands + TOPPING_SHOWN, f"{name}, the whole: {shown}")
        expect(name != "valve-knot.bin" or shown.endswith(KNOT_SHOWN), f"{name}, its end: {shown}")
        expect_pictures(data, listing, name)
        kept = (ROOT / "examples" / name).with_suffix(".svg")  # the picture of a page, where it has one, with its names
        if kept.exists():
            words = "--svg", "-", kept.with_suffix(".bin")
            drawn = show(*words, listing=listing, names=kept.with_suffix(".names").read_text("utf-8"))[1]
            expect(drawn == kept.read_text("utf-8"), f"{kept.name} is what tools/show draws")
    expect(names == {path.name for path in (ROOT / "examples").glob("*.bin")}, f"every example has a page: {names}")
    expect(show(data=WORKED, listing=WORKED_LISTING) == (0, WORKED_SHOWN, ""), "the worked example of 01")
    expect(show(data=VALVE, listing=VALVE_LISTING) == (0, VALVE_SHOWN, ""), "a signal read back")


def random_run():
    """A run file and a listing that could be its own: only the rules of a reaction would tell."""
    while True:
        data, lines = accepted_sequence()
        emits = {own[1] for _, _, own in lines if own[0] in (2, 12)}
        pauses = sorted({own[1] for _, _, own in lines if own[0] == 1})
        erring = [(kind, place) for place, _, own in lines for kind in {6: [1], 8: [2, 3]}.get(own[0], [])]
        if pauses:
            break
    signals = rng.sample(range(32), rng.randrange(7 - nesting(lines))) if rng.random() < 0.5 else []
    erring += [(2, 65535), (3, 65535)] * bool(emits & set(signals))
    count = rng.choice([0, 1, 5, 29, 31, 120])
    inputs = [rng.getrandbits(32) & rng.getrandbits(32) for _ in range(count)]
    stop = rng.choice([count, rng.randrange(count + 1)])
    instants = []
    for instant in range(1, stop + 1):
        emitted = sum(1 << signal for signal in emits if rng.random() < 0.5)
        labels = sum(1 << label for label in rng.sample(pauses, rng.randrange(1, len(pauses) + 1)))
        code, kind, place = 1, 0, 0
        if instant == stop and (stop < count or rng.random() < 0.5):
            code, labels = rng.choice([0, 2, 16, 255 if erring else 0]), 0
        if code == 255:
            emitted, (kind, place) = 0, rng.choice(erring)
        instants.append((code, kind, place, emitted, labels))
    run = run_file(data, inputs, sum(1 << signal for signal in signals))
    return run, listed(*instants), stop == 0 and count > 0


def test_random_runs():
    for number in range(RUNS):
        run, listing, short = random_run()
        if short:
            expect_damage_of_run(run, listing, "'end' before the inputs are used up", f"run {number}")
        else:
            expect_pictures(run, listing, f"random run {number}")


def expect_damage_of_run(data, listing, said, what):
    """Damage is told with either picture asked for, and none is drawn."""
    expect_damage(show(data=data, listing=listing), said, what)
    svg = show("--svg", "-", data=data, listing=listing)
    expect_damage(svg, said, f"{what}: SVG")
    expect(svg[1] == "", f"{what}: no SVG")


def test_damaged_runs():
    """Run files by hand: 01's 'input cut' comes before a bad sequence, rows 2 to 10 before the listing."""
    cut = r"byte {}: .*\(input cut\)"
    for data, said in [
        (b"", cut.format(0)), (b"\x0a", cut.format(1)), (WORKED[:2], cut.format(2)), (WORKED[:11], cut.format(11)),
        (WORKED[:12], cut.format(12)), (WORKED[:13], cut.format(13)), (WORKED[:15], cut.format(15)),
        (WORKED[:17], r"byte 16: 1 byte over.*\(input cut\)"), (WORKED + b"\0", cut.format(24)),
        (WORKED + b"\0\0\0", r"byte 24: 3 bytes over.*\(input cut\)"),
        (b"\x02\0\x0d", cut.format(3)), (b"\x01\0\x0d", cut.format(3)), (b"\x01\0\x0d" + bytes(3), cut.format(6)),
        (b"\x01\0\x0d" + bytes(4), r"place 0: .*\(row 3\)"), (b"\x01\0\x0d" + bytes(5), cut.format(7)),
        (b"\x01\0\0\x7f\0\0", cut.format(6)), (b"\x01\0\0\x7f\0\0\0", r"read-back: 7 signals .*\(row 6\)"),
        (run_file(bytes.fromhex("0800" * 6 + "00"), (), 1), r"read-back: 1 signal and 6 .*\(row 6\)"),
        (run_file(b"\0\0"), r"place 1: 1 byte after .*\(row 7\)"), (run_file(bytes(3)), r"place 1: 2 bytes after .*\(row 7\)"),
        (bytes(65537), cut.format(65536)), (bytes(65534), r"place 0: .*\(row 2\)"), (b"\0\0", cut.format(2)),
        (bytes(6), r"\(row 2\)"), (b"\x01\x04" + bytes(1025), cut.format(1027)),
        (b"\x01\x04" + bytes(1029), r"\(row 2\)"), (b"\xff\xff" + bytes(65534), cut.format(65536)),
    ]:
        expect_damage_of_run(data, WORKED_LISTING, said, f"run file {data[:20].hex()}")
    expect(bytes_shown(show(data=WORKED[:9], listing="")[1]) == WORKED[2:8], "commands before the cut")
    for text, said in [
        ("0501000100", r": places 1 and 3: two pauses with label 0 \(row 8\)"),
        ("040a0504050a0001010100", r": place 1: setpause 5, and no pause has that label \(row 9\)"),
        ("04010104050a0201030102", r": labels 2 and 3: their pauses at 9 and 7 are exclusive, but not setpause 2 at 5 and "
                                   r"pause 3 at 7: not well-formed \(row 10\)"),
    ]:
        for listing in WORKED_LISTING, "refused 8\n", "refused 9\n", "refused 10\n":
            expect_damage_of_run(run_file(bytes.fromhex(text), [0]), listing, said, f"rows 8 to 10: {text}")
    for number in 8, 9, 10:
        said = f"listing: line 1: refused {number}, but row {number} does not turn this sequence down"
        expect_damage_of_run(WORKED, f"refused {number}\n", said, said)


def test_damaged_listings():
    """Listings that do not fit."""
    one, two = WORKED_LISTING.splitlines()[1:3]
    digits = LABELS // 4

    def line(number, code, kind, place, emitted, labels=0):
        return f"{number} {code} {kind} {place} {emitted:08x} {labels:0{digits}x}"

    for old, new in [
        ("instant code", "instant  code"), ("end\n", ""), ("end\n", "end"), ("end\n", "end\nend\n"), ("end\n", "\nend\n"),
        (one + "\n", ""), (two + "\n", ""), (two, two + "\n" + line(3, 0, 0, 0, 0)), (one, one + " "),
        (one, one + "0"), (one, one[:-1]), (two, line(2, 1, 0, 0, 2)), (one, line(1, 0, 0, 0, 0)), (one, "1" + one),
        (one, line(1, 1, 0, 0, 0, 4)), (two, line(2, 0, 0, 0, 4)), (two, line(2, 17, 0, 0, 2)), (two, line(2, 0, 1, 0, 2)),
        (two, line(2, 255, 2, 2, 0)), (two, line(2, 255, 1, 0, 0)), (two, line(2, 255, 2, 0, 2)), (two, line(2, 255, 0, 0, 0)),
        (one, one.upper()[:-1] + "²"), (one, "١" + one[1:]), (WORKED_LISTING, ""), (WORKED_LISTING, "input cut\n"),
        (WORKED_LISTING, "refused 3\n"), (WORKED_LISTING, "refused 11\n"), (WORKED_LISTING, "x" * 2000000),
    ]:
        expect_damage_of_run(WORKED, WORKED_LISTING.replace(old, new, 1), "listing: ", f"listing with {new[:60]!r}")
    wrong = WORKED_LISTING.replace(two, line(2, 255, 2, 0, 0))
    expect(show(data=WORKED, listing=wrong)[0] == 0, "a wrong instant at the signal")


def test_read_back_places():
    """An error outside the sequence: only of a signal that is read back and emitted, and of kind 2 or 3."""

    def listing(kind, place=65535):
        return listed((255, kind, place, 0, 0))

    def without(signal):
        return VALVE[:10] + (0x01000100 & ~(1 << signal)).to_bytes(4, "little") + VALVE[14:]

    for kind, why in (2, "absent"), (3, "present"):
        status, shown, _ = answer = show(data=VALVE, listing=listing(kind))
        told = f"instant 1: wrong, kind {kind} (the signal is emitted only if {why}), place 65535: a read-back signal\n"
        expect(status == 0 and shown.endswith(told), f"kind {kind} outside: {answer}")
        expect(show(data=without(24), listing=listing(kind))[0] == 0, f"kind {kind} outside, without a signal not emitted")
        expect_damage_of_run(without(8), listing(kind), "listing: line 2", f"kind {kind} outside, and not read back")
    for bad in listing(1), listing(2, 65534), listing(2, 655350), listing(0):
        expect_damage_of_run(VALVE, bad, "listing: line 2", f"an error that cannot be: {bad}")


def test_garbage():
    """Random bytes as run file and as listing, and either with some bytes changed: a message and no traceback, whatever comes."""
    known = list(examples())
    for number in range(GARBAGE):
        _, data, _, listing = rng.choice(known)
        words = rng.choice([[], ["--paper"], ["--svg", "-"], ["--vcd", "-"]])
        changed = bytearray(listing.encode())
        changed[rng.randrange(len(changed))] = rng.randrange(256)
        for what, file, lines in ("run file", damage(data), listing), ("listing", data, bytes(changed)):
            status, _, message = show(*words, data=file, listing=lines)
            told = status == 0 and message == "" or status == 1 and message.startswith("show: ") and message.count("\n") == 1
            expect(told, f"damaged {what} {number}: {file.hex()}: {lines}: {words}: {message}")
        random_lines = rng.randbytes(rng.randrange(99))
        expect_damage(show(*words, data=data, listing=random_lines), "listing: ", f"random listing {number}")
        expect(show(*words, data=rng.randbytes(rng.randrange(99)), listing=listing)[0] == 1, f"random run file {number}")
