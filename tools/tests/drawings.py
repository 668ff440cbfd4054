"""Names, drawings and dumps (U2.4 to U2.6): by hand, on the examples, on the longest run, and through GTKWave's own readers."""
import re
import shutil
import subprocess
import xml.etree.ElementTree

from tests.common import LABELS, ROOT, examples, expect, expect_damage, folder, listed, rng, run_file, show
from tests.generate import lines_of
from tests.readers import SPACE, picture_of, picture_of_svg, picture_of_vcd, sets_of, values_of_vcd
from tests.runs import VALVE, VALVE_LISTING, WORKED, WORKED_LISTING, expect_pictures
from tests.sequences import fit

NAMES = """\
# a comment
signal 0 inner   # and another
signal 1 done

label 1 Wärmetauscher-2_ab
label 0 x
"""
NAMED = """\
place  bytes  command
    0  08 00  signal 0 inner in …
    2  04       …; then …
    3  02 00      emit 0 inner
    5  04         …; then …
    6  01 01        pause, label 1 Wärmetauscher-2_ab
    8  02 01        emit 1 done

ceiling: 6 × 1 × 2 = 12 reactions (6 commands; around one: 0 loops, 1 signal)

instant                       1 2
emitted  1 done               . #
label    1 Wärmetauscher-2_ab # .
code                          1 0

codes: 1 waiting; 0 ended
instant 2: ended
"""


def test_names():
    answer = show(data=WORKED, listing=WORKED_LISTING, names=NAMES)
    expect(answer == (0, NAMED, ""), f"names: {answer}")
    answer = show("--sequence", data=WORKED[2:12], names=NAMES)
    expected = NAMED[: NAMED.index("\n\ninstant") + 1] + fit(lines_of(WORKED[2:12]))
    expect(answer == (0, expected, ""), f"names of a sequence: {answer}")
    status, shown, _ = show("--paper", data=WORKED, listing=WORKED_LISTING, names=NAMES)
    for line in ("instant 2: input none; emitted 1 done; code 0, ended", "-   6  01 01        pause, label 1 Wärmetauscher-2_ab",
                 "    0  08 00  signal 0 inner in …"):
        expect(status == 0 and f"\n{line}\n" in shown, f"names on paper: {line}: {shown}")
    answer = show(data=VALVE, listing=VALVE_LISTING, names="signal 24 z\nsignal 8 valve")
    expect(answer[0] == 0 and answer[1].startswith("reads back 8 valve, 24 z\n"), f"names of read-back signals: {answer}")
    drawn = show("--svg", "-", data=WORKED, listing=WORKED_LISTING, names=NAMES)[1]
    expect(">label 1 Wärmetauscher-2_ab</text>" in drawn and ">emitted 1 done</text>" in drawn, f"names in a drawing: {drawn}")
    dump = show("--vcd", "-", data=WORKED, listing=WORKED_LISTING, names=NAMES)[1]
    expect(set(values_of_vcd(dump)[0]) == {("run", "instant"), ("run", "code"), ("run", "kind"), ("run", "place"),
                                           ("emitted", "done_1"), ("label", "Wärmetauscher-2_ab_1")}, f"names in a dump: {dump}")
    twice = show("--sequence", data=bytes.fromhex("0501010101"), names=NAMES)
    expect_damage(twice, r"two pauses with label 1 Wärmetauscher-2_ab \(row 8\)", "names in a message")


def test_damaged_names():
    """Each with its line; the greatest numbers are taken."""
    for text, line in [
        ("signal 32 x", 1), ("\n\nsignal 1 x\nsignal 1 y", 4), ("signal 1 x\nsignal 2 x", 2), (f"label {LABELS} x", 1),
        ("label 999 x", 1), ("label 1 x\nlabel 1 x", 2), ("signal x 1", 1), ("signal 1", 1), ("signal 1 a b", 1),
        ("signal 1 1a", 1), ("signal 1 -", 1), ("Signal 1 a", 1), ("signal -1 a", 1), ("signal ١ a", 1), ("signal 1 a,b", 1),
        ("signal 1 <a>", 1), ("signal 1 " + "a" * 25, 1), ("signal 1 a\0", 1), ("pump", 1), ("exit 1 a", 1),
    ]:
        expect_damage(show(data=WORKED, listing=WORKED_LISTING, names=text), f"/names: line {line}: ", f"names {text!r}")
    for data, said in (b"signal 1 \xff", "/names: byte 9: not UTF-8"), (b"#" * 65537, "/names: a file of names has at most"):
        expect_damage(show(data=WORKED, listing=WORKED_LISTING, names=data), said, said)
    most = f"signal 31 x\nlabel {LABELS - 1} x\nsignal 0 {'a' * 24}\r\n\tlabel  0\ty "
    expect(show(data=WORKED, listing=WORKED_LISTING, names=most)[0] == 0, "names at the edges")
    for number in range(300):
        changed = bytearray(NAMES.encode())
        for _ in range(rng.randrange(1, 4)):
            changed[rng.randrange(len(changed))] = rng.randrange(256)
        status, _, message = show(data=WORKED, listing=WORKED_LISTING, names=bytes(changed))
        told = status == 0 and not message or status == 1 and "/names: " in message
        expect(told, f"changed names {number}: {changed}: {message}")


def names_of(page):
    """The names in the table of an example's page."""
    text = (ROOT / "examples" / f"{page}.md").read_text(encoding="utf-8")
    return dict(re.findall(r"^\| (\d+) \| ([\w-]+) \|", text[text.index("| Signal | Name |") :].partition("\n\n")[0], re.M))


def test_names_of_examples():
    """Those of the pages; with them the runs show what they show without."""
    files = sorted((ROOT / "examples").glob("*.names"))
    expect([path.stem for path in files] == ["clean", "hatch", "intake", "tour", "valve"], f"files of names: {files}")
    for name, data, _, listing in examples():
        path = ROOT / "examples" / f"{name.partition('.')[0].partition('-')[0]}.names"
        if path.exists():
            text = path.read_text(encoding="utf-8")
            expect(dict(re.findall(r"^signal (\d+) (\S+)$", text, re.M)) == names_of(path.stem), f"{path.name} and its page")
            expect_pictures(data, listing, f"{name} with names", names=text)


def test_drawing_of_a_wrong_instant():
    """In red, with its kind and place; no other instant is."""
    data = run_file(bytes.fromhex("04010008000700000200"), [0, 0, 0])
    drawn = show("--svg", "-", data=data, listing=listed((1, 0, 1), (255, 2, 3, 0, 0)))[1]
    root = xml.etree.ElementTree.fromstring(drawn)
    red = [(t.text, t.get("class")) for t in root.iter(SPACE + "text") if "wrong" in t.get("class", "")]
    told = "instant 2: wrong, kind 2 (the signal is emitted only if absent), place 3: signal 0 in …"
    expect(red == [("2", "wrong"), ("255", "wrong"), (told, "name wrong")], f"in red: {red}")
    backgrounds = [rect.get("class") for rect in root.iter(SPACE + "rect")]
    expect(backgrounds == ["background", "fault"], f"the background of a wrong instant: {drawn}")
    expect(root.find(SPACE + "title").text == f"data: {told}" and "inputs not used: 1" in drawn, f"title: {drawn}")
    expect(int(root.get("width")) > 6 * len(told), f"space for what is told: {drawn}")
    drawn = show("--svg", "-", data=WORKED, listing=WORKED_LISTING)[1]
    expect("wrong\"" not in drawn and "fault\"" not in drawn, f"nothing in red: {drawn}")


def test_ignored_inputs():
    """By hand: the host gives 8 and 9, and 8 is read back, so nobody reads the host's 8; the other rows are as ever (U2.13)."""
    data = run_file(bytes.fromhex("0402080708020900"), [0x300], 0x100)
    status, shown, _ = show(data=data, listing=listed((0, 0x300, 0)))
    picture = """\
instant    1
input    8 o
input    9 #
emitted  8 #
emitted  9 #
code       0

codes: 0 ended
o: an input that is ignored, since the signal is read back
instant 1: ended
"""
    expect(status == 0 and shown.endswith(f"\n\n{picture}"), f"an ignored input: {shown}")
    drawn = show("--svg", "-", data=data, listing=listed((0, 0x300, 0)))[1]
    kinds = [path.get("class") for path in xml.etree.ElementTree.fromstring(drawn).iter(SPACE + "path")]
    expect(kinds == ["input ignored", "input", "emitted", "emitted", "grid"], f"an ignored input, drawn: {kinds}")
    expect(">input ignored, since read back<" in re.sub(r"</tspan> ", ">", drawn.replace(" <tspan", "<")), f"its legend: {drawn}")
    page = show("--html", "-", data=data, listing=listed((0, 0x300, 0)))[1]
    expect('class="input ignored"' in page and "8 (ignored: read back)" in page, "an ignored input on a page")
    other = show(data=data[:10] + bytes(4) + data[14:], listing=listed((0, 0x100, 0)))[1]
    expect(" o" not in other.partition("instant")[2], f"with an empty set none is ignored: {other}")


def test_longest_run():
    """16,382 instants, each with inputs of 32 signals: the picture is wrapped, and no file is large."""
    data = run_file(bytes.fromhex("0100"), [rng.getrandbits(32) for _ in range(16382)])
    expect(len(data) == 65536, "no run file has more instants")
    listing = listed(*[(1, 0, 1)] * 16382)
    status, drawn, _ = show("--svg", "-", data=data, listing=listing)
    root = xml.etree.ElementTree.fromstring(drawn)
    expect(status == 0 and len(drawn) < 6e6 and picture_of_svg(drawn) == sets_of(data, listing), f"all signals: {len(drawn)}")
    expect(int(root.get("width")) < 32768 and int(root.get("height")) < 32768, f"{root.get('viewBox')}")
    few = run_file(bytes.fromhex("0100"), [column >> 3 & 1 for column in range(16382)])
    sets = sets_of(few, listing)
    for words, reader in (["--svg", "-"], picture_of_svg), (["--vcd", "-"], picture_of_vcd), ([], picture_of):
        status, drawn, _ = show(*words, data=few, listing=listing)
        expect(status == 0 and len(drawn) < 2e6 and reader(drawn) == sets, f"few signals, {words}: {len(drawn)}")
    short = run_file(bytes.fromhex("0100"), [0] * 100)
    root = xml.etree.ElementTree.fromstring(show("--svg", "-", data=short, listing=listed(*[(1, 0, 1)] * 100))[1])
    blocks = [text for text in root.iter(SPACE + "text") if text.text == "code"]
    expect(int(root.get("width")) < 1100 and len(blocks) == 3, f"100 instants in {len(blocks)} blocks")


def test_dump_by_hand():
    data = run_file(bytes.fromhex("04010008000700000200"), [2, 0])
    status, dump, message = show("--vcd", "-", data=data, listing=listed((1, 0, 1), (255, 2, 3, 0, 0)))
    expect((status, dump, message) == (0, DUMP, ""), f"a dump by hand: {dump}")
    status, dump, _ = show("--vcd", "-", data=run_file(b"\0"), listing=listed())
    expect(status == 0 and dump.endswith("$enddefinitions $end\n#0\n"), f"a dump of no instants: {dump}")


DUMP = """\
$version tools/show $end
$timescale 1 ms $end
$scope module run $end
$var wire 16 ! instant [15:0] $end
$var wire 8 " code [7:0] $end
$var wire 2 # kind [1:0] $end
$var wire 16 $ place [15:0] $end
$upscope $end
$scope module input $end
$var wire 1 % signal_1 $end
$upscope $end
$scope module label $end
$var wire 1 & label_0 $end
$upscope $end
$enddefinitions $end
#0
$dumpvars
b1 !
b1 "
b0 #
b0 $
1%
1&
$end
#100
b10 !
b11111111 "
b10 #
b11 $
0%
0&
#200
"""


def test_dump_through_gtkwave():
    """A dump read and written by vcd2fst and fst2vcd, where they are installed, has the same values at the same times."""
    installed = shutil.which("vcd2fst") and shutil.which("fst2vcd")
    for name, data, _, listing in examples():
        status = show("--vcd", folder / "dump.vcd", data=data, listing=listing, names=NAMES)[0]
        dump = (folder / "dump.vcd").read_text("utf-8")
        if installed:
            subprocess.run(["vcd2fst", folder / "dump.vcd", folder / "dump.fst"], capture_output=True, check=False)
            dump = subprocess.run(["fst2vcd", folder / "dump.fst"], capture_output=True, check=False).stdout.decode()
        expect(status == 0 and picture_of_vcd(dump) == sets_of(data, listing), f"{name}: {dump}")
