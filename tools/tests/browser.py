"""The page of a bay: what stands in it, that nothing in it is fetched or run but its own script, and, where Chromium is installed,
what a browser shows of it at each instant, held to the paper as text (U2.11, U2.12).
"""
import json
import re
import shutil
import subprocess
from collections import Counter
from html.parser import HTMLParser

from showing import pages
from showing.names import Names
from tests.common import ROOT, examples, expect, expect_damage, folder, listed, run_file, show
from tests.papers import instants_on
from tests.runs import VALVE, VALVE_LISTING

BROWSER = shutil.which("chromium") or shutil.which("chromium-browser")
LOOKED_AT = "intake.bin", "valve.bin", "grading.bin", "overflow.bin", "hatch.bin"
HOSTILE = "</script><script>document.title='broken'</script ><!--<script <img src=x onerror=alert(1)>\"'&amp;\u2028"
STEPS = """
<script>
(function () {
  var slider = document.getElementById("slider"), seen = [];
  function texts(table) {
    return Array.from(document.querySelectorAll("#" + table + " tbody tr")).map(function (row) {
      return Array.from(row.cells).map(function (cell) { return cell.title || cell.textContent; });
    });
  }
  for (var at = 0; at <= Number(slider.max); at++) {
    slider.value = at;
    slider.dispatchEvent(new Event("input"));
    seen.push({where: document.getElementById("where").textContent, told: document.getElementById("instant").innerText,
               remains: texts("remains"), struck: texts("struck"), note: document.getElementById("rest-note").textContent,
               cursor: document.getElementById("cursor").getAttribute("x"),
               marked: Array.from(document.querySelectorAll("#commands tr.waits, #commands tr.wrong")).map(function (row) {
                 return [row.className, row.dataset.places]; })});
  }
  document.getElementById("back").click();
  var result = document.createElement("pre");
  result.id = "seen";
  result.textContent = JSON.stringify({seen: seen, back: slider.value, title: document.title,
    wide: document.documentElement.scrollWidth <= window.innerWidth, scripts: document.scripts.length});
  document.body.append(result);
}());
</script>
"""


class Reader(HTMLParser):
    """The tags of a page with their attributes, and the text of its data and its cells."""

    def __init__(self, text):
        super().__init__()
        self.tags, self.inside, self.data, self.cells, self.title = [], None, "", [], ""
        self.feed(text)

    def handle_starttag(self, tag, attrs):
        self.tags.append((tag, dict(attrs)))
        self.inside = "data" if dict(attrs).get("id") == "data" else tag
        if tag == "td":
            self.cells.append("")

    def handle_endtag(self, tag):
        self.inside = None if tag in ("script", "title", "td") else self.inside

    def handle_data(self, data):
        if self.inside == "data":
            self.data += data
        elif self.inside == "title":
            self.title += data
        elif self.inside in ("td", "span"):
            self.cells[-1:] = [self.cells[-1] + data] if self.cells else []


def page(name, data, listing, names=None):
    """The page of a run, in a file of this name."""
    (folder / name).write_bytes(data)
    words = ["--html", folder / f"{name}.html", folder / name]
    answer = show(*words, listing=listing, names=names)
    expect(answer == (0, "", ""), f"a page of {name}: {answer}")
    return (folder / f"{name}.html").read_text("utf-8")


def names_of(name):
    path = ROOT / "examples" / f"{name.partition('.')[0].partition('-')[0]}.names"
    return path.read_text("utf-8") if path.exists() else None


def test_pages():
    """Of every example: one file that fetches nothing, with every command at its place and then and else before their branches."""
    for name, data, _, listing in examples():
        text = page(name, data, listing, names_of(name))
        read = Reader(text)
        expect(read.title == name and text.count("<script") == 2 and text.count("</script>") == 2, f"{name}: its title and scripts")
        for word in "http:", "https:", "src=", "href=", "url(", "@import", "fetch", "XMLHttp", "import(", "innerHTML", "eval":
            expect(word not in text, f"{name}: the page has {word}")
        expect(("meta", {"http-equiv": "Content-Security-Policy", "content": pages.POLICY}) in read.tags, f"{name}: its policy")
        sequence = data[2 : 2 + int.from_bytes(data[:2], "little")]
        status, table, _ = show("--sequence", data=sequence)
        places = [int(line[:5]) for line in table.partition("\n\n")[0].splitlines()[1:]]
        rows = [attrs["data-places"] for tag, attrs in read.tags if tag == "tr" and "data-places" in attrs]
        expect(status == 0 and sorted(int(place) for row in rows for place in row.split()) == places, f"{name}: the places: {rows}")
        marks = Counter(attrs["class"] for tag, attrs in read.tags if tag == "span" and attrs.get("class", "").startswith("mark "))
        presents = table.count("  present ")
        expect(marks == Counter({"mark then": presents, "mark else": presents} if presents else {}), f"{name}: {marks}")
        told = json.loads(read.data)["instants"]
        words = {"0": "ended", "1": "waiting", "255": "wrong"}
        codes = [words.get(line.split()[1], "left by exit") for line in listing.splitlines()[1:-1]]
        expect([instant["code"].partition(" 1")[0] for instant in told] == codes, f"{name}: the codes in words")


def test_chains():
    """By hand: a chain of '; then' is one line with numbered steps, parallels beside each other too, exits with their try."""
    data = bytes.fromhex("09 04 02 08 04 04 01 00 02 09 07 00 03 01 05 00 05 00 03 02")
    text = page("chain", run_file(data, [0]), listed((1, 0x100, 1)))
    rows = [re.sub(r"<[^>]*>", "|", row) for row in re.findall(r"<tr data-places.*?</tr>", text)]
    told = [re.sub(r"\|+", "|", row).strip("|") for row in rows]
    expect(told == ["0|09|try", "1, 4, 5|04|in sequence", "2|02 08|1| emit 8", "6|01 00|2| pause, label 0", "8|02 09|3| emit 9",
                    "10|07 00|4| present 0", "12|03 01|then| exit 1: leaves the try at 0", "14, 16|05|else| in parallel",
                    "15|00|1| nothing", "17|00|2| nothing", "18|03 02|3| exit 2: no try is left: the sequence is over"],
           f"a chain: {told}")
    text = page("tries", run_file(bytes.fromhex("09 09 05 03 01 05 03 02 03 03"), [0]), listed((2, 0, 0)))
    left = re.findall(r"exit \d: [\w :]+", text[text.index("<tbody>") : text.index("</tbody>")])
    expect(left == ["exit 1: leaves the try at 1", "exit 2: leaves the try at 0", "exit 3: no try is left: the sequence is over"],
           f"exits and their tries: {left}")


def test_hostile_pages():
    """Names of files and of signals are text and nothing else, whatever they have in them."""
    name = HOSTILE.replace("/", "∕").replace("\u2028", "")
    read = Reader(page(name, VALVE, VALVE_LISTING))
    expect(read.title == name and [tag for tag, _ in read.tags].count("script") == 2, f"a hostile file: {read.title}")
    expect("img" not in [tag for tag, _ in read.tags], "a hostile file adds no tag")
    names = Names({8: HOSTILE, 9: "]]>\0", 24: "x"}, {0: HOSTILE})
    commands = [command for command in pages_commands(VALVE)]
    text = pages.page_of(HOSTILE, commands, 0x01000100, [0x100], None, [HOSTILE], names)
    read = Reader(text)
    expect([tag for tag, _ in read.tags].count("script") == 2 and "img" not in [tag for tag, _ in read.tags], "hostile names")
    data = json.loads(read.data)
    expect("<" not in read.data and ">" not in read.data and "\u2028" not in read.data, "nothing in the data can end its script")
    expect(data["instants"][0]["emitted"][0] == f"8 {HOSTILE}" and f"emit 8 {HOSTILE}" in "".join(read.cells), "names as they are")
    if BROWSER:
        (folder / "hostile.html").write_text(text.replace("</body>", STEPS + "</body>"), "utf-8")
        seen = looked_at(folder / "hostile.html")
        expect(seen and seen["title"].startswith("</script>") and seen["scripts"] == 3, f"hostile names in a browser: {seen}")
        expect(seen and f"emitted\n8 {HOSTILE[:80]}" in seen["seen"][-1]["told"], f"a hostile name as a browser shows it: {seen}")


def pages_commands(data):
    from showing.sequences import commands_of

    return commands_of(data[2 : 2 + int.from_bytes(data[:2], "little")], 0)


def test_damaged_pages():
    jump = run_file(bytes.fromhex("0401000a00"), [0])
    target = folder / "none.html"
    for words, data, listing, said in [
        ([], jump, listed((255, 1, 0, 0, 0)), "listing: line 2"), ([], jump[:-1], listed((1, 0, 1)), "input cut"),
        ([], run_file(bytes.fromhex("060100"), [0, 0]), listed((1, 0, 1), (0, 0, 0)), "paper and listing part"),
    ]:
        expect_damage(show("--html", target, *words, data=data, listing=listing), said, said)
        expect(not target.exists(), f"no page: {said}")
    long = run_file(bytes.fromhex("0100"), [0] * 5000)
    text = page("long", run_file(bytes.fromhex("060100"), [1] * 5000), listed(*[(1, 0, 1)] * 5000))
    expect("this page shows the first 4,096 instants of the run" in text and len(text) < 2e6 and long, f"a long run: {len(text)}")


def looked_at(path, window="1300,900"):
    """What the script above has seen in a browser; None if there was no such thing."""
    words = [BROWSER, "--headless", "--no-sandbox", "--disable-gpu", "--disable-dev-shm-usage", f"--window-size={window}",
             f"--user-data-dir={folder / 'browser'}", "--dump-dom", path.as_uri()]
    try:
        done = subprocess.run(words, capture_output=True, check=False, timeout=120)
    except subprocess.TimeoutExpired:
        return None
    found = re.search(r'<pre id="seen">(.*?)</pre>', done.stdout.decode("utf-8", "replace"), re.S)
    text = found and found[1].replace("&lt;", "<").replace("&gt;", ">").replace("&nbsp;", "\u00a0").replace("&amp;", "&")
    return json.loads(text) if text else None


def places_in(rows):
    """How often each place is in lines of the page, which may stand for a chain or for all of a statement."""
    return Counter(int(place) for row in rows for place in row[0].split())


def expect_seen(name, data, listing, seen):
    status, shown, _ = show("--paper", data=data, listing=listing)
    lines = [line.split() for line in listing.splitlines()[1:-1]]
    expect(len(seen["seen"]) == len(lines) + 1 and seen["back"] == str(len(lines) - 1), f"{name}: instants: {seen['back']}")
    expect(seen["wide"] and seen["seen"][0]["where"] == "before the first instant", f"{name}: {seen['seen'][0]['where']}")
    for number, (step, line) in enumerate(zip(seen["seen"][1:], lines), 1):
        expect(step["where"] == f"instant {number} of {len(lines)}" and step["cursor"] is not None, f"{name}: {step['where']}")
        word = {"0": "ended", "1": "waiting", "255": "wrong"}.get(line[1], "left")
        expect(step["told"].startswith(f"code\n{word}"), f"{name}: instant {number}: {step['told']}")
        labels = bin(int(line[5], 16)).count("1")
        marked = ["wrong"] if line[1] == "255" and line[3] != "65535" else ["waits"] * labels
        expect([kind for kind, _ in step["marked"]] == marked, f"{name}: instant {number}: {step['marked']}")
        if line[1] != "1":
            expect(not step["remains"] and step["note"] == "Nothing remains: the bay is over.", f"{name}: {step['note']}")
    if status == 0:
        for number, (_, struck, remains) in enumerate(instants_on(shown), 1):
            step = seen["seen"][number]
            for rows, table in (step["remains"], remains), (step["struck"], struck):
                expect(places_in(rows) == Counter(place for _, place, *_ in table), f"{name}: instant {number}: {rows}")


def test_in_a_browser():
    """Each instant as Chromium shows it, on a wide window, and one page on a narrow one."""
    if not BROWSER:
        print("no Chromium here: the pages were not looked at in a browser")
        return
    for name, data, _, listing in examples():
        if name in LOOKED_AT:
            path = folder / f"{name}.html"
            path.write_text(page(name, data, listing, names_of(name)).replace("</body>", STEPS + "</body>"), "utf-8")
            seen = looked_at(path)
            expect(seen is not None, f"{name}: a browser shows the page")
            if seen:
                expect_seen(name, data, listing, seen)
    seen = looked_at(folder / "intake.bin.html", "500,900")
    expect(seen and seen["wide"], f"a narrow window: {seen and seen['wide']}")
