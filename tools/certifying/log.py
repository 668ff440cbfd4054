"""The log of a run of the gate, target/gate.log: what it proved and tested, with what, where and for how long."""
import hashlib
import re

LOG = "target/gate.log"
ARCHIVE, HEADER, STORE = "target/staticlib/libintake.a", "include/intake.h", "include/intake_store.h"
SUM = r"(\d+) passed, (\d+) failed"


class Refusal(Exception):
    """Why there is no certificate."""


class Crate:
    """What the log says of one crate: its functions, its axioms in words, and the edits refused.

    The prover counts the axioms that a program reaches; of a library it names those that the library declares.
    """

    def __init__(self, name, verdict, reached):
        self.functions, self.reached, self.edits = field(verdict, "functions"), field(verdict, "axioms"), 0
        if " foreign=" in verdict:
            raise Refusal(f"{name} declares functions of C, whose contracts nothing proves")
        self.axioms = "none of its own" if " target=" not in verdict else f"{self.reached}: {reached}" if self.reached else "0"


def field(line, name):
    """The number that a line of the prover has under a name; 0 where it has none."""
    found = re.search(rf"\b{name}=(\d+)", line)
    return int(found[1]) if found else 0


def one(values, what):
    """The only value."""
    if len(set(values)) != 1:
        raise Refusal(f"{LOG} has {'no' if not values else 'more than one'} {what}")
    return values[0]


def parts(text):
    """The lines before the first test, what each test printed by its name, and the lines after the last."""
    text, _, tail = text.partition("\ngate: sha256 ")
    head, *rest = re.split(r"^gate: test (\S+)\n", text, flags=re.M)
    return head, dict(zip(rest[::2], rest[1::2])), "gate: sha256 " + tail


def crates_in(text):
    """The crates proved, with what the prover's last line says of each."""
    crates, verdict, reached = {}, "", ""
    for line in text.splitlines():
        proved = re.match(r"rt: (\w+) proved$", line)
        edit = re.match(r"rt: must-fail (\w+)/\S+: refused, as it must be", line)
        if line.startswith("logic=proved "):
            verdict = line
        elif line.startswith("axioms "):
            words = re.sub(r"^axioms \w+: | \(\d+ of the .*|none reached of the .*", "", line)
            reached = ", ".join(filter(None, [reached, words]))
        elif proved:
            if not verdict or proved[1] in crates:
                raise Refusal(f"{LOG} has no verdict of {proved[1]}, or two")
            crates[proved[1]] = Crate(proved[1], verdict, reached)
            verdict = reached = ""
        elif edit:
            if edit[1] not in crates:
                raise Refusal(f"{LOG} has an edit of {edit[1]}, which was not proved")
            crates[edit[1]].edits += 1
    return crates


def tests_in(sections):
    """How many comparisons each test made."""
    tests = {}
    for name, text in sections.items():
        last = re.fullmatch(SUM, text.rstrip("\n").rpartition("\n")[2])
        if not last or int(last[2]) != 0 or int(last[1]) == 0:
            raise Refusal(f"{LOG}: {name} has failed, or has no sum")
        tests[name] = int(last[1])
    return tests


def surroundings_in(head):
    """What .ci/run says of interface, compilers, system, processor and papers, by their first words."""
    found = {}
    for kind, words in re.findall(r"^gate: (interface|compiler|system|processor|paper) (.+)$", head, re.M):
        found.setdefault(kind, []).append(words)
    missing = [kind for kind in ("interface", "compiler", "system", "processor", "paper") if kind not in found]
    if missing:
        raise Refusal(f"{LOG} does not say on what it ran ({missing[0]}): run make test again")
    for line in found["paper"]:
        if line.endswith(" differs"):
            raise Refusal(f"{LOG}: paper {line.split()[0]} is not the file whose sum docs/papers.txt has")
    return found


def measured_in(section):
    """What make figures measured: the stack of each kind of call in bytes, promised and measured, and the dearest instant."""
    stacks = re.findall(r"^stack of (.+?) {2,}(\d+) +(\d+)$", section, re.M)
    dearest = re.search(r"^dearest instant .* (\S+ ms, [\d,]+ reactions)$", section, re.M)
    if "intake_check" not in [what for what, _, _ in stacks] or not dearest:
        raise Refusal(f"{LOG}: figures has no stack or no dearest instant")
    return [(what, int(promised), int(measured)) for what, promised, measured in stacks], dearest[1]


class Gate:
    """A run of the gate, by its log."""

    def __init__(self, data):
        text = data.decode("utf-8", "replace")
        self.log_sum = hashlib.sha256(data).hexdigest()
        head, sections, tail = parts(text)
        began, kit = re.search(r"^gate: began (\S+) (\S+)$", head, re.M), re.search(r"^gate: kit (.+)$", head, re.M)
        ended = re.search(r"^gate: ended (\S+) (\S+) (\S+)$", tail, re.M)
        last = re.search(rf"^{SUM}\n\Z", tail, re.M)
        took = re.search(r"^gate: took (\d+) s$", tail, re.M)
        if not (began and ended and kit and last and took and "rt" in sections):
            raise Refusal(f"{LOG} is not a whole log of the gate: run make test")
        self.commit, self.clean = began[1], began[2] == ended[2] == "clean" and began[1] == ended[1]
        self.date, self.kit, self.last, self.took = ended[3], kit[1], last[0].rstrip(), int(took[1])
        if int(last[2]) != 0:
            raise Refusal(f"the gate failed: its last line is '{self.last}'")
        self.crates = crates_in(sections["rt"])
        self.tests = tests_in(sections)
        self.logic = one(re.findall(r"^logic \S+: .*\bsum=([0-9a-f]{64})$", text, re.M), "sum of the logic")
        self.words = one(re.findall(r"^logic=proved .*?\b(native=.*)$", sections["rt"], re.M), "list of what is trusted")
        told = re.search(r"^rt: ok; handles allowed: .*?; must-fail edits: (\d+) refused(.*); every proof and must-fail edit was done in this run$",
                         sections["rt"], re.M)
        self.edits = sum(crate.edits for crate in self.crates.values())
        if not told:
            raise Refusal(f"{LOG}: rt ci did not do every proof and edit in that run: with rt ci --anew it does")
        if int(told[1]) != self.edits or " bad" in told[2] or self.tests["rt"] != len(self.crates) + self.edits:
            raise Refusal(f"{LOG}: the crates and edits that it names are not as many as rt counted")
        if self.last != f"{sum(self.tests.values())} passed, 0 failed":
            raise Refusal(f"{LOG}: the last line is not the sum of the tests")
        built = re.search(rf"^logic=proved (.*)\narchive: {ARCHIVE} has the functions of intake ", text, re.M)
        if not built:
            raise Refusal(f"{LOG} has no verdict of the archive")
        self.archive_axioms = field(built[1], "axioms")
        self.sums = {path: value for value, path in re.findall(r"^gate: sha256 ([0-9a-f]{64}) +(\S+)$", tail, re.M)}
        if sorted(self.sums) != sorted([ARCHIVE, HEADER, STORE]):
            raise Refusal(f"{LOG} lacks the sum of the archive or of a header")
        self.surroundings = surroundings_in(head)
        self.stacks, self.dearest = measured_in(sections.get("figures", ""))
