#!/usr/bin/env python3
"""Holds what include/intake.h, docs/HOST.md, docs/CEILING.md and the fit sheet say that the archive takes to what is measured.

  host/figures.py ARCHIVE STACK-PROGRAM DEAREST-PROGRAM    compares, and prints both
  host/figures.py --write                                  writes the page's table from the header

The figures stand in the header, and pages and fit sheet repeat them. The programs are those of host/stack.c and
host/dearest.c. Numbers of reactions are compared on every machine, times on the processor that the header names, where they
may not be twice as long. A control object shows that a further function, a variable or a later instruction would be
noticed. The last line is 'N passed, M failed'.
"""
import re
import subprocess
import sys
import tempfile
from pathlib import Path

ROOT = Path(__file__).resolve().parent.parent
HEADER, PAGE, CEILING = ROOT / "include/intake.h", ROOT / "docs/HOST.md", ROOT / "docs/CEILING.md"
FIT, PROCESSOR = ROOT / "tools/showing/fit.py", Path("/proc/cpuinfo")
EXPORTED = [f"intake_{call}" for call in ("box_admit", "box_forget", "box_ledger", "box_new_year", "box_panel", "box_preview",
                                        "box_release", "box_restore", "box_save", "box_service", "box_tick", "ceiling", "check",
                                        "replay", "tick", "unroll")]
# instructions that name no vector register and are not in the base set of x86-64; objdump's tzcnt is bsf with a prefix
# that an older processor passes over, and LLVM emits it for all
LATER = "andn bextr blsi blsmsk blsr bzhi crc32 lzcnt movbe mulx pdep pext popcnt rorx sarx shlx shrx adcx adox".split()
VECTOR = set("""movaps movups movapd movupd movlps movdqa movdqu movd movq movss movsd xorps andps orps pxor por pand pandn paddb paddw
    paddd paddq psubb psubw psubd psubq pcmpeqb pcmpeqw pcmpeqd pcmpgtb pcmpgtw pcmpgtd pslldq psrldq psllq psllw pslld psrlq
    psrlw psrld psraw psrad pshufd pshufhw pshuflw punpcklbw punpcklwd punpckldq punpcklqdq punpckhbw punpckhwd punpckhdq punpckhqdq
    pmovmskb movmskps movhlps movlhps shufps shufpd unpcklps unpcklpd addss addps subss mulss ucomiss comiss cmpss andnps cvttss2si
    cvtsi2ss cvtsi2ssl cvtsi2ssq cvtdq2ps cvttps2dq pmaxub pminub pmaxsw pminsw pextrw pinsrw""".split())
STEP = 1024  # a promise is the next multiple above what is measured
TIMES_STATED = 2  # so many times what is stated is too long, on the processor that is named
BAYS, SHARED_CEILING = 8, 65536  # of a box (02, item 8)
LINES = {"functions": "Functions of C", "dearest": "Dearest instant found", "round": "Dearest round of a box found",
         "litres": "The same with litres to 32 farms in every bay", "preview": "Dearest preview found", "planned": "To plan with"}
COSTS = r"""^dearest instant: (\S+) ms, (\d+) reactions
dearest round: (\S+) ms, (\d+) reactions
dearest round with litres: (\S+) ms, (\d+) reactions, without them (\S+) ms
dearest preview: (\S+) ms, (\d+) reactions, of inputs not asked for (\S+) ms
(\d+) passed, 0 failed$"""
CONTROL = """
#include <stdlib.h>
int kept;
void *control(unsigned long n) { kept++; return malloc((unsigned long)__builtin_popcountl(n)); }
"""

passed = failed = 0


def expect(holds, what, stated, measured):
    global passed, failed
    passed += bool(holds)
    failed += not holds
    print(f"{what:32} {stated!s:>40} {measured!s:>40}{'' if holds else '  FAILED'}")


def promised(what, name, figures, amount):
    """Holds bytes to the promise, and says which promise would be the next above them."""
    rounded = -(-amount // STEP) * STEP
    expect(0 < amount <= figures[name], what, figures[name], amount)
    if amount and rounded != figures[name]:
        print(f"{'':32} INTAKE_{name} would be {rounded}")


def printed(*words):
    return subprocess.run(words, check=True, capture_output=True, text=True).stdout


def measured(program, pattern):
    """What a program says of the pattern, even if it holds a promise to be broken; None if it says nothing."""
    done = subprocess.run([program], capture_output=True, text=True, check=False)
    return re.search(pattern, done.stdout, re.M | re.S)


def stated():
    """What the header states."""
    text = HEADER.read_text(encoding="utf-8")
    figures = {name: int(value) for name, value in re.findall(r"^#define INTAKE_(\w+) (\d+)$", text, re.M)}
    for name, what in LINES.items():
        figures[name] = re.search(rf"^ \* - {what}: (.*)$", text, re.M)[1]
    return figures


def quoted(line):
    """A line of the header as a page has it: commands in backquotes."""
    return re.sub(r"\bmake [a-z-]+", lambda found: f"`{found[0]}`", line)


def planned(figures):
    """Microseconds of an instant and nanoseconds of a reaction, with which a planner counts."""
    return tuple(int(number) for number in re.match(r"(\d+) us an instant and (\d+) ns a reaction", figures["planned"]).groups())


def named_processor(figures):
    """Whether this machine has the processor that the header names."""
    family = re.search(r"family (\d+) model (\d+)", figures["dearest"])
    text = PROCESSOR.read_text(encoding="utf-8") if PROCESSOR.exists() else ""
    here = re.search(r"^cpu family\s*: (\d+)\nmodel\s*: (\d+)$", text, re.M)
    return here is not None and here.groups() == family.groups()


def ceiling_rows(figures):
    """What docs/CEILING.md says by the same figures: its formula and rows of its table."""
    base, each = planned(figures)
    most = (BAYS * base + SHARED_CEILING * each / 1000) / 1000
    time, count = figures["round"].split(" (")[0].split(", ")
    litres, litres_count = figures["litres"].split(" (")[0].split(", ")
    preview = figures["preview"].split(", ")[0]
    return [
        f"    time of an instant ≤ {base} µs + {each} ns × reactions, and the reactions by the ceiling\n",
        f"| the dearest round of any box, litres or not | at most {SHARED_CEILING:,} | at most {BAYS} × {base} µs + "
        f"{SHARED_CEILING:,} × {each} ns = {most:.2f} ms |\n",
        f"| the dearest round found (`make figures`) | {count.split()[0]} | {time} |\n",
        f"| the dearest found with litres to 32 farms in every bay (`make figures`) | {litres_count.split()[0]} | {litres} |\n",
        f"| the dearest preview found, six unknown inputs that are all asked for (`make figures`) | {figures['preview'].split(', ')[1].split()[0]} "
        f"in 64 instants | {preview} |\n",
    ]


def table(figures):
    """The page's table of these figures."""
    functions = ", ".join(f"`{name}`" for name in figures["functions"].split(", "))
    return f"""\
| | |
|---|---|
| target | x86-64, System V calling convention, ELF; base instructions, so SSE2 and nothing later; there is no other target today |
| functions of C | {functions}, and nothing else |
| stack of `intake_check`, `intake_ceiling` | at most {figures["STACK_CHECK"]:,} bytes |
| stack of `intake_tick` | at most {figures["STACK_TICK"]:,} bytes |
| stack of `intake_replay` | at most {figures["STACK_REPLAY"]:,} bytes |
| stack of a call on a box | at most {figures["STACK_BOX"]:,} bytes |
| stack of `intake_unroll` | at most {figures["STACK_UNROLL"]:,} bytes |
| a box, lent by the host | {figures["BOX_LENGTH"]:,} bytes |
| a thread that only ticks | give it {figures["STACK_THREAD"]:,} bytes; with {figures["STACK_THREAD"] // 2:,} it crashes |
| code and jump tables | at most {figures["CODE_LENGTH"]:,} bytes |
| heap, variables outside the stack, files | none |
| the dearest instant found | {quoted(figures["dearest"])} |
| the dearest round of a box found | {quoted(figures["round"])} |
| the same with litres to 32 farms in every bay | {quoted(figures["litres"])} |
| the dearest preview found | {quoted(figures["preview"])} |
| to plan with | {quoted(figures["planned"]).replace(" us ", " µs ")} |
"""


def undefined(path):
    return sorted(set(re.findall(r"^ +U (\S+)$", printed("nm", "-u", path), re.M)))


def defined(path):
    return sorted(set(re.findall(r"^[0-9a-f]+ [A-Z] (\S+)$", printed("nm", "-g", "--defined-only", path), re.M)))


def sizes(path):
    """Bytes of code with read-only data, of data, and of data that begins at 0."""
    rows = re.findall(r"^ +(\d+)\t +(\d+)\t +(\d+)\t", printed("size", path), re.M)
    return tuple(sum(int(row[i]) for row in rows) for i in range(3))


def later(path):
    """The instructions that a processor with no more than SSE2 may not have."""
    found = set()
    for line in printed("objdump", "-d", "--no-show-raw-insn", path).splitlines():
        word = re.match(r" +[0-9a-f]+:\t(?:rep[a-z]* |lock |data16 )*([a-z0-9]+) *([^<#]*)", line)
        if word and (word[1].rstrip("lqw") in LATER or word[1] in LATER or re.search(r"%[yz]mm|%k\d", word[2])
                     or "%xmm" in word[2] and word[1] not in VECTOR):
            found.add(word[1])
    return sorted(found)


def control_noticed():
    with tempfile.TemporaryDirectory() as folder:
        source, control = f"{folder}/control.c", f"{folder}/control.o"
        Path(source).write_text(CONTROL, encoding="ascii")
        subprocess.run(["gcc", "-O2", "-mpopcnt", "-c", source, "-o", control], check=True)
        return undefined(control) == ["malloc"] and sum(sizes(control)[1:]) == 4 and later(control) == ["popcnt"]


def timed(what, stated_line, time, reactions, most, named):
    """Holds reactions to what is stated, and the time, on the processor that is named, to twice that and to the plan."""
    said = f"{time} ms, {int(reactions):,} reactions"
    told = re.match(r"(\S+) ms, ([\d,]+) reactions", stated_line)
    holds = told and told[2] == f"{int(reactions):,}"
    if named:
        holds = holds and float(time) <= TIMES_STATED * float(told[1]) and float(time) <= most
    expect(holds, what, told[0] if told else stated_line, said)


def compare_times(figures, dearest):
    """The dearest instant, rounds and preview against header, pages and fit sheet."""
    cost = measured(dearest, COSTS)
    if not cost:
        expect(False, "dearest instant, round, preview", figures["dearest"], "over 100 ms, or not as host/dearest.c has it")
        return
    base, each = planned(figures)
    named = named_processor(figures)

    def most(instants, reactions):
        return (instants * base + int(reactions) * each / 1000) / 1000

    timed("dearest instant", figures["dearest"], cost[1], cost[2], most(1, cost[2]), named)
    timed("dearest round", figures["round"], cost[3], cost[4], most(BAYS, cost[4]), named)
    timed("dearest round with litres", figures["litres"], cost[5], cost[6], most(BAYS, cost[6]), named)
    print(f"{'its bays without litres':32} {'':>40} {cost[7] + ' ms':>40}")
    timed("dearest preview", figures["preview"], cost[8], cost[9], most(64, cost[9]), named)
    print(f"{'of inputs not asked for':32} {'':>40} {cost[10] + ' ms':>40}")
    text = CEILING.read_text(encoding="utf-8")
    for row in ceiling_rows(figures):
        expect(row in text, "docs/CEILING.md", row.strip(), "there" if row in text else "not there")
    fit = re.search(r"^INSTANT, REACTION = (\d+), (\d+) ", FIT.read_text(encoding="utf-8"), re.M)
    expect(fit and fit.groups() == (str(base), str(each)), "the fit sheet's plan", f"{base} us, {each} ns",
           f"{fit[1]} us, {fit[2]} ns" if fit else "none")


def compare(archive, stack, dearest):
    figures = stated()
    print(f"{'':32} {'stated':>40} {'measured':>40}")
    needed = ", ".join(undefined(archive))
    expect(needed == figures["functions"], "functions of C", figures["functions"], needed)
    names = defined(archive)
    expect(names == EXPORTED, "functions that it defines", ", ".join(EXPORTED), ", ".join(names))
    code, data, zeros = sizes(archive)
    promised("code and jump tables", "CODE_LENGTH", figures, code)
    expect(data + zeros == 0, "variables outside the stack", 0, data + zeros)
    expect(not later(archive), "instructions later than SSE2", "none", ", ".join(later(archive)) or "none")
    promises = {"intake_check": "STACK_CHECK", "intake_ceiling": "STACK_CHECK", "intake_tick": "STACK_TICK",
                "intake_replay": "STACK_REPLAY", "a call on a box": "STACK_BOX", "intake_unroll": "STACK_UNROLL"}
    most = measured(stack, ".*".join(rf"^{what}: the most is (\d+) bytes" for what in promises))
    for place, (what, name) in enumerate(promises.items(), 1):
        promised(f"stack of {what}", name, figures, int(most[place]) if most else 0)
    compare_times(figures, dearest)
    expect(table(figures) in PAGE.read_text(encoding="utf-8"), "the page's table", "as the header has it",
           "--write makes it so")
    expect(control_noticed(), "a control object is noticed", "", "")
    print(f"{passed} passed, {failed} failed")
    return failed != 0


def write():
    """Puts the table in the place of the one that stands in the page."""
    text = PAGE.read_text(encoding="utf-8")
    mended, count = re.subn(r"(?<=\n)\| \| \|\n\|---\|---\|\n\| target \|.*\n(?:\|.*\n)*", lambda _: table(stated()), text)
    if count != 1:
        print("docs/HOST.md has no table of the figures, or several", file=sys.stderr)
        return 1
    PAGE.write_text(mended, encoding="utf-8")
    return 0


if __name__ == "__main__":
    if sys.argv[1:] == ["--write"]:
        sys.exit(write())
    if len(sys.argv) != 4:
        print("usage: figures.py ARCHIVE STACK-PROGRAM DEAREST-PROGRAM, or figures.py --write", file=sys.stderr)
        sys.exit(2)
    try:
        sys.exit(compare(*sys.argv[1:]))
    except (OSError, subprocess.CalledProcessError) as error:
        print(f"figures.py: {error}", file=sys.stderr)
        sys.exit(2)
