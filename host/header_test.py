#!/usr/bin/env python3
"""Compiles include/intake.h and include/intake_store.h as every C and C++ and runs host/header.c, and the hosts in C of README and
docs/HOST.md with the archive. README's table has the calls that the header declares.

  host/header_test.py ARCHIVE

The last line is 'N passed, M failed'.
"""
import re
import subprocess
import sys
import tempfile
from pathlib import Path

ROOT = Path(__file__).resolve().parent.parent
WARNED = ["-Wall", "-Wextra", "-Werror", "-pedantic", f"-I{ROOT / 'include'}"]
STANDARDS = [("gcc", "c", name) for name in ("c90", "c99", "c11", "c17", "c2x")] + [
    ("g++", "c++", name) for name in ("c++98", "c++11", "c++14", "c++17", "c++20")]
OTHER = '#include "intake_store.h"\n#include "intake.h"\nextern int other(void);\nint other(void) { return INTAKE_VERSION; }\n'
# The store needs nothing but stddef.h, which every compiler has, library or none.
ALONE = """#include "intake_store.h"
extern int kept(unsigned char *copies, const unsigned char *payload, unsigned char *found);
int kept(unsigned char *copies, const unsigned char *payload, unsigned char *found)
{
    return intake_store_write(copies, copies + INTAKE_STORE_LENGTH(9), 7, payload, 9) +
           intake_store_read(copies, copies + INTAKE_STORE_LENGTH(9), 7, found, 9);
}
"""
# Around README's host: it waits an instant, then signal 0 is emitted only if absent; then the same cut short.
SURROUNDINGS = """
#include "intake.h"
#include <stdio.h>

static unsigned acted, stopped;
static uint32_t inputs(void) {{ return 0; }}
static void act_on(uint32_t emitted) {{ acted += emitted == 2; }}
static void stop(const char *what, unsigned place) {{ stopped++; printf("%s, place %u\\n", what, place); }}
static void report(const char *what) {{ puts(what); }}

static void host(const uint8_t *sequence, size_t length)
{{
{0}
}}

int main(void)
{{
    static const uint8_t sequence[] = {{0x04, 0x02, 0x01, 0x04, 0x01, 0x00, 0x08, 0x00, 0x07, 0x00, 0x00, 0x02, 0x00}};
    host(sequence, sizeof sequence);
    host(sequence, sizeof sequence - 1);
    printf("acted %u, stopped %u\\n", acted, stopped);
    return 0;
}}
"""
SAID = """\
a signal that is emitted only if absent, place 6
the machine is over
the sequence ends within a command
acted 1, stopped 1
"""
# Around the page's host with a box: a bay that waits, then is wrong, beside one that ends; then each is over, and its outputs are off. A third
# bay delivers 16,777,216 litres in each instant: the second is turned down, reported, and its outputs are off too.
BOX_SURROUNDINGS = """
#include "intake.h"
#include <stdio.h>

static uint32_t inputs(uint32_t bay) {{ return bay; }}
static void act_on(uint32_t bay, uint32_t emitted) {{ printf("%u: emitted %u\\n", (unsigned)bay, (unsigned)emitted); }}
static void stop(uint32_t bay, const char *what, unsigned place) {{ printf("%u: %s, place %u\\n", (unsigned)bay, what, place); }}
static void report(uint32_t bay, const char *what) {{ printf("%u: %s\\n", (unsigned)bay, what); }}

{0}

int main(void)
{{
    static const uint8_t wrong[] = {{0x04, 0x02, 0x01, 0x04, 0x01, 0x00, 0x08, 0x00, 0x07, 0x00, 0x00, 0x02, 0x00}};
    static const uint8_t ends[] = {{0x04, 0x01, 0x00, 0x02, 0x03}};
    static const uint8_t fills[] = {{0x06, 0x04, 0x0C, 0x02, 0x00, 0x00, 0x80, 0x4B, 0x01, 0x00}};
    unsigned i;
    begin(0, wrong, sizeof wrong, 0);
    begin(1, ends, sizeof ends, 0);
    begin(1, ends, sizeof ends, 0);
    for (i = 0; i < 3; i++) {{
        instant(0);
        instant(1);
    }}
    begin(0, wrong, sizeof wrong - 1, 0);
    begin(1, ends, sizeof ends, 0);
    instant(1);
    begin(2, fills, sizeof fills, 0);
    instant(2);
    instant(2);
    return 0;
}}
"""
BOX_SAID = """\
1: no bay has this number, or it is filled on admission or empty otherwise
0: emitted 2
1: emitted 0
0: a signal that is emitted only if absent, place 6
1: emitted 8
0: emitted 0
1: emitted 0
0: the sequence ends within a command
1: emitted 0
2: emitted 4
2: emitted 0
2: the year total of a farm would pass 16,777,216 litres
"""

# Around the page's store: a machine of two pauses in turn that is cut after each instant, the second time in the write itself.
STORE_SURROUNDINGS = """
#include "intake.h"
#include <stdio.h>
#include <string.h>

static void report(const char *what) {{ puts(what); }}
static void write_to_medium(int copy, const uint8_t *bytes, size_t count);

{0}

static uint8_t medium[2][sizeof copies[0]];
static size_t cut = sizeof copies[0];
static void write_to_medium(int copy, const uint8_t *bytes, size_t count)
{{
    memcpy(medium[copy], bytes, count < cut ? count : cut);
}}

int main(void)
{{
    static const uint8_t sequence[] = {{0x06, 0x04, 0x01, 0x01, 0x01, 0x09}};
    uint8_t answer[INTAKE_ANSWER_LENGTH];
    unsigned i;
    for (i = 0; i < 4; i++) {{
        memcpy(copies, medium, sizeof copies);
        memset(state, 0xFF, sizeof state);
        start(sequence, sizeof sequence, 0);
        printf("phase %u, waits at 1: %d, at 9: %d\\n", (unsigned)intake_state_phase(state), intake_waits_at(state, 1),
               intake_waits_at(state, 9));
        intake_tick(sequence, sizeof sequence, state, sizeof state, 0, 0, answer, sizeof answer);
        cut = i == 1 ? INTAKE_STORE_HEAD + 2 : sizeof copies[0];
        keep(sequence, sizeof sequence, 0);
    }}
    start(sequence, sizeof sequence - 1, 0);
    return 0;
}}
"""
STORE_SAID = """\
nothing is kept of this sequence: the machine begins
phase 0, waits at 1: 0, at 9: 0
phase 1, waits at 1: 1, at 9: 0
phase 1, waits at 1: 1, at 9: 0
phase 1, waits at 1: 0, at 9: 1
nothing is kept of this sequence: the machine begins
"""

passed = failed = 0


def add(more_passed, more_failed, what, said=""):
    global passed, failed
    passed += more_passed
    failed += more_failed
    if more_failed:
        print(f"FAILED {what}\n{said}")


def run(*words):
    """What a command says, and whether its status is 0."""
    done = subprocess.run(words, capture_output=True, text=True, check=False)
    return done.returncode == 0, done.stdout + done.stderr


def standard(folder, compiler, language, name):
    """The header in two files of one program, under one standard."""
    program, other = f"{folder}/header", Path(folder) / "other.c"
    other.write_text(OTHER, encoding="ascii")
    built, said = run(compiler, f"-std={name}", *WARNED, "-x", language, ROOT / "host/header.c", other, "-o", program)
    if not built:
        return add(0, 1, f"{compiler} -std={name}", said)
    alone = Path(folder) / "alone.c"
    alone.write_text(ALONE, encoding="ascii")
    words = ["-ffreestanding", "-x", language, "-c", alone, "-o", f"{folder}/alone.o"]
    apart, errors = run(compiler, f"-std={name}", *WARNED, *words)
    add(apart, not apart, f"the store alone, {compiler} -std={name}", errors)
    if language == "c++":
        quiet, errors = run(compiler, f"-std={name}", *WARNED, "-Wold-style-cast", "-x", language, "-fsyntax-only", other)
        add(quiet, not quiet, f"casts, {compiler} -std={name}", errors)
    _, said = run(program)
    tally = re.search(r"^(\d+) passed, (\d+) failed$", said, re.M)
    return add(int(tally[1]), int(tally[2]), name, said) if tally else add(0, 1, name, said)


def other_target(folder):
    """A compiler for another processor says at once that there is no archive for it."""
    source = Path(folder) / "narrow.c"
    source.write_text('#include "intake.h"\n', encoding="ascii")
    for option in "-m32", "-mx32":
        built, said = run("gcc", option, "-ffreestanding", f"-I{ROOT / 'include'}", "-fsyntax-only", source)
        refused = not built and "libintake.a is for x86-64" in said
        add(refused, not refused, f"gcc {option}", said)


def pages(folder, archive):
    """The pages' hosts, compiled as they stand there, and what they do in a wrong instant."""
    text = "".join((ROOT / page).read_text(encoding="utf-8") for page in ("README.md", "docs/HOST.md"))
    blocks = [block.replace('#include "intake.h"\n', "") for block in re.findall(r"```c\n(.*?)```", text, re.S)]
    source, program = Path(folder) / "page.c", f"{folder}/page"
    surroundings = (SURROUNDINGS, SAID), (BOX_SURROUNDINGS, BOX_SAID), (STORE_SURROUNDINGS, STORE_SAID)
    for block, (around, expected) in zip(blocks, surroundings, strict=True):
        source.write_text(around.format(block), encoding="utf-8")
        for compiler, language, name in ("gcc", "c", "c11"), ("g++", "c++", "c++17"):
            built, said = run(compiler, f"-std={name}", *WARNED, "-x", language, source, "-x", "none", archive, "-o", program)
            if built:
                _, said = run(program)
            add(said == expected, said != expected, f"a page's host as {name}", said)


def calls():
    """README's table of calls."""
    header, text = ((ROOT / path).read_text(encoding="utf-8") for path in ("include/intake.h", "README.md"))
    declared = re.findall(r"^uint\d+_t (intake_\w+)\(", header, re.M)
    told = re.search(r"^\| Call \|.*\n\|[-|]+\n((?:\|.*\n)+)", text, re.M)
    listed = re.findall(r"`(intake_\w+)`", "\n".join(row.split("|")[1] for row in told[1].splitlines())) if told else []
    add(listed == declared, listed != declared, f"README's table of calls: {listed}")


def main(archive):
    with tempfile.TemporaryDirectory() as folder:
        for compiler, language, name in STANDARDS:
            standard(folder, compiler, language, name)
        other_target(folder)
        pages(folder, archive)
    calls()
    print(f"{passed} passed, {failed} failed")
    return failed != 0


if __name__ == "__main__":
    if len(sys.argv) != 2:
        print("usage: header_test.py ARCHIVE", file=sys.stderr)
        sys.exit(2)
    sys.exit(main(sys.argv[1]))
