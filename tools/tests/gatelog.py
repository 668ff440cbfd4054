"""A small repository's files, a log of the gate in its form, what a certificate must say of it, and damage to it, all by hand."""
import hashlib

LOGIC = "097e4c862dff5811cb517e93ee40dbb7b9ec09c45f3cec10c76acff7b0827ba9"
SAID = "native=nat,char,string logic-built=trusted libraries-built=trusted"
PAPER = b"the scope"
PAPER_SUM = hashlib.sha256(PAPER).hexdigest()
FILES = {
    "docs/papers.txt": f"# the papers\n01 {PAPER_SUM} 01-scope.md The scope, a title\n02 {'a' * 64} 02.md Changes\n",
    "docs/DEMANDS.md": "# The demands\n\n## Demand 1\n\n| Name | Sentence |\n|---|---|\n| D1.1 | one |\n| D1.2 | two |\n\n"
                       "## Text\n\nnone\n",
    "docs/demands/items.md": "# More\n\n## 02, item 1\n\n| Name | Sentence |\n|---|---|\n| I1.1 | one |\n",
    "crates.txt": "# a comment: with a colon\nesterel:\nnumbers staticlib: esterel\nrun: io libc numbers\n",
    "include/intake.h": "/* a header */\n#define INTAKE_VERSION_MAJOR 2\n#define INTAKE_VERSION_MINOR 14\n#define INTAKE_VERSION_PATCH 3\n",
    "include/intake_store.h": "/* a store */\n",
    "Makefile": "host-rust: archive # compares the archive with the check\nshow-test: # tests tools/show\n",
    ".gitignore": "target/\n",
}
ARCHIVE = b"!<arch>\nnot a real one"
LOG = f"""\
gate: began {{commit}} clean
gate: kit rattle-kit-5b-plain logic 097e4c862dff5811
gate: interface 2.14.3
gate: compiler gcc (Debian) 12.2.0
gate: compiler rustc 1.95.0
gate: system Linux 6.1 x86_64, Debian GNU/Linux 12
gate: processor Some Processor, 2 of them
gate: paper 01 {PAPER_SUM} here
gate: paper 02 {'a' * 64} not here
gate: test rt
note: no function with a body is declared, so nothing was lowered
logic /opt/rattle/logic/antt-project.json: libraries=16 files=1371 sum={LOGIC}
library std: modules loaded=0 checked=0
logic=proved functions=0 sum=097e4c862dff5811 {SAID}
rt: esterel proved
fn numbers::at_most_8: proved
logic /opt/rattle/logic/antt-project.json: libraries=16 files=1371 sum={LOGIC}
logic=proved functions=5 sum=097e4c862dff5811 {SAID}
rt: numbers proved
fn run::main: proved
logic /opt/rattle/logic/antt-project.json: libraries=16 files=1371 sum={LOGIC}
axioms libc: libc::read, libc::write (2 of the 50 declared)
axioms os: none reached of the 22 declared
logic=proved functions=3 axioms=2 target=x86_64-unknown-linux-gnu sum=097e4c862dff5811 {SAID}
rt: run proved
rt: must-fail esterel/last_error.edit: refused, as it must be: ./proofs/Errors.antt:12:3: error: it is not so
rt: must-fail esterel/other_run_first.edit: refused, as it must be: note: src/lib.rt:1:1: it is not proved
rt: must-fail numbers/other_base.edit: refused, as it must be: ./proofs/Reading.antt:1:3: error: it is not so
rt: run ran, and wrote what its file stdout has
rt: ok; handles allowed: none; must-fail edits: 3 refused; every proof and must-fail edit was done in this run
6 passed, 0 failed
gate: test show-test
40 passed, 0 failed
gate: test host-rust
logic=proved functions=2 target=x86_64-unknown-linux-gnu sum=097e4c862dff5811 {SAID}
archive: target/staticlib/libintake.a has the functions of intake that are marked #[unsafe(no_mangle)] pub extern "C"
3 passed, 0 failed
1200 passed, 0 failed
gate: test figures
                                                                   stated                                 measured
stack of intake_check                                               24576                                    23640
stack of a call on a box                                            28672                                    27776
dearest instant                        5.5 ms, 1,061,695 reactions            6.1 ms, 1,061,695 reactions
3 passed, 0 failed
gate: sha256 {{archive}}  target/staticlib/libintake.a
gate: sha256 {{header}}  include/intake.h
gate: sha256 {{store}}  include/intake_store.h
gate: took 2225 s
gate: ended {{commit}} clean 2026-11-16
1249 passed, 0 failed
"""
LINES = """\
| toolchain (`rt version`) | `rattle-kit-5b-plain logic 097e4c862dff5811` |
| date of the run | 2026-11-16 |
| functions proved | 8 in 3 crates |
| axioms that the archive rests on | 0 |
| programs that rest on axioms | run |
| must-fail edits refused | 3 |
| comparisons of the tests | 1,243 |
| last line of the gate | `1249 passed, 0 failed` |
| interface | 2.14.3 |
| time of the run | 37 minutes 5 seconds |
| compilers of the tests | gcc (Debian) 12.2.0; rustc 1.95.0 |
| system | Linux 6.1 x86_64, Debian GNU/Linux 12 |
| processor | Some Processor, 2 of them |
| D1.1 to D1.2 | Demand 1 | 2 |
| I1.1 | 02, item 1 | 1 |
| intake_check | 23,640 | 24,576 |
| a call on a box | 27,776 | 28,672 |
The dearest instant found: 6.1 ms, 1,061,695 reactions.
| Name | For | Date | Signature |
| | | | |
| esterel | 0 | none of its own | 2 |
| numbers | 5 | none of its own | 1 |
| run | 3 | 2: libc::read, libc::write | 0 |
| `rt` | crates proved from nothing, and must-fail edits refused | 6 |
| `host-rust` | compares the archive with the check | 1,200 |
""".splitlines()
DAMAGED = [  # what is put in the place of what, and a word that the refusal must have
    ("gate: began {commit}", "gate: began " + "0" * 40, "is of commit"),
    ("gate: began {commit} clean", "gate: began {commit} changed", "was not"),
    ("gate: ended {commit} clean", "gate: ended {commit} changed", "was not"),
    ("1249 passed, 0 failed", "1248 passed, 1 failed", "the gate failed"),
    ("1249 passed, 0 failed\n", "", "not a whole log"),
    ("1249 passed, 0 failed", "1247 passed, 0 failed", "not the sum"),
    ("1200 passed, 0 failed", "1199 passed, 1 failed", "host-rust has failed"),
    ("40 passed, 0 failed", "0 passed, 0 failed", "show-test has failed"),
    ("gate: kit", "kit", "not a whole log"),
    ("gate: test rt\n", "", "not a whole log"),
    ("rt: must-fail numbers/other_base.edit: refused", "rt: must-fail numbers/other_base.edit: NOT REFUSED", "as many as rt counted"),
    ("rt: must-fail numbers/", "rt: must-fail another/", "not proved"),
    ("edits: 3 refused; every", "edits: 3 refused, 1 bad; every", "as many as rt counted"),
    ("every proof and must-fail edit was done", "0 of the 6 proofs were done", "did not do every proof"),
    ("rt: numbers proved\n", "", "not proved"),
    ("rt: esterel proved", "rt: extra proved", "not proved"),
    ("logic=proved functions=5", "logic=not-proved functions=5", "no verdict of numbers"),
    (f"files=1371 sum={LOGIC}\nlibrary", "files=1371 sum=" + "0" * 64 + "\nlibrary", "more than one sum of the logic"),
    ("functions=5 sum=097e4c862dff5811 native=nat", "functions=5 sum=097e4c862dff5811 native=", "more than one list"),
    ("functions=5 sum", "functions=5 foreign=getpid sum", "numbers declares functions of C"),
    ("archive: target/staticlib/libintake.a has", "archive: another has", "no verdict of the archive"),
    ("{archive}  target", "0" * 64 + "  target", "not the file of that run"),
    ("{header}  include", "0" * 64 + "  include", "not the file of that run"),
    ("gate: sha256 {header}  include/intake.h\n", "", "lacks the sum"),
    ("gate: sha256 {store}  include/intake_store.h\n", "", "lacks the sum"),
    ("gate: took 2225 s\n", "", "not a whole log"),
    ("gate: interface 2.14.3\n", "", "(interface)"),
    ("gate: interface 2.14.3", "gate: interface 2.14.4", "not that of include/intake.h"),
    ("gate: system", "system", "(system)"),
    ("gate: processor", "processor", "(processor)"),
    (f"gate: paper 01 {PAPER_SUM} here", f"gate: paper 01 {PAPER_SUM} differs", "paper 01 is not the file"),
    (f"gate: paper 01 {PAPER_SUM} here\n", "", "not those of docs/papers.txt"),
    (f"gate: paper 02 {'a' * 64}", f"gate: paper 02 {'b' * 64}", "not those of docs/papers.txt"),
    ("stack of intake_check", "room of intake_check", "no stack"),
    ("dearest instant", "nearest instant", "no dearest instant"),
]
