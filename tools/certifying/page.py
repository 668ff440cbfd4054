"""The page of a certificate, docs/CERTIFICATE.md."""
import re

from certifying.log import ARCHIVE, HEADER, STORE


def described(makefile):
    """What each target of the Makefile does, in its own words."""
    found = dict(re.findall(r"^([a-z-]+):[^#\n]*# (.*)$", makefile, re.M))
    return found | {"rt": "crates proved from nothing, and must-fail edits refused",
                    "archive": "builds the archive over the libraries proved, and takes the programs that ran"}


def demands_of(text):
    """The rows of docs/DEMANDS.md and of the pages that it names, by their heading: its first and its last name, and how many."""
    sections = []
    for part in re.split(r"^##+ ", text, flags=re.M)[1:]:
        names = re.findall(r"^\| ([A-Z]\d*\.\d+) \|", part, re.M)
        if names:
            span = names[0] if len(names) == 1 else f"{names[0]} to {names[-1]}"
            sections.append(f"| {span} | {part.splitlines()[0]} | {len(names)} |")
    return "\n".join(sections)


def page(gate, papers, makefile, demands):
    """The certificate."""
    words = described(makefile)
    functions = sum(crate.functions for crate in gate.crates.values())
    reaching = ", ".join(name for name, crate in gate.crates.items() if crate.reached) or "none"
    crates = "\n".join(f"| {name} | {crate.functions} | {crate.axioms} | {crate.edits} |" for name, crate in gate.crates.items())
    again = "`host-again` built it in another one and compared" if "host-again" in gate.tests else "this run did not compare"
    tests = "\n".join(f"| `{name}` | {words.get(name, '')} | {count:,} |" for name, count in gate.tests.items())
    states = {line.split()[0]: " ".join(line.split()[2:]) for line in gate.surroundings["paper"]}
    law = "\n".join(f"| {paper.name} | {paper.title} | `{paper.sum}` | {states.get(paper.name, 'not named')} |" for paper in papers)
    stacks = "\n".join(f"| {what} | {measured:,} | {promised:,} |" for what, promised, measured in gate.stacks)
    return f"""\
# Certificate

Written by `make certificate` from the log of one run of the gate (`make test`), which proves every crate from nothing. Everything
on this page is taken from that log, but the titles of the papers and the names of the demands, which are the commit's. [TRUST](TRUST.md)
says what it means, and what it leaves open. The page is committed after the run and so is not part of the commit that it names;
`tools/certificate --changed` says what has changed since, pages only or more.

| | |
|---|---|
| commit | `{gate.commit}` |
| interface | {gate.surroundings["interface"][0]} |
| date of the run | {gate.date} |
| time of the run | {gate.took // 60} minutes {gate.took % 60} seconds |
| toolchain (`rt version`) | `{gate.kit}` |
| sum of the logic | `{gate.logic}` |
| words of every verdict | `{gate.words}` |
| sha256 of `libintake.a` | `{gate.sums[ARCHIVE]}` |
| sha256 of `intake.h` | `{gate.sums[HEADER]}` |
| sha256 of `intake_store.h` | `{gate.sums[STORE]}` |
| sha256 of the log, `target/gate.log` | `{gate.log_sum}` |
| compilers of the tests | {"; ".join(gate.surroundings["compiler"])} |
| system | {gate.surroundings["system"][0]} |
| processor | {gate.surroundings["processor"][0]} |
| functions proved | {functions} in {len(gate.crates)} crates |
| axioms that the archive rests on | {gate.archive_axioms} |
| programs that rest on axioms | {reaching} |
| must-fail edits refused | {gate.edits} |
| comparisons of the tests | {sum(count for name, count in gate.tests.items() if name != "rt"):,} |
| last line of the gate | `{gate.last}` |

## What is certified

"tank and ledger agree within limits": the record `Certificate` (crates/spec_box/specs/Certified) and the theorem `certificate`
(crates/theory_box/proofs/Theorems), over every list of calls from the empty box, those turned down and those to all bays included.

- The plant is told what the paper of the fitters tells: every call reports what that paper reports.
- The ledger of every bay number, filled or empty, can be read at any time.
- In every reading answered 0 each farm's total is a whole number, exactly what the paper delivered to that farm since the bay number's last new
  year, across comings back to a position, takings out, admissions and calls answered 19; it is at most 16,777,216 litres.
- The ledger's total is a whole number within 496 litres of the exact sum of the 32 farms' totals.

It is of lists whose accepted sequences have no setpause; `certificate_by_labels` says the same of every list, for what the machine that keeps a label
set tells and delivers. Sets and saved names are of 32 bits, as the arguments' types have it. An instant that is wrong delivers nothing. A call answered 19 is no instant: its litres are in no ledger, and the host must switch
the outputs off, the pump first. That a litre on a signal is a litre in the tank is the plant's part, and no theorem's.

## The law

01 as 02 changes it, over 003 and 002; [papers.txt](papers.txt) has their sums, and the run says whether it had the files beside it.

| Paper | Title | sha256 | In the run |
|---|---|---|---|
{law}

Every sentence of them has a row in [DEMANDS](DEMANDS.md), with its definition, theorem, must-fail edit and test; where a cell is empty there is
none. A row is cited by its name:

| Rows | Of | How many |
|---|---|---|
{demands_of(demands)}

## Stack and time

As `make figures` measured them in this run, on the processor above; the header has what is promised.

| Call | Stack measured, bytes | Promised |
|---|---|---|
{stacks}

The dearest instant found: {gate.dearest}.

## The same bytes again

```sh
git checkout {gate.commit}
rt version                # {gate.kit}
make lib
sha256sum target/lib/libintake.a target/lib/intake.h target/lib/intake_store.h
```

The archive depends on the sources and the toolchain and not on the folder: {again}.

## By crate

An axiom is the assumed contract of a function of C, here of those by which a program reads and writes. The prover's line counts
the axioms that a program reaches in all crates below it; of a library it names those that the library itself declares.

| Crate | Functions proved | Axioms | Edits refused |
|---|---|---|---|
{crates}

## By test

| Test | What it does | Passed |
|---|---|---|
{tests}

## Signed

Of the archive and the headers whose sums stand above, after reading [TRUST](TRUST.md):

| Name | For | Date | Signature |
|---|---|---|---|
| | | | |
"""
