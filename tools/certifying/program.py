"""Writes docs/CERTIFICATE.md from the log that the last run of the gate left in target/gate.log.

  tools/certificate                   writes the certificate
  tools/certificate --changed         says what has changed since the certified commit: pages only, or more (exit status 1)
  tools/certificate --papers FOLDER   says whether the papers of docs/papers.txt are the files of a folder; one that differs is status 1
  tools/certificate --surroundings    the lines of the log that say on what the gate runs

The certificate tells what the run proved and tested, of which files, with what and on what. The log must be of the commit that is
checked out, with no file changed, and of a run in which nothing failed; otherwise it says in one line what is wrong, writes
nothing and ends with status 1.
"""
import argparse
import hashlib
import os
import platform
import re
import subprocess
from pathlib import Path

from certifying.changes import PAGE, add_changes, git
from certifying.log import LOG, Gate, Refusal
from certifying.page import page
from certifying.papers import BESIDE, LIST, papers_in, state_of
from showing.streams import Parser, tell, write_bytes

ROOT = Path(__file__).resolve().parents[2]


def text_of(path):
    """The text of a file of the repository."""
    try:
        return (ROOT / path).read_text(encoding="utf-8", errors="replace")
    except OSError as error:
        raise Refusal(f"{path}: {error.strerror}") from None


def demands_text():
    """docs/DEMANDS.md, and the pages of docs/demands behind it."""
    behind = sorted((ROOT / "docs/demands").glob("*.md"))
    return "\n".join([text_of("docs/DEMANDS.md"), *(text_of(path.relative_to(ROOT)) for path in behind)])


def hold_to_files(gate):
    """Refuses a log that is not of the files that are here."""
    changes = git(ROOT, "status", "--porcelain", "--", ".", f":!{PAGE}").splitlines()
    if changes:
        raise Refusal(f"the tree has changes that are not committed ({changes[0].strip()}); commit, and run make test again")
    head = git(ROOT, "rev-parse", "HEAD").strip()
    if gate.commit != head:
        raise Refusal(f"{LOG} is of commit {gate.commit}, and this is {head}: run make test")
    if not gate.clean:
        raise Refusal(f"{LOG} is of a tree that was not {gate.commit} throughout: run make test again")
    for path, value in gate.sums.items():
        if not (ROOT / path).is_file() or hashlib.sha256((ROOT / path).read_bytes()).hexdigest() != value:
            raise Refusal(f"{path} is not the file of that run: run make test")
    listed = sorted(line.split(":")[0].split()[0] for line in text_of("crates.txt").splitlines() if ":" in line and not line.startswith("#"))
    if listed != sorted(gate.crates):
        raise Refusal(f"{LOG}: the crates proved are not those of crates.txt")
    if gate.surroundings["interface"] != [interface()]:
        raise Refusal(f"{LOG}: the interface is not that of include/intake.h")
    if [line.split()[:2] for line in gate.surroundings["paper"]] != [[paper.name, paper.sum] for paper in papers_in(text_of(LIST))]:
        raise Refusal(f"{LOG}: the papers are not those of {LIST}")


def interface():
    """The version that the header has."""
    return ".".join(re.findall(r"^#define INTAKE_VERSION_[A-Z]+ (\d+)$", text_of("include/intake.h"), re.M)) or "unknown"


def said_by(*words):
    """The first line of what a program prints; 'unknown' where there is none."""
    try:
        done = subprocess.run(words, capture_output=True, text=True, errors="replace", check=False)
    except OSError:
        return f"{words[0]} unknown"
    return (done.stdout.splitlines() or [f"{words[0]} unknown"])[0]


def processor():
    try:
        names = re.findall(r"^model name\s*: (.+)$", Path("/proc/cpuinfo").read_text("utf-8", "replace"), re.M)
    except OSError:
        names = []
    return f"{names[0] if names else platform.processor() or 'unknown'}, {os.cpu_count()} of them"


def surroundings(folder):
    """The lines of the log on what the gate runs."""
    release = re.search(r'^PRETTY_NAME="?([^"\n]*)"?$', Path("/etc/os-release").read_text("utf-8", "replace"), re.M) \
        if Path("/etc/os-release").exists() else None
    yield f"interface {interface()}"
    yield f"compiler {said_by('gcc', '--version')}"
    yield f"compiler {said_by('rustc', '--version')}"
    yield f"system {platform.system()} {platform.release()} {platform.machine()}{f', {release[1]}' if release else ''}"
    yield f"processor {processor()}"
    for paper in papers_in(text_of(LIST)):
        yield f"paper {paper.name} {paper.sum} {state_of(paper, folder)}"


def written():
    """Writes the certificate."""
    if not (ROOT / LOG).is_file():
        raise Refusal(f"there is no {LOG}: run make test first")
    gate = Gate((ROOT / LOG).read_bytes())
    hold_to_files(gate)
    (ROOT / PAGE).write_text(page(gate, papers_in(text_of(LIST)), text_of("Makefile"), demands_text()), encoding="utf-8")
    return f"{PAGE} is of commit {gate.commit}: {gate.last}"


def options_of(arguments):
    parser = Parser(prog="certificate", usage="tools/certificate [--changed | --papers FOLDER | --surroundings]", description=__doc__,
                    formatter_class=argparse.RawDescriptionHelpFormatter)
    only = parser.add_mutually_exclusive_group()
    only.add_argument("--changed", action="store_true", help="what has changed since the certified commit")
    only.add_argument("--papers", metavar="FOLDER", help="compare the papers with the files of a folder")
    only.add_argument("--surroundings", action="store_true", help="on what the gate runs")
    return parser.parse_args(arguments)


def answer_of(options, out):
    """Adds what is asked for; returns the exit status."""
    if options.changed:
        return 0 if add_changes(ROOT, out) else 1
    if options.surroundings:
        out += surroundings(next((ROOT / folder for folder in BESIDE if (ROOT / folder).is_dir()), ROOT))
    elif options.papers is not None:
        if not Path(options.papers).is_dir():
            raise Refusal(f"{options.papers} is no folder")
        states = [(paper, state_of(paper, Path(options.papers))) for paper in papers_in(text_of(LIST))]
        out += [f"{paper.name} {state}: {paper.title}" for paper, state in states]
        return 1 if any(state == "differs" for _, state in states) else 0
    else:
        out.append(written())
    return 0


def main(arguments=None):
    options, out = options_of(arguments), []
    try:
        status = answer_of(options, out)
        write_bytes(None, "".join(f"{line}\n" for line in out).encode("utf-8", "replace"))
        return status
    except Refusal as refusal:
        asked = options.changed or options.papers is not None or options.surroundings
        tell("certificate" if asked else "no certificate", None, " ".join(str(refusal).split()))
    except OSError as error:
        tell("certificate", str(error.filename or PAGE), error.strerror or str(error))
    return 1
