#!/usr/bin/env python3
"""Tests tools/certificate on a small repository with a log in the gate's form, whole and damaged (U1.9, U1.12 to U1.14).

The prover's lines are as rt prints them; what the page must say is written by hand. The last line is 'N passed, M failed'.
"""
import hashlib
import random
import shutil
import subprocess
import sys
import tempfile
from pathlib import Path

sys.dont_write_bytecode = True

from tests.gatelog import ARCHIVE, DAMAGED, FILES, LINES, LOG, LOGIC, PAPER, PAPER_SUM, SAID

ROOT = Path(__file__).resolve().parent.parent
TOOL = "tools/certificate"
passed = failed = 0


def expect(holds, what):
    global passed, failed
    passed += bool(holds)
    failed += not holds
    if not holds:
        print(f"FAILED {what}")


class Repository:
    """A repository with one commit, in a temporary folder."""

    def __init__(self, folder):
        self.root = Path(folder)
        for name, text in FILES.items():
            self.write(name, text)
        (self.root / "tools").mkdir()
        shutil.copy(ROOT / TOOL, self.root / TOOL)
        for package in "certifying", "showing":
            shutil.copytree(ROOT / "tools" / package, self.root / "tools" / package)
        self.write("target/staticlib/libintake.a", ARCHIVE)
        self.git("init", "-q")
        self.commit()

    def write(self, name, text):
        path = self.root / name
        path.parent.mkdir(parents=True, exist_ok=True)
        path.write_bytes(text.encode() if isinstance(text, str) else text)

    def git(self, *words):
        identity = ["-c", "user.name=a", "-c", "user.email=a@b", "-c", "commit.gpgsign=false"]
        return subprocess.run(["git", *identity, *words], cwd=self.root, check=True, capture_output=True, text=True).stdout

    def commit(self):
        self.git("add", "-A")
        self.git("commit", "-q", "--allow-empty", "-m", "a commit")
        self.head = self.git("rev-parse", "HEAD").strip()

    def log(self, text):
        """Writes the log, with the names in it filled in."""
        filled = text.replace("{commit}", self.head)
        for name, path in ("{header}", "include/intake.h"), ("{store}", "include/intake_store.h"):
            filled = filled.replace(name, hashlib.sha256(FILES[path].encode()).hexdigest())
        self.write("target/gate.log", filled.replace("{archive}", hashlib.sha256(ARCHIVE).hexdigest()))

    def run(self, *words):
        """The status, what is said of it, and the page, which is taken away."""
        done = subprocess.run([sys.executable, self.root / TOOL, *words], capture_output=True, text=True, check=False)
        page = self.root / "docs/CERTIFICATE.md"
        text = page.read_text(encoding="utf-8") if page.exists() else None
        page.unlink(missing_ok=True)
        return done.returncode, done.stderr, text

    def refused(self, word, what, *words):
        status, said, page = self.run(*words)
        expect(status == 1 and page is None and said.startswith("no certificate: ") and word in said
               and said.count("\n") == 1 and "Traceback" not in said, f"{what}: {status} {said}")


def whole(repository):
    repository.refused("there is no target/gate.log", "no log")
    repository.log(LOG)
    status, said, page = repository.run()
    expect(status == 0 and page is not None, f"a whole log: {said}")
    page = page or ""
    for line in LINES + [f"| commit | `{repository.head}` |", f"git checkout {repository.head}", f"| sum of the logic | `{LOGIC}` |",
                         f"| words of every verdict | `{SAID}` |", hashlib.sha256(ARCHIVE).hexdigest(),
                         f"| 01 | The scope, a title | `{PAPER_SUM}` | here |", f"| 02 | Changes | `{'a' * 64}` | not here |",
                         f"`{hashlib.sha256((repository.root / 'target/gate.log').read_bytes()).hexdigest()}` |"]:
        expect(line in page, f"the page has no line {line}")
    repository.write("docs/CERTIFICATE.md", "an older page")
    expect(repository.run()[2] == page, "an older page is no change, and the same log gives the same page")


def of_other_files(repository):
    repository.write("include/other.h", "")
    repository.refused("not committed", "a file more")
    (repository.root / "include/other.h").unlink()
    repository.write("target/staticlib/libintake.a", ARCHIVE + b".")
    repository.refused("not the file of that run", "another archive")
    (repository.root / "target/staticlib/libintake.a").unlink()
    repository.refused("not the file of that run", "no archive")
    repository.write("target/staticlib/libintake.a", ARCHIVE)
    repository.commit()
    repository.refused("is of commit", "a commit later")
    repository.write("crates.txt", FILES["crates.txt"] + "more:\n")
    repository.commit()
    repository.log(LOG)
    repository.refused("not those of crates.txt", "a crate more")
    repository.write("crates.txt", FILES["crates.txt"])
    repository.commit()


def asked(repository, *words, into=subprocess.PIPE):
    """Status, standard output and standard error of a question to the tool."""
    done = subprocess.run([sys.executable, repository.root / TOOL, *words], stdout=into, stderr=subprocess.PIPE, text=True, check=False)
    return done.returncode, done.stdout, done.stderr


def changes(repository):
    """What has changed since the certified commit, committed or not."""
    repository.log(LOG)
    status, _, page = repository.run()
    expect(status == 0, "a certificate to compare with")
    repository.write("docs/CERTIFICATE.md", page or "")
    expect(asked(repository, "--changed")[:2] == (0, f"certified: {repository.head}\nhere:      {repository.head}\npages: 1 changed\n"
                                                     "  docs/CERTIFICATE.md\npages only\n"), f"{asked(repository, '--changed')}")
    certified = repository.head
    repository.write("README.md", "a page")
    repository.commit()
    status, shown, said = asked(repository, "--changed")
    expect(status == 0 and shown.endswith("\npages: 2 changed\n  README.md\n  docs/CERTIFICATE.md\npages only\n") and not said, shown)
    expect(shown.startswith(f"certified: {certified}\nhere:      {repository.head}\n"), shown)
    for path, kind in [("crates/a/src/ä.rt", "definitions, proofs and code"), ("tools/x", "what shows and measures"),
                       ("host/a.c", "tests and how they are run")]:
        repository.write(path, "")
        status, shown, _ = asked(repository, "--changed")
        expect(status == 1 and f"\n{kind}: 1 changed\n  {path}\n" in shown and shown.endswith("is not of this tree\n"), f"{path}: {shown}")
        (repository.root / path).unlink()
    for page, word in [(None, "there is no docs/CERTIFICATE.md"), ("none", "names no commit"),
                       (f"| commit | `{'0' * 40}` |\n", "git diff: ")]:
        (repository.root / "docs/CERTIFICATE.md").unlink(missing_ok=True)
        if page:
            repository.write("docs/CERTIFICATE.md", page)
        status, shown, said = asked(repository, "--changed")
        expect(status == 1 and shown == "" and word in said and said.count("\n") == 1, f"{page}: {said}")
    (repository.root / "docs/CERTIFICATE.md").unlink()
    repository.commit()


def papers(repository):
    """Papers that are here, that differ and that are not, and a damaged list of them."""
    with tempfile.TemporaryDirectory() as folder:
        (Path(folder) / "01-scope.md").write_bytes(PAPER)
        told = "01 here: The scope, a title\n02 not here: Changes\n"
        expect(asked(repository, "--papers", folder) == (0, told, ""), f"papers: {asked(repository, '--papers', folder)}")
        (Path(folder) / "01-scope.md").write_bytes(PAPER + b".")
        status, shown, _ = asked(repository, "--papers", folder)
        expect(status == 1 and shown == told.replace("01 here", "01 differs"), f"a paper that differs: {shown}")
    status, shown, _ = asked(repository, "--surroundings")
    expect(status == 0 and shown.startswith("interface 2.14.3\ncompiler ") and f"\npaper 01 {PAPER_SUM} not here\n" in shown, shown)
    for text in "", "01\n", f"01 {PAPER_SUM} a b\n01 {PAPER_SUM} a b\n", "\xff\xfe":
        repository.write("docs/papers.txt", text)
        for word in "--surroundings", "--papers=.":
            status, shown, said = asked(repository, word)
            told = said.startswith("certificate: docs/papers.txt") and said.count("\n") == 1
            expect(status == 1 and shown == "" and told, f"{text!r}: {said}")
    repository.write("docs/papers.txt", FILES["docs/papers.txt"])
    with open("/dev/full", "wb") as full:
        status, _, said = asked(repository, "--surroundings", into=full)
    expect(status == 1 and said == "certificate: standard output: No space left on device\n", f"no space: {said}")
    expect(asked(repository, "--papers", "/none")[0] == 1 and asked(repository, "more")[0] == 2, "no folder, and a word too many")


def law():
    """The papers of this repository: those that lie beside it, where they do, have the sums of docs/papers.txt."""
    for folder in ROOT / "../shared/papers", ROOT / "../../shared/papers":
        if folder.is_dir():
            done = subprocess.run([ROOT / TOOL, "--papers", folder], capture_output=True, text=True, check=False)
            here = done.stdout.count(" here: ") == 4 and " not here" not in done.stdout
            expect(done.returncode == 0 and here, f"the papers: {done.stdout}")
            return
    print("the papers do not lie beside this repository, and were not compared")


def main():
    law()
    with tempfile.TemporaryDirectory() as folder:
        repository = Repository(folder)
        whole(repository)
        for old, new, word in DAMAGED:
            expect(LOG.count(old) >= 1, f"the log has {old}")
            repository.log(LOG.replace(old, new, 1))
            repository.refused(word, f"{old} made {new}")
        repository.log(LOG)
        of_other_files(repository)
        rng, filled = random.Random(1), (repository.root / "target/gate.log").read_text("utf-8")
        for _ in range(10):
            cut = rng.randrange(len(LOG) - 1)
            repository.log(LOG[:cut])
            repository.refused("", f"cut to {cut} characters")
        repository.write("target/gate.log", bytes(rng.randrange(256) for _ in range(2000)))
        repository.refused("not a whole log", "random bytes")
        for number in range(40):
            data = bytearray(filled.encode())
            for _ in range(rng.choice([1, 5, 50])):
                data[rng.randrange(len(data))] = rng.randrange(256)
            repository.write("target/gate.log", bytes(data))
            status, said, _ = repository.run()
            expect(status == 0 and said == "" or status == 1 and said.startswith("no certificate: ") and said.count("\n") == 1,
                   f"a damaged log {number}: {said}")
        changes(repository)
        papers(repository)
        repository.log(LOG)
        expect(repository.run()[0] == 0, "a whole log at the end")
    print(f"{passed} passed, {failed} failed")
    return failed != 0


if __name__ == "__main__":
    sys.exit(main())
