"""What has changed since the certified commit: pages only, or more."""
import re
import subprocess

from certifying.log import Refusal

PAGE = "docs/CERTIFICATE.md"
KINDS = [  # the first that fits a path
    ("pages", re.compile(r"docs/|.*\.md$")),
    ("what shows and measures", re.compile(r"(tools|bench|examples)/")),
    ("definitions, proofs and code", re.compile(r"(crates|include)/|crates\.txt$")),
    ("tests and how they are run", re.compile(r".*")),
]
SHOWN = 20  # files of a kind


def git(root, *words):
    try:
        done = subprocess.run(["git", *words], cwd=root, capture_output=True, text=True, errors="replace", check=False)
    except OSError as error:
        raise Refusal(f"git: {error.strerror}") from None
    if done.returncode != 0:
        raise Refusal(f"git {words[0]}: {(done.stderr.strip().splitlines() or ['failed'])[0]}")
    return done.stdout


def certified_in(text):
    """The commit of a certificate."""
    found = re.search(r"^\| commit \| `([0-9a-f]{40})` \|$", text, re.M)
    if not found:
        raise Refusal(f"{PAGE} names no commit")
    return found[1]


def changed_since(root, commit):
    """The files that are not as in a commit, committed or not."""
    return sorted(set(git(root, "diff", "--name-only", "-z", commit, "--").split("\0")[:-1]
                      + git(root, "ls-files", "-o", "--exclude-standard", "-z").split("\0")[:-1]))


def add_changes(root, out):
    """Adds what has changed, kind by kind; returns whether it is pages only."""
    try:
        commit = certified_in((root / PAGE).read_text("utf-8", "replace"))
    except OSError:
        raise Refusal(f"there is no {PAGE}") from None
    head = git(root, "rev-parse", "HEAD").strip()
    files = {kind: [] for kind, _ in KINDS}
    for path in changed_since(root, commit):
        files[next(kind for kind, fits in KINDS if fits.match(path))].append(path)
    only = not any(paths for kind, paths in files.items() if kind != "pages")
    out += [f"certified: {commit}", f"here:      {head}"]
    for kind, paths in files.items():
        out += [f"{kind}: {len(paths)} changed"] * (len(paths) > 0) + [f"  {path}" for path in paths[:SHOWN]]
        out += [f"  and {len(paths) - SHOWN} more"] * (len(paths) > SHOWN)
    more = "pages only" if only else "more than pages: the certificate is not of this tree"
    out.append(more if any(files.values()) else "nothing has changed")
    return only
