"""The papers that are the law: names, sums and titles from docs/papers.txt, and whether the files that are here have the sums."""
import hashlib
import re
from collections import namedtuple

from certifying.log import Refusal

LIST = "docs/papers.txt"
BESIDE = "../shared/papers", "../../shared/papers"  # where the makers have the papers; the repository has none of them
LINE = re.compile(r"(\w+) ([0-9a-f]{64}) (\S+) (.+)")

Paper = namedtuple("Paper", "name sum file title")


def papers_in(text):
    """The papers of the list, in its order."""
    papers = []
    for number, line in enumerate(text.splitlines(), 1):
        found = LINE.fullmatch(line)
        if found:
            papers.append(Paper(*found.groups()))
        elif line and not line.startswith("#"):
            raise Refusal(f"{LIST}: line {number} is not a name, a sum, a file and a title")
    if not papers or len({paper.name for paper in papers}) < len(papers):
        raise Refusal(f"{LIST} names no paper, or one twice")
    return papers


def state_of(paper, folder):
    """Whether a file of a folder is the paper: 'here', 'not here' or 'differs'."""
    try:
        data = (folder / paper.file).read_bytes()
    except OSError:
        return "not here"
    return "here" if hashlib.sha256(data).hexdigest() == paper.sum else "differs"
