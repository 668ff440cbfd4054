"""What comments quote of the papers, with the name of the paper, by docs/quotations.txt."""
import hashlib
import re
from pathlib import Path

from test_quotes import plain, quotations

LIST = "docs/quotations.txt"


def known(root):
    """The paper of each quotation, by the sum of its words."""
    path = Path(root) / LIST
    return dict(line.split() for line in path.read_text("utf-8").splitlines() if not line.startswith("#")) if path.is_file() else {}


def quoted(text, papers):
    """The quotations in a comment that are a paper's: the words as they stand, and the paper."""
    for words in quotations(text):
        paper = papers.get(hashlib.sha256(plain(words).encode()).hexdigest())
        if paper:
            yield re.sub(r"\s+", " ", words), paper
