"""Damage in what is read, and how it is told."""
import os


class Damaged(Exception):
    """Input that cannot be shown; the text says where and why, and the name of which file, if it is not the one that is shown."""

    def __init__(self, text, name=None):
        super().__init__(text)
        self.name = name


def counted(count, noun):
    """Such as '1 byte' and '1,024 bytes'."""
    return f"{count:,} {noun}{'' if count == 1 else 's'}"


def printable(name):
    """A file's name, or a word of the input, for a message of one line: as it is written where that can be shown."""
    try:
        name = os.fsencode(name).decode("utf-8")  # a name of bytes that the locale could not read
    except UnicodeError:
        pass
    return name if name.isprintable() else ascii(name)


def quoted(word):
    word = printable(word)
    return word if word.startswith(("'", '"')) else f"'{word}'"
