"""What the programs read and write: files, standard input and output, options and messages.

A program that cannot write says so in one line, with exit status 1, where its streams are closed or full, too. A message is
UTF-8 whatever the locale, so that a name is shown as it is written. A text may begin with a byte order mark.
"""
import argparse
import errno
import os
import sys
import unicodedata

from showing.damage import Damaged, printable

MARK = b"\xef\xbb\xbf"  # the byte order mark of UTF-8


def read_bytes(path, limit):
    """The bytes of a file, at most one more than the limit; - is standard input."""
    if path == "-" and sys.stdin is None:
        raise OSError(errno.EBADF, "closed", "standard input")
    with open(0 if path == "-" else path, "rb") as file:
        return file.read(limit + 1)


def text_in(data, name=None):
    """The text of a file's bytes; a letter with a mark of its own, such as u and two dots, is one letter."""
    start = len(MARK) if data.startswith(MARK) else 0
    try:
        return unicodedata.normalize("NFC", data[start:].decode("utf-8"))
    except UnicodeDecodeError as error:
        hint = ", but UTF-16" if data[:2] in (b"\xff\xfe", b"\xfe\xff") else ""
        raise Damaged(f"byte {start + error.start}: not UTF-8{hint}", name) from None


def write_bytes(path, data):
    """Writes a file, or standard output for None and -; a reader of that which goes away early is no fault."""
    if path is not None and path != "-":
        try:
            with open(path, "wb") as file:
                file.write(data)
        except OSError as error:
            raise OSError(error.errno, error.strerror, path) from None
        return
    if sys.stdout is None:
        raise OSError(errno.EBADF, "closed", "standard output")
    try:
        sys.stdout.buffer.write(data)
        sys.stdout.buffer.flush()
    except OSError as error:
        os.dup2(os.open(os.devnull, os.O_WRONLY), 1)  # what is left in the buffer goes nowhere
        if not isinstance(error, BrokenPipeError):
            raise OSError(error.errno, error.strerror, "standard output") from None


def tell(program, name, message):
    """One line on standard error, if there is one."""
    head = f"{program}: {printable(name)}: " if name is not None else f"{program}: "
    line = f"{head}{message}\n".encode("utf-8", "backslashreplace")
    try:
        if hasattr(sys.stderr, "buffer"):
            sys.stderr.flush()
            sys.stderr.buffer.write(line)
            sys.stderr.buffer.flush()
        elif sys.stderr is not None:
            sys.stderr.write(line.decode())
    except OSError:
        pass


class Parser(argparse.ArgumentParser):
    """Options: bad usage is told in one line, with exit status 2, and the help is written as all else is."""

    def error(self, message):
        words = message if message.isprintable() else ascii(message)
        tell(self.prog, None, f"{words}; --help says more")
        raise SystemExit(2)

    def print_help(self, file=None):
        try:
            write_bytes(None, self.format_help().encode())
        except OSError as error:
            tell(self.prog, str(error.filename), error.strerror)
            raise SystemExit(1) from None


def started(main):
    """The exit status of a program, which may be broken off at the keyboard."""
    try:
        return main()
    except KeyboardInterrupt:
        return 130
