"""Makes a run file from a text, and a text from a run file.

  tools/runfile [--names NAMES] --output FILE TEXT    the run file that a text tells
  tools/runfile --back [--names NAMES] FILE           the text of a run file

TEXT and FILE - are standard input, and with no --output the result goes to standard output. FILE is written only where the text
is right; with '> FILE' the shell empties it before this program begins. The bytes of the sequence come from the editor: this
program makes none from source text, and checks none; 'tools/show FILE' says what a sequence is and which row turns it down. A
text is as this one, where # begins a comment:

  sequence              # the bytes in hexadecimal, on this line and those below it
  06 04 02 09 01 00
  reads back 9          # the read-back signals; the line may be left away where there are none
  inputs                # below it one line for each instant: its signals, or - for none
  -
  0, 3
  hatch, pulse          # names of a file as for 'tools/show --names'

Signals are numbers from 0 to 31 or names, parted by commas. Damaged input is told on standard error, with exit status 1, and
nothing is written.
"""
import argparse
import re

from showing.damage import Damaged, quoted
from showing.files import MAX_FILE, inputs_in, read_back_in, run_file_of, sequence_in
from showing.names import names_in
from showing.sequences import SIGNALS, members_of
from showing.streams import Parser, read_bytes, tell, text_in, write_bytes

MAX_TEXT = 64 * 1024 * 1024  # more than the longest run has with all signals in each instant and the longest names
LINE_BYTES = 16


def signal_in(word, names):
    """The signal of a number or a name."""
    if re.fullmatch(r"[0-9]{1,3}", word):
        if int(word) >= SIGNALS:
            raise Damaged(f"signals are 0 to {SIGNALS - 1}, this one {word}")
        return int(word)
    for number, name in names.signal.items():
        if name == word:
            return number
    hint = "" if names.signal else "; names come from a file, --names FILE"
    raise Damaged(f"{quoted(word)} is neither the number nor the name of a signal{hint}")


def signals_in(text, names):
    """The set of a line's signals."""
    signals = 0
    for word in [] if text == "-" else text.split(","):
        signals |= 1 << signal_in(word.strip(), names)
    return signals


def bytes_in(text):
    if not re.fullmatch(r"([0-9A-Fa-f]{2}\s*)*", text):
        raise Damaged("a sequence is bytes of two hexadecimal digits each")
    return bytes.fromhex("".join(text.split()))  # fromhex alone takes the white space of ASCII only


class Reader:
    """What the lines so far have told, and the section that they are in."""

    def __init__(self, names):
        self.names, self.section, self.sequence, self.read_back, self.inputs = names, None, b"", 0, []

    def begin(self, section, rest):
        if (self.section is None) != (section == "sequence") or self.section == section:
            raise Damaged("a text has 'sequence', then 'reads back' or not, then 'inputs', each once")
        self.section = section
        if section == "sequence":
            self.sequence = bytes_in(rest)
        elif section == "reads back":
            self.read_back = signals_in(rest or "-", self.names)
        elif rest:
            raise Damaged("'inputs' stands alone, and each instant on a line below it")

    def read(self, line):
        head = re.match(r"(sequence|reads back|inputs)(?:\s+|$)", line)
        if self.section == "inputs":  # the last, where each line is an instant, whatever its signals are called
            self.inputs.append(signals_in(line, self.names))
        elif head:
            self.begin(head[1], line[head.end() :])
        elif self.section == "sequence":
            self.sequence += bytes_in(line)
        else:
            raise Damaged("a text begins with 'sequence', and 'reads back' has one line")


def run_file_in(data, names):
    """The run file that a text tells."""
    if len(data) > MAX_TEXT:
        raise Damaged("longer than the text of any run file")
    reader = Reader(names)
    for number, line in enumerate(text_in(data).split("\n"), 1):
        try:
            line = line.partition("#")[0].strip()
            if line:
                reader.read(line)
        except Damaged as error:
            raise Damaged(f"line {number}: {error}") from None
    if reader.section is None:
        raise Damaged("no line 'sequence'")
    return run_file_of(reader.sequence, reader.read_back, reader.inputs)


def text_of(data, names):
    """The text of a run file."""
    sequence, read_back, inputs = sequence_in(data), read_back_in(data), inputs_in(data)

    def signals(members):
        return ", ".join(names.signal.get(signal, str(signal)) for signal in members_of(members)) or "-"

    lines = ["sequence", *(sequence[at : at + LINE_BYTES].hex(" ").upper() for at in range(0, len(sequence), LINE_BYTES))]
    lines += [f"reads back {signals(read_back)}"] * (read_back != 0)
    lines += ["inputs", *map(signals, inputs)]
    return "".join(f"{line}\n" for line in lines).encode()


def options_of(arguments):
    parser = Parser(prog="runfile", usage="tools/runfile [options] TEXT, or tools/runfile --back [options] FILE",
                    description=__doc__, formatter_class=argparse.RawDescriptionHelpFormatter)
    parser.add_argument("file", metavar="FILE", help="the text, or with --back the run file; - is standard input")
    parser.add_argument("--back", action="store_true", help="write the text of a run file")
    parser.add_argument("--names", metavar="NAMES", help="names of signals, as for tools/show")
    parser.add_argument("--output", metavar="OUTPUT", help="where to write; - is standard output")
    options = parser.parse_args(arguments)
    if [options.file, options.names].count("-") > 1:
        parser.error("standard input is one file")
    return options


def main(arguments=None):
    options, damage = options_of(arguments), None
    name = options.file
    try:
        names = names_in(options.names)
        if options.back:
            result = text_of(read_bytes(options.file, MAX_FILE), names)
        else:
            result = run_file_in(read_bytes(options.file, MAX_TEXT), names)
        write_bytes(options.output, result)
    except Damaged as error:
        name, damage = error.name or name, str(error)
    except OSError as error:
        name, damage = str(error.filename or name), error.strerror or str(error)
    if damage is not None:
        tell("runfile", name, damage)
    return 0 if damage is None else 1
