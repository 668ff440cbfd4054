"""Shows the commands of a sequence by place, and the signals of a run over time.

  tools/show FILE                 a run file: its commands, then a picture of its run
  tools/show --paper FILE         its commands, then the run on paper, held to the listing
  tools/show --reactions FILE     its commands, then the number of reactions of each instant
  tools/show --html PAGE FILE     all of it as one page for a browser, with a slider over the instants
  tools/show --svg PICTURE FILE   the picture alone, as SVG
  tools/show --vcd DUMP FILE      the run alone, as a value change dump for GTKWave, 100 ms an instant
  tools/show --sequence FILE      the bytes of a sequence alone: its commands, and what it takes of a bay and of a box
  tools/show --recording FILE     the records of a bay (02, item 10): a picture of what it did, --svg and --vcd as above
  tools/show --unrolled RESULT FILE   its commands, then those of its sequence with the loops written out, side by side

FILE - is standard input. Above the commands stand the read-back signals of a run file, where it has any: they are declared
around the sequence. Below them stands the ceiling of an instant's reactions (02, item 6), with its three factors: the
number of commands, one more than the greatest number of loops around a command, and two to the power of the greatest
number of signals around one, read-back signals counted as commands and as signals. The picture has a row for each signal
and label that occurs and a column for each instant. What the machine answered is read from a listing: that of
target/bin/run where it is built, or the one named; with no listing the picture shows the inputs alone. An input that nobody
reads, since its signal is read back, is marked o.

--paper is the fitters' own check. It rewrites the sequence as a term, by the rules of 01 and 02 and without labels, and
shows after each instant what was struck out and the term that remains. A statement that stands as in the sequence takes
one line, with its first and last place, if --whole does not ask for all of it. An instant that delivers is told with the
litres of each farm (02, item 12), which no listing has. Code, kind, place and emitted set are held to the listing; where
they part, or where there is no listing, exit status 1 says so. A sequence with setpause has no paper.

--reactions shows what a planner counts: the number of reactions of each instant (02, item 6), and its share of the ceiling; of a
recording, which has the numbers, without a share. docs/CEILING.md turns them into time. Below the commands of --sequence stands
the fit sheet: bytes, depth, signals, labels and ceiling, with what there may be of each; --read-back names the read-back signals.

--html writes a page for a fitter: commands by place, with then and else marked and chains of '; then' folded, the run as a
picture, codes in words, and a slider that shows what remains on paper after each instant. It needs no network and no other file.

--names gives signals and labels their names: a text file with lines such as 'signal 9 pump' and 'label 0 ready', and # for
comments. A name is one word of at most 24 letters, digits, - and _, and begins with a letter. Files of text are UTF-8.

--unrolled takes the run file that target/bin/unroll made of FILE (02, item 13), and shows beside each place of the result
the place of the original that its command comes from, and 'copy' where it stands in the copy of a loop's body. A result that
is not the sequence of FILE with its loops written out is told with exit status 1.

A recording has no sequence beside it: its picture has what the records hold, the numbers of the instants above it. With
--service-only it is what the bay's panel sees: number, code, inputs and emitted set, without those signals, which are
numbers or names parted by commas, or - for none.

Damaged input is shown up to the damage, which is named on standard error, with exit status 1; 'row' is a row of document 01,
'Turned down', or of 02, and rows 2 to 10 and 18 are checked.
"""
import argparse

from showing.streams import Parser


def parser_of():
    parser = Parser(prog="show", usage="tools/show [options] FILE", description=__doc__,
                    formatter_class=argparse.RawDescriptionHelpFormatter)
    parser.add_argument("file", metavar="FILE", help="a run file (document 01, 'Bays to run'); - is standard input")
    parser.add_argument("--sequence", action="store_true", help="FILE has the bytes of a sequence alone")
    parser.add_argument("--read-back", metavar="SET", help="the signals that a sequence alone reads back")
    parser.add_argument("--recording", action="store_true", help="FILE has the records of a bay")
    parser.add_argument("--service-only", metavar="SET", help="show a recording as the panel sees it, without these signals")
    parser.add_argument("--listing", metavar="LISTING", help="the listing of this run; - is standard input")
    parser.add_argument("--names", metavar="NAMES", help="names of signals and labels")
    parser.add_argument("--paper", action="store_true", help="show the run on paper and hold it to the listing")
    parser.add_argument("--whole", action="store_true", help="on paper, show each statement command by command")
    parser.add_argument("--reactions", action="store_true", help="show the number of reactions of each instant")
    parser.add_argument("--unrolled", metavar="RESULT", help="show the commands of this result beside FILE's; - is standard input")
    parser.add_argument("--svg", metavar="PICTURE", help="write the picture as SVG; - is standard output")
    parser.add_argument("--vcd", metavar="DUMP", help="write the run as a value change dump; - is standard output")
    parser.add_argument("--html", metavar="PAGE", help="write the bay as a page for a browser; - is standard output")
    return parser


def faults_of(options, shown):
    """What is wrong with options that do not go together."""
    alone = options.sequence or options.listing is not None
    if options.unrolled is not None and (any(shown) or options.sequence or options.recording or options.listing is not None):
        yield "--unrolled shows commands and no run"
    if options.sequence and (any(shown) or options.listing is not None):
        yield "a sequence alone has no run"
    if options.recording and (alone or options.paper or options.html is not None):
        yield "a recording has no sequence and no listing"
    if options.service_only is not None and (not options.recording or options.reactions):
        yield "--service-only is for --recording, and a panel sees no reactions"
    if options.read_back is not None and not options.sequence:
        yield "--read-back is for --sequence: a run file has its own set"
    if sum(shown) > 1:
        yield "one of --paper, --reactions, --svg, --vcd and --html"
    if options.whole and not options.paper:
        yield "--whole is for --paper"
    if [options.file, options.listing, options.names, options.unrolled].count("-") > 1:
        yield "standard input is one file"


def options_of(arguments):
    parser = parser_of()
    options = parser.parse_args(arguments)
    written = [to for to in (options.svg, options.vcd, options.html) if to is not None]
    shown = [options.paper, options.reactions, *(True for _ in written)]
    for fault in faults_of(options, shown):
        parser.error(fault)
    options.to = written[0] if written else None  # None for standard output, and a table first
    return options
