"""What tools/show shows; options.py says what that is, and how it is asked for."""
from pathlib import Path

from showing.damage import Damaged, printable
from showing.files import MAX_FILE, inputs_in, read_back_in, sequence_in
from showing.fit import add_fit
from showing.labels import check_labels
from showing.listings import check_instants, instants_in, listing_of, outcome
from showing.names import names_in
from showing.options import options_of
from showing.pages import page_of
from showing.paper import Paper, add_paper
from showing.pictures import add_picture, rows_of
from showing.reactions import add_reactions, add_recorded
from showing.recordings import MAX_RECORDING, outcome_of, panel_of, records_in
from showing.runfile import signals_in
from showing.sequences import MAX_SEQUENCE, add_commands
from showing.streams import read_bytes, tell, write_bytes
from showing.svg import Drawing, add_svg
from showing.unrolled import add_unrolled
from showing.vcd import add_vcd

NO_LISTING = "no listing: target/bin/run is not built"


def bay_of(options):
    """The name of what is shown, for a title."""
    return "standard input" if options.file == "-" else printable(Path(options.file).name)


def set_in(text, names, option):
    """The signals that an option names; none where it is not there."""
    try:
        return 0 if text is None else signals_in(text, names)
    except Damaged as error:
        raise Damaged(str(error), option) from None


def add_sequence(options, names, out):
    """Adds the commands of a sequence alone and, if it is accepted, its fit sheet."""
    read_back = set_in(options.read_back, names, "--read-back")
    commands = add_commands(read_bytes(options.file, MAX_SEQUENCE), read_back, names, out)
    check_labels(commands, names)
    add_fit(commands, read_back, out)


def add_recording(options, names, out):
    """Adds what is shown of a recording, up to the damage where there is any."""
    service_only = None if options.service_only is None else set_in(options.service_only, names, "--service-only")
    data, records = read_bytes(options.file, MAX_RECORDING), []
    try:
        records_in(data, records)
    finally:
        if service_only is not None:
            records[:] = [panel_of(record, service_only) for record in records]
        if options.reactions:
            add_recorded(records, names, out)
        else:
            add_shown(options, names, ([record.inputs for record in records], 0), records, [outcome_of(records)], out)
        del out[: 1 if options.to is None and out[:1] == [""] else 0]  # the picture stands alone


def add_run(options, names, out):
    """Adds what is shown of a run file: the table with the picture or the paper, or a drawing or a dump alone."""
    data = read_bytes(options.file, MAX_FILE)
    sequence, read_back = sequence_in(data), read_back_in(data)
    try:
        commands = add_commands(sequence, read_back, names, out if options.to is None else [])
    finally:  # a cut file comes before a bad sequence, and its exception in the place of the other
        inputs = inputs_in(data)
    check_labels(commands, names)
    listing = listing_of(options.listing, data)
    instants = None if listing is None else instants_in(listing)
    if options.paper:
        add_paper(Paper(commands, read_back, names, options.whole, out), inputs, instants)
        if instants is None:
            raise Damaged(f"{NO_LISTING}, so the paper is held to nothing")
        return
    if instants is not None:
        check_instants(instants, commands, read_back, inputs)
    told = [NO_LISTING] if instants is None else outcome(instants, commands, inputs, names)
    if options.html is not None:
        out += page_of(bay_of(options), commands, read_back, inputs, instants, told, names).splitlines()
    elif options.reactions:
        add_reactions(commands, read_back, inputs, instants, names, out)
    else:
        add_shown(options, names, (inputs, read_back), instants, told, out)


def add_result(options, names, out):
    """Adds the commands of a run file, and those of the result beside their places."""
    data, result = read_bytes(options.file, MAX_FILE), read_bytes(options.unrolled, MAX_FILE)
    sequence, read_back = sequence_in(data), read_back_in(data)
    commands = add_commands(sequence, read_back, names, out)
    inputs_in(data)
    check_labels(commands, names)
    if result.startswith(b"refused "):
        raise Damaged(f"no result: {printable(result.decode(errors='replace').strip())}")
    if inputs_in(result) != inputs_in(data) or read_back_in(result) != read_back:
        raise Damaged("the result has another read-back set or other inputs")
    add_unrolled(commands, sequence_in(result), read_back, names, out)


def add_shown(options, names, given, instants, told, out):
    """Adds a picture, a drawing or a dump of what was given, inputs and a read-back set, and of what was answered."""
    inputs, read_back = given
    rows, codes = rows_of(inputs, instants), [instant.code for instant in instants or []]
    numbers = range(1, len(inputs) + 1) if instants is None else [instant.number for instant in instants]
    if options.svg is not None:
        add_svg(Drawing(rows, codes, numbers, names, read_back), bay_of(options), told, out)
    elif options.vcd is not None:
        add_vcd(rows, instants, numbers, names, out)
    else:
        add_picture(rows, codes, numbers, names, read_back, out)
        out += told


def main(arguments=None):
    options = options_of(arguments)
    name, damage, out = options.file, None, []
    try:
        names = names_in(options.names)
        adds = [(options.sequence, add_sequence), (options.recording, add_recording), (options.unrolled is not None, add_result)]
        next((add for asked, add in adds if asked), add_run)(options, names, out)
    except Damaged as error:
        name, damage = error.name or name, str(error)
    except OSError as error:
        name, damage = str(error.filename or name), error.strerror or str(error)
    try:
        if out and (damage is None or options.to is None):
            write_bytes(options.to, "".join(f"{line}\n" for line in out).encode())
    except OSError as error:
        if damage is None:
            name, damage = str(error.filename), error.strerror or str(error)
    if damage is not None:
        tell("show", name, damage)
    return 0 if damage is None else 1
