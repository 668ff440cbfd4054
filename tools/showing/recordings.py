"""Recordings (02, item 10): the records that the ticks of a bay have left, in their order, and what its panel sees of them."""
from collections import namedtuple

from showing.damage import Damaged, counted
from showing.files import number_in
from showing.listings import KINDS, MAX_LEAVING, WAITING, WRONG, code_in_words
from showing.sequences import LABELS

NUMBER_BYTES, INPUT_BYTES, ANSWER_BYTES = 4, 4, 12
RECORD_BYTES = NUMBER_BYTES + INPUT_BYTES + ANSWER_BYTES + 1 + LABELS // 8
MAX_RECORDS = 65536  # more than anybody looks at in one picture
MAX_RECORDING = MAX_RECORDS * RECORD_BYTES
LAST_NUMBER = (1 << 8 * NUMBER_BYTES) - 1
OVER = 2

Record = namedtuple("Record", "number inputs code kind place emitted reactions phase labels")
Panel = namedtuple("Panel", "number inputs code emitted")


def record_in(data):
    """The fields of 37 bytes."""
    sizes = NUMBER_BYTES, INPUT_BYTES, 1, 1, 2, 4, 4, 1, LABELS // 8
    ends = [sum(sizes[: count + 1]) for count in range(len(sizes))]
    return Record(*(number_in(data[end - size : end]) for end, size in zip(ends, sizes)))


def could_be(record):
    """Whether an instant of some bay could have left the record."""
    wrong = record.code == WRONG
    error = record.kind in KINDS and record.emitted == 0 if wrong else record.kind == record.place == 0
    after = record.phase == (WAITING if record.code == WAITING else OVER) and (record.labels != 0) == (record.phase == WAITING)
    return (wrong or record.code <= MAX_LEAVING) and error and after and record.reactions > 0 and record.number > 0


def records_in(data, records):
    """Adds the records up to the damage, if there is any, which is told. Coming back to a position goes on from any of them."""
    for at in range(0, len(data), RECORD_BYTES):
        where = f"byte {at}: record {len(records) + 1}"
        if len(records) == MAX_RECORDS:
            raise Damaged(f"{where}: a recording of more than {MAX_RECORDS:,} records is not shown")
        if len(data) - at < RECORD_BYTES:
            raise Damaged(f"{where}: {counted(len(data) - at, 'byte')} over, a record has {RECORD_BYTES}")
        record = record_in(data[at : at + RECORD_BYTES])
        if not could_be(record):
            raise Damaged(f"{where}: no instant leaves such a record")
        if records and record.number != min(records[-1].number + 1, LAST_NUMBER):
            raise Damaged(f"{where}: instant {record.number} does not follow instant {records[-1].number}")
        records.append(record)


def panel_of(record, service_only):
    """What the panel sees: number, code, and both sets without the signals that are for the service only."""
    return Panel(record.number, record.inputs & ~service_only, record.code, record.emitted & ~service_only)


def outcome_of(records):
    """How the recording stops, in one line."""
    if not records:
        return "no instants"
    last = records[-1]
    how = code_in_words(last.code)
    if last.code == WRONG and isinstance(last, Record):
        how += f", kind {last.kind} ({KINDS[last.kind][1]}), place {last.place}"
    return f"instant {last.number}: {how}"
