"""Run files (document 01, 'Bays to run', and 02, item 5)."""
from showing.damage import Damaged, counted

MAX_FILE, LENGTH_BYTES, READ_BACK_BYTES, INPUT_BYTES = 65536, 2, 4, 4


def number_in(data):
    return int.from_bytes(data, "little")


def sequence_in(data):
    """The sequence of a run file, as far as it is there."""
    if len(data) > MAX_FILE:
        raise Damaged(f"byte {MAX_FILE}: a run file has at most 65,536 bytes (input cut)")
    if len(data) < LENGTH_BYTES:
        raise Damaged(f"byte {len(data)}: the file ends inside the length of the sequence (input cut)")
    return data[LENGTH_BYTES : LENGTH_BYTES + number_in(data[:LENGTH_BYTES])]


def read_back_in(data):
    """The read-back set of a run file; 0 where the file ends before it or in it, which is told with the inputs."""
    start = LENGTH_BYTES + number_in(data[:LENGTH_BYTES])
    whole = start + READ_BACK_BYTES <= len(data)
    return number_in(data[start : start + READ_BACK_BYTES]) if whole else 0


def inputs_in(data):
    """The inputs of a run file whose sequence has been read."""
    start = LENGTH_BYTES + number_in(data[:LENGTH_BYTES])
    if start > len(data):
        raise Damaged(f"byte {len(data)}: the file ends inside the sequence (input cut)")
    start += READ_BACK_BYTES
    if start > len(data):
        raise Damaged(f"byte {len(data)}: the file ends before or inside the read-back set (input cut)")
    over = (len(data) - start) % INPUT_BYTES
    if over:
        raise Damaged(f"byte {len(data) - over}: {counted(over, 'byte')} over, an instant has 4 (input cut)")
    return [number_in(data[at : at + INPUT_BYTES]) for at in range(start, len(data), INPUT_BYTES)]


def run_file_of(sequence, read_back, inputs):
    """The bytes of a run file, once they are no more than one may have."""
    size = LENGTH_BYTES + len(sequence) + READ_BACK_BYTES + INPUT_BYTES * len(inputs)
    if size > MAX_FILE:
        raise Damaged(f"a run file has at most 65,536 bytes, and this one would have {size:,}")
    words = b"".join(word.to_bytes(INPUT_BYTES, "little") for word in [read_back, *inputs])
    return len(sequence).to_bytes(LENGTH_BYTES, "little") + sequence + words
