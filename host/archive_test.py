#!/usr/bin/env python3
"""The archive holds no constant array (02, item 2): its read-only data is jump tables and nothing else.

An entry of a jump table has four bytes, which a relocation against the code fills; a constant array has bytes that no
relocation fills. Operands of instructions on single-precision numbers and vectors, which the compiler puts into sections .rodata.cst4,
.rodata.cst8 and .rodata.cst16 and no index reaches, are not arrays: they are counted apart, and few. A control object with an array must be turned down. Usage: archive_test.py ARCHIVE
"""
import re
import subprocess
import sys
import tempfile

CONTROL = """
static const unsigned char counts[12] = {0, 1, 1, 1, 0, 0, 0, 1, 1, 0, 1, 1};
unsigned char count(unsigned char b) { return b < 12 ? counts[b] : 255; }
"""
ENTRY = 4  # bytes of an entry: R_X86_64_PC32
OPERANDS = 256  # bytes of operands that the archive may have


def printed(*words):
    return subprocess.run(words, check=True, capture_output=True, text=True).stdout


def sections(path):
    """The name and the size of each section."""
    rows = re.findall(r"^ +\d+ (\S+) +([0-9a-f]{8}) ", printed("objdump", "-h", path), re.M)
    return [(name, int(size, 16)) for name, size in rows]


def entries(path):
    """The relocations against the code in each section, counted."""
    counts, name = {}, ""
    for line in printed("objdump", "-r", path).splitlines():
        head = re.match(r"RELOCATION RECORDS FOR \[(.*)\]:", line)
        if head:
            name = head[1]
        elif re.match(r"[0-9a-f]+ +R_X86_64_PC32 +\.text", line):
            counts[name] = counts.get(name, 0) + 1
    return counts


def constant_bytes(path, show):
    """The bytes of data that no jump table needs."""
    tables, over = entries(path), 0
    for name, size in sections(path):
        if not re.match(r"\.(rodata|data|bss|tbss|tdata)", name) or size == 0:
            continue
        operands = size if re.fullmatch(r"\.rodata\.cst(4|8|16)", name) and size <= OPERANDS else 0
        needed = ENTRY * tables.get(name, 0) if name.startswith(".rodata") else 0
        over += size - needed - operands
        if show:
            print(f"{name:44} {size:4} bytes, {needed:4} of jump tables, {operands:4} of operands")
    return over


def main():
    passed = constant_bytes(sys.argv[1], True) == 0
    with tempfile.TemporaryDirectory() as folder:
        source, control = f"{folder}/control.c", f"{folder}/control.o"
        with open(source, "w", encoding="ascii") as file:
            file.write(CONTROL)
        subprocess.run(["gcc", "-O2", "-c", source, "-o", control], check=True)
        noticed = constant_bytes(control, False) >= 12
    total = sum(size for name, size in sections(sys.argv[1]) if name.startswith(".rodata"))
    print(f"read-only data: {total} bytes")
    print(f"{passed + noticed} passed, {2 - passed - noticed} failed")
    return 0 if passed and noticed else 1


if __name__ == "__main__":
    sys.exit(main())
