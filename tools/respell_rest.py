#!/usr/bin/env python3
"""Brings to the library's spelling the names that tools/respell.py passed over, since they stand indented in a section: once, behind it.

usage: python3 tools/respell_rest.py     at the top
"""

import glob
import re

NAMES = {
    "every": "addsOn admitOn deliveredOn deliveriesAfter deliveriesOver freshBay ifEmpty ifFilled paperCall placeCall previewOn previewedOn"
    " renamedOn restoreOn saveOn withDelivery withPlace",
    "theory_box": "bayOf keptIf mappedAnswer",
    "theory_unroll": "beforeFrom is-unrollOf litresIn wellFormed-kept wellFormed-test",
}
WORD = re.compile(r'[^\s(){}.;,@"«»]+')


def snake(name):
    return re.sub(r"(?<=[a-z0-9])[A-Z]", lambda m: "_" + m.group().lower(), name)


def main():
    for path in sorted(glob.glob("crates/*/**/*", recursive=True)):
        if not path.endswith((".antt", ".rt", ".edit")) or "/out/" in path:
            continue
        with open(path, encoding="utf-8") as f:
            text = f.read()
        names = (NAMES["every"] + " " + NAMES.get(path.split("/")[1], "")).split()
        rows = {name: snake(name) for name in names}
        words = set(WORD.findall(text))
        met = [name for name in rows if name in words and rows[name] in words]
        if met:
            print(f"left: {path}: {met} would meet another name")
        new = WORD.sub(lambda m: rows.get(m.group(), m.group()), text)
        if new != text:
            with open(path, "w", encoding="utf-8") as f:
                f.write(new)


main()
