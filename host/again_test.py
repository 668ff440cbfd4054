#!/usr/bin/env python3
"""Builds the archive once more, in another folder, and compares the bytes with those of target/staticlib/libintake.a.

The copy has the sources and, where rt ci has left them, the proved libraries below intake, so intake alone is proved again and compiled. The
last line is 'N passed, M failed'.
"""
import shutil
import subprocess
import sys
import tempfile
from pathlib import Path

ROOT = Path(__file__).resolve().parent.parent
ARCHIVE = "target/staticlib/libintake.a"


def build(folder):
    """What tools/archive says of the build in the folder, which is the top of a repository."""
    (folder / ".git").mkdir()
    shutil.copy(ROOT / "crates.txt", folder)
    shutil.copytree(ROOT / "crates", folder / "crates", ignore=lambda at, names: [name for name in names if Path(at).name == "out" and name != "rlib"])
    return subprocess.run([ROOT / "tools/archive", folder], capture_output=True, text=True, check=False)


def main():
    with tempfile.TemporaryDirectory() as folder:
        done = build(Path(folder))
        built = Path(folder) / ARCHIVE
        again = built.read_bytes() if done.returncode == 0 and built.is_file() else None
    same = again == (ROOT / ARCHIVE).read_bytes()
    if again is None:
        print(f"FAILED the build: {done.stdout}{done.stderr}")
    print(f"built again in another folder, {ARCHIVE} has {'the same' if same else 'OTHER'} bytes")
    print(f"{int(same)} passed, {int(not same)} failed")
    return 0 if same else 1


if __name__ == "__main__":
    sys.exit(main())
