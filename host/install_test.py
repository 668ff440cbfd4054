#!/usr/bin/env python3
"""Installs into temporary folders, and builds and runs the example hosts from there with nothing but gcc and pkg-config.

What they print of the run files of examples/ must be what their pages show. `make uninstall` takes all of it away, and nothing
else. The last line is 'N passed, M failed'.
"""
import os
import re
import shutil
import subprocess
import sys
import tempfile
from pathlib import Path

sys.dont_write_bytecode = True
import example_test as examples  # pylint: disable=wrong-import-position

ROOT = Path(__file__).resolve().parent.parent
PLAIN = {"PATH": "/usr/bin:/bin", "LC_ALL": "C"}  # of a machine without the Rattle toolchain
EXAMPLES = "share/intake/examples"
INSTALLED = ["lib/libintake.a", "include/intake.h", "include/intake_store.h", "lib/pkgconfig/intake.pc",
             *(f"{EXAMPLES}/{name}" for name in ("example.c", "example_box.c", "clean.bin", "tour.bin"))]
expect = examples.expect


def make(*words, folder=ROOT):
    env = {name: value for name, value in os.environ.items() if name not in ("MAKEFLAGS", "MAKELEVEL", "DESTDIR", "PREFIX")}
    done = subprocess.run(["make", "-s", *words], cwd=folder, env=env, capture_output=True, text=True, check=False)
    expect(done.returncode == 0, f"make {words}: {done.stdout}{done.stderr}")


def flags(config, *words):
    done = subprocess.run(["pkg-config", *words, "intake"], env=PLAIN | {"PKG_CONFIG_PATH": str(config)}, capture_output=True,
                          text=True, check=False)
    expect(done.returncode == 0, f"pkg-config {words}: {done.stderr}")
    return done.stdout.split()


def built(config, folder, source):
    """A host that is built from the pkg-config file in a folder, or None."""
    program = f"{folder}/{source.stem}"
    words = ["gcc", "-std=c11", "-Wall", "-Wextra", "-Werror", "-pedantic", "-O2", source, *flags(config, "--cflags", "--libs"),
             "-o", program]
    done = subprocess.run(words, cwd=folder, env=PLAIN, capture_output=True, text=True, check=False)
    expect(done.returncode == 0, f"{source.name} by {config}: {done.stderr}")
    return program if done.returncode == 0 else None


def usable(config, folder, files):
    """Whether a host is built from the pkg-config file in a folder, and lists as it should."""
    program = built(config, folder, ROOT / "host/example.c")
    for what, _, listing in files if program else []:
        expect(examples.listing(program, b"", ROOT / "examples" / what) == listing, f"{what} by {config}")


def with_box(prefix, folder):
    """The installed host with several bays on the installed run files, cut and started again."""
    host = built(prefix / "lib/pkgconfig", folder, prefix / EXAMPLES / "example_box.c")
    words = [host, "--at-once", "clean.bin", "tour.bin", "1:ledger", f"store:{folder}/box"]
    for more, last in ((["cut:5"], "1 5 1 0 0 00000108"), ([], "1 total 2500")) if host else ():
        done = subprocess.run([*words, *more], cwd=prefix / EXAMPLES, env=PLAIN, capture_output=True, text=True, check=False)
        expect(done.returncode == 0 and done.stdout.splitlines()[-1:] == [last], f"{more}: {done.stdout}{done.stderr}")
        expect(("1 restored 5\n1 farm 3 1500\n" in done.stdout) == (not more), f"{more}: {done.stdout}")


def below(folder):
    return sorted(str(path.relative_to(folder)) for path in folder.rglob("*") if path.is_file())


def uninstalled(prefix, stage):
    """Nothing of it is left, and what is not of it stays."""
    (prefix / "include/other.h").write_text("other\n", encoding="ascii")
    make("uninstall", f"PREFIX={prefix}")
    expect(below(prefix) == ["include/other.h"], f"make uninstall leaves {below(prefix)}")
    expect(not (prefix / "share/intake").exists(), "make uninstall takes its folder away")
    make("uninstall", f"DESTDIR={stage}", "PREFIX=/opt/intake")
    expect(below(stage) == [], f"make uninstall with DESTDIR leaves {below(stage)}")
    make("uninstall", f"PREFIX={prefix}")  # once more, where there is nothing


def cleaned(folder):
    """make clean, in a folder of its own, takes away what was built and nothing else."""
    shutil.copy(ROOT / "Makefile", folder)
    shutil.copytree(ROOT / "include", folder / "include")
    (folder / "crates").mkdir()
    before = below(folder)
    (folder / "target/lib").mkdir(parents=True)
    (folder / "target/lib/intake.h").write_text("\n", encoding="ascii")
    make("clean", folder=folder)
    expect(below(folder) == before and not (folder / "target").exists(), f"make clean leaves {below(folder)}")


def mode(path):
    return path.stat().st_mode & 0o777 if path.is_file() else None


def main():
    files = examples.documented()
    header = (ROOT / "include/intake.h").read_text(encoding="utf-8")
    version = ".".join(re.findall(r"^#define INTAKE_VERSION_[A-Z]+ (\d+)$", header, re.M))
    expect(re.fullmatch(r"\d+\.\d+\.\d+", version) is not None, "the header has a version")
    with tempfile.TemporaryDirectory() as folder:
        folder = Path(folder).resolve()
        prefix, stage, copy = folder / "prefix", folder / "stage", folder / "copy"
        make("install", f"PREFIX={prefix}")
        for name in INSTALLED:
            expect(mode(prefix / name) == 0o644, f"{name} is installed for all to read")
        expect(below(prefix) == sorted(INSTALLED), f"installed: {below(prefix)}")
        expect(flags(prefix / "lib/pkgconfig", "--modversion") == [version], "the version by pkg-config")
        usable(prefix / "lib/pkgconfig", folder, files)
        with_box(prefix, folder)
        make("install", f"DESTDIR={stage}", "PREFIX=/opt/intake")
        staged = stage / "opt/intake/lib/pkgconfig/intake.pc"
        expect(mode(staged) == 0o644 and "prefix=/opt/intake\n" in staged.read_text(encoding="utf-8"), "DESTDIR, PREFIX")
        uninstalled(prefix, stage)
        (folder / "clean").mkdir()
        cleaned(folder / "clean")
        shutil.copytree(ROOT / "target/lib", copy)
        expect(below(copy) == ["SHA256SUMS", "intake.h", "intake.pc", "intake_store.h", "libintake.a"],
               "the folder of make lib has five files")
        usable(copy, folder, files)
        sums = ["sha256sum", "--check", "--strict", "--quiet", "SHA256SUMS"]
        expect(subprocess.run(sums, cwd=copy, check=False).returncode == 0, "the sums hold")
        with open(copy / "intake.h", "a", encoding="ascii") as file:
            file.write("\n")
        changed = subprocess.run(sums, cwd=copy, capture_output=True, check=False)
        expect(changed.returncode != 0, "a changed header is noticed")
    print(f"{examples.passed} passed, {examples.failed} failed")
    return examples.failed != 0


if __name__ == "__main__":
    sys.exit(main())
