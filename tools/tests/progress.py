"""tools/progress with a program in the place of the prover: what it shows, what it keeps, and its exit status (U1.17)."""
import shutil
import subprocess
import sys

from tests.common import ROOT, expect, folder

CRATES = "# a comment: here\nlimits:\nsets: limits\nlabels: limits sets\nrun: io labels\nother: limits\n"


def progress(script, *words, **setting):
    """Status and both outputs of the tool beside these crates, with this script as rt; None for no rt at all."""
    root = folder / "proving"
    (root / "tools").mkdir(parents=True, exist_ok=True)
    (root / "bin").mkdir(exist_ok=True)
    (root / "crates" / "run").mkdir(parents=True, exist_ok=True)
    (root / "crates" / "labels").mkdir(exist_ok=True)
    shutil.copy(ROOT / "tools" / "progress", root / "tools")
    (root / "crates.txt").write_text(CRATES, "utf-8")
    program = root / "bin" / "rt"
    program.unlink(missing_ok=True)
    if script is not None:
        program.write_text(f"#!/bin/sh\n{script}\n", "utf-8")
        program.chmod(0o755)
    done = subprocess.run([sys.executable, root / "tools" / "progress", *words], capture_output=True, text=True, check=False,
                          env={"PATH": f"{root / 'bin'}:/usr/bin:/bin", **setting})
    kept = root / "target" / "log" / "progress.out"
    return done.returncode, done.stdout, done.stderr, kept.read_text("utf-8", "replace") if kept.exists() else ""


def proved(*names):
    """A script that says of crates what rt says of one that it has proved."""
    return "; ".join(f"echo 'crate {name}: modules loaded=3 checked=1'; echo 'logic=proved functions=1 sum=0'" for name in names)


def test_progress():
    said = "echo 'fn a: proved'; echo 'rt: limits: begins with what a check kept'; " + proved("sets", "labels", "run")
    shown = "1 of 4: sets proved (0 s)\n2 of 4: labels proved (0 s)\n3 of 4: run proved (0 s)\n4 of 4 crates proved\n"
    status, out, told, kept = progress(said, "rt", "check", "run")
    expect((status, out, told) == (0, "", shown) and kept.startswith("fn a: proved\nrt: limits"), f"progress: {told}{kept}")
    expect(progress(said, "rt", "check", "labels")[2].startswith("1 of 3: sets"), "the crates below another one")
    expect(progress(said, "rt", "prove")[2].startswith("1 of 5: sets"), "all crates")
    told = progress("basename $PWD; echo $*; cat", "rt", "lib", "run")
    expect(told[3] == "run\nlib\n", f"the command in the crate's folder, with no input: {told[3]}")
    status, out, told, _ = progress(said.replace("logic=proved", "logic=not-proved") + "; exit 1", "rt", "check", "run")
    expect(status == 1 and told.endswith("\nprogress: 0 of 4 crates proved, then rt check run failed; "
                                         "target/log/progress.out has all of it\n"), f"a failure: {told}")
    status, out, told, _ = progress(said + "; echo wrong >&2", "rt", "check", "run", RT_WHOLE="1")
    expect(status == 0 and out.count("\n") == 8 and told == "wrong\n", f"all of it: {out}{told}")
    status, out, told, _ = progress(None, "rt", "check", "run")
    expect(status == 127 and out == "" and told.count("\n") == 1 and "The toolchain" in told, f"no rt: {told}")
    status, out, told, _ = progress("printf 'crate \\377: '; kill -9 $$", "rt", "check", "run")
    expect(status != 0 and "Traceback" not in told, f"killed, after bytes that are no text: {told}")
    expect(progress(said)[0] == 2, "no command")
    readme = (ROOT / "README.md").read_text("utf-8")
    expect("\n## The toolchain\n" in readme, "README has the heading that the message names")
